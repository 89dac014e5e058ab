//! The swapped call against the bought checker's own: the same typed formula, inferred types, problems and spans.
//!
//! Where the bought source is not there this says that it is skipped.

#[cfg(not(bought))]
#[test]
fn skipped() {
    assert!(!bought::present_or_say("the adapter from the bought crate's formulas"));
}

#[cfg(bought)]
mod present {
    use adapter::{CheckProved, Checked, Explicit, Question, Unanswered};
    use bought::ast::Span;
    use bought::driver::{self, Build, Built};
    use bought::formula::tag::{AtomicOp, BinaryExprOp, QuantPredOp, RelationalOp};
    use bought::formula::{
        Expression, FormulaFactory, ProblemKind, SealedTypeEnvironment, Type, TypeCheckResult, TypeEnvironmentBuilder,
    };
    use generator::formula::{Style, case};
    use workbench::{Checker, Refusal};

    /// Every field as text, spans, types and caches included.
    fn shown<T: std::fmt::Debug>(
        typed: &Option<T>,
        inferred: Vec<(String, Type)>,
        problems: impl std::fmt::Debug,
    ) -> String {
        format!("typed {typed:?}\ninferred {inferred:?}\nproblems {problems:?}")
    }

    fn bought_shown<T: std::fmt::Debug>(result: TypeCheckResult<T>) -> String {
        let inferred = result.inferred.iter().map(|(name, ty)| (name.to_owned(), ty.clone())).collect();
        shown(&result.typed, inferred, &result.problems)
    }

    fn proved_shown<T: std::fmt::Debug>(result: Result<Checked<T>, Unanswered>) -> Result<String, Unanswered> {
        result.map(|checked| shown(&checked.typed, checked.inferred, &checked.problems))
    }

    /// Both checkers' results, each as text.
    fn both(
        formula: &Built,
        environment: &SealedTypeEnvironment,
        explicit: Explicit,
    ) -> (String, Result<String, Unanswered>) {
        let checker = Checker { capacity: 8_192, ..Checker::default() };
        match formula {
            Built::Expression(e) => (
                bought_shown(e.type_check(environment)),
                proved_shown(e.check_proved_with(environment, explicit, &checker)),
            ),
            Built::Predicate(p) => (
                bought_shown(p.type_check(environment)),
                proved_shown(p.check_proved_with(environment, explicit, &checker)),
            ),
            Built::Assignment(a) => (
                bought_shown(a.type_check(environment)),
                proved_shown(a.check_proved_with(environment, explicit, &checker)),
            ),
        }
    }

    fn is_success(text: &str) -> bool {
        text.starts_with("typed Some")
    }

    #[test]
    fn random_formulas() {
        let mut rng = generator::Rng::new(9);
        let (mut typed, mut problems, mut refused, mut clashes) = (0, 0, 0, 0);
        for round in 0..9_000 {
            let style = [Style::Planned, Style::Broken, Style::Wild][round % 3];
            let case = case(&mut rng, style);
            for build in [Build::Exact, Build::Factory] {
                let Ok(formula) = driver::formula(build, &case.formula, case.names) else { continue };
                let environment = driver::environment(build, &case.environment, case.names).unwrap();
                let question = format!("{:02X?} {:02X?} {build:?}", case.formula, case.environment);
                let (expected, found) = both(&formula, &environment, Explicit::All);
                match found {
                    Ok(found) => assert_eq!(found, expected, "{question}"),
                    // A level for each type on a node.
                    Err(Unanswered::Refused(Refusal::TooLarge { .. })) => refused += 1,
                    Err(other) => panic!("{other}: {question}"),
                }
                if is_success(&expected) {
                    typed += 1
                } else {
                    problems += 1
                }
                // With the given types alone: the same, or a clash without its echoes above.
                if build == Build::Factory {
                    let (_, found) = both(&formula, &environment, Explicit::Given);
                    let found = found.unwrap_or_else(|other| panic!("{other}: {question}"));
                    if found != expected {
                        assert!(!is_success(&found) && !is_success(&expected), "{question}");
                        assert!(case.formula.contains(&0x0C) && expected.contains("TypesDoNotMatch"), "{question}");
                        clashes += 1;
                    }
                }
            }
        }
        eprintln!(
            "{typed} typed, {problems} with problems, {refused} too deep with all types, {clashes} clashes with echoes"
        );
        assert!(typed > 2_000 && problems > 2_000 && refused < 100 && clashes > 0);
    }

    fn at(start: usize, end: usize) -> Option<Span> {
        Some(Span { start, end })
    }

    fn factory() -> FormulaFactory {
        FormulaFactory::default_factory()
    }

    fn name(name: &str, start: usize) -> Expression {
        factory().free_identifier(name, at(start, start + name.len()), None)
    }

    /// `∀t·t ∈ TRANSACTION ⇒ rounding(t) = 0`, as if it stood in a text.
    fn rule(environment: &SealedTypeEnvironment) -> Checked<bought::formula::Predicate> {
        let f = factory();
        let t = |start| f.bound_identifier(0, at(start, start + 1), None);
        let member = f.relational_predicate(RelationalOp::In, t(6), name("TRANSACTION", 12), at(6, 23));
        let applied = f.binary_expression(BinaryExprOp::FunImage, name("rounding", 28), t(37), at(28, 39));
        let equal = f.relational_predicate(RelationalOp::Equal, applied, f.integer_literal(0, at(42, 43)), at(28, 43));
        let body = f.binary_predicate(bought::formula::tag::BinaryPredOp::LImp, member, equal, at(6, 43));
        let t = f.bound_ident_decl("t", at(3, 4), None, None);
        let rule = f.quantified_predicate(QuantPredOp::Forall, vec![t], body, at(0, 43));
        rule.check_proved(environment).unwrap()
    }

    #[test]
    fn a_rule_with_its_spans() {
        let mut environment = TypeEnvironmentBuilder::new();
        environment.add_given_set("TRANSACTION");
        environment.add_given_set("PERIOD");
        let checked = rule(&environment.make_snapshot());
        assert!(checked.is_success());
        assert_eq!(checked.inferred, [("rounding".to_owned(), Type::relation(Type::given("TRANSACTION"), Type::Int))]);
        assert!(checked.typed.unwrap().is_type_checked());

        environment.insert("rounding", Type::relation(Type::given("PERIOD"), Type::Int));
        let checked = rule(&environment.into_snapshot());
        assert!(checked.typed.is_none() && checked.inferred.is_empty());
        let [problem] = checked.problems.as_slice() else { panic!("{:?}", checked.problems) };
        assert_eq!((&problem.kind, problem.span), (&ProblemKind::TypesDoNotMatch, at(28, 39)));
    }

    #[test]
    fn a_node_without_a_span() {
        let f = factory();
        let empty = || f.atomic_expression(AtomicOp::EmptySet, None, None);
        let equal = f.relational_predicate(RelationalOp::Equal, empty(), empty(), None);
        let checked = equal.check_proved(&SealedTypeEnvironment::default()).unwrap();
        assert_eq!(checked.problems.len(), 2);
        assert!(checked.problems.iter().all(|p| p.kind == ProblemKind::UntypedExpression && p.span.is_none()));
    }

    #[test]
    fn only_what_matters_of_an_environment() {
        let mut environment = TypeEnvironmentBuilder::new();
        for n in 0..1_000 {
            environment.insert(format!("x{n}"), Type::Int);
        }
        environment.add_given_set("S");
        environment.insert("s", Type::pow(Type::given("S")));
        let environment = environment.into_snapshot();
        let f = factory();
        let member = f.relational_predicate(RelationalOp::In, name("a", 0), name("s", 4), None);
        let question = Question::new(&member, &environment, Explicit::Given).unwrap();
        assert_eq!(question.formula, [0x22, 6, 0x01, 0, 0, 0x01, 1, 0]);
        assert_eq!(question.environment, [0x50, 1, 0, 0x43, 0x42, 2, 0, 0x50, 2, 0, 0x43, 0x42, 2, 0]);
        assert_eq!(question.names.iter().collect::<Vec<_>>(), ["a", "s", "S"]);
        assert_eq!(question.span(5), at(4, 5));
        let checked = member.check_proved(&environment).unwrap();
        assert_eq!(checked.inferred, [("a".to_owned(), Type::given("S"))]);
    }

    #[test]
    fn what_cannot_be_asked() {
        let f = factory();
        let nothing = SealedTypeEnvironment::default();
        let target = f.free_identifier("x", None, Some(Type::Int));
        let assignment = f.becomes_equal_to(vec![target], vec![f.integer_literal(1, None)], None);
        let unanswered = assignment.check_proved(&nothing).unwrap_err();
        assert_eq!(unanswered, Unanswered::TypedTarget("x".to_owned()));
        let mut environment = TypeEnvironmentBuilder::new();
        environment.insert("x", Type::Int);
        assert!(assignment.check_proved(&environment.into_snapshot()).unwrap().is_success());

        let list = Type::Parametric { tag: 1_000, symbol: "List".to_owned(), params: vec![Type::Int] };
        let mut environment = TypeEnvironmentBuilder::new();
        environment.insert("x", list);
        let unanswered = name("x", 0).check_proved(&environment.into_snapshot()).unwrap_err();
        assert_eq!(unanswered.to_string(), "a type has a constructor of an extension");

        let deep = (0..65).fold(f.integer_literal(1, None), |e, _| f.set_extension(vec![e], None));
        let unanswered = deep.check_proved(&nothing).unwrap_err();
        assert_eq!(unanswered, Unanswered::Refused(Refusal::TooLarge { place: 195 }));
    }
}
