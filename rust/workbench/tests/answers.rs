//! What the workbench is told: verdicts, problems and refusals of the auditor's table through the builders, limits, and how all of it reads.

use workbench::*;

fn nothing() -> Environment {
    Environment::new()
}

/// The answer of a formula as it reads, without any environment.
fn reads(formula: impl Into<Formula>) -> String {
    infer(formula, &nothing()).to_string()
}

#[test]
fn the_auditors_table() {
    let x = || name("x");
    let case_1 = x().is_in(integers());
    let answer = infer(&case_1, &nothing());
    assert_eq!(format!("{answer:#}"), "typed\nx : ℤ\nbyte 2 : ℤ\nbyte 5 : ℙ(ℤ)");
    assert_eq!(answer.steps, 12);
    let asked =
        |capacity, budget| Checker { capacity, budget, ..Checker::default() }.infer(&case_1, &nothing()).verdict;
    assert_eq!(asked(4, 12), answer.verdict);
    assert_eq!(asked(3, 12), Verdict::Refused(Refusal::CapacityUsed));
    assert_eq!(asked(4, 11), Verdict::Refused(Refusal::BudgetSpent));

    assert_eq!(reads(x().equals("x")), "not typed\nthe type of x is not determined, first met at byte 2");
    assert_eq!(
        reads(empty_set().equals(empty_set())),
        "not typed\nthe type is not determined at byte 2\nthe type is not determined at byte 4"
    );
    assert_eq!(
        reads(x().is_in("x")),
        "not typed\na type would hold itself at byte 0\nthe type of x is not determined, first met at byte 2"
    );
    assert_eq!(
        reads(x().maps_to(Atom::True).equals(literal(1).maps_to(literal(2)))),
        "not typed\ntypes do not match at byte 0"
    );

    let spelled = for_all([declare("y").annotated(Type::power(Type::given("x")))], Predicate::Literal(true));
    let held = infer(&spelled, &nothing().with("x", Type::Int));
    assert_eq!(format!("{held:#}"), "typed\nbyte 2 : ℙ(x)");
    assert_eq!(format!("{:#}", infer(&spelled, &nothing())), "typed\nx : ℙ(x)\nbyte 2 : ℙ(x)");

    assert_eq!(reads(Expression::Bound(0)), "not typed\na bound index has no declaration at byte 0");
    assert_eq!(infer(Predicate::Literal(true), &nothing()).steps, 1);
    assert_eq!(reads(set::<Expression>([])), "refused: the formula is malformed at byte 0");

    let not = |count| (0..count).fold(Predicate::Literal(true), |p, _| p.negated());
    assert_eq!(reads(not(64)), "typed");
    assert_eq!(infer(not(65), &nothing()).refusal(), Some(&Refusal::TooLarge { place: 65 }));
}

#[test]
fn other_problems() {
    assert_eq!(
        reads(Predicate::Application("p".into(), vec![literal(1)])),
        "not typed\na predicate applied by name cannot be checked at byte 0"
    );
    assert_eq!(reads(literal(1).ascribed(Spelling::NotAType)), "not typed\ntypes do not match at byte 2");
    assert_eq!(reads(name("x").ascribed(Type::Bool)), "typed\nx : BOOL");
    assert_eq!(reads(name("x").typed(Type::Int).equals(Atom::True)), "not typed\ntypes do not match at byte 0");
}

#[test]
fn a_part_is_found_by_its_place() {
    let rule = Formula::from(for_all(["t"], name("f").of("t").plus(literal(1)).equals(name("t").typed(Type::Int))));
    assert_eq!(rule.to_string(), "∀t·f(t) + 1 = t");
    let parts: Vec<(usize, String)> = (0..100).filter_map(|place| Some((place, rule.part(place)?))).collect();
    let parts: Vec<(usize, &str)> = parts.iter().map(|(place, text)| (*place, text.as_str())).collect();
    assert_eq!(
        parts,
        [
            (0, "∀t·f(t) + 1 = t"),
            (2, "t"),
            (3, "f(t) + 1 = t"),
            (5, "f(t) + 1"),
            (9, "f(t)"),
            (11, "f"),
            (14, "t"),
            (17, "1"),
            (20, "t")
        ]
    );
    // Every slot of a typing is such a part.
    let answer = infer(&rule, &nothing());
    let slots: Vec<usize> = answer.typing().unwrap().slots.iter().map(|slot| slot.place).collect();
    assert_eq!(slots, [2, 5, 9, 11, 14, 17, 20]);
    assert_eq!(answer.typing().unwrap().at(9), Some(&Type::Int));
    assert_eq!(answer.typing().unwrap().at(10), None);
}

#[test]
fn names_are_bound_where_they_are_declared() {
    let mut names = Names::new();
    let inner = exists(["x", "y"], name("x").equals(name("z")).and(name("y").equals("x")));
    let bytes = Formula::from(for_all(["z", "x"], inner)).bytes(&mut names);
    // x is index 1 inside, y 0, z 3.
    assert_eq!(
        bytes,
        [0x26, 2, 0x10, 0x10, 0x26, 2, 0x10, 0x10, 0x24, 2, 0, 0x22, 0, 2, 1, 0, 2, 3, 0, 0x22, 0, 2, 0, 0, 2, 1, 0]
    );
    assert!(names.is_empty());
    // After its binder a name is free again.
    let formula = for_all(["x"], name("x").is_in(Atom::Booleans)).and(name("x").is_in(integers()));
    assert_eq!(reads(formula), "typed\nx : ℤ");
}

#[test]
fn assignments() {
    let environment = nothing().carrier_set("PERIOD").with("closed", Type::power(Type::given("PERIOD")));
    let close = Assignment::becomes("closed", name("closed").union(set(["p"])));
    assert_eq!(infer(&close, &environment).to_string(), "typed\np : PERIOD");
    let reopen = Assignment::becomes_in("closed", name("PERIOD").power_set());
    assert_eq!(infer(&reopen, &environment).to_string(), "typed");
    let grow = Assignment::becomes_such_that("closed", name("closed").is_subset_of("closed'"));
    assert_eq!(infer(&grow, &environment).to_string(), "typed");
    let wrong = Assignment::BecomesEqualTo(vec![("closed".into(), literal(1)), ("p".into(), "closed".into())]);
    assert_eq!(wrong.to_string(), "closed, p ≔ 1, closed");
    assert_eq!(infer(&wrong, &environment).to_string(), "not typed\ntypes do not match at byte 5");
}

#[test]
fn refusals() {
    let twice = nothing().with("x", Type::Int).with("x", Type::Int);
    assert_eq!(infer(name("x"), &twice).to_string(), "refused: the environment is malformed at byte 4");
    let row: Vec<String> = (0..257).map(|n| format!("x{n}")).collect();
    let many = |count: usize| set(row[..count].iter().map(|x| name(x.as_str())));
    assert_eq!(infer(many(257), &nothing()).refusal(), Some(&Refusal::OutsideLimits));
    assert_eq!(infer(many(256), &nothing()).problems().len(), 256);
    for capacity in [0, 32_769, u32::MAX] {
        let answer = Checker { capacity, ..Checker::default() }.infer(name("x"), &nothing());
        assert_eq!(answer.refusal(), Some(&Refusal::OutsideLimits));
    }
    let answer = Checker::default().infer_bytes(&[0x22, 6, 0x01, 0, 0], &[], &Names::from(["x"]));
    assert_eq!(answer.to_string(), "refused: the formula is malformed at byte 5");
    for (number, refusal) in [
        (2, Refusal::OutsideLimits),
        (2, Refusal::BadNames),
        (3, Refusal::MalformedEnvironment { place: 1 }),
        (4, Refusal::MalformedFormula { place: 1 }),
        (4, Refusal::MalformedType { place: 1 }),
        (4, Refusal::MalformedText { place: 1 }),
        (5, Refusal::TooLarge { place: 1 }),
        (6, Refusal::CapacityUsed),
        (7, Refusal::BudgetSpent),
        (8, Refusal::OutputFull),
    ] {
        assert_eq!(refusal.number(), number);
        assert!(refusal.to_string().starts_with("refused: "));
    }
}

#[test]
fn the_output_grows_up_to_its_bound() {
    // x0 = x1 ↦ x1, x1 = x2 ↦ x2, ..: x0's type has 2¹² leaves.
    let equal =
        |n: usize| name(format!("x{n}")).equals(name(format!("x{}", n + 1)).maps_to(name(format!("x{}", n + 1))));
    let mut all: Vec<Predicate> = (0..12).map(equal).collect();
    all.push(name("x12").is_in(integers()));
    let formula = Formula::from(Predicate::And(all));
    let whole = infer(&formula, &nothing());
    let typing = whole.typing().unwrap();
    assert_eq!(typing.get("x12"), Some(&Type::Int));
    assert_eq!(typing.get("x10").unwrap().to_string(), "ℤ×ℤ×(ℤ×ℤ)");
    assert_eq!(typing.get("x0").unwrap().to_string().matches('ℤ').count(), 4_096);
    let small = Checker { largest_output: 20_000, ..Checker::default() };
    assert_eq!(small.infer(&formula, &nothing()).refusal(), Some(&Refusal::OutputFull));
    let from_nothing = Checker { output: 0, ..Checker::default() };
    assert_eq!(from_nothing.infer(&formula, &nothing()), whole);
    // A formula without answer bytes needs no room.
    let none = Checker { output: 0, largest_output: 0, ..Checker::default() };
    assert_eq!(none.infer(Predicate::Literal(true), &nothing()).to_string(), "typed");
}

#[test]
fn a_larger_capacity() {
    // Each ∅ takes two nodes.
    let formula = Formula::from(set((0..1_000).map(|_| empty_set()).chain([set([literal(1)])])));
    assert_eq!(infer(&formula, &nothing()).to_string(), "typed");
    let formula = Formula::from(Predicate::And((0..500).map(|_| name("r").domain().is_subset_of("s")).collect()));
    assert_eq!(infer(&formula, &nothing()).refusal(), Some(&Refusal::TooLarge { place: 3_417 }));
    let formula = Formula::from(Predicate::And((0..300).map(|_| name("r").domain().is_subset_of("s")).collect()));
    assert_eq!(infer(&formula, &nothing()).refusal(), Some(&Refusal::CapacityUsed));
    let answer = Checker { capacity: 32_768, ..Checker::default() }.infer(&formula, &nothing());
    assert_eq!(answer.problems().len(), 2);
}

#[test]
fn types_and_their_text() {
    let given = |name: &str| Type::given(name);
    let names = Names::from(["PERIOD", "TRANSACTION"]);
    let types = [
        Type::Bool,
        Type::Int,
        given("PERIOD"),
        Type::power(given("TRANSACTION")),
        Type::product(Type::product(Type::Int, Type::Bool), given("PERIOD")),
        Type::product(Type::Int, Type::product(Type::Bool, given("PERIOD"))),
        Type::relation(Type::relation(Type::Int, Type::Int), Type::power(Type::product(Type::Int, Type::Bool))),
    ];
    for ty in &types {
        let text = write_type(ty, &names).unwrap();
        assert_eq!(text, ty.to_string());
        assert_eq!(read_type(&text, &names).as_ref(), Ok(ty));
        assert_eq!(read_type(&format!("({text})"), &names).as_ref(), Ok(ty));
        assert_eq!(write_record(&ty.record(&mut names.clone()), &names), Ok(text));
    }
    let powers = |count| (0..count).fold(Type::Int, |ty, _| Type::power(ty));
    let deep = write_type(&powers(64), &names).unwrap();
    assert_eq!(deep, powers(64).to_string());
    assert_eq!(read_type(&deep, &names), Err(Refusal::TooLarge { place: 132 }));
    assert_eq!(write_type(&powers(65), &names), Err(Refusal::TooLarge { place: 65 }));
    assert_eq!(read_type("", &names), Err(Refusal::MalformedText { place: 0 }));
    let long = "N".repeat(64);
    assert_eq!(write_type(&given(&long), &Names::from([long.as_str()])).as_deref(), Ok(long.as_str()));
    for bad in ["", "2nd", "BOOL", "x'", &"N".repeat(65)] {
        assert!(!is_name(bad));
        assert_eq!(read_type("ℤ", &Names::from([bad])), Err(Refusal::BadNames), "{bad}");
        assert_eq!(write_type(&Type::Int, &Names::from([bad])), Err(Refusal::BadNames), "{bad}");
    }
}

#[test]
fn an_environment_by_lines() {
    let text = "# carrier sets\nPERIOD : ℙ(PERIOD)\n\nx\n y : ℙ(PERIOD×ℤ) # months\n";
    let (names, environment) = Environment::parse(text).unwrap();
    assert_eq!(names.iter().collect::<Vec<_>>(), ["PERIOD", "x", "y"]);
    assert_eq!(environment.to_string(), "PERIOD : ℙ(PERIOD)\ny : ℙ(PERIOD×ℤ)\n");
    assert_eq!(Environment::parse(&environment.to_string()).unwrap().1, environment);
    let fault = |text| Environment::parse(text).unwrap_err().to_string();
    assert_eq!(fault("x : ℤ\nx"), "line 2: the name x stands there a second time");
    assert_eq!(fault("x : ℙ(ℤ"), "line 1: the type of x: refused: the text is malformed at byte 7, where it ends");
    assert_eq!(fault("x :"), "line 1: the type of x: refused: the text is malformed at byte 0, where it ends");
    assert!(fault("2nd : ℤ").starts_with("line 1: \"2nd\" is no name: "));
}

#[test]
fn every_operator_has_its_number() {
    fn numbered<T: Copy>(all: &[T], count: usize, number: impl Fn(T) -> u8) {
        assert_eq!(all.len(), count);
        assert!(all.iter().enumerate().all(|(index, operator)| usize::from(number(*operator)) == index));
    }
    numbered(Atom::ALL, 12, Atom::number);
    numbered(BinaryOperator::ALL, 27, BinaryOperator::number);
    numbered(AssociativeOperator::ALL, 7, AssociativeOperator::number);
    numbered(UnaryOperator::ALL, 11, UnaryOperator::number);
    numbered(QuantifiedOperator::ALL, 3, QuantifiedOperator::number);
    numbered(RelationalOperator::ALL, 12, RelationalOperator::number);
}

/// One formula for each operator, with the type that its rule gives.
#[test]
fn every_operator_means_what_its_name_says() {
    let environment = Environment::parse(
        "S : ℙ(S)\nT : ℙ(T)\na : S\nn : ℤ\ns : ℙ(S)\nf : ℙ(S×T)\ng : ℙ(S×S)\nh : ℙ(ℤ×ℤ)\nss : ℙ(ℙ(S))\nm : ℙ(ℤ)\nt : ℙ(T)",
    )
    .unwrap()
    .1;
    let is = |expression: Expression, ty: &str| {
        let answer = infer(&expression, &environment);
        let found = answer.typing().unwrap_or_else(|| panic!("{expression}: {answer}")).slots[0].ty.to_string();
        assert_eq!(found, ty, "{expression}");
    };
    let atoms = ["ℙ(ℤ)", "ℙ(ℤ)", "ℙ(ℤ)", "ℙ(BOOL)", "BOOL", "BOOL", "ℙ(ℤ×ℤ)", "ℙ(ℤ×ℤ)"];
    for (atom, ty) in Atom::ALL.iter().zip(atoms) {
        is((*atom).into(), ty);
    }
    is(empty_set().union("s"), "ℙ(S)");
    is(name("g").intersection(Atom::Identity), "ℙ(S×S)");
    is(Expression::from(Atom::FirstProjection).of(name("a").maps_to("n")), "S");
    is(Expression::from(Atom::SecondProjection).of(name("a").maps_to("n")), "ℤ");
    is(name("a").maps_to("n"), "S×ℤ");
    for operator in &BinaryOperator::ALL[1..=11] {
        is(name("s").binary(*operator, "T"), "ℙ(ℙ(S×T))");
    }
    use BinaryOperator as B;
    for (left, operator, right, ty) in [
        ("s", B::Difference, "s", "ℙ(S)"),
        ("s", B::CartesianProduct, "t", "ℙ(S×T)"),
        ("f", B::DirectProduct, "g", "ℙ(S×(T×S))"),
        ("f", B::ParallelProduct, "h", "ℙ(S×ℤ×(T×ℤ))"),
        ("s", B::DomainRestriction, "f", "ℙ(S×T)"),
        ("s", B::DomainSubtraction, "f", "ℙ(S×T)"),
        ("f", B::RangeRestriction, "t", "ℙ(S×T)"),
        ("f", B::RangeSubtraction, "t", "ℙ(S×T)"),
        ("n", B::Interval, "n", "ℙ(ℤ)"),
        ("n", B::Minus, "n", "ℤ"),
        ("n", B::Divide, "n", "ℤ"),
        ("n", B::Modulo, "n", "ℤ"),
        ("n", B::Exponent, "n", "ℤ"),
        ("f", B::Application, "a", "T"),
        ("f", B::Image, "s", "ℙ(T)"),
    ] {
        is(name(left).binary(operator, right), ty);
    }
    use AssociativeOperator as A;
    for (operator, left, right, ty) in [
        (A::Union, "s", "s", "ℙ(S)"),
        (A::Intersection, "s", "s", "ℙ(S)"),
        (A::Override, "f", "f", "ℙ(S×T)"),
        (A::ForwardComposition, "g", "f", "ℙ(S×T)"),
        (A::BackwardComposition, "f", "g", "ℙ(S×T)"),
        (A::Plus, "n", "n", "ℤ"),
        (A::Times, "n", "n", "ℤ"),
    ] {
        is(associative(operator, [left, right]), ty);
    }
    use UnaryOperator as U;
    for (operator, part, ty) in [
        (U::Cardinality, "s", "ℤ"),
        (U::PowerSet, "s", "ℙ(ℙ(S))"),
        (U::NonEmptyPowerSet, "s", "ℙ(ℙ(S))"),
        (U::GeneralUnion, "ss", "ℙ(S)"),
        (U::GeneralIntersection, "ss", "ℙ(S)"),
        (U::Domain, "f", "ℙ(S)"),
        (U::Range, "f", "ℙ(T)"),
        (U::Minimum, "m", "ℤ"),
        (U::Maximum, "m", "ℤ"),
        (U::Converse, "f", "ℙ(T×S)"),
        (U::Negative, "n", "ℤ"),
    ] {
        is(name(part).unary(operator), ty);
    }
    let in_s = || name("x").is_in("S");
    is(quantified(QuantifiedOperator::Union, ["x"], in_s(), name("f").image(set(["x"]))), "ℙ(T)");
    is(quantified(QuantifiedOperator::Intersection, ["x"], in_s(), name("f").image(set(["x"]))), "ℙ(T)");
    is(comprehension(["x"], in_s(), name("x").maps_to("n")), "ℙ(S×ℤ)");
    is(bool_of(in_s()), "BOOL");
    for operator in RelationalOperator::ALL {
        let operands = match operator.number() {
            0 | 1 => ("a", "a"),
            2..=5 => ("n", "n"),
            6 | 7 => ("a", "s"),
            _ => ("s", "s"),
        };
        let relation = name(operands.0).relational(*operator, operands.1);
        assert_eq!(infer(&relation, &environment).to_string(), "typed", "{relation}");
        let wrong = infer(literal(1).relational(*operator, Atom::True), &environment);
        assert!(!wrong.problems().is_empty());
    }
    assert_eq!(infer(partition(["S", "s"]), &environment).to_string(), "typed");
    assert_eq!(infer(finite("s"), &environment).to_string(), "typed");
}

#[test]
fn formulas_as_people_write_them() {
    let p = || name("x").equals(literal(1));
    for (formula, text) in [
        (Formula::from(p().implies(p()).implies(p())), "(x = 1 ⇒ x = 1) ⇒ x = 1"),
        (p().and(p().or(p())).equivalent_to(p()).into(), "x = 1 ∧ (x = 1 ∨ x = 1) ⇔ x = 1"),
        (for_all(["x", "y"], p()).and(p()).into(), "(∀x,y·x = 1) ∧ x = 1"),
        (exists([declare("x").typed(Type::Int)], p()).into(), "∃x⦂ℤ·x = 1"),
        (p().negated().into(), "¬(x = 1)"),
        (partition(["S", "A", "B"]).into(), "partition(S, A, B)"),
        (finite(name("S").union("T")).into(), "finite(S ∪ T)"),
        (name("a").minus(name("b").minus("c")).into(), "a − (b − c)"),
        (name("a").plus("b").times(literal(-2)).into(), "(a + b) ∗ (−2)"),
        (name("a").negative().negative().into(), "−(−a)"),
        (name("f").converse().image(set(["x"])).into(), "f∼[{x}]"),
        (name("f").union("g").of("x").into(), "(f ∪ g)(x)"),
        (bool_of(p()).into(), "bool(x = 1)"),
        (quantified(QuantifiedOperator::Union, ["x"], p(), set(["x"])).into(), "⋃x·x = 1 ∣ {x}"),
        (empty_set().ascribed(Type::power(Type::Int)).into(), "∅ ⦂ ℙ(ℤ)"),
        (name("S").cartesian("T").power_set().into(), "ℙ(S × T)"),
        (Predicate::Variable("$P".into()).into(), "$P"),
        (Assignment::becomes_in("x", "S").into(), "x :∈ S"),
    ] {
        assert_eq!(formula.to_string(), text);
    }
}

/// The repository's README has a piece of the crate's own example, which is run with the documentation.
#[test]
fn the_readmes_example() {
    let readme = include_str!("../../../README.md");
    let piece = readme.split("```rust\n").nth(1).unwrap().split("```").next().unwrap();
    let documented: String = include_str!("../src/lib.rs")
        .lines()
        .filter_map(|line| line.strip_prefix("//!"))
        .map(|line| format!("{}\n", line.strip_prefix(' ').unwrap_or(line)))
        .collect();
    assert!(documented.contains(piece), "{piece}");
}
