//! From the checker's answers back to what the bought checker gives.

use bought::formula::{
    Assignment, AssignmentKind, BoundIdentDecl, Expression, ExpressionKind, FormulaFactory, Predicate, PredicateKind,
    ProblemKind, SealedTypeEnvironment, Type, TypeCheckProblem,
};
use workbench::{Checker, Names, Refusal};

use crate::question::{Explicit, Formula, Question, Unanswered};

/// The outcome of a check, as the bought `TypeCheckResult` has it.
#[derive(Debug, Clone)]
pub struct Checked<T> {
    /// The fully typed rebuild of the formula; there exactly if there are no problems.
    pub typed: Option<T>,
    /// Types of free identifiers that the environment lacks, in first-occurrence order; empty unless the check succeeded.
    pub inferred: Vec<(String, Type)>,
    /// Everything that is wrong, in the bought checker's order, with its spans.
    pub problems: Vec<TypeCheckProblem>,
}

impl<T> Checked<T> {
    /// Whether the check succeeded.
    pub fn is_success(&self) -> bool {
        self.problems.is_empty()
    }
}

/// A formula of the bought crate that the proved checker checks.
pub trait CheckProved: Formula + Sized {
    /// Checks the formula: the types that a caller gave, default limits.
    fn check_proved(&self, environment: &SealedTypeEnvironment) -> Result<Checked<Self>, Unanswered> {
        self.check_proved_with(environment, Explicit::default(), &Checker::default())
    }

    /// Checks the formula with other limits, or with all types on its nodes.
    fn check_proved_with(
        &self,
        environment: &SealedTypeEnvironment,
        explicit: Explicit,
        checker: &Checker,
    ) -> Result<Checked<Self>, Unanswered> {
        let question = Question::new(self, environment, explicit)?;
        let answer = checker.ask(&question.formula, &question.environment, question.names.len() as u32);
        let mut bytes = Bytes { rest: &answer.bytes, names: &question.names };
        match answer.number {
            0 => {
                let mut inferred = Vec::new();
                while bytes.rest.first() == Some(&0x50) {
                    bytes.take(1);
                    let name = bytes.name();
                    inferred.push((name, bytes.ty()));
                }
                let mut slots = Slots { bytes, factory: self.factory_of() };
                let typed = self.rebuild(&mut slots);
                assert!(slots.bytes.rest.is_empty(), "a slot for each expression and declaration");
                Ok(Checked { typed: Some(typed), inferred, problems: Vec::new() })
            }
            1 => {
                let mut problems = Vec::new();
                while !bytes.rest.is_empty() {
                    let number = bytes.take(2)[1];
                    let span = question.span(bytes.place());
                    let kind = match number {
                        0 => ProblemKind::TypesDoNotMatch,
                        1 => ProblemKind::Circularity,
                        2 => ProblemKind::UntypedExpression,
                        3 => ProblemKind::UntypedIdentifier(bytes.clone().name()),
                        4 => ProblemKind::DanglingBoundIdentifier,
                        5 => ProblemKind::UncheckableApplication,
                        _ => panic!("the checker listed problem {number}"),
                    };
                    bytes.take(2);
                    problems.push(TypeCheckProblem { kind, span });
                }
                Ok(Checked { typed: None, inferred: Vec::new(), problems })
            }
            number => Err(Unanswered::Refused(Refusal::of_inference(number, answer.place))),
        }
    }

    #[doc(hidden)]
    fn factory_of(&self) -> FormulaFactory;

    #[doc(hidden)]
    fn rebuild(&self, slots: &mut Slots<'_>) -> Self;
}

/// What is left of an answer's bytes. The checker writes whole records, so nothing is ever cut.
#[derive(Clone)]
struct Bytes<'a> {
    rest: &'a [u8],
    names: &'a Names,
}

impl<'a> Bytes<'a> {
    fn take(&mut self, count: usize) -> &'a [u8] {
        let (taken, rest) = self.rest.split_at(count);
        self.rest = rest;
        taken
    }

    fn place(&mut self) -> usize {
        u32::from_le_bytes(self.take(4).try_into().expect("four bytes")) as usize
    }

    fn name(&mut self) -> String {
        let number = u16::from_le_bytes(self.take(2).try_into().expect("two bytes"));
        self.names.name(number).expect("the checker writes names of the row").to_owned()
    }

    fn ty(&mut self) -> Type {
        match self.take(1)[0] {
            0x40 => Type::Bool,
            0x41 => Type::Int,
            0x42 => Type::given(self.name()),
            0x43 => Type::pow(self.ty()),
            0x44 => {
                let left = self.ty();
                Type::prod(left, self.ty())
            }
            kind => panic!("the checker wrote {kind:02X} where a type is due"),
        }
    }

    /// Passes a type.
    fn pass(&mut self) {
        let mut due = 1;
        while due > 0 {
            match self.take(1)[0] {
                0x42 => {
                    self.take(2);
                    due -= 1;
                }
                0x43 => {}
                0x44 => due += 1,
                _ => due -= 1,
            }
        }
    }
}

/// The slots' types, taken in the order of the walk, for a rebuild through the factory: leaves and declarations get theirs, and
/// compounds are typed by construction.
#[doc(hidden)]
pub struct Slots<'a> {
    bytes: Bytes<'a>,
    factory: FormulaFactory,
}

impl Slots<'_> {
    /// The next slot's type.
    fn next(&mut self) -> Type {
        self.bytes.take(5);
        self.bytes.ty()
    }

    /// The next slot, whose type nobody asks for.
    fn pass(&mut self) {
        self.bytes.take(5);
        self.bytes.pass();
    }

    fn declarations(&mut self, all: &[BoundIdentDecl]) -> Vec<BoundIdentDecl> {
        all.iter()
            .map(|d| {
                let ty = self.next();
                self.factory.bound_ident_decl(d.name(), d.span(), d.annotation().cloned(), Some(ty))
            })
            .collect()
    }

    fn expressions(&mut self, all: &[Expression]) -> Vec<Expression> {
        all.iter().map(|e| self.expression(e)).collect()
    }

    fn expression(&mut self, e: &Expression) -> Expression {
        let span = e.span();
        let leaf = matches!(
            e.kind(),
            ExpressionKind::FreeIdentifier(_) | ExpressionKind::BoundIdentifier(_) | ExpressionKind::Atomic(_)
        );
        if !leaf {
            self.pass();
        }
        match e.kind() {
            ExpressionKind::FreeIdentifier(name) => {
                let ty = self.next();
                self.factory.free_identifier(name, span, Some(ty))
            }
            ExpressionKind::BoundIdentifier(index) => {
                let ty = self.next();
                self.factory.bound_identifier(*index, span, Some(ty))
            }
            ExpressionKind::IntegerLiteral(value) => self.factory.integer_literal(value.clone(), span),
            ExpressionKind::Atomic(op) => {
                let ty = self.next();
                self.factory.atomic_expression(*op, span, Some(ty))
            }
            ExpressionKind::SetExtension(members) => {
                let members = self.expressions(members);
                self.factory.set_extension(members, span)
            }
            ExpressionKind::Bool(predicate) => {
                let predicate = self.predicate(predicate);
                self.factory.bool_expression(predicate, span)
            }
            ExpressionKind::Binary { op, left, right } => {
                let left = self.expression(left);
                let right = self.expression(right);
                self.factory.binary_expression(*op, left, right, span)
            }
            ExpressionKind::Associative { op, children } => {
                let children = self.expressions(children);
                self.factory.associative_expression(*op, children, span)
            }
            ExpressionKind::Unary { op, child } => {
                let child = self.expression(child);
                self.factory.unary_expression(*op, child, span)
            }
            ExpressionKind::Quantified { op, decls, pred, expr, form } => {
                let decls = self.declarations(decls);
                let pred = self.predicate(pred);
                let expr = self.expression(expr);
                self.factory.quantified_expression(*op, decls, pred, expr, span, *form)
            }
            ExpressionKind::Ascription { expr, type_expr } => {
                let expr = self.expression(expr);
                self.factory.ascription(expr, type_expr.clone(), span)
            }
            ExpressionKind::Extended { .. } => unreachable!("an extension is not asked about"),
        }
    }

    fn predicate(&mut self, p: &Predicate) -> Predicate {
        let span = p.span();
        match p.kind() {
            PredicateKind::Literal(op) => self.factory.literal_predicate(*op, span),
            PredicateKind::PredicateVariable(name) => self.factory.predicate_variable(name, span),
            PredicateKind::Relational { op, left, right } => {
                let left = self.expression(left);
                let right = self.expression(right);
                self.factory.relational_predicate(*op, left, right, span)
            }
            PredicateKind::Binary { op, left, right } => {
                let left = self.predicate(left);
                let right = self.predicate(right);
                self.factory.binary_predicate(*op, left, right, span)
            }
            PredicateKind::Associative { op, children } => {
                let children = children.iter().map(|child| self.predicate(child)).collect();
                self.factory.associative_predicate(*op, children, span)
            }
            PredicateKind::Not(child) => {
                let child = self.predicate(child);
                self.factory.not_predicate(child, span)
            }
            PredicateKind::Quantified { op, decls, pred } => {
                let decls = self.declarations(decls);
                let pred = self.predicate(pred);
                self.factory.quantified_predicate(*op, decls, pred, span)
            }
            PredicateKind::Simple(child) => {
                let child = self.expression(child);
                self.factory.simple_predicate(child, span)
            }
            PredicateKind::Multiple(children) => {
                let children = self.expressions(children);
                self.factory.multiple_predicate(children, span)
            }
            PredicateKind::Application { .. } => unreachable!("an application has no typing"),
            PredicateKind::Extended { .. } => unreachable!("an extension is not asked about"),
        }
    }

    fn assignment(&mut self, a: &Assignment) -> Assignment {
        let span = a.span();
        match a.kind() {
            AssignmentKind::BecomesEqualTo { idents, values } => {
                let (mut new_idents, mut new_values) = (Vec::new(), Vec::new());
                for (target, value) in idents.iter().zip(values) {
                    new_idents.push(self.expression(target));
                    new_values.push(self.expression(value));
                }
                self.factory.becomes_equal_to(new_idents, new_values, span)
            }
            AssignmentKind::BecomesMemberOf { idents, set } => {
                let idents = self.expressions(idents);
                let set = self.expression(set);
                self.factory.becomes_member_of(idents, set, span)
            }
            AssignmentKind::BecomesSuchThat { idents, primed, pred } => {
                let idents = self.expressions(idents);
                let primed = self.declarations(primed);
                let pred = self.predicate(pred);
                self.factory.becomes_such_that(idents, primed, pred, span)
            }
        }
    }
}

impl CheckProved for Expression {
    fn factory_of(&self) -> FormulaFactory {
        self.factory().clone()
    }

    fn rebuild(&self, slots: &mut Slots<'_>) -> Expression {
        slots.expression(self)
    }
}

impl CheckProved for Predicate {
    fn factory_of(&self) -> FormulaFactory {
        self.factory().clone()
    }

    fn rebuild(&self, slots: &mut Slots<'_>) -> Predicate {
        slots.predicate(self)
    }
}

impl CheckProved for Assignment {
    fn factory_of(&self) -> FormulaFactory {
        self.factory().clone()
    }

    fn rebuild(&self, slots: &mut Slots<'_>) -> Assignment {
        slots.assignment(self)
    }
}
