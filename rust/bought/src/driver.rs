//! From the byte forms to the bought checker, and back.
//!
//! A record's offset becomes its node's span, name number n the identifier `n` followed by n. The formula is built through the bought
//! factory; with [`Build::Exact`] every expression then has for its explicit type exactly what its 0C record spells, or
//! nothing (docs/DIFFERENCES.md, R1). The bought checker's problems become 60 entries; a typed result becomes 50 entries (its
//! inferred environment, in its order) and 51 entries, read off the typed rebuild in the order in which it was walked.
//!
//! The driver decodes bytes on its own, apart from `reference`, and knows nothing of limits, capacity or steps: it is asked
//! about well-formed forms only, and answers [`Silent::Malformed`] where it cannot go on.

/// How a formula's nodes get their explicit types.
#[derive(Debug, Clone, Copy, PartialEq, Eq)]
pub enum Build {
    /// Exactly what the 0C records spell.
    Exact,
    /// What the bought factory takes or synthesises.
    Factory,
}

/// The bought checker's answer: number 0 or 1 and the answer's bytes.
#[derive(Debug, Clone, PartialEq, Eq)]
pub struct Answer {
    pub number: u8,
    pub output: Vec<u8>,
}

/// Why there is no answer.
#[derive(Debug, Clone, Copy, PartialEq, Eq)]
pub enum Silent {
    /// The bought source was not there when this was built.
    Absent,
    /// The bytes are no form that could be asked about.
    Malformed,
    /// The bought factory has no such node (R2): an explicit type on a compound or a literal, or on an atom it does not fit.
    Unbuildable,
}

/// A name table's names, in order; none where it is no table.
pub fn table_names(table: &[u8]) -> Option<Vec<&str>> {
    let mut names = Vec::new();
    let mut rest = table;
    while let Some((&kind, tail)) = rest.split_first() {
        if !(0x81..=0xC0).contains(&kind) {
            return None;
        }
        let (name, tail) = tail.split_at_checked(usize::from(kind - 0x80))?;
        names.push(std::str::from_utf8(name).ok()?);
        rest = tail;
    }
    Some(names)
}

#[cfg(not(bought))]
mod sides {
    use super::{Answer, Build, Silent};

    pub fn infer(_: Build, _: &[u8], _: &[u8], _: u32) -> Result<Answer, Silent> {
        Err(Silent::Absent)
    }

    pub fn read_text(_: &[u8], _: &[u8]) -> Result<Option<Vec<u8>>, Silent> {
        Err(Silent::Absent)
    }

    pub fn write_text(_: &[u8], _: &[u8]) -> Result<Vec<u8>, Silent> {
        Err(Silent::Absent)
    }

    pub fn read_freely(_: &str) -> Result<Option<String>, Silent> {
        Err(Silent::Absent)
    }
}

#[cfg(bought)]
mod sides {
    use super::{Answer, Build, Silent, table_names};
    use crate::ast::Span;
    use crate::formula::expression::Form;
    use crate::formula::rewrite::with_type;
    use crate::formula::tag::{
        AssocExprOp, AssocPredOp, AtomicOp, BinaryExprOp, BinaryPredOp, LiteralPredOp, QuantExprOp, QuantPredOp,
        RelationalOp, UnaryExprOp,
    };
    use crate::formula::{
        Assignment, AssignmentKind, BoundIdentDecl, Expression, ExpressionKind, FormulaFactory, Predicate,
        PredicateKind, ProblemKind, SealedTypeEnvironment, Type, TypeCheckResult, TypeEnvironmentBuilder,
    };

    // ---- operators, by the numbers of the byte forms: the order of the arms in the bought check functions ----

    const ATOMIC: [AtomicOp; 12] = [
        AtomicOp::Integer,
        AtomicOp::Natural,
        AtomicOp::Natural1,
        AtomicOp::Bool,
        AtomicOp::True,
        AtomicOp::False,
        AtomicOp::KPred,
        AtomicOp::KSucc,
        AtomicOp::EmptySet,
        AtomicOp::KIdGen,
        AtomicOp::KPrj1Gen,
        AtomicOp::KPrj2Gen,
    ];

    const ASSOCIATIVE: [AssocExprOp; 7] = [
        AssocExprOp::BUnion,
        AssocExprOp::BInter,
        AssocExprOp::Ovr,
        AssocExprOp::FComp,
        AssocExprOp::BComp,
        AssocExprOp::Plus,
        AssocExprOp::Mul,
    ];

    const QUANTIFIED: [QuantExprOp; 3] = [QuantExprOp::QUnion, QuantExprOp::QInter, QuantExprOp::CSet];

    // ---- from bytes ----

    /// A type as a record spells it, or none for 4F.
    type Spelled = Option<Type>;

    /// Reads byte forms and builds the bought nodes.
    struct Reader<'a> {
        bytes: &'a [u8],
        at: usize,
        build: Build,
        names: u32,
        factory: FormulaFactory,
    }

    impl<'a> Reader<'a> {
        fn new(bytes: &'a [u8], build: Build, names: u32) -> Reader<'a> {
            Reader { bytes, at: 0, build, names, factory: FormulaFactory::default_factory() }
        }

        fn byte(&mut self) -> Result<u8, Silent> {
            let byte = *self.bytes.get(self.at).ok_or(Silent::Malformed)?;
            self.at += 1;
            Ok(byte)
        }

        fn two(&mut self) -> Result<u16, Silent> {
            Ok(u16::from_le_bytes([self.byte()?, self.byte()?]))
        }

        fn name(&mut self) -> Result<String, Silent> {
            let name = self.two()?;
            if u32::from(name) >= self.names {
                return Err(Silent::Malformed);
            }
            Ok(format!("n{name}"))
        }

        /// An operator of a family in its numbers' order.
        fn operator<T: Copy>(&mut self, family: &[T]) -> Result<T, Silent> {
            let number = usize::from(self.byte()?);
            family.get(number).copied().ok_or(Silent::Malformed)
        }

        fn spelled(&mut self) -> Result<Spelled, Silent> {
            Ok(match self.byte()? {
                0x40 => Some(Type::Bool),
                0x41 => Some(Type::Int),
                0x42 => Some(Type::given(self.name()?)),
                0x43 => Some(Type::pow(self.ty()?)),
                0x44 => {
                    let left = self.ty()?;
                    Some(Type::prod(left, self.ty()?))
                }
                0x4F => None,
                _ => return Err(Silent::Malformed),
            })
        }

        fn ty(&mut self) -> Result<Type, Silent> {
            self.spelled()?.ok_or(Silent::Malformed)
        }

        /// The expression that spells a type, or one that spells none, at the record's place.
        fn spelling(&mut self) -> Result<Expression, Silent> {
            let span = span(self.at);
            Ok(match self.spelled()? {
                Some(ty) => self.type_expression(&ty, span),
                None => self.factory.integer_literal(0, span),
            })
        }

        fn type_expression(&self, ty: &Type, span: Option<Span>) -> Expression {
            let f = &self.factory;
            match ty {
                Type::Bool => f.atomic_expression(AtomicOp::Bool, span, None),
                Type::Int => f.atomic_expression(AtomicOp::Integer, span, None),
                Type::Given(name) => f.free_identifier(name.clone(), span, None),
                Type::Pow(base) => f.unary_expression(UnaryExprOp::Pow, self.type_expression(base, None), span),
                Type::Prod(left, right) => {
                    let left = self.type_expression(left, None);
                    let right = self.type_expression(right, None);
                    f.binary_expression(BinaryExprOp::CProd, left, right, span)
                }
                Type::Parametric { .. } => unreachable!("the byte forms have no type constructor"),
            }
        }

        fn expression(&mut self) -> Result<Expression, Silent> {
            let mut kind = self.byte()?;
            let mut explicit = None;
            if kind == 0x0C {
                explicit = Some(self.ty()?);
                kind = self.byte()?;
            }
            let place = span(self.at - 1);
            // With the bought factory only leaves take an explicit type, and an atom only one that fits.
            let offered = match self.build {
                Build::Exact => None,
                Build::Factory => explicit.clone(),
            };
            if offered.is_some() && !matches!(kind, 0x01 | 0x02 | 0x04) {
                return Err(Silent::Unbuildable);
            }
            let f = self.factory.clone();
            let node = match kind {
                0x01 => f.free_identifier(self.name()?, place, offered),
                0x02 => f.bound_identifier(u32::from(self.two()?), place, offered),
                0x03 => f.integer_literal(1, place),
                0x04 => {
                    let op = self.operator(&ATOMIC)?;
                    if offered.as_ref().is_some_and(|ty| !fits(op, ty)) {
                        return Err(Silent::Unbuildable);
                    }
                    f.atomic_expression(op, place, offered)
                }
                0x05 => {
                    let members = self.expressions(1)?;
                    f.set_extension(members, place)
                }
                0x06 => {
                    let predicate = self.predicate()?;
                    f.bool_expression(predicate, place)
                }
                0x07 => {
                    let op = self.operator(&BinaryExprOp::ALL)?;
                    let left = self.expression()?;
                    let right = self.expression()?;
                    f.binary_expression(op, left, right, place)
                }
                0x08 => {
                    let op = self.operator(&ASSOCIATIVE)?;
                    let children = self.expressions(2)?;
                    f.associative_expression(op, children, place)
                }
                0x09 => {
                    let op = self.operator(&UnaryExprOp::ALL)?;
                    let child = self.expression()?;
                    f.unary_expression(op, child, place)
                }
                0x0A => {
                    let op = self.operator(&QUANTIFIED)?;
                    let count = self.count()?;
                    let declarations = self.declarations(count)?;
                    let predicate = self.predicate()?;
                    let value = self.expression()?;
                    f.quantified_expression(op, declarations, predicate, value, place, Form::Explicit)
                }
                0x0B => {
                    let child = self.expression()?;
                    let spelling = self.spelling()?;
                    f.ascription(child, spelling, place)
                }
                _ => return Err(Silent::Malformed),
            };
            Ok(match self.build {
                Build::Exact => with_type(node, explicit),
                Build::Factory => node,
            })
        }

        /// A 2-byte count, at least `least`, and that many expressions.
        fn expressions(&mut self, least: u16) -> Result<Vec<Expression>, Silent> {
            let count = self.two()?;
            if count < least {
                return Err(Silent::Malformed);
            }
            (0..count).map(|_| self.expression()).collect()
        }

        /// A 1-byte count, at least 1.
        fn count(&mut self) -> Result<u8, Silent> {
            match self.byte()? {
                0 => Err(Silent::Malformed),
                count => Ok(count),
            }
        }

        fn declarations(&mut self, count: u8) -> Result<Vec<BoundIdentDecl>, Silent> {
            (0..count).map(|_| self.declaration()).collect()
        }

        fn declaration(&mut self) -> Result<BoundIdentDecl, Silent> {
            let place = span(self.at);
            let (annotation, ty) = match self.byte()? {
                0x10 => (None, None),
                0x11 => (None, Some(self.ty()?)),
                0x12 => (Some(self.spelling()?), None),
                _ => return Err(Silent::Malformed),
            };
            Ok(self.factory.bound_ident_decl("d", place, annotation, ty))
        }

        fn predicate(&mut self) -> Result<Predicate, Silent> {
            let place = span(self.at);
            let f = self.factory.clone();
            Ok(match self.byte()? {
                0x20 => f.literal_predicate(LiteralPredOp::BTrue, place),
                0x21 => f.predicate_variable("$P", place),
                0x22 => {
                    let op = self.operator(&RelationalOp::ALL)?;
                    let left = self.expression()?;
                    let right = self.expression()?;
                    f.relational_predicate(op, left, right, place)
                }
                0x23 => {
                    let left = self.predicate()?;
                    let right = self.predicate()?;
                    f.binary_predicate(BinaryPredOp::LImp, left, right, place)
                }
                0x24 => {
                    let count = self.two()?;
                    if count < 2 {
                        return Err(Silent::Malformed);
                    }
                    let children = (0..count).map(|_| self.predicate()).collect::<Result<_, _>>()?;
                    f.associative_predicate(AssocPredOp::LAnd, children, place)
                }
                0x25 => {
                    let child = self.predicate()?;
                    f.not_predicate(child, place)
                }
                0x26 => {
                    let count = self.count()?;
                    let declarations = self.declarations(count)?;
                    let predicate = self.predicate()?;
                    f.quantified_predicate(QuantPredOp::Forall, declarations, predicate, place)
                }
                0x27 => {
                    let child = self.expression()?;
                    f.simple_predicate(child, place)
                }
                0x28 => {
                    let children = self.expressions(1)?;
                    f.multiple_predicate(children, place)
                }
                0x29 => {
                    let arguments = self.expressions(0)?;
                    f.predicate_application("p", None, arguments, place)
                }
                _ => return Err(Silent::Malformed),
            })
        }

        fn target(&mut self) -> Result<Expression, Silent> {
            match self.bytes.get(self.at) {
                Some(0x01) => self.expression(),
                _ => Err(Silent::Malformed),
            }
        }

        fn targets(&mut self, count: u8) -> Result<Vec<Expression>, Silent> {
            (0..count).map(|_| self.target()).collect()
        }

        fn assignment(&mut self) -> Result<Assignment, Silent> {
            let place = span(self.at);
            let f = self.factory.clone();
            let kind = self.byte()?;
            let count = self.count()?;
            Ok(match kind {
                0x30 => {
                    let (mut targets, mut values) = (Vec::new(), Vec::new());
                    for _ in 0..count {
                        targets.push(self.target()?);
                        values.push(self.expression()?);
                    }
                    f.becomes_equal_to(targets, values, place)
                }
                0x31 => {
                    let targets = self.targets(count)?;
                    let set = self.expression()?;
                    f.becomes_member_of(targets, set, place)
                }
                0x32 => {
                    let targets = self.targets(count)?;
                    let primed = self.declarations(count)?;
                    let predicate = self.predicate()?;
                    f.becomes_such_that(targets, primed, predicate, place)
                }
                _ => return Err(Silent::Malformed),
            })
        }

        fn environment(&mut self) -> Result<SealedTypeEnvironment, Silent> {
            let mut environment = TypeEnvironmentBuilder::new();
            while self.at < self.bytes.len() {
                if self.byte()? != 0x50 {
                    return Err(Silent::Malformed);
                }
                let name = self.name()?;
                if environment.contains(&name) {
                    return Err(Silent::Malformed);
                }
                let ty = self.ty()?;
                environment.insert(name, ty);
            }
            Ok(environment.into_snapshot())
        }

        /// The value, if nothing is left over.
        fn whole<T>(&self, value: T) -> Result<T, Silent> {
            if self.at == self.bytes.len() { Ok(value) } else { Err(Silent::Malformed) }
        }
    }

    /// A record's place as a span.
    fn span(place: usize) -> Option<Span> {
        Some(Span { start: place, end: place })
    }

    /// Whether the type fits the atom: the bought factory panics on one that does not, so it is asked first.
    fn fits(op: AtomicOp, ty: &Type) -> bool {
        let pair = || Some((ty.source()?, ty.target()?));
        match op {
            AtomicOp::Integer | AtomicOp::Natural | AtomicOp::Natural1 => *ty == Type::pow(Type::Int),
            AtomicOp::Bool => *ty == Type::pow(Type::Bool),
            AtomicOp::True | AtomicOp::False => *ty == Type::Bool,
            AtomicOp::KPred | AtomicOp::KSucc => *ty == Type::relation(Type::Int, Type::Int),
            AtomicOp::EmptySet => ty.base_type().is_some(),
            AtomicOp::KIdGen => pair().is_some_and(|(source, target)| source == target),
            AtomicOp::KPrj1Gen => {
                pair().is_some_and(|(source, target)| matches!(source, Type::Prod(left, _) if **left == *target))
            }
            AtomicOp::KPrj2Gen => {
                pair().is_some_and(|(source, target)| matches!(source, Type::Prod(_, right) if **right == *target))
            }
        }
    }

    // ---- to bytes ----

    fn number_of(name: &str) -> u16 {
        name.strip_prefix('n').and_then(|n| n.parse().ok()).expect("a name of the driver's own making")
    }

    fn put_type(out: &mut Vec<u8>, ty: &Type, number: &dyn Fn(&str) -> u16) {
        match ty {
            Type::Bool => out.push(0x40),
            Type::Int => out.push(0x41),
            Type::Given(name) => {
                out.push(0x42);
                out.extend(number(name).to_le_bytes());
            }
            Type::Pow(base) => {
                out.push(0x43);
                put_type(out, base, number);
            }
            Type::Prod(left, right) => {
                out.push(0x44);
                put_type(out, left, number);
                put_type(out, right, number);
            }
            Type::Parametric { .. } => unreachable!("the byte forms have no type constructor"),
        }
    }

    fn place_of(span: Option<Span>) -> u32 {
        span.expect("every node of the driver's has its place").start as u32
    }

    /// The slots of a typed formula, in the order of its walk.
    struct Slots(Vec<u8>);

    impl Slots {
        fn slot(&mut self, span: Option<Span>, ty: Option<&Type>) {
            self.0.push(0x51);
            self.0.extend(place_of(span).to_le_bytes());
            put_type(&mut self.0, ty.expect("a typed rebuild has every type"), &number_of);
        }

        fn expressions(&mut self, all: &[Expression]) {
            all.iter().for_each(|e| self.expression(e));
        }

        fn declarations(&mut self, all: &[BoundIdentDecl]) {
            all.iter().for_each(|d| self.slot(d.span(), d.ty()));
        }

        fn expression(&mut self, e: &Expression) {
            self.slot(e.span(), e.ty());
            match e.kind() {
                ExpressionKind::FreeIdentifier(_)
                | ExpressionKind::BoundIdentifier(_)
                | ExpressionKind::IntegerLiteral(_)
                | ExpressionKind::Atomic(_) => {}
                ExpressionKind::SetExtension(children) | ExpressionKind::Associative { children, .. } => {
                    self.expressions(children)
                }
                ExpressionKind::Bool(predicate) => self.predicate(predicate),
                ExpressionKind::Binary { left, right, .. } => {
                    self.expression(left);
                    self.expression(right);
                }
                ExpressionKind::Unary { child, .. } => self.expression(child),
                ExpressionKind::Quantified { decls, pred, expr, .. } => {
                    self.declarations(decls);
                    self.predicate(pred);
                    self.expression(expr);
                }
                ExpressionKind::Ascription { expr, .. } => self.expression(expr),
                ExpressionKind::Extended { .. } => unreachable!("the byte forms have no extension"),
            }
        }

        fn predicate(&mut self, p: &Predicate) {
            match p.kind() {
                PredicateKind::Literal(_) | PredicateKind::PredicateVariable(_) => {}
                PredicateKind::Relational { left, right, .. } => {
                    self.expression(left);
                    self.expression(right);
                }
                PredicateKind::Binary { left, right, .. } => {
                    self.predicate(left);
                    self.predicate(right);
                }
                PredicateKind::Associative { children, .. } => children.iter().for_each(|c| self.predicate(c)),
                PredicateKind::Not(child) => self.predicate(child),
                PredicateKind::Quantified { decls, pred, .. } => {
                    self.declarations(decls);
                    self.predicate(pred);
                }
                PredicateKind::Simple(child) => self.expression(child),
                PredicateKind::Multiple(children) => self.expressions(children),
                PredicateKind::Application { args, .. } => self.expressions(args),
                PredicateKind::Extended { .. } => unreachable!("the byte forms have no extension"),
            }
        }

        fn assignment(&mut self, a: &Assignment) {
            match a.kind() {
                AssignmentKind::BecomesEqualTo { idents, values } => {
                    for (target, value) in idents.iter().zip(values) {
                        self.expression(target);
                        self.expression(value);
                    }
                }
                AssignmentKind::BecomesMemberOf { idents, set } => {
                    self.expressions(idents);
                    self.expression(set);
                }
                AssignmentKind::BecomesSuchThat { idents, primed, pred } => {
                    self.expressions(idents);
                    self.declarations(primed);
                    self.predicate(pred);
                }
            }
        }
    }

    fn answer<T>(result: TypeCheckResult<T>, slots: impl FnOnce(&mut Slots, &T)) -> Answer {
        let mut output = Vec::new();
        let Some(typed) = &result.typed else {
            for problem in &result.problems {
                let (number, name) = match &problem.kind {
                    ProblemKind::TypesDoNotMatch => (0, 0xFFFF),
                    ProblemKind::Circularity => (1, 0xFFFF),
                    ProblemKind::UntypedExpression => (2, 0xFFFF),
                    ProblemKind::UntypedIdentifier(name) => (3, number_of(name)),
                    ProblemKind::DanglingBoundIdentifier => (4, 0xFFFF),
                    ProblemKind::UncheckableApplication => (5, 0xFFFF),
                };
                output.extend([0x60, number]);
                output.extend(place_of(problem.span).to_le_bytes());
                output.extend(u16::to_le_bytes(name));
            }
            assert!(!output.is_empty() && result.inferred.is_empty(), "problems and nothing inferred");
            return Answer { number: 1, output };
        };
        for (name, ty) in result.inferred.iter() {
            output.push(0x50);
            output.extend(number_of(name).to_le_bytes());
            put_type(&mut output, ty, &number_of);
        }
        let mut all = Slots(output);
        slots(&mut all, typed);
        Answer { number: 0, output: all.0 }
    }

    // ---- the three questions ----

    /// A formula of the bought checker's own.
    #[derive(Debug, Clone)]
    pub enum Built {
        Expression(Expression),
        Predicate(Predicate),
        Assignment(Assignment),
    }

    pub fn formula(build: Build, formula: &[u8], names: u32) -> Result<Built, Silent> {
        let mut reader = Reader::new(formula, build, names);
        let built = match formula.first() {
            Some(0x01..=0x0C) => Built::Expression(reader.expression()?),
            Some(0x20..=0x29) => Built::Predicate(reader.predicate()?),
            Some(0x30..=0x32) => Built::Assignment(reader.assignment()?),
            _ => return Err(Silent::Malformed),
        };
        reader.whole(built)
    }

    pub fn environment(build: Build, environment: &[u8], names: u32) -> Result<SealedTypeEnvironment, Silent> {
        Reader::new(environment, build, names).environment()
    }

    pub fn infer(build: Build, formula: &[u8], environment: &[u8], names: u32) -> Result<Answer, Silent> {
        let environment = self::environment(build, environment, names)?;
        Ok(match self::formula(build, formula, names)? {
            Built::Expression(e) => answer(e.type_check(&environment), |slots, typed| slots.expression(typed)),
            Built::Predicate(p) => answer(p.type_check(&environment), |slots, typed| slots.predicate(typed)),
            Built::Assignment(a) => answer(a.type_check(&environment), |slots, typed| slots.assignment(typed)),
        })
    }

    pub fn read_text(text: &[u8], table: &[u8]) -> Result<Option<Vec<u8>>, Silent> {
        let names = table_names(table).ok_or(Silent::Malformed)?;
        let text = std::str::from_utf8(text).map_err(|_| Silent::Malformed)?;
        let Some(ty) = Type::parse_rodin(text) else { return Ok(None) };
        let mut givens = Vec::new();
        ty.collect_given_sets(&mut givens);
        if givens.iter().any(|word| !names.contains(&word.as_str())) {
            return Ok(None);
        }
        let mut record = Vec::new();
        put_type(&mut record, &ty, &|word| names.iter().position(|name| *name == word).unwrap() as u16);
        Ok(Some(record))
    }

    pub fn write_text(record: &[u8], table: &[u8]) -> Result<Vec<u8>, Silent> {
        let names = table_names(table).ok_or(Silent::Malformed)?;
        let mut reader = Reader::new(record, Build::Exact, names.len() as u32);
        let ty = reader.ty()?;
        let ty = reader.whole(ty)?;
        Ok(named(&ty, &names)?.to_rodin_canonical().into_bytes())
    }

    pub fn read_freely(text: &str) -> Result<Option<String>, Silent> {
        Ok(Type::parse_rodin(text).map(|ty| format!("{ty:?}")))
    }

    /// The type with the table's words for the driver's own names.
    fn named(ty: &Type, names: &[&str]) -> Result<Type, Silent> {
        Ok(match ty {
            Type::Given(name) => {
                let word = names.get(usize::from(number_of(name))).ok_or(Silent::Malformed)?;
                Type::given(*word)
            }
            Type::Pow(base) => Type::pow(named(base, names)?),
            Type::Prod(left, right) => Type::prod(named(left, names)?, named(right, names)?),
            other => other.clone(),
        })
    }
}

/// The bought formula and the bought environment that well-formed bytes stand for.
#[cfg(bought)]
pub use sides::{Built, environment, formula};

/// The bought checker's answer to a well-formed formula under a well-formed environment, with so many names.
pub fn infer(build: Build, formula: &[u8], environment: &[u8], names: u32) -> Result<Answer, Silent> {
    sides::infer(build, formula, environment, names)
}

/// The type record that the bought `parse_canonical` reads, or none where it declines the text or reads a word outside the
/// table. Malformed: a table that is none, a text that is no UTF-8.
pub fn read_text(text: &[u8], table: &[u8]) -> Result<Option<Vec<u8>>, Silent> {
    sides::read_text(text, table)
}

/// The text that the bought `to_rodin_canonical` writes for a type record.
pub fn write_text(record: &[u8], table: &[u8]) -> Result<Vec<u8>, Silent> {
    sides::write_text(record, table)
}

/// What the bought reader reads a text as, under no table: its type as Rust shows it.
pub fn read_freely(text: &str) -> Result<Option<String>, Silent> {
    sides::read_freely(text)
}
