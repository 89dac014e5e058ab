//! From the bought formulas to the byte forms.

use std::fmt;

use bought::ast::Span;
use bought::formula::tag::{AssocExprOp, AtomicOp, QuantExprOp};
use bought::formula::typecheck::type_from_expression;
use bought::formula::{
    Assignment, AssignmentKind, BoundIdentDecl, Expression, ExpressionKind, Predicate, PredicateKind,
    SealedTypeEnvironment, Type,
};
use workbench::{Names, Refusal};

/// Which types on nodes are compared.
///
/// The bought factory gives a compound of typed parts a synthesised type, and the bought checker compares every such type. Where
/// every type that a caller gave holds, these comparisons change nothing. Where one clashes, they can list further problems at the compounds
/// above it.
#[derive(Debug, Clone, Copy, PartialEq, Eq, Default)]
pub enum Explicit {
    /// The types that a caller can give: those of identifiers and of `∅`, `id`, `prj1` and `prj2`. A clash is listed once, where it is.
    #[default]
    Given,
    /// Every type that a node has, as the bought checker does: the same problems in every case. Each type takes a level of the 64
    /// that a formula may be deep.
    All,
}

/// Why there is no answer.
#[derive(Debug, Clone, PartialEq, Eq)]
pub enum Unanswered {
    /// The formula has an operator of an extension.
    Extension,
    /// A type has a constructor of an extension.
    TypeConstructor,
    /// A target of an assignment has a type that its entry in the environment does not have. The byte forms have no place for it.
    TypedTarget(String),
    /// The checker refused.
    Refused(Refusal),
}

impl fmt::Display for Unanswered {
    fn fmt(&self, f: &mut fmt::Formatter<'_>) -> fmt::Result {
        match self {
            Unanswered::Extension => f.write_str("the formula has an operator of an extension"),
            Unanswered::TypeConstructor => f.write_str("a type has a constructor of an extension"),
            Unanswered::TypedTarget(name) => {
                write!(f, "the target {name} has a type that the environment does not give it")
            }
            Unanswered::Refused(refusal) => refusal.fmt(f),
        }
    }
}

impl std::error::Error for Unanswered {}

/// A formula of the bought crate.
pub trait Formula {
    /// Writes the formula's record.
    #[doc(hidden)]
    fn put(&self, writer: &mut Writer<'_>) -> Result<(), Unanswered>;
}

/// A formula and an environment in their byte forms.
#[derive(Debug, Clone)]
pub struct Question {
    /// The formula.
    pub formula: Vec<u8>,
    /// The entries of the names that the formula, or a type of it, or an entry itself speaks of.
    pub environment: Vec<u8>,
    /// What the numbers of names stand for.
    pub names: Names,
    /// Records' places and spans, by place.
    spans: Vec<(usize, Option<Span>)>,
}

impl Question {
    /// The byte forms of a formula and of as much of an environment as matters to it.
    pub fn new<F: Formula + ?Sized>(
        formula: &F,
        environment: &SealedTypeEnvironment,
        explicit: Explicit,
    ) -> Result<Question, Unanswered> {
        let mut writer = Writer { bytes: Vec::new(), names: Names::new(), spans: Vec::new(), environment, explicit };
        formula.put(&mut writer)?;
        let Writer { bytes, mut names, spans, .. } = writer;
        // Entries can speak of further names; each is asked for once.
        let mut entries = Vec::new();
        let mut number = 0;
        while let Some(name) = names.name(number).map(str::to_owned) {
            if let Some(ty) = environment.get(&name) {
                entries.push(0x50);
                entries.extend(number.to_le_bytes());
                put_type(ty, &mut names, &mut entries)?;
            }
            number += 1;
        }
        Ok(Question { formula: bytes, environment: entries, names, spans })
    }

    /// The span of the node whose record is at a place.
    pub fn span(&self, place: usize) -> Option<Span> {
        let index = self.spans.binary_search_by_key(&place, |(at, _)| *at).ok()?;
        self.spans[index].1
    }
}

/// Writes byte forms and keeps the spans of what it writes.
#[doc(hidden)]
pub struct Writer<'a> {
    bytes: Vec<u8>,
    names: Names,
    spans: Vec<(usize, Option<Span>)>,
    environment: &'a SealedTypeEnvironment,
    explicit: Explicit,
}

fn put_type(ty: &Type, names: &mut Names, out: &mut Vec<u8>) -> Result<(), Unanswered> {
    match ty {
        Type::Bool => out.push(0x40),
        Type::Int => out.push(0x41),
        Type::Given(name) => {
            out.push(0x42);
            out.extend(names.add(name).to_le_bytes());
        }
        Type::Pow(base) => {
            out.push(0x43);
            put_type(base, names, out)?;
        }
        Type::Prod(left, right) => {
            out.push(0x44);
            put_type(left, names, out)?;
            put_type(right, names, out)?;
        }
        Type::Parametric { .. } => return Err(Unanswered::TypeConstructor),
    }
    Ok(())
}

fn atomic_number(op: AtomicOp) -> u8 {
    match op {
        AtomicOp::Integer => 0,
        AtomicOp::Natural => 1,
        AtomicOp::Natural1 => 2,
        AtomicOp::Bool => 3,
        AtomicOp::True => 4,
        AtomicOp::False => 5,
        AtomicOp::KPred => 6,
        AtomicOp::KSucc => 7,
        AtomicOp::EmptySet => 8,
        AtomicOp::KIdGen => 9,
        AtomicOp::KPrj1Gen => 10,
        AtomicOp::KPrj2Gen => 11,
    }
}

/// The type of an atom that has only one.
fn fixed_type(op: AtomicOp) -> Type {
    match op {
        AtomicOp::Integer | AtomicOp::Natural | AtomicOp::Natural1 => Type::pow(Type::Int),
        AtomicOp::Bool => Type::pow(Type::Bool),
        AtomicOp::True | AtomicOp::False => Type::Bool,
        AtomicOp::KPred | AtomicOp::KSucc => Type::relation(Type::Int, Type::Int),
        AtomicOp::EmptySet | AtomicOp::KIdGen | AtomicOp::KPrj1Gen | AtomicOp::KPrj2Gen => unreachable!("generic"),
    }
}

fn associative_number(op: AssocExprOp) -> u8 {
    match op {
        AssocExprOp::BUnion => 0,
        AssocExprOp::BInter => 1,
        AssocExprOp::Ovr => 2,
        AssocExprOp::FComp => 3,
        AssocExprOp::BComp => 4,
        AssocExprOp::Plus => 5,
        AssocExprOp::Mul => 6,
    }
}

fn quantified_number(op: QuantExprOp) -> u8 {
    match op {
        QuantExprOp::QUnion => 0,
        QuantExprOp::QInter => 1,
        QuantExprOp::CSet => 2,
    }
}

/// The number of an operator whose family has the byte forms' order.
fn place_in<T: PartialEq>(family: &[T], op: T) -> u8 {
    family.iter().position(|other| *other == op).expect("a family has all its operators") as u8
}

impl Writer<'_> {
    /// A record starts here.
    fn start(&mut self, kind: u8, span: Option<Span>) {
        self.spans.push((self.bytes.len(), span));
        self.bytes.push(kind);
    }

    fn ty(&mut self, ty: &Type) -> Result<(), Unanswered> {
        put_type(ty, &mut self.names, &mut self.bytes)
    }

    // A count that its record cannot hold belongs to a formula that is refused for its size or its open declarations anyway.

    fn two(&mut self, count: usize) {
        self.bytes.extend(u16::try_from(count).unwrap_or(u16::MAX).to_le_bytes());
    }

    fn one(&mut self, count: usize) {
        self.bytes.push(u8::try_from(count).unwrap_or(u8::MAX));
    }

    /// The type that an expression spells, or that it spells none.
    fn spelling(&mut self, spelled: &Expression) -> Result<(), Unanswered> {
        self.spans.push((self.bytes.len(), spelled.span()));
        match type_from_expression(spelled) {
            Some(ty) => self.ty(&ty),
            None => {
                self.bytes.push(0x4F);
                Ok(())
            }
        }
    }

    /// The type on a node that is to be compared.
    fn explicit<'e>(&self, e: &'e Expression) -> Option<&'e Type> {
        let ty = e.ty()?;
        let compared = match e.kind() {
            ExpressionKind::FreeIdentifier(_) | ExpressionKind::BoundIdentifier(_) => true,
            ExpressionKind::Atomic(AtomicOp::EmptySet | AtomicOp::KIdGen | AtomicOp::KPrj1Gen | AtomicOp::KPrj2Gen) => {
                true
            }
            // These have the one type that they can have, unless someone reached into the node.
            ExpressionKind::IntegerLiteral(_) => self.explicit == Explicit::All && *ty != Type::Int,
            ExpressionKind::Bool(_) => self.explicit == Explicit::All && *ty != Type::Bool,
            ExpressionKind::Atomic(op) => self.explicit == Explicit::All && *ty != fixed_type(*op),
            _ => self.explicit == Explicit::All,
        };
        compared.then_some(ty)
    }

    fn expressions(&mut self, all: &[Expression]) -> Result<(), Unanswered> {
        self.two(all.len());
        all.iter().try_for_each(|e| self.expression(e))
    }

    fn declarations(&mut self, all: &[BoundIdentDecl]) -> Result<(), Unanswered> {
        all.iter().try_for_each(|d| self.declaration(d))
    }

    fn declaration(&mut self, d: &BoundIdentDecl) -> Result<(), Unanswered> {
        match (d.ty(), d.annotation()) {
            (Some(ty), _) => {
                self.start(0x11, d.span());
                self.ty(ty)
            }
            (None, Some(annotation)) => {
                self.start(0x12, d.span());
                self.spelling(annotation)
            }
            (None, None) => {
                self.start(0x10, d.span());
                Ok(())
            }
        }
    }

    fn expression(&mut self, e: &Expression) -> Result<(), Unanswered> {
        if let Some(ty) = self.explicit(e) {
            self.bytes.push(0x0C);
            self.ty(ty)?;
        }
        let span = e.span();
        match e.kind() {
            ExpressionKind::FreeIdentifier(name) => {
                self.start(0x01, span);
                let number = self.names.add(name);
                self.bytes.extend(number.to_le_bytes());
                Ok(())
            }
            ExpressionKind::BoundIdentifier(index) => {
                self.start(0x02, span);
                // An index that its record cannot hold dangles, as the largest that it can hold does.
                self.two(*index as usize);
                Ok(())
            }
            ExpressionKind::IntegerLiteral(_) => {
                self.start(0x03, span);
                Ok(())
            }
            ExpressionKind::Atomic(op) => {
                self.start(0x04, span);
                self.bytes.push(atomic_number(*op));
                Ok(())
            }
            ExpressionKind::SetExtension(members) => {
                self.start(0x05, span);
                self.expressions(members)
            }
            ExpressionKind::Bool(predicate) => {
                self.start(0x06, span);
                self.predicate(predicate)
            }
            ExpressionKind::Binary { op, left, right } => {
                self.start(0x07, span);
                self.bytes.push(place_in(&bought::formula::tag::BinaryExprOp::ALL, *op));
                self.expression(left)?;
                self.expression(right)
            }
            ExpressionKind::Associative { op, children } => {
                self.start(0x08, span);
                self.bytes.push(associative_number(*op));
                self.expressions(children)
            }
            ExpressionKind::Unary { op, child } => {
                self.start(0x09, span);
                self.bytes.push(place_in(&bought::formula::tag::UnaryExprOp::ALL, *op));
                self.expression(child)
            }
            ExpressionKind::Quantified { op, decls, pred, expr, .. } => {
                self.start(0x0A, span);
                self.bytes.push(quantified_number(*op));
                self.one(decls.len());
                self.declarations(decls)?;
                self.predicate(pred)?;
                self.expression(expr)
            }
            ExpressionKind::Ascription { expr, type_expr } => {
                self.start(0x0B, span);
                self.expression(expr)?;
                self.spelling(type_expr)
            }
            ExpressionKind::Extended { .. } => Err(Unanswered::Extension),
        }
    }

    fn predicate(&mut self, p: &Predicate) -> Result<(), Unanswered> {
        let span = p.span();
        match p.kind() {
            PredicateKind::Literal(_) => {
                self.start(0x20, span);
                Ok(())
            }
            PredicateKind::PredicateVariable(_) => {
                self.start(0x21, span);
                Ok(())
            }
            PredicateKind::Relational { op, left, right } => {
                self.start(0x22, span);
                self.bytes.push(place_in(&bought::formula::tag::RelationalOp::ALL, *op));
                self.expression(left)?;
                self.expression(right)
            }
            PredicateKind::Binary { left, right, .. } => {
                self.start(0x23, span);
                self.predicate(left)?;
                self.predicate(right)
            }
            PredicateKind::Associative { children, .. } => {
                self.start(0x24, span);
                self.two(children.len());
                children.iter().try_for_each(|child| self.predicate(child))
            }
            PredicateKind::Not(child) => {
                self.start(0x25, span);
                self.predicate(child)
            }
            PredicateKind::Quantified { decls, pred, .. } => {
                self.start(0x26, span);
                self.one(decls.len());
                self.declarations(decls)?;
                self.predicate(pred)
            }
            PredicateKind::Simple(child) => {
                self.start(0x27, span);
                self.expression(child)
            }
            PredicateKind::Multiple(children) => {
                self.start(0x28, span);
                self.expressions(children)
            }
            PredicateKind::Application { args, .. } => {
                self.start(0x29, span);
                self.expressions(args)
            }
            PredicateKind::Extended { .. } => Err(Unanswered::Extension),
        }
    }

    /// A target has no explicit type in the byte forms. One that the environment's entry has already says nothing new.
    fn target(&mut self, e: &Expression) -> Result<(), Unanswered> {
        let ExpressionKind::FreeIdentifier(name) = e.kind() else {
            unreachable!("the bought factory takes only free identifiers for targets")
        };
        if e.ty().is_some_and(|ty| self.environment.get(name) != Some(ty)) {
            return Err(Unanswered::TypedTarget(name.clone()));
        }
        self.start(0x01, e.span());
        let number = self.names.add(name);
        self.bytes.extend(number.to_le_bytes());
        Ok(())
    }

    fn assignment(&mut self, a: &Assignment) -> Result<(), Unanswered> {
        let span = a.span();
        match a.kind() {
            AssignmentKind::BecomesEqualTo { idents, values } => {
                self.start(0x30, span);
                self.one(idents.len());
                for (target, value) in idents.iter().zip(values) {
                    self.target(target)?;
                    self.expression(value)?;
                }
                Ok(())
            }
            AssignmentKind::BecomesMemberOf { idents, set } => {
                self.start(0x31, span);
                self.one(idents.len());
                idents.iter().try_for_each(|target| self.target(target))?;
                self.expression(set)
            }
            AssignmentKind::BecomesSuchThat { idents, primed, pred } => {
                self.start(0x32, span);
                self.one(idents.len());
                idents.iter().try_for_each(|target| self.target(target))?;
                self.declarations(primed)?;
                self.predicate(pred)
            }
        }
    }
}

impl Formula for Expression {
    fn put(&self, writer: &mut Writer<'_>) -> Result<(), Unanswered> {
        writer.expression(self)
    }
}

impl Formula for Predicate {
    fn put(&self, writer: &mut Writer<'_>) -> Result<(), Unanswered> {
        writer.predicate(self)
    }
}

impl Formula for Assignment {
    fn put(&self, writer: &mut Writer<'_>) -> Result<(), Unanswered> {
        writer.assignment(self)
    }
}
