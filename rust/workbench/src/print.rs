//! Formulas as people write them. Operators that are written in a private alphabet appear in their ASCII form.

use std::fmt::{self, Display, Formatter};

use crate::formula::{
    Assignment, BinaryOperator, Declaration, DeclaredType, Expression, Formula, Predicate, QuantifiedOperator,
    Spelling, UnaryOperator,
};

/// Writes the parts with a separator between them.
fn row<T: Display>(f: &mut Formatter<'_>, parts: impl IntoIterator<Item = T>, separator: &str) -> fmt::Result {
    for (index, part) in parts.into_iter().enumerate() {
        if index > 0 {
            f.write_str(separator)?;
        }
        write!(f, "{part}")?;
    }
    Ok(())
}

/// A part under an operator: in brackets where it has an operator of its own that stands between or in front of its parts.
struct Operand<'a>(&'a Expression);

impl Display for Operand<'_> {
    fn fmt(&self, f: &mut Formatter<'_>) -> fmt::Result {
        let Operand(e) = self;
        let closed = match e {
            Expression::Binary(operator, ..) => matches!(operator, BinaryOperator::Application | BinaryOperator::Image),
            Expression::Unary(operator, _) => *operator != UnaryOperator::Negative,
            Expression::Quantified(operator, ..) => *operator == QuantifiedOperator::Comprehension,
            Expression::Associative(..) | Expression::Ascription(..) => false,
            Expression::Typed(_, inner) => return Operand(inner).fmt(f),
            Expression::Literal(value) => value.is_none_or(|value| value >= 0),
            _ => true,
        };
        if closed { write!(f, "{e}") } else { write!(f, "({e})") }
    }
}

impl Display for Spelling {
    fn fmt(&self, f: &mut Formatter<'_>) -> fmt::Result {
        match self {
            Spelling::Type(ty) => ty.fmt(f),
            Spelling::NotAType => f.write_str("(not a type)"),
        }
    }
}

impl Display for Declaration {
    fn fmt(&self, f: &mut Formatter<'_>) -> fmt::Result {
        f.write_str(&self.name)?;
        match &self.given {
            DeclaredType::Plain => Ok(()),
            DeclaredType::Typed(ty) => write!(f, "⦂{ty}"),
            DeclaredType::Annotated(spelling) => write!(f, "⦂{spelling}"),
        }
    }
}

impl Display for Expression {
    fn fmt(&self, f: &mut Formatter<'_>) -> fmt::Result {
        match self {
            Expression::Name(name) => f.write_str(name),
            Expression::Bound(index) => write!(f, "bound {index}"),
            Expression::Literal(None) => f.write_str("#"),
            Expression::Literal(Some(value)) if *value < 0 => write!(f, "−{}", value.unsigned_abs()),
            Expression::Literal(Some(value)) => value.fmt(f),
            Expression::Atom(atom) => f.write_str(atom.symbol()),
            Expression::Set(members) => {
                f.write_str("{")?;
                row(f, members, ", ")?;
                f.write_str("}")
            }
            Expression::Bool(predicate) => write!(f, "bool({predicate})"),
            Expression::Binary(BinaryOperator::Application, left, right) => write!(f, "{}({right})", Operand(left)),
            Expression::Binary(BinaryOperator::Image, left, right) => write!(f, "{}[{right}]", Operand(left)),
            Expression::Binary(operator, left, right) => {
                write!(f, "{} {} {}", Operand(left), operator.symbol(), Operand(right))
            }
            Expression::Associative(operator, parts) => {
                row(f, parts.iter().map(Operand), &format!(" {} ", operator.symbol()))
            }
            Expression::Unary(UnaryOperator::Converse, part) => write!(f, "{}∼", Operand(part)),
            Expression::Unary(UnaryOperator::Negative, part) => write!(f, "−{}", Operand(part)),
            Expression::Unary(operator, part) => write!(f, "{}({part})", operator.symbol()),
            Expression::Quantified(operator, declared, predicate, value) => {
                let comprehension = *operator == QuantifiedOperator::Comprehension;
                f.write_str(if comprehension { "{" } else { operator.symbol() })?;
                row(f, declared, ",")?;
                write!(f, "·{predicate} ∣ {value}")?;
                if comprehension { f.write_str("}") } else { Ok(()) }
            }
            Expression::Ascription(inner, spelling) => write!(f, "{} ⦂ {spelling}", Operand(inner)),
            Expression::Typed(_, inner) => inner.fmt(f),
        }
    }
}

/// How tightly a predicate's operator holds.
fn level(p: &Predicate) -> u8 {
    match p {
        Predicate::ForAll(..) | Predicate::Exists(..) => 0,
        Predicate::Implies(..) | Predicate::Equivalent(..) => 1,
        Predicate::And(..) | Predicate::Or(..) => 2,
        _ => 3,
    }
}

/// A predicate under an operator: in brackets unless its own holds more tightly.
struct Under<'a>(u8, &'a Predicate);

impl Display for Under<'_> {
    fn fmt(&self, f: &mut Formatter<'_>) -> fmt::Result {
        let Under(outer, p) = self;
        if level(p) > *outer { write!(f, "{p}") } else { write!(f, "({p})") }
    }
}

impl Display for Predicate {
    fn fmt(&self, f: &mut Formatter<'_>) -> fmt::Result {
        let under = |p| Under(level(self), p);
        match self {
            Predicate::Literal(value) => f.write_str(if *value { "⊤" } else { "⊥" }),
            Predicate::Variable(name) => f.write_str(name),
            Predicate::Relational(operator, left, right) => write!(f, "{left} {} {right}", operator.symbol()),
            Predicate::Implies(left, right) => write!(f, "{} ⇒ {}", under(left), under(right)),
            Predicate::Equivalent(left, right) => write!(f, "{} ⇔ {}", under(left), under(right)),
            Predicate::And(parts) => row(f, parts.iter().map(under), " ∧ "),
            Predicate::Or(parts) => row(f, parts.iter().map(under), " ∨ "),
            Predicate::Not(part) => write!(f, "¬({part})"),
            Predicate::ForAll(declared, body) => {
                f.write_str("∀")?;
                row(f, declared, ",")?;
                write!(f, "·{body}")
            }
            Predicate::Exists(declared, body) => {
                f.write_str("∃")?;
                row(f, declared, ",")?;
                write!(f, "·{body}")
            }
            Predicate::Finite(set) => write!(f, "finite({set})"),
            Predicate::Partition(sets) => {
                f.write_str("partition(")?;
                row(f, sets, ", ")?;
                f.write_str(")")
            }
            Predicate::Application(name, arguments) => {
                write!(f, "{name}(")?;
                row(f, arguments, ", ")?;
                f.write_str(")")
            }
        }
    }
}

impl Display for Assignment {
    fn fmt(&self, f: &mut Formatter<'_>) -> fmt::Result {
        match self {
            Assignment::BecomesEqualTo(pairs) => {
                row(f, pairs.iter().map(|(target, _)| target), ", ")?;
                f.write_str(" ≔ ")?;
                row(f, pairs.iter().map(|(_, value)| value), ", ")
            }
            Assignment::BecomesMemberOf(targets, set) => {
                row(f, targets, ", ")?;
                write!(f, " :∈ {set}")
            }
            Assignment::BecomesSuchThat(targets, predicate) => {
                row(f, targets.iter().map(|(target, _)| target), ", ")?;
                write!(f, " :∣ {predicate}")
            }
        }
    }
}

impl Display for Formula {
    fn fmt(&self, f: &mut Formatter<'_>) -> fmt::Result {
        match self {
            Formula::Expression(expression) => expression.fmt(f),
            Formula::Predicate(predicate) => predicate.fmt(f),
            Formula::Assignment(assignment) => assignment.fmt(f),
        }
    }
}
