//! Reading a formula's bytes back, to show it.

use crate::formula::{
    Assignment, AssociativeOperator, Atom, BinaryOperator, Declaration, DeclaredType, Expression, Formula, Predicate,
    QuantifiedOperator, RelationalOperator, Spelling, UnaryOperator,
};
use crate::types::{Names, Type};

/// Deeper records than this are refused by every entry.
const DEPTH: usize = 64;

impl Formula {
    /// The formula that bytes spell, with names by their numbers in the row; none where the bytes are no formula or pass the depth of 64.
    /// It is for showing: whether bytes are taken is the checker's to say.
    ///
    /// The byte forms do not keep everything that people write. An integer literal comes back without its value, printed `#`;
    /// `⊥` as `⊤`, `⇔` as `⇒`, `∨` as `∧`, `∃` as `∀`; and declared names as `v1`, `v2` and so on.
    ///
    /// ```
    /// use workbench::{Formula, Names, for_all, literal, name};
    ///
    /// let mut names = Names::new();
    /// let bytes = Formula::from(for_all(["t"], name("f").of("t").equals(literal(1)))).bytes(&mut names);
    /// let read = Formula::read(&bytes, &names).unwrap();
    /// assert_eq!(read.to_string(), "∀v1·f(v1) = #");
    /// assert_eq!(read.bytes(&mut names), bytes);
    /// assert_eq!(Formula::read(&bytes[1..], &names), None);
    /// ```
    pub fn read(bytes: &[u8], names: &Names) -> Option<Formula> {
        let mut reader = Reader { rest: bytes, names, open: Vec::new(), declared: 0, left: DEPTH + 1 };
        let formula = match bytes.first()? {
            0x01..=0x0C => Formula::Expression(reader.expression()?),
            0x20..=0x29 => Formula::Predicate(reader.predicate()?),
            _ => Formula::Assignment(reader.assignment()?),
        };
        reader.rest.is_empty().then_some(formula)
    }
}

struct Reader<'a> {
    rest: &'a [u8],
    names: &'a Names,
    /// The declarations around what is being read, the innermost last.
    open: Vec<String>,
    /// How many declarations were named so far.
    declared: usize,
    /// How many levels of records are left.
    left: usize,
}

impl Reader<'_> {
    fn byte(&mut self) -> Option<u8> {
        let (byte, rest) = self.rest.split_first()?;
        self.rest = rest;
        Some(*byte)
    }

    fn two(&mut self) -> Option<u16> {
        Some(u16::from_le_bytes([self.byte()?, self.byte()?]))
    }

    fn name(&mut self) -> Option<String> {
        let number = self.two()?;
        self.names.name(number).map(str::to_owned)
    }

    fn operator<T: Copy>(&mut self, family: &[T]) -> Option<T> {
        family.get(usize::from(self.byte()?)).copied()
    }

    /// One level deeper.
    fn below<T>(&mut self, part: impl FnOnce(&mut Self) -> Option<T>) -> Option<T> {
        self.left = self.left.checked_sub(1)?;
        let read = part(self);
        self.left += 1;
        read
    }

    fn ty(&mut self) -> Option<Type> {
        match self.spelling()? {
            Spelling::Type(ty) => Some(ty),
            Spelling::NotAType => None,
        }
    }

    fn spelling(&mut self) -> Option<Spelling> {
        self.below(|r| {
            Some(Spelling::Type(match r.byte()? {
                0x40 => Type::Bool,
                0x41 => Type::Int,
                0x42 => Type::Given(r.name()?),
                0x43 => Type::power(r.ty()?),
                0x44 => {
                    let left = r.ty()?;
                    Type::product(left, r.ty()?)
                }
                0x4F => return Some(Spelling::NotAType),
                _ => return None,
            }))
        })
    }

    fn declaration(&mut self) -> Option<Declaration> {
        self.below(|r| {
            let given = match r.byte()? {
                0x10 => DeclaredType::Plain,
                0x11 => DeclaredType::Typed(r.ty()?),
                0x12 => DeclaredType::Annotated(r.spelling()?),
                _ => return None,
            };
            let name = loop {
                r.declared += 1;
                let name = format!("v{}", r.declared);
                if r.names.number(&name).is_none() {
                    break name;
                }
            };
            Some(Declaration { name, given })
        })
    }

    /// So many declarations, and what they bind.
    fn under<T>(&mut self, count: u8, part: impl FnOnce(&mut Self) -> Option<T>) -> Option<(Vec<Declaration>, T)> {
        let declared: Vec<Declaration> = (0..count).map(|_| self.declaration()).collect::<Option<_>>()?;
        let before = self.open.len();
        self.open.extend(declared.iter().map(|d| d.name.clone()));
        let part = part(self);
        self.open.truncate(before);
        Some((declared, part?))
    }

    /// A count of at least so many, and that many expressions.
    fn expressions(&mut self, least: u16) -> Option<Vec<Expression>> {
        let count = self.two().filter(|count| *count >= least)?;
        (0..count).map(|_| self.expression()).collect()
    }

    fn small_count(&mut self) -> Option<u8> {
        self.byte().filter(|count| *count > 0)
    }

    fn expression(&mut self) -> Option<Expression> {
        self.below(|r| {
            Some(match r.byte()? {
                0x01 => Expression::Name(r.name()?),
                0x02 => {
                    let index = r.two()?;
                    match r.open.iter().rev().nth(usize::from(index)) {
                        Some(name) => Expression::Name(name.clone()),
                        None => Expression::Bound(index),
                    }
                }
                0x03 => Expression::Literal(None),
                0x04 => Expression::Atom(r.operator(Atom::ALL)?),
                0x05 => Expression::Set(r.expressions(1)?),
                0x06 => Expression::Bool(Box::new(r.predicate()?)),
                0x07 => {
                    let operator = r.operator(BinaryOperator::ALL)?;
                    let left = r.expression()?;
                    left.binary(operator, r.expression()?)
                }
                0x08 => {
                    let operator = r.operator(AssociativeOperator::ALL)?;
                    Expression::Associative(operator, r.expressions(2)?)
                }
                0x09 => {
                    let operator = r.operator(UnaryOperator::ALL)?;
                    r.expression()?.unary(operator)
                }
                0x0A => {
                    let operator = r.operator(QuantifiedOperator::ALL)?;
                    let count = r.small_count()?;
                    let (declared, (predicate, value)) = r.under(count, |r| Some((r.predicate()?, r.expression()?)))?;
                    Expression::Quantified(operator, declared, Box::new(predicate), Box::new(value))
                }
                0x0B => {
                    let inner = r.expression()?;
                    inner.ascribed(r.spelling()?)
                }
                0x0C => {
                    let ty = r.ty()?;
                    r.expression().filter(|inner| !matches!(inner, Expression::Typed(..)))?.typed(ty)
                }
                _ => return None,
            })
        })
    }

    fn predicate(&mut self) -> Option<Predicate> {
        self.below(|r| {
            Some(match r.byte()? {
                0x20 => Predicate::Literal(true),
                0x21 => Predicate::Variable("$P".to_owned()),
                0x22 => {
                    let operator = r.operator(RelationalOperator::ALL)?;
                    let left = r.expression()?;
                    left.relational(operator, r.expression()?)
                }
                0x23 => {
                    let left = r.predicate()?;
                    left.implies(r.predicate()?)
                }
                0x24 => {
                    let count = r.two().filter(|count| *count >= 2)?;
                    Predicate::And((0..count).map(|_| r.predicate()).collect::<Option<_>>()?)
                }
                0x25 => r.predicate()?.negated(),
                0x26 => {
                    let count = r.small_count()?;
                    let (declared, body) = r.under(count, Self::predicate)?;
                    Predicate::ForAll(declared, Box::new(body))
                }
                0x27 => Predicate::Finite(r.expression()?),
                0x28 => Predicate::Partition(r.expressions(1)?),
                0x29 => Predicate::Application("$p".to_owned(), r.expressions(0)?),
                _ => return None,
            })
        })
    }

    fn target(&mut self) -> Option<String> {
        self.below(|r| if r.byte()? == 0x01 { r.name() } else { None })
    }

    fn assignment(&mut self) -> Option<Assignment> {
        self.below(|r| {
            let kind = r.byte()?;
            let count = r.small_count()?;
            let targets = |r: &mut Self| (0..count).map(|_| r.target()).collect::<Option<Vec<String>>>();
            Some(match kind {
                0x30 => {
                    let pairs = (0..count).map(|_| Some((r.target()?, r.expression()?))).collect::<Option<_>>()?;
                    Assignment::BecomesEqualTo(pairs)
                }
                0x31 => {
                    let targets = targets(r)?;
                    Assignment::BecomesMemberOf(targets, r.expression()?)
                }
                0x32 => {
                    let targets = targets(r)?;
                    let (declared, predicate) = r.under(count, Self::predicate)?;
                    Assignment::BecomesSuchThat(targets.into_iter().zip(declared).collect(), predicate)
                }
                _ => return None,
            })
        })
    }
}
