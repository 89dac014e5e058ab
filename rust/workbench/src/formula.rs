//! Formulas: their parts, constructors that read as the formula does, and their byte forms.

use crate::types::{Names, Type};

/// An operator family: its numbers are those of the byte forms.
macro_rules! operators {
    ($(#[$about:meta])* $family:ident { $($(#[$doc:meta])* $name:ident $symbol:literal,)* }) => {
        $(#[$about])*
        #[derive(Debug, Clone, Copy, PartialEq, Eq, Hash)]
        #[repr(u8)]
        pub enum $family {
            $(#[doc = concat!("`", $symbol, "`.")] $(#[$doc])* $name,)*
        }

        impl $family {
            /// All of them, by number.
            pub const ALL: &'static [$family] = &[$($family::$name,)*];

            /// The number in the byte forms.
            pub fn number(self) -> u8 {
                self as u8
            }

            /// The sign that people write.
            pub fn symbol(self) -> &'static str {
                match self {
                    $($family::$name => $symbol,)*
                }
            }
        }
    };
}

operators! {
    /// Expressions without parts.
    Atom {
        Integers "ℤ",
        Naturals "ℕ",
        PositiveNaturals "ℕ1",
        Booleans "BOOL",
        True "TRUE",
        False "FALSE",
        Predecessor "pred",
        Successor "succ",
        EmptySet "∅",
        Identity "id",
        FirstProjection "prj1",
        SecondProjection "prj2",
    }
}

operators! {
    /// Operators between two expressions.
    BinaryOperator {
        Maplet "↦",
        Relations "↔",
        TotalRelations "<<->",
        SurjectiveRelations "<->>",
        TotalSurjectiveRelations "<<->>",
        PartialFunctions "⇸",
        TotalFunctions "→",
        PartialInjections "⤔",
        TotalInjections "↣",
        PartialSurjections "⤀",
        TotalSurjections "↠",
        Bijections "⤖",
        Difference "∖",
        CartesianProduct "×",
        DirectProduct "⊗",
        ParallelProduct "∥",
        DomainRestriction "◁",
        DomainSubtraction "⩤",
        RangeRestriction "▷",
        RangeSubtraction "⩥",
        Interval "‥",
        Minus "−",
        Divide "÷",
        Modulo "mod",
        Exponent "^",
        /// `f(x)`.
        Application "()",
        /// `r[S]`.
        Image "[]",
    }
}

operators! {
    /// Operators between two or more expressions.
    AssociativeOperator {
        Union "∪",
        Intersection "∩",
        Override "<+",
        ForwardComposition ";",
        BackwardComposition "∘",
        Plus "+",
        Times "∗",
    }
}

operators! {
    /// Operators on one expression.
    UnaryOperator {
        Cardinality "card",
        PowerSet "ℙ",
        NonEmptyPowerSet "ℙ1",
        GeneralUnion "union",
        GeneralIntersection "inter",
        Domain "dom",
        Range "ran",
        Minimum "min",
        Maximum "max",
        Converse "∼",
        Negative "−",
    }
}

operators! {
    /// Operators that bind names in an expression.
    QuantifiedOperator {
        Union "⋃",
        Intersection "⋂",
        /// `{x·P ∣ E}`.
        Comprehension "{}",
    }
}

operators! {
    /// Relations between two expressions.
    RelationalOperator {
        Equal "=",
        NotEqual "≠",
        Less "<",
        LessOrEqual "≤",
        Greater ">",
        GreaterOrEqual "≥",
        Member "∈",
        NotMember "∉",
        ProperSubset "⊂",
        NotProperSubset "⊄",
        Subset "⊆",
        NotSubset "⊈",
    }
}

/// A type as an annotation or an ascription spells it.
#[derive(Debug, Clone, PartialEq, Eq)]
pub enum Spelling {
    /// A type.
    Type(Type),
    /// An expression that spells no type.
    NotAType,
}

impl From<Type> for Spelling {
    fn from(ty: Type) -> Spelling {
        Spelling::Type(ty)
    }
}

/// A bound name's declaration.
///
/// ```
/// use workbench::{Declaration, Type, declare};
///
/// let plain: Declaration = "t".into();
/// assert_eq!(declare("t"), plain);
/// assert_eq!(declare("t").annotated(Type::Int).to_string(), "t⦂ℤ");
/// ```
#[derive(Debug, Clone, PartialEq, Eq)]
pub struct Declaration {
    /// The name that the formula below may use.
    pub name: String,
    /// What is said of its type.
    pub given: DeclaredType,
}

/// What a declaration says of its type.
#[derive(Debug, Clone, PartialEq, Eq)]
pub enum DeclaredType {
    /// Nothing.
    Plain,
    /// The type itself, as an earlier check may have found it.
    Typed(Type),
    /// An annotation, `x ⦂ T`; a given set that it spells and the environment lacks becomes an inferred name.
    Annotated(Spelling),
}

/// A declaration of a name, with nothing said of its type.
pub fn declare(name: impl Into<String>) -> Declaration {
    Declaration { name: name.into(), given: DeclaredType::Plain }
}

impl Declaration {
    /// The same with its type.
    pub fn typed(self, ty: Type) -> Declaration {
        Declaration { given: DeclaredType::Typed(ty), ..self }
    }

    /// The same with an annotation.
    pub fn annotated(self, spelling: impl Into<Spelling>) -> Declaration {
        Declaration { given: DeclaredType::Annotated(spelling.into()), ..self }
    }
}

impl<T: Into<String>> From<T> for Declaration {
    fn from(name: T) -> Declaration {
        declare(name)
    }
}

/// An expression.
///
/// A name is bound by the innermost declaration of that name around it, and free where there is none.
#[derive(Debug, Clone, PartialEq, Eq)]
pub enum Expression {
    /// A name.
    Name(String),
    /// A bound name by its index: 0 is the last declared.
    Bound(u16),
    /// An integer literal. Its value, if it is known, does not matter to its type.
    Literal(Option<i64>),
    /// An expression without parts.
    Atom(Atom),
    /// A set by its members.
    Set(Vec<Expression>),
    /// `bool(P)`.
    Bool(Box<Predicate>),
    /// Two expressions under an operator.
    Binary(BinaryOperator, Box<Expression>, Box<Expression>),
    /// Two or more expressions under an operator.
    Associative(AssociativeOperator, Vec<Expression>),
    /// One expression under an operator.
    Unary(UnaryOperator, Box<Expression>),
    /// A value for all choices of declared names that satisfy a predicate.
    Quantified(QuantifiedOperator, Vec<Declaration>, Box<Predicate>, Box<Expression>),
    /// `E ⦂ T`.
    Ascription(Box<Expression>, Spelling),
    /// An expression with its type, as an earlier check may have found it.
    Typed(Type, Box<Expression>),
}

/// A predicate.
#[derive(Debug, Clone, PartialEq, Eq)]
pub enum Predicate {
    /// `⊤` or `⊥`.
    Literal(bool),
    /// A predicate variable.
    Variable(String),
    /// Two expressions in a relation.
    Relational(RelationalOperator, Expression, Expression),
    /// `P ⇒ Q`.
    Implies(Box<Predicate>, Box<Predicate>),
    /// `P ⇔ Q`.
    Equivalent(Box<Predicate>, Box<Predicate>),
    /// `P ∧ Q ∧ ..`, two or more.
    And(Vec<Predicate>),
    /// `P ∨ Q ∨ ..`, two or more.
    Or(Vec<Predicate>),
    /// `¬P`.
    Not(Box<Predicate>),
    /// `∀x·P`.
    ForAll(Vec<Declaration>, Box<Predicate>),
    /// `∃x·P`.
    Exists(Vec<Declaration>, Box<Predicate>),
    /// `finite(S)`.
    Finite(Expression),
    /// `partition(S, ..)`.
    Partition(Vec<Expression>),
    /// A predicate applied by name, which cannot be checked.
    Application(String, Vec<Expression>),
}

/// An assignment.
#[derive(Debug, Clone, PartialEq, Eq)]
pub enum Assignment {
    /// `x, y ≔ E, F`, pair by pair.
    BecomesEqualTo(Vec<(String, Expression)>),
    /// `x, y :∈ S`.
    BecomesMemberOf(Vec<String>, Expression),
    /// `x, y :∣ P`, with a declaration for each target, which the predicate may use.
    BecomesSuchThat(Vec<(String, Declaration)>, Predicate),
}

/// A formula: an expression, a predicate or an assignment.
#[derive(Debug, Clone, PartialEq, Eq)]
pub enum Formula {
    /// An expression.
    Expression(Expression),
    /// A predicate.
    Predicate(Predicate),
    /// An assignment.
    Assignment(Assignment),
}

macro_rules! into_formula {
    ($($part:ident),*) => {$(
        impl From<$part> for Formula {
            fn from(part: $part) -> Formula {
                Formula::$part(part)
            }
        }

        impl From<&$part> for Formula {
            fn from(part: &$part) -> Formula {
                Formula::$part(part.clone())
            }
        }
    )*};
}
into_formula!(Expression, Predicate, Assignment);

impl From<&Formula> for Formula {
    fn from(formula: &Formula) -> Formula {
        formula.clone()
    }
}

impl From<&str> for Expression {
    fn from(name: &str) -> Expression {
        Expression::Name(name.to_owned())
    }
}

impl From<i64> for Expression {
    fn from(value: i64) -> Expression {
        literal(value)
    }
}

impl From<Atom> for Expression {
    fn from(atom: Atom) -> Expression {
        Expression::Atom(atom)
    }
}

impl From<&Expression> for Expression {
    fn from(expression: &Expression) -> Expression {
        expression.clone()
    }
}

// ---- constructors: expressions ----

/// A name, bound or free.
pub fn name(name: impl Into<String>) -> Expression {
    Expression::Name(name.into())
}

/// An integer literal.
pub fn literal(value: i64) -> Expression {
    Expression::Literal(Some(value))
}

/// ℤ.
pub fn integers() -> Expression {
    Atom::Integers.into()
}

/// ∅.
pub fn empty_set() -> Expression {
    Atom::EmptySet.into()
}

/// A set by its members.
///
/// ```
/// assert_eq!(workbench::set(["a", "b"]).to_string(), "{a, b}");
/// ```
pub fn set<T: Into<Expression>>(members: impl IntoIterator<Item = T>) -> Expression {
    Expression::Set(members.into_iter().map(Into::into).collect())
}

/// `bool(P)`.
pub fn bool_of(predicate: Predicate) -> Expression {
    Expression::Bool(Box::new(predicate))
}

/// `{x·P ∣ E}`.
///
/// ```
/// use workbench::{comprehension, literal, name};
///
/// let set = comprehension(["x"], name("x").greater_than(literal(0)), name("x").maps_to("y"));
/// assert_eq!(set.to_string(), "{x·x > 0 ∣ x ↦ y}");
/// ```
pub fn comprehension<D: Into<Declaration>>(
    declared: impl IntoIterator<Item = D>,
    predicate: Predicate,
    value: impl Into<Expression>,
) -> Expression {
    quantified(QuantifiedOperator::Comprehension, declared, predicate, value)
}

/// A quantified expression of any operator.
pub fn quantified<D: Into<Declaration>>(
    operator: QuantifiedOperator,
    declared: impl IntoIterator<Item = D>,
    predicate: Predicate,
    value: impl Into<Expression>,
) -> Expression {
    let declared = declared.into_iter().map(Into::into).collect();
    Expression::Quantified(operator, declared, Box::new(predicate), Box::new(value.into()))
}

/// Expressions under `+`.
pub fn sum<T: Into<Expression>>(parts: impl IntoIterator<Item = T>) -> Expression {
    associative(AssociativeOperator::Plus, parts)
}

/// Two or more expressions under an operator.
pub fn associative<T: Into<Expression>>(
    operator: AssociativeOperator,
    parts: impl IntoIterator<Item = T>,
) -> Expression {
    Expression::Associative(operator, parts.into_iter().map(Into::into).collect())
}

/// Methods named for the operators, each taking what stands right of it.
macro_rules! binary {
    ($($(#[$doc:meta])* $method:ident $operator:ident,)*) => {$(
        $(#[$doc])*
        pub fn $method(self, right: impl Into<Expression>) -> Expression {
            self.binary(BinaryOperator::$operator, right)
        }
    )*};
}

macro_rules! relational {
    ($($(#[$doc:meta])* $method:ident $operator:ident,)*) => {$(
        $(#[$doc])*
        pub fn $method(self, right: impl Into<Expression>) -> Predicate {
            self.relational(RelationalOperator::$operator, right)
        }
    )*};
}

macro_rules! unary {
    ($($(#[$doc:meta])* $method:ident $operator:ident,)*) => {$(
        $(#[$doc])*
        pub fn $method(self) -> Expression {
            self.unary(UnaryOperator::$operator)
        }
    )*};
}

/// ```
/// use workbench::{integers, literal, name};
///
/// assert_eq!(name("f").of("x").plus(literal(1)).to_string(), "f(x) + 1");
/// assert_eq!(name("f").is_in(name("S").total_functions(integers())).to_string(), "f ∈ S → ℤ");
/// assert_eq!(name("r").domain().is_subset_of("S").to_string(), "dom(r) ⊆ S");
/// ```
impl Expression {
    /// Under an operator, before another expression.
    pub fn binary(self, operator: BinaryOperator, right: impl Into<Expression>) -> Expression {
        Expression::Binary(operator, Box::new(self), Box::new(right.into()))
    }

    /// In a relation with another expression.
    pub fn relational(self, operator: RelationalOperator, right: impl Into<Expression>) -> Predicate {
        Predicate::Relational(operator, self, right.into())
    }

    /// Under an operator.
    pub fn unary(self, operator: UnaryOperator) -> Expression {
        Expression::Unary(operator, Box::new(self))
    }

    binary! {
        /// `self ↦ right`.
        maps_to Maplet,
        /// `self ↔ right`.
        relations Relations,
        /// `self ⇸ right`.
        partial_functions PartialFunctions,
        /// `self → right`.
        total_functions TotalFunctions,
        /// `self ∖ right`.
        without Difference,
        /// `self × right`.
        cartesian CartesianProduct,
        /// `self ◁ right`.
        restricts DomainRestriction,
        /// `self ‥ right`.
        up_to Interval,
        /// `self − right`.
        minus Minus,
        /// `self ÷ right`.
        divided_by Divide,
        /// `self mod right`.
        modulo Modulo,
        /// `self(right)`.
        of Application,
        /// `self[right]`.
        image Image,
    }

    relational! {
        /// `self = right`.
        equals Equal,
        /// `self ≠ right`.
        differs_from NotEqual,
        /// `self < right`.
        less_than Less,
        /// `self ≤ right`.
        at_most LessOrEqual,
        /// `self > right`.
        greater_than Greater,
        /// `self ≥ right`.
        at_least GreaterOrEqual,
        /// `self ∈ right`.
        is_in Member,
        /// `self ∉ right`.
        is_not_in NotMember,
        /// `self ⊂ right`.
        is_proper_subset_of ProperSubset,
        /// `self ⊆ right`.
        is_subset_of Subset,
    }

    unary! {
        /// `card(self)`.
        cardinality Cardinality,
        /// `ℙ(self)`.
        power_set PowerSet,
        /// `dom(self)`.
        domain Domain,
        /// `ran(self)`.
        range Range,
        /// `min(self)`.
        minimum Minimum,
        /// `max(self)`.
        maximum Maximum,
        /// `self∼`.
        converse Converse,
        /// `−self`.
        negative Negative,
    }

    /// `self + right`.
    pub fn plus(self, right: impl Into<Expression>) -> Expression {
        associative(AssociativeOperator::Plus, [self, right.into()])
    }

    /// `self ∗ right`.
    pub fn times(self, right: impl Into<Expression>) -> Expression {
        associative(AssociativeOperator::Times, [self, right.into()])
    }

    /// `self ∪ right`.
    pub fn union(self, right: impl Into<Expression>) -> Expression {
        associative(AssociativeOperator::Union, [self, right.into()])
    }

    /// `self ∩ right`.
    pub fn intersection(self, right: impl Into<Expression>) -> Expression {
        associative(AssociativeOperator::Intersection, [self, right.into()])
    }

    /// `self ⦂ T`.
    pub fn ascribed(self, spelling: impl Into<Spelling>) -> Expression {
        Expression::Ascription(Box::new(self), spelling.into())
    }

    /// The expression with its type.
    pub fn typed(self, ty: Type) -> Expression {
        Expression::Typed(ty, Box::new(self))
    }
}

// ---- constructors: predicates and assignments ----

/// `∀x·P`.
pub fn for_all<D: Into<Declaration>>(declared: impl IntoIterator<Item = D>, predicate: Predicate) -> Predicate {
    Predicate::ForAll(declared.into_iter().map(Into::into).collect(), Box::new(predicate))
}

/// `∃x·P`.
pub fn exists<D: Into<Declaration>>(declared: impl IntoIterator<Item = D>, predicate: Predicate) -> Predicate {
    Predicate::Exists(declared.into_iter().map(Into::into).collect(), Box::new(predicate))
}

/// `finite(S)`.
pub fn finite(set: impl Into<Expression>) -> Predicate {
    Predicate::Finite(set.into())
}

/// `partition(S, ..)`.
pub fn partition<T: Into<Expression>>(sets: impl IntoIterator<Item = T>) -> Predicate {
    Predicate::Partition(sets.into_iter().map(Into::into).collect())
}

/// ```
/// use workbench::{Predicate, name};
///
/// let both = name("x").is_in("S").and(name("y").is_in("S"));
/// assert_eq!(both.implies(name("x").equals("y")).to_string(), "x ∈ S ∧ y ∈ S ⇒ x = y");
/// ```
impl Predicate {
    /// `self ⇒ right`.
    pub fn implies(self, right: Predicate) -> Predicate {
        Predicate::Implies(Box::new(self), Box::new(right))
    }

    /// `self ⇔ right`.
    pub fn equivalent_to(self, right: Predicate) -> Predicate {
        Predicate::Equivalent(Box::new(self), Box::new(right))
    }

    /// `self ∧ right`.
    pub fn and(self, right: Predicate) -> Predicate {
        Predicate::And(vec![self, right])
    }

    /// `self ∨ right`.
    pub fn or(self, right: Predicate) -> Predicate {
        Predicate::Or(vec![self, right])
    }

    /// `¬self`.
    pub fn negated(self) -> Predicate {
        Predicate::Not(Box::new(self))
    }
}

/// ```
/// use workbench::{Assignment, Environment, infer, literal, name};
///
/// let action = Assignment::becomes("total", name("total").plus(literal(1)));
/// assert_eq!(action.to_string(), "total ≔ total + 1");
/// assert_eq!(infer(&action, &Environment::new()).to_string(), "typed\ntotal : ℤ");
/// ```
impl Assignment {
    /// `target ≔ value`.
    pub fn becomes(target: impl Into<String>, value: impl Into<Expression>) -> Assignment {
        Assignment::BecomesEqualTo(vec![(target.into(), value.into())])
    }

    /// `target :∈ set`.
    pub fn becomes_in(target: impl Into<String>, set: impl Into<Expression>) -> Assignment {
        Assignment::BecomesMemberOf(vec![target.into()], set.into())
    }

    /// `target :∣ P`; the predicate speaks of the new value by the target's name and a `'`.
    ///
    /// ```
    /// # use workbench::{Assignment, name};
    /// let action = Assignment::becomes_such_that("total", name("total'").greater_than("total"));
    /// assert_eq!(action.to_string(), "total :∣ total' > total");
    /// ```
    pub fn becomes_such_that(target: impl Into<String>, predicate: Predicate) -> Assignment {
        let target = target.into();
        let primed = declare(format!("{target}'"));
        Assignment::BecomesSuchThat(vec![(target, primed)], predicate)
    }
}

// ---- byte forms ----

impl Formula {
    /// The byte form, with free names numbered by the row; those that it lacks join it.
    ///
    /// A part that the byte forms cannot say (a set without members, more than 255 targets) comes out malformed, and inference refuses it.
    ///
    /// ```
    /// use workbench::{Formula, Names, integers, name};
    ///
    /// let formula = Formula::from(name("x").is_in(integers()));
    /// assert_eq!(formula.bytes(&mut Names::new()), [0x22, 6, 0x01, 0, 0, 0x04, 0]);
    /// ```
    pub fn bytes(&self, names: &mut Names) -> Vec<u8> {
        let mut writer = Writer { bytes: Vec::new(), names, open: Vec::new(), wanted: None, found: None };
        writer.formula(self);
        writer.bytes
    }

    /// The part of the formula whose record is at a place, as people write it; none where no part starts.
    ///
    /// ```
    /// use workbench::{Formula, integers, name};
    ///
    /// let formula = Formula::from(name("x").is_in(integers()));
    /// assert_eq!(formula.part(5).as_deref(), Some("ℤ"));
    /// assert_eq!(formula.part(6), None);
    /// ```
    pub fn part(&self, place: usize) -> Option<String> {
        let mut names = Names::new();
        let mut writer =
            Writer { bytes: Vec::new(), names: &mut names, open: Vec::new(), wanted: Some(place), found: None };
        writer.formula(self);
        writer.found
    }
}

/// Writes byte forms; finds what stands at a place on the way.
struct Writer<'a> {
    bytes: Vec<u8>,
    names: &'a mut Names,
    /// The declarations around what is being written, the innermost last.
    open: Vec<String>,
    wanted: Option<usize>,
    found: Option<String>,
}

impl Writer<'_> {
    fn formula(&mut self, formula: &Formula) {
        match formula {
            Formula::Expression(expression) => self.expression(expression),
            Formula::Predicate(predicate) => self.predicate(predicate),
            Formula::Assignment(assignment) => self.assignment(assignment),
        }
    }

    /// A record starts here.
    fn start(&mut self, part: &impl std::fmt::Display) {
        if self.wanted == Some(self.bytes.len()) {
            self.found = Some(part.to_string());
        }
    }

    fn two(&mut self, number: usize) {
        self.bytes.extend(u16::try_from(number).unwrap_or(u16::MAX).to_le_bytes());
    }

    fn one(&mut self, number: usize) {
        self.bytes.push(u8::try_from(number).unwrap_or(u8::MAX));
    }

    fn free(&mut self, name: &str) {
        let number = self.names.add(name);
        self.bytes.push(0x01);
        self.bytes.extend(number.to_le_bytes());
    }

    fn spelling(&mut self, spelling: &Spelling) {
        self.start(spelling);
        match spelling {
            Spelling::Type(ty) => ty.put(self.names, &mut self.bytes),
            Spelling::NotAType => self.bytes.push(0x4F),
        }
    }

    fn target(&mut self, name: &String) {
        self.start(name);
        self.free(name);
    }

    fn expressions(&mut self, all: &[Expression]) {
        self.two(all.len());
        all.iter().for_each(|e| self.expression(e));
    }

    fn declaration(&mut self, declaration: &Declaration) {
        self.start(declaration);
        match &declaration.given {
            DeclaredType::Plain => self.bytes.push(0x10),
            DeclaredType::Typed(ty) => {
                self.bytes.push(0x11);
                ty.put(self.names, &mut self.bytes);
            }
            DeclaredType::Annotated(spelling) => {
                self.bytes.push(0x12);
                self.spelling(spelling);
            }
        }
    }

    /// Declarations, and what they bind.
    fn under<'d>(&mut self, declared: impl Iterator<Item = &'d Declaration> + Clone, part: impl FnOnce(&mut Self)) {
        declared.clone().for_each(|d| self.declaration(d));
        let before = self.open.len();
        self.open.extend(declared.map(|d| d.name.clone()));
        part(self);
        self.open.truncate(before);
    }

    fn expression(&mut self, expression: &Expression) {
        if let Expression::Typed(ty, inner) = expression {
            self.bytes.push(0x0C);
            ty.put(self.names, &mut self.bytes);
            return self.expression(inner);
        }
        self.start(expression);
        match expression {
            Expression::Name(name) => match self.open.iter().rev().position(|open| open == name) {
                Some(index) => {
                    self.bytes.push(0x02);
                    self.two(index);
                }
                None => self.free(name),
            },
            Expression::Bound(index) => {
                self.bytes.push(0x02);
                self.bytes.extend(index.to_le_bytes());
            }
            Expression::Literal(_) => self.bytes.push(0x03),
            Expression::Atom(atom) => self.bytes.extend([0x04, atom.number()]),
            Expression::Set(members) => {
                self.bytes.push(0x05);
                self.expressions(members);
            }
            Expression::Bool(predicate) => {
                self.bytes.push(0x06);
                self.predicate(predicate);
            }
            Expression::Binary(operator, left, right) => {
                self.bytes.extend([0x07, operator.number()]);
                self.expression(left);
                self.expression(right);
            }
            Expression::Associative(operator, parts) => {
                self.bytes.extend([0x08, operator.number()]);
                self.expressions(parts);
            }
            Expression::Unary(operator, part) => {
                self.bytes.extend([0x09, operator.number()]);
                self.expression(part);
            }
            Expression::Quantified(operator, declared, predicate, value) => {
                self.bytes.extend([0x0A, operator.number()]);
                self.one(declared.len());
                self.under(declared.iter(), |writer| {
                    writer.predicate(predicate);
                    writer.expression(value);
                });
            }
            Expression::Ascription(inner, spelling) => {
                self.bytes.push(0x0B);
                self.expression(inner);
                self.spelling(spelling);
            }
            Expression::Typed(..) => unreachable!("written above"),
        }
    }

    fn predicate(&mut self, predicate: &Predicate) {
        self.start(predicate);
        match predicate {
            Predicate::Literal(_) => self.bytes.push(0x20),
            Predicate::Variable(_) => self.bytes.push(0x21),
            Predicate::Relational(operator, left, right) => {
                self.bytes.extend([0x22, operator.number()]);
                self.expression(left);
                self.expression(right);
            }
            Predicate::Implies(left, right) | Predicate::Equivalent(left, right) => {
                self.bytes.push(0x23);
                self.predicate(left);
                self.predicate(right);
            }
            Predicate::And(parts) | Predicate::Or(parts) => {
                self.bytes.push(0x24);
                self.two(parts.len());
                parts.iter().for_each(|part| self.predicate(part));
            }
            Predicate::Not(part) => {
                self.bytes.push(0x25);
                self.predicate(part);
            }
            Predicate::ForAll(declared, body) | Predicate::Exists(declared, body) => {
                self.bytes.push(0x26);
                self.one(declared.len());
                self.under(declared.iter(), |writer| writer.predicate(body));
            }
            Predicate::Finite(set) => {
                self.bytes.push(0x27);
                self.expression(set);
            }
            Predicate::Partition(sets) => {
                self.bytes.push(0x28);
                self.expressions(sets);
            }
            Predicate::Application(_, arguments) => {
                self.bytes.push(0x29);
                self.expressions(arguments);
            }
        }
    }

    fn assignment(&mut self, assignment: &Assignment) {
        self.start(assignment);
        match assignment {
            Assignment::BecomesEqualTo(pairs) => {
                self.bytes.push(0x30);
                self.one(pairs.len());
                for (target, value) in pairs {
                    self.target(target);
                    self.expression(value);
                }
            }
            Assignment::BecomesMemberOf(targets, set) => {
                self.bytes.push(0x31);
                self.one(targets.len());
                targets.iter().for_each(|target| self.target(target));
                self.expression(set);
            }
            Assignment::BecomesSuchThat(targets, predicate) => {
                self.bytes.push(0x32);
                self.one(targets.len());
                targets.iter().for_each(|(target, _)| self.target(target));
                self.under(targets.iter().map(|(_, declared)| declared), |writer| writer.predicate(predicate));
            }
        }
    }
}
