//! Asking the checker, and its answers.

use std::fmt;

use crate::environment::Environment;
use crate::formula::Formula;
use crate::types::{Names, Type, take_name};

/// How the checker is asked. The default suits formulas as people write them.
///
/// ```
/// use workbench::{Checker, Environment, Refusal, Verdict, name};
///
/// let checker = Checker { budget: 11, ..Checker::default() };
/// let answer = checker.infer(name("x").is_in(workbench::integers()), &Environment::new());
/// assert_eq!(answer.verdict, Verdict::Refused(Refusal::BudgetSpent));
/// ```
#[derive(Debug, Clone, Copy, PartialEq, Eq)]
pub struct Checker {
    /// How many nodes an inference may make, at most 32,768. At 2,048, the default, the entry works in memory of its own; at any other the checker lends it.
    pub capacity: u32,
    /// How many units an inference may pay; 100 million by default. A formula of a line asks for some hundreds.
    pub budget: u64,
    /// The room that an answer is given first, in bytes. Where it is too little the question is asked again with eight times as much.
    pub output: usize,
    /// The most room that an answer is given; a longer answer is refused. 16 MiB by default.
    pub largest_output: usize,
}

impl Default for Checker {
    fn default() -> Checker {
        Checker { capacity: port::CAPACITY, budget: 100_000_000, output: 4_096, largest_output: 16 << 20 }
    }
}

impl Checker {
    /// Infers the types of a formula under an environment.
    pub fn infer(&self, formula: impl Into<Formula>, environment: &Environment) -> Answer {
        let mut names = Names::new();
        let environment = environment.bytes(&mut names);
        let formula = formula.into().bytes(&mut names);
        self.infer_bytes(&formula, &environment, &names)
    }

    /// Infers the types of a formula under an environment, both in their byte forms, with names by their numbers in the row.
    ///
    /// ```
    /// use workbench::{Checker, Names};
    ///
    /// // x ∈ ℤ
    /// let answer = Checker::default().infer_bytes(&[0x22, 6, 0x01, 0, 0, 0x04, 0], &[], &Names::from(["x"]));
    /// assert_eq!(answer.to_string(), "typed\nx : ℤ");
    /// assert_eq!(answer.steps, 12);
    /// ```
    pub fn infer_bytes(&self, formula: &[u8], environment: &[u8], names: &Names) -> Answer {
        let answer = self.ask(formula, environment, names.count());
        let verdict = match answer.number {
            0 => Verdict::Typed(Typing::take(&answer.bytes, names)),
            1 => Verdict::Problems(take_problems(&answer.bytes, names)),
            number => Verdict::Refused(Refusal::of_inference(number, answer.place)),
        };
        Answer { verdict, steps: answer.steps }
    }

    /// The same with a count of names alone; the answer's bytes are not read.
    ///
    /// ```
    /// # use workbench::Checker;
    /// let answer = Checker::default().ask(&[0x22, 6, 0x01, 0, 0, 0x04, 0], &[], 1);
    /// assert_eq!((answer.number, answer.steps), (0, 12));
    /// assert_eq!(answer.bytes, [0x50, 0, 0, 0x41, 0x51, 2, 0, 0, 0, 0x41, 0x51, 5, 0, 0, 0, 0x43, 0x41]);
    /// ```
    pub fn ask(&self, formula: &[u8], environment: &[u8], names: u32) -> AnswerBytes {
        let mut bytes = vec![0; self.output.min(self.largest_output)];
        let mut work = Vec::new();
        if self.capacity != port::CAPACITY {
            // A capacity outside its limits is refused; it is lent no more than the largest needs.
            work.resize(port::work_words(self.capacity.min(32_768)) as usize, 0);
        }
        loop {
            let answer = if self.capacity == port::CAPACITY {
                port::infer(formula, environment, names, self.budget, &mut bytes)
            } else {
                port::infer_in(formula, environment, names, self.capacity, self.budget, &mut bytes, &mut work)
            };
            if answer.number == 8 && bytes.len() < self.largest_output {
                let room = bytes.len().max(16).saturating_mul(8).min(self.largest_output);
                bytes = vec![0; room];
                continue;
            }
            bytes.truncate(answer.length as usize);
            return AnswerBytes { number: answer.number, place: answer.place as usize, steps: answer.steps, bytes };
        }
    }
}

/// What an inference answered, in its own numbers and bytes (`docs/FORMAT.md`).
#[derive(Debug, Clone, PartialEq, Eq)]
pub struct AnswerBytes {
    /// 0 typed, 1 problems, 2 to 8 refused.
    pub number: u32,
    /// The place of a refusal.
    pub place: usize,
    /// The units that were paid.
    pub steps: u64,
    /// The answer's records.
    pub bytes: Vec<u8>,
}

/// Infers the types of a formula under an environment, with the default [`Checker`].
///
/// ```
/// use workbench::{Environment, Type, infer, integers, name};
///
/// let environment = Environment::new().carrier_set("PERIOD");
/// let answer = infer(name("rounding").is_in(name("PERIOD").total_functions(integers())), &environment);
/// assert_eq!(answer.typing().unwrap().get("rounding"), Some(&Type::relation(Type::given("PERIOD"), Type::Int)));
/// assert_eq!(answer.to_string(), "typed\nrounding : ℙ(PERIOD×ℤ)");
/// ```
pub fn infer(formula: impl Into<Formula>, environment: &Environment) -> Answer {
    Checker::default().infer(formula, environment)
}

/// Reads a type's text; its words are `BOOL` and the names of the row.
///
/// ```
/// use workbench::{Names, Refusal, Type, read_type};
///
/// let names = Names::from(["PERIOD"]);
/// assert_eq!(read_type("ℙ(PERIOD×ℤ)", &names), Ok(Type::relation(Type::given("PERIOD"), Type::Int)));
/// assert_eq!(read_type("ℤ×", &names), Err(Refusal::MalformedText { place: 5 }));
/// assert_eq!(read_type("WEEK", &names).unwrap_err().to_string(), "refused: the text is malformed at byte 0");
/// ```
pub fn read_type(text: &str, names: &Names) -> Result<Type, Refusal> {
    // No record is longer than three bytes for each byte of its text.
    let mut page = vec![0; 3 * text.len()];
    let answer = port::read_text(text.as_bytes(), &names.table(), &mut page);
    let place = answer.place as usize;
    match answer.number {
        0 => Ok(Type::take(&page[..answer.length as usize], names).0),
        2 => Err(Refusal::BadNames),
        4 => Err(Refusal::MalformedText { place }),
        5 => Err(Refusal::TooLarge { place }),
        number => panic!("the checker answered {number}, which is no number of reading so much room"),
    }
}

/// Writes a type's canonical text. The type's given sets must be names of the row.
///
/// [`Type`]'s own `Display` gives the same text; this is the checker's writer, which refuses a type deeper than 64 and a row
/// that is no good table.
///
/// ```
/// use workbench::{Names, Refusal, Type, write_type};
///
/// let ty = Type::relation(Type::given("PERIOD"), Type::Int);
/// assert_eq!(write_type(&ty, &Names::from(["PERIOD"])).unwrap(), "ℙ(PERIOD×ℤ)");
/// assert_eq!(write_type(&ty, &Names::from(["WEEK"])), Err(Refusal::MalformedType { place: 2 }));
/// ```
pub fn write_type(ty: &Type, names: &Names) -> Result<String, Refusal> {
    // A given set that the row lacks gets a number past it, which the writer refuses.
    let record = ty.record(&mut names.clone());
    write_record(&record, names)
}

/// Writes the canonical text of a type record.
///
/// ```
/// # use workbench::{Names, write_record};
/// assert_eq!(write_record(&[0x43, 0x42, 0, 0], &Names::from(["PERIOD"])).unwrap(), "ℙ(PERIOD)");
/// ```
pub fn write_record(record: &[u8], names: &Names) -> Result<String, Refusal> {
    let table = names.table();
    let mut page = vec![0; 8 * record.len()];
    loop {
        let answer = port::write_text(record, &table, &mut page, 0);
        let place = answer.place as usize;
        return match answer.number {
            0 => {
                page.truncate(answer.length as usize);
                Ok(String::from_utf8(page).expect("canonical text is UTF-8"))
            }
            // A record's byte stands for 64 of the text at most, as a name's first byte does.
            8 if page.len() < 64 * record.len() => {
                page.resize(64 * record.len(), 0);
                continue;
            }
            2 => Err(Refusal::BadNames),
            4 => Err(Refusal::MalformedType { place }),
            5 => Err(Refusal::TooLarge { place }),
            number => panic!("the checker answered {number}, which is no number of writing into so much room"),
        };
    }
}

/// What an inference answered.
///
/// [`Display`](fmt::Display) prints the verdict as people speak, a line for each name or problem; `{:#}` prints the slots' types too.
#[derive(Debug, Clone, PartialEq, Eq)]
pub struct Answer {
    /// The verdict.
    pub verdict: Verdict,
    /// The units that were paid, which is the least budget with this answer; 0 for a refusal.
    pub steps: u64,
}

/// The three verdicts.
#[derive(Debug, Clone, PartialEq, Eq)]
pub enum Verdict {
    /// The formula has this one typing.
    Typed(Typing),
    /// The formula has no typing, or more than one.
    Problems(Vec<Problem>),
    /// The question was not taken.
    Refused(Refusal),
}

impl Answer {
    /// The typing, if the formula has exactly one.
    pub fn typing(&self) -> Option<&Typing> {
        match &self.verdict {
            Verdict::Typed(typing) => Some(typing),
            _ => None,
        }
    }

    /// The problems; none where the formula is typed or refused.
    pub fn problems(&self) -> &[Problem] {
        match &self.verdict {
            Verdict::Problems(problems) => problems,
            _ => &[],
        }
    }

    /// The answer as it reads, and after each problem the part of the formula that it stands at.
    ///
    /// ```
    /// use workbench::{Environment, Formula, infer, literal, name};
    ///
    /// let formula = Formula::from(name("x").plus(literal(1)).is_in("x"));
    /// let answer = infer(&formula, &Environment::new());
    /// assert_eq!(answer.explain(&formula), "not typed\ntypes do not match at byte 0: x + 1 ∈ x");
    /// ```
    pub fn explain(&self, formula: &Formula) -> String {
        let mut text = self.to_string();
        if let Verdict::Problems(problems) = &self.verdict {
            text = "not typed".to_owned();
            for problem in problems {
                text += &format!("\n{problem}");
                let named = matches!(problem.kind, ProblemKind::UntypedIdentifier(_));
                if let Some(part) = formula.part(problem.place).filter(|_| !named) {
                    text += &format!(": {part}");
                }
            }
        }
        text
    }

    /// The refusal, if there is one.
    pub fn refusal(&self) -> Option<&Refusal> {
        match &self.verdict {
            Verdict::Refused(refusal) => Some(refusal),
            _ => None,
        }
    }
}

impl fmt::Display for Answer {
    fn fmt(&self, f: &mut fmt::Formatter<'_>) -> fmt::Result {
        match &self.verdict {
            Verdict::Typed(typing) => {
                f.write_str("typed")?;
                typing.names.iter().try_for_each(|(name, ty)| write!(f, "\n{name} : {ty}"))?;
                if f.alternate() {
                    typing.slots.iter().try_for_each(|slot| write!(f, "\n{slot}"))?;
                }
                Ok(())
            }
            Verdict::Problems(problems) => {
                f.write_str("not typed")?;
                problems.iter().try_for_each(|problem| write!(f, "\n{problem}"))
            }
            Verdict::Refused(refusal) => refusal.fmt(f),
        }
    }
}

/// The one typing of a formula.
#[derive(Debug, Clone, PartialEq, Eq)]
pub struct Typing {
    /// The names that the environment lacks, in the order of first meeting, with their types.
    pub names: Vec<(String, Type)>,
    /// Every expression and declaration of the formula, in its order.
    pub slots: Vec<Slot>,
}

/// An expression's or a declaration's type.
#[derive(Debug, Clone, PartialEq, Eq)]
pub struct Slot {
    /// Its record's offset in the formula's bytes.
    pub place: usize,
    /// Its type.
    pub ty: Type,
}

impl Typing {
    /// The type inferred for a name that the environment lacks.
    pub fn get(&self, name: &str) -> Option<&Type> {
        self.names.iter().find(|(entry, _)| entry == name).map(|(_, ty)| ty)
    }

    /// The type of the expression or declaration at a place.
    pub fn at(&self, place: usize) -> Option<&Type> {
        self.slots.binary_search_by_key(&place, |slot| slot.place).ok().map(|index| &self.slots[index].ty)
    }

    fn take(mut bytes: &[u8], names: &Names) -> Typing {
        let mut typing = Typing { names: Vec::new(), slots: Vec::new() };
        while let Some((kind, rest)) = bytes.split_first() {
            bytes = match kind {
                0x50 => {
                    let (name, rest) = take_name(rest, names);
                    let (ty, rest) = Type::take(rest, names);
                    typing.names.push((name, ty));
                    rest
                }
                0x51 => {
                    let (place, rest) = take_place(rest);
                    let (ty, rest) = Type::take(rest, names);
                    typing.slots.push(Slot { place, ty });
                    rest
                }
                _ => panic!("the checker wrote {kind:02X} into a typing"),
            };
        }
        typing
    }
}

impl fmt::Display for Slot {
    fn fmt(&self, f: &mut fmt::Formatter<'_>) -> fmt::Result {
        write!(f, "byte {} : {}", self.place, self.ty)
    }
}

/// A problem and the offset of the record where it stands.
#[derive(Debug, Clone, PartialEq, Eq)]
pub struct Problem {
    /// What is wrong.
    pub kind: ProblemKind,
    /// Where: an offset in the formula's bytes ([`Formula::part`] finds what stands there).
    pub place: usize,
}

/// What is wrong with a formula.
#[derive(Debug, Clone, PartialEq, Eq)]
pub enum ProblemKind {
    /// Two types that must be equal are not.
    TypesDoNotMatch,
    /// A type would have to hold itself.
    Circularity,
    /// More than one type fits an expression or a declaration.
    UntypedExpression,
    /// The type of a name is not determined.
    UntypedIdentifier(String),
    /// A bound index without a declaration.
    DanglingBoundIdentifier,
    /// The application of a predicate by name.
    UncheckableApplication,
}

fn take_place(bytes: &[u8]) -> (usize, &[u8]) {
    let (place, rest) = bytes.split_first_chunk().expect("the checker writes whole records");
    (u32::from_le_bytes(*place) as usize, rest)
}

fn take_problems(mut bytes: &[u8], names: &Names) -> Vec<Problem> {
    let mut problems = Vec::new();
    while let Some(([0x60, number], rest)) = bytes.split_first_chunk() {
        let (place, rest) = take_place(rest);
        let (name, after) = rest.split_at(2);
        let kind = match number {
            0 => ProblemKind::TypesDoNotMatch,
            1 => ProblemKind::Circularity,
            2 => ProblemKind::UntypedExpression,
            3 => ProblemKind::UntypedIdentifier(take_name(name, names).0),
            4 => ProblemKind::DanglingBoundIdentifier,
            5 => ProblemKind::UncheckableApplication,
            _ => panic!("the checker listed problem {number}"),
        };
        problems.push(Problem { kind, place });
        bytes = after;
    }
    assert!(bytes.is_empty(), "the checker wrote something else among the problems");
    problems
}

impl fmt::Display for Problem {
    fn fmt(&self, f: &mut fmt::Formatter<'_>) -> fmt::Result {
        let place = self.place;
        match &self.kind {
            ProblemKind::TypesDoNotMatch => write!(f, "types do not match at byte {place}"),
            ProblemKind::Circularity => write!(f, "a type would hold itself at byte {place}"),
            ProblemKind::UntypedExpression => write!(f, "the type is not determined at byte {place}"),
            ProblemKind::UntypedIdentifier(name) => {
                write!(f, "the type of {name} is not determined, first met at byte {place}")
            }
            ProblemKind::DanglingBoundIdentifier => write!(f, "a bound index has no declaration at byte {place}"),
            ProblemKind::UncheckableApplication => {
                write!(f, "a predicate applied by name cannot be checked at byte {place}")
            }
        }
    }
}

/// Why a question was not taken. Places are byte offsets.
#[derive(Debug, Clone, Copy, PartialEq, Eq)]
pub enum Refusal {
    /// Number 2 of an inference: more than 16,384 bytes of formula or environment, more than 256 names, or a capacity of 0 or above 32,768.
    OutsideLimits,
    /// Number 2 of type text: the names are no good table.
    BadNames,
    /// Number 3.
    MalformedEnvironment {
        /// Where.
        place: usize,
    },
    /// Number 4 of an inference.
    MalformedFormula {
        /// Where.
        place: usize,
    },
    /// Number 4 of [`write_type`]: a given set outside the row, or bytes that are no type record.
    MalformedType {
        /// Where.
        place: usize,
    },
    /// Number 4 of [`read_type`].
    MalformedText {
        /// Where.
        place: usize,
    },
    /// Number 5: too deep, or too many expressions, declarations or brackets.
    TooLarge {
        /// Where.
        place: usize,
    },
    /// Number 6.
    CapacityUsed,
    /// Number 7.
    BudgetSpent,
    /// Number 8: the answer is longer than the largest output.
    OutputFull,
}

impl Refusal {
    /// The refusal of an inference by its number, 2 to 8, and its place.
    ///
    /// ```
    /// # use workbench::Refusal;
    /// assert_eq!(Refusal::of_inference(4, 5), Refusal::MalformedFormula { place: 5 });
    /// ```
    pub fn of_inference(number: u32, place: usize) -> Refusal {
        match number {
            2 => Refusal::OutsideLimits,
            3 => Refusal::MalformedEnvironment { place },
            4 => Refusal::MalformedFormula { place },
            5 => Refusal::TooLarge { place },
            6 => Refusal::CapacityUsed,
            7 => Refusal::BudgetSpent,
            8 => Refusal::OutputFull,
            _ => panic!("{number} is no refusal of an inference"),
        }
    }

    /// The number that the checker answered.
    ///
    /// ```
    /// # use workbench::Refusal;
    /// assert_eq!(Refusal::MalformedFormula { place: 5 }.number(), 4);
    /// ```
    pub fn number(&self) -> u32 {
        match self {
            Refusal::OutsideLimits | Refusal::BadNames => 2,
            Refusal::MalformedEnvironment { .. } => 3,
            Refusal::MalformedFormula { .. } | Refusal::MalformedType { .. } | Refusal::MalformedText { .. } => 4,
            Refusal::TooLarge { .. } => 5,
            Refusal::CapacityUsed => 6,
            Refusal::BudgetSpent => 7,
            Refusal::OutputFull => 8,
        }
    }
}

impl fmt::Display for Refusal {
    fn fmt(&self, f: &mut fmt::Formatter<'_>) -> fmt::Result {
        f.write_str("refused: ")?;
        match self {
            Refusal::OutsideLimits => f.write_str(
                "a size is outside its limits (16,384 bytes of formula or environment, 256 names, capacity 1 to 32,768)",
            ),
            Refusal::BadNames => f.write_str("the names are no good table"),
            Refusal::MalformedEnvironment { place } => write!(f, "the environment is malformed at byte {place}"),
            Refusal::MalformedFormula { place } => write!(f, "the formula is malformed at byte {place}"),
            Refusal::MalformedType { place } => write!(f, "the type is malformed at byte {place}"),
            Refusal::MalformedText { place } => write!(f, "the text is malformed at byte {place}"),
            Refusal::TooLarge { place } => {
                write!(f, "too deep, or too many expressions or open declarations, at byte {place}")
            }
            Refusal::CapacityUsed => f.write_str("the capacity is used"),
            Refusal::BudgetSpent => f.write_str("the budget is spent"),
            Refusal::OutputFull => f.write_str("the answer is longer than the largest output"),
        }
    }
}

impl std::error::Error for Refusal {}
