//! Types and the names that numbers stand for.

use std::collections::HashMap;
use std::fmt;

/// A type: BOOL, ℤ, a given set, a power, a product.
///
/// [`Display`](fmt::Display) is the canonical text.
///
/// ```
/// use workbench::Type;
///
/// let rounding = Type::relation(Type::given("PERIOD"), Type::Int);
/// assert_eq!(rounding.to_string(), "ℙ(PERIOD×ℤ)");
/// ```
#[derive(Debug, Clone, PartialEq, Eq, Hash)]
pub enum Type {
    /// BOOL.
    Bool,
    /// ℤ.
    Int,
    /// A given (carrier) set, by its name.
    Given(String),
    /// The type of sets over the base.
    Power(Box<Type>),
    /// The type of pairs.
    Product(Box<Type>, Box<Type>),
}

impl Type {
    /// The given set of this name.
    pub fn given(name: impl Into<String>) -> Type {
        Type::Given(name.into())
    }

    /// ℙ(base).
    ///
    /// ```
    /// # use workbench::Type;
    /// assert_eq!(Type::power(Type::Bool).to_string(), "ℙ(BOOL)");
    /// ```
    pub fn power(base: Type) -> Type {
        Type::Power(Box::new(base))
    }

    /// left×right.
    ///
    /// ```
    /// # use workbench::Type;
    /// let pair = Type::product(Type::Int, Type::product(Type::Bool, Type::Int));
    /// assert_eq!(pair.to_string(), "ℤ×(BOOL×ℤ)");
    /// ```
    pub fn product(left: Type, right: Type) -> Type {
        Type::Product(Box::new(left), Box::new(right))
    }

    /// ℙ(left×right), the type of relations and functions between the two.
    pub fn relation(left: Type, right: Type) -> Type {
        Type::power(Type::product(left, right))
    }

    /// The type's record, with its given names numbered by the table; a name that the table lacks joins it.
    ///
    /// ```
    /// # use workbench::{Names, Type};
    /// let mut names = Names::new();
    /// assert_eq!(Type::power(Type::given("PERIOD")).record(&mut names), [0x43, 0x42, 0, 0]);
    /// assert_eq!(names.name(0), Some("PERIOD"));
    /// ```
    pub fn record(&self, names: &mut Names) -> Vec<u8> {
        let mut bytes = Vec::new();
        self.put(names, &mut bytes);
        bytes
    }

    pub(crate) fn put(&self, names: &mut Names, out: &mut Vec<u8>) {
        match self {
            Type::Bool => out.push(0x40),
            Type::Int => out.push(0x41),
            Type::Given(name) => {
                out.push(0x42);
                out.extend(names.add(name).to_le_bytes());
            }
            Type::Power(base) => {
                out.push(0x43);
                base.put(names, out);
            }
            Type::Product(left, right) => {
                out.push(0x44);
                left.put(names, out);
                right.put(names, out);
            }
        }
    }

    /// The type that a record at the front of the bytes spells, and the bytes after it.
    pub(crate) fn take<'a>(bytes: &'a [u8], names: &Names) -> (Type, &'a [u8]) {
        let (kind, rest) = bytes.split_first().expect("the checker writes whole records");
        match kind {
            0x40 => (Type::Bool, rest),
            0x41 => (Type::Int, rest),
            0x42 => {
                let (name, rest) = take_name(rest, names);
                (Type::Given(name), rest)
            }
            0x43 => {
                let (base, rest) = Type::take(rest, names);
                (Type::power(base), rest)
            }
            0x44 => {
                let (left, rest) = Type::take(rest, names);
                let (right, rest) = Type::take(rest, names);
                (Type::product(left, right), rest)
            }
            _ => panic!("the checker wrote {kind:02X} where a type is due"),
        }
    }
}

impl fmt::Display for Type {
    fn fmt(&self, f: &mut fmt::Formatter<'_>) -> fmt::Result {
        match self {
            Type::Bool => f.write_str("BOOL"),
            Type::Int => f.write_str("ℤ"),
            Type::Given(name) => f.write_str(name),
            Type::Power(base) => write!(f, "ℙ({base})"),
            Type::Product(left, right) if matches!(**right, Type::Product(..)) => write!(f, "{left}×({right})"),
            Type::Product(left, right) => write!(f, "{left}×{right}"),
        }
    }
}

/// A row of distinct names; the byte forms speak of a name by its number in the row.
///
/// ```
/// use workbench::Names;
///
/// let mut names = Names::from(["PERIOD", "TRANSACTION"]);
/// assert_eq!(names.add("DESIGNER"), 2);
/// assert_eq!(names.add("PERIOD"), 0);
/// assert_eq!(names.number("TRANSACTION"), Some(1));
/// assert_eq!(names.name(2), Some("DESIGNER"));
/// ```
///
/// Inference takes up to 256 names, of any spelling. Type text wants names of up to 64 ASCII letters, digits and underscores that
/// start with a letter and are not `BOOL`; it refuses any other table.
#[derive(Debug, Clone, Default, PartialEq, Eq)]
pub struct Names {
    row: Vec<String>,
    numbers: HashMap<String, u16>,
}

impl Names {
    /// No names.
    pub fn new() -> Names {
        Names::default()
    }

    /// The name's number; a new name joins the row at its end.
    ///
    /// Numbers stop at 65,534; a row that long is refused by every entry.
    pub fn add(&mut self, name: &str) -> u16 {
        if let Some(&number) = self.numbers.get(name) {
            return number;
        }
        let number = self.row.len().min(0xFFFE) as u16;
        self.numbers.insert(name.to_owned(), number);
        self.row.push(name.to_owned());
        number
    }

    /// The number of a name in the row.
    pub fn number(&self, name: &str) -> Option<u16> {
        self.numbers.get(name).copied()
    }

    /// The name of a number.
    pub fn name(&self, number: u16) -> Option<&str> {
        self.row.get(usize::from(number)).map(String::as_str)
    }

    /// How many names there are.
    pub fn len(&self) -> usize {
        self.row.len()
    }

    /// Whether there is none.
    pub fn is_empty(&self) -> bool {
        self.row.is_empty()
    }

    /// The names, in order.
    pub fn iter(&self) -> impl Iterator<Item = &str> {
        self.row.iter().map(String::as_str)
    }

    /// The count that inference is told.
    pub(crate) fn count(&self) -> u32 {
        u32::try_from(self.row.len()).unwrap_or(u32::MAX)
    }

    /// The name table that type text is told. A name that no record can hold makes the table a bad one, which the entries refuse.
    ///
    /// ```
    /// # use workbench::Names;
    /// assert_eq!(Names::from(["S", "PERIOD"]).table(), b"\x81S\x86PERIOD");
    /// ```
    pub fn table(&self) -> Vec<u8> {
        let mut table = Vec::new();
        for name in &self.row {
            table.push(0x80 + name.len().min(0x7F) as u8);
            table.extend(name.as_bytes());
        }
        table
    }
}

impl<'a, T: IntoIterator<Item = &'a str>> From<T> for Names {
    fn from(all: T) -> Names {
        let mut names = Names::new();
        for name in all {
            names.add(name);
        }
        names
    }
}

/// A name number at the front of the bytes, as a name, and the bytes after it.
pub(crate) fn take_name<'a>(bytes: &'a [u8], names: &Names) -> (String, &'a [u8]) {
    let (number, rest) = bytes.split_first_chunk().expect("the checker writes whole records");
    let name = names.name(u16::from_le_bytes(*number)).expect("the checker writes names of the row");
    (name.to_owned(), rest)
}
