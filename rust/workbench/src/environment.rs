//! Environments: names with their types.

use std::fmt;

use crate::check::{Refusal, read_type};
use crate::types::{Names, Type};

/// Names with the types they are given.
///
/// ```
/// use workbench::{Environment, Type};
///
/// let environment = Environment::new()
///     .carrier_set("PERIOD")
///     .with("rounding", Type::relation(Type::given("PERIOD"), Type::Int));
/// assert_eq!(environment.to_string(), "PERIOD : ℙ(PERIOD)\nrounding : ℙ(PERIOD×ℤ)\n");
/// ```
#[derive(Debug, Clone, Default, PartialEq, Eq)]
pub struct Environment {
    entries: Vec<(String, Type)>,
}

impl Environment {
    /// No entries.
    pub fn new() -> Environment {
        Environment::default()
    }

    /// The same with one more entry. A name that has one already makes the environment malformed, which inference refuses.
    pub fn with(mut self, name: impl Into<String>, ty: Type) -> Environment {
        self.entries.push((name.into(), ty));
        self
    }

    /// The same with a carrier set: a name whose type is the power of itself.
    pub fn carrier_set(self, name: impl Into<String>) -> Environment {
        let name = name.into();
        let ty = Type::power(Type::given(name.clone()));
        self.with(name, ty)
    }

    /// The type of a name.
    pub fn get(&self, name: &str) -> Option<&Type> {
        self.entries.iter().find(|(entry, _)| entry == name).map(|(_, ty)| ty)
    }

    /// The entries, in order.
    pub fn iter(&self) -> impl Iterator<Item = (&str, &Type)> {
        self.entries.iter().map(|(name, ty)| (name.as_str(), ty))
    }

    /// The byte form, with names numbered by the row; those that it lacks join it.
    ///
    /// ```
    /// # use workbench::{Environment, Names, Type};
    /// let environment = Environment::new().with("x", Type::Int);
    /// assert_eq!(environment.bytes(&mut Names::new()), [0x50, 0, 0, 0x41]);
    /// ```
    pub fn bytes(&self, names: &mut Names) -> Vec<u8> {
        let mut bytes = Vec::new();
        for (name, ty) in &self.entries {
            bytes.push(0x50);
            bytes.extend(names.add(name).to_le_bytes());
            ty.put(names, &mut bytes);
        }
        bytes
    }

    /// Reads an environment as people write it: a line for each name, `name : type` for one with a type and `name` alone for one
    /// without. Empty lines and what follows a `#` do not count. The row has the names in the order of their lines.
    ///
    /// Types are read by the checker's own reader; they may speak of any name of the row.
    ///
    /// ```
    /// use workbench::Environment;
    ///
    /// let (names, environment) = Environment::parse(
    ///     "PERIOD : ℙ(PERIOD)        # a carrier set
    ///      rounding                  # a name to infer
    ///      months : ℙ(PERIOD×ℤ)",
    /// )
    /// .unwrap();
    /// assert_eq!(names.number("rounding"), Some(1));
    /// assert_eq!(environment.get("months").unwrap().to_string(), "ℙ(PERIOD×ℤ)");
    ///
    /// let error = Environment::parse("PERIOD : ℙ(PERIOD)\nx : ℙ(WEEK)").unwrap_err();
    /// assert_eq!(error.to_string(), "line 2: the type of x: refused: the text is malformed at byte 4, at \"WEEK)\"");
    /// ```
    pub fn parse(text: &str) -> Result<(Names, Environment), LineError> {
        let mut names = Names::new();
        let mut typed = Vec::new();
        for (number, line) in text.lines().enumerate().map(|(index, line)| (index + 1, line)) {
            let line = line.split('#').next().unwrap_or("").trim();
            if line.is_empty() {
                continue;
            }
            let (name, ty) = match line.split_once(':') {
                Some((name, ty)) => (name.trim(), Some(ty.trim())),
                None => (line, None),
            };
            let error = |fault| Err(LineError { line: number, name: name.to_owned(), fault });
            if !crate::is_name(name) {
                return error(LineFault::Name);
            }
            if names.number(name).is_some() {
                return error(LineFault::Repeated);
            }
            names.add(name);
            typed.extend(ty.map(|ty| (number, name, ty)));
        }
        let mut environment = Environment::new();
        for (line, name, text) in typed {
            match read_type(text, &names) {
                Ok(ty) => environment.entries.push((name.to_owned(), ty)),
                Err(refusal) => {
                    let fault = LineFault::Type { refusal, text: text.to_owned() };
                    return Err(LineError { line, name: name.to_owned(), fault });
                }
            }
        }
        Ok((names, environment))
    }
}

impl fmt::Display for Environment {
    fn fmt(&self, f: &mut fmt::Formatter<'_>) -> fmt::Result {
        self.entries.iter().try_for_each(|(name, ty)| writeln!(f, "{name} : {ty}"))
    }
}

/// What is wrong with a line of an environment's text.
#[derive(Debug, Clone, PartialEq, Eq)]
pub struct LineError {
    /// The line, counted from 1.
    pub line: usize,
    /// What stands for the name there.
    pub name: String,
    /// What is wrong with it.
    pub fault: LineFault,
}

/// See [`LineError`].
#[derive(Debug, Clone, PartialEq, Eq)]
pub enum LineFault {
    /// It is no name.
    Name,
    /// An earlier line has the name.
    Repeated,
    /// The checker's reader refused the type's text.
    Type {
        /// Why.
        refusal: Refusal,
        /// The text.
        text: String,
    },
}

impl fmt::Display for LineError {
    fn fmt(&self, f: &mut fmt::Formatter<'_>) -> fmt::Result {
        write!(f, "line {}: {}", self.line, self.message())
    }
}

impl LineError {
    /// The message without the line's number.
    pub fn message(&self) -> String {
        let name = &self.name;
        match &self.fault {
            LineFault::Name => format!(
                "\"{name}\" is no name: up to 64 ASCII letters, digits and underscores, a letter first, and not BOOL"
            ),
            LineFault::Repeated => format!("the name {name} stands there a second time"),
            LineFault::Type { refusal, text } => match refusal {
                Refusal::MalformedText { place } => match text.as_bytes().get(*place..) {
                    Some([]) => format!("the type of {name}: {refusal}, where it ends"),
                    Some(rest) => format!("the type of {name}: {refusal}, at \"{}\"", String::from_utf8_lossy(rest)),
                    None => format!("the type of {name}: {refusal}"),
                },
                _ => format!("the type of {name}: {refusal}"),
            },
        }
    }
}

impl std::error::Error for LineError {}
