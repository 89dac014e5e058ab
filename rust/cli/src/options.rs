//! The command line.

use std::ffi::OsString;
use std::path::PathBuf;

/// What is asked.
#[derive(Debug, PartialEq, Eq)]
pub enum Ask {
    /// The verdict of a formula.
    Formula(Source),
    /// The record of a type's text.
    ReadType(String),
    /// The text of a type's record.
    WriteType(Source),
}

/// Where bytes come from.
#[derive(Debug, PartialEq, Eq)]
pub enum Source {
    Hex(String),
    HexFile(PathBuf),
    BytesFile(PathBuf),
}

/// Where names come from.
#[derive(Debug, PartialEq, Eq)]
pub enum Lines {
    Line(String),
    File(PathBuf),
}

#[derive(Debug, Default, PartialEq, Eq)]
pub struct Options {
    pub ask: Option<Ask>,
    pub names: Vec<Lines>,
    pub budget: Option<u64>,
    pub capacity: Option<u32>,
    pub largest_output: Option<usize>,
    pub show: bool,
    pub slots: bool,
    pub quiet: bool,
    pub help: bool,
}

impl Options {
    /// Reads the arguments; a value stands behind its option, or in it after a `=`.
    pub fn parse(arguments: impl IntoIterator<Item = OsString>) -> Result<Options, String> {
        let mut options = Options::default();
        let mut arguments = arguments.into_iter();
        let mut only_formulas = false;
        while let Some(argument) = arguments.next() {
            let shown = argument.to_string_lossy().into_owned();
            let option = if only_formulas { None } else { shown.strip_prefix("--") };
            let Some(option) = option else {
                if !only_formulas && shown.starts_with('-') {
                    return Err(format!("there is no option {shown}"));
                }
                options.ask(Ask::Formula(Source::Hex(text(argument, "the formula")?)))?;
                continue;
            };
            if option.is_empty() {
                only_formulas = true;
                continue;
            }
            let (option, within) = match option.split_once('=') {
                Some((option, value)) => (option, Some(OsString::from(value))),
                None => (option, None),
            };
            let named = format!("--{option}");
            if let "show" | "slots" | "quiet" | "help" = option {
                if within.is_some() {
                    return Err(format!("{named} takes no value"));
                }
                match option {
                    "show" => options.show = true,
                    "slots" => options.slots = true,
                    "quiet" => options.quiet = true,
                    _ => options.help = true,
                }
                continue;
            }
            let mut value =
                || within.clone().or_else(|| arguments.next()).ok_or_else(|| format!("{named} wants a value"));
            match option {
                "file" => options.ask(Ask::Formula(Source::HexFile(value()?.into())))?,
                "bytes" => options.ask(Ask::Formula(Source::BytesFile(value()?.into())))?,
                "read-type" => options.ask(Ask::ReadType(text(value()?, &named)?))?,
                "write-type" => options.ask(Ask::WriteType(Source::Hex(text(value()?, &named)?)))?,
                "name" => options.names.push(Lines::Line(text(value()?, &named)?)),
                "names" => options.names.push(Lines::File(value()?.into())),
                "budget" => options.budget = Some(number(value()?, &named)?),
                "capacity" => options.capacity = Some(number(value()?, &named)?),
                "largest-output" => options.largest_output = Some(number(value()?, &named)?),
                _ => return Err(format!("there is no option {named}")),
            }
        }
        Ok(options)
    }

    /// One question at a time.
    fn ask(&mut self, ask: Ask) -> Result<(), String> {
        match self.ask.replace(ask) {
            None => Ok(()),
            Some(_) => Err("more than one formula or type (hexadecimal with blanks wants quotes)".to_owned()),
        }
    }
}

fn text(value: OsString, of: &str) -> Result<String, String> {
    value.into_string().map_err(|_| format!("{of}: not UTF-8"))
}

fn number<T: std::str::FromStr>(value: OsString, of: &str) -> Result<T, String> {
    let text = text(value, of)?;
    let digits: String = text.chars().filter(|sign| *sign != '_' && *sign != ',').collect();
    digits.parse().map_err(|_| format!("{of} \"{text}\": no number that fits"))
}
