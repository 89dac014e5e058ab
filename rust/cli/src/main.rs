//! The command `typecheck`: a formula in, its verdict out.

mod options;

use std::fs;
use std::io::{self, Read, Write};
use std::process::ExitCode;

use options::{Ask, Options, Source};
use workbench::{
    Answer, BACKEND, Checker, Environment, Formula, Names, PROVED, Refusal, Verdict, read_type, write_record,
};

/// Exit statuses, by verdict.
const TYPED: u8 = 0;
const PROBLEMS: u8 = 1;
const REFUSED: u8 = 2;
const USAGE: u8 = 64;
const OUTPUT: u8 = 74;

const HELP: &str = "\
typecheck: checks the types of an Event-B formula

Usage:
    typecheck [OPTIONS] FORMULA           the formula's bytes in hexadecimal
    typecheck [OPTIONS] --file PATH       a file of hexadecimal (`-` for standard input)
    typecheck [OPTIONS] --bytes PATH      a file of the bytes themselves (`-` for standard input)
    typecheck [OPTIONS] --read-type TEXT  a type's text, to its record
    typecheck [OPTIONS] --write-type HEX  a type's record, to its text

In hexadecimal, blanks do not count, nor does what follows a `#` on its line.

Names are numbered from 0, in the order in which they are given:
    --name LINE          a name, `x`, or a name with its type, `x : ℙ(PERIOD×ℤ)`
    --names PATH         a file of such lines; empty lines and what follows a `#` do not count
A name with a type joins the environment; a name without one is inferred.

Limits:
    --budget N           steps that an inference may take (100000000)
    --capacity N         nodes that it may make, up to 32768 (2048)
    --largest-output N   bytes that an answer may have (16777216)

Printing:
    --show               the formula first, as far as its bytes tell: # is any integer, ∀ also ∃, ∧ also ∨, ⇒ also ⇔, ⊤ also ⊥
    --slots              the type of every expression and declaration too
    --quiet              nothing; the exit status tells
    --help               this text

Exit status: 0 typed (or a type read or written), 1 problems, 2 refused, 64 a question that cannot be asked, 74 output
that cannot be written.

Example, x ∈ ℤ:
    typecheck --name x \"22 06 01 0000 04 00\"
";

fn main() -> ExitCode {
    let outcome = Options::parse(std::env::args_os().skip(1)).and_then(|options| run(&options));
    ExitCode::from(match outcome {
        Ok(status) => status,
        Err(message) => {
            // Standard error may be closed; the exit status still tells.
            let _ = writeln!(io::stderr(), "typecheck: {message}\ntypecheck: --help says how to ask");
            USAGE
        }
    })
}

/// Asks and prints; the exit status, or why the question cannot be asked.
fn run(options: &Options) -> Result<u8, String> {
    if options.help {
        return Ok(print(TYPED, HELP));
    }
    let ask = options.ask.as_ref().ok_or("there is no formula")?;
    let (names, environment) = names(&options.names)?;
    if !PROVED {
        let _ = writeln!(io::stderr(), "typecheck: warning: the proved archive is not built; the {BACKEND} answers");
    }
    let (status, text) = match ask {
        Ask::Formula(source) => {
            let formula = bytes(source)?;
            let default = Checker::default();
            let checker = Checker {
                budget: options.budget.unwrap_or(default.budget),
                capacity: options.capacity.unwrap_or(default.capacity),
                largest_output: options.largest_output.unwrap_or(default.largest_output),
                ..default
            };
            // The row has every name of the environment already, so the numbers stay as they were given.
            let environment = environment.bytes(&mut names.clone());
            let answer = checker.infer_bytes(&formula, &environment, &names);
            said(answer, Formula::read(&formula, &names), options)
        }
        Ask::ReadType(text) => match read_type(text, &names) {
            Ok(ty) => {
                let record = ty.record(&mut names.clone());
                let record: Vec<String> = record.iter().map(|byte| format!("{byte:02X}")).collect();
                (TYPED, format!("{ty}\n{}\n", record.join(" ")))
            }
            Err(refusal) => refused(refusal),
        },
        Ask::WriteType(source) => match write_record(&bytes(source)?, &names) {
            Ok(text) => (TYPED, text + "\n"),
            Err(refusal) => refused(refusal),
        },
    };
    Ok(if options.quiet { status } else { print(status, &text) })
}

/// The exit status and the text of an answer; of the formula, what could be read of it.
fn said(answer: Answer, formula: Option<Formula>, options: &Options) -> (u8, String) {
    let shown = match &formula {
        Some(formula) if options.show => format!("{formula}\n"),
        _ => String::new(),
    };
    let steps = if answer.steps == 1 { "1 step".to_owned() } else { format!("{} steps", answer.steps) };
    let (status, text) = match &answer.verdict {
        Verdict::Typed(_) => {
            let text = if options.slots { format!("{answer:#}\n") } else { format!("{answer}\n") };
            (TYPED, text.replacen("typed", &format!("typed, in {steps}"), 1))
        }
        Verdict::Problems(_) => {
            let text = formula.map_or_else(|| answer.to_string(), |formula| answer.explain(&formula)) + "\n";
            (PROBLEMS, text.replacen("not typed", &format!("not typed, in {steps}"), 1))
        }
        Verdict::Refused(refusal) => refused(*refusal),
    };
    (status, shown + &text)
}

fn refused(refusal: Refusal) -> (u8, String) {
    (REFUSED, format!("{refusal} (number {})\n", refusal.number()))
}

/// Prints, and hands the status on if that went well.
fn print(status: u8, text: &str) -> u8 {
    match io::stdout().write_all(text.as_bytes()) {
        Ok(()) => status,
        Err(error) => {
            let _ = writeln!(io::stderr(), "typecheck: standard output: {error}");
            OUTPUT
        }
    }
}

/// The names and the environment of all lines, in the order in which they were given.
fn names(given: &[options::Lines]) -> Result<(Names, Environment), String> {
    let mut text = String::new();
    // Where each line came from.
    let mut origins = Vec::new();
    for lines in given {
        let (read, label) = match lines {
            options::Lines::Line(line) if line.trim().is_empty() => return Err("--name wants a name".to_owned()),
            options::Lines::Line(line) => (line.clone(), "--name".to_owned()),
            options::Lines::File(path) => {
                let read = fs::read(path).map_err(|e| format!("--names {}: {e}", path.display()))?;
                let read = String::from_utf8(read).map_err(|_| format!("--names {}: not UTF-8", path.display()))?;
                (read, path.display().to_string())
            }
        };
        for (index, line) in read.lines().enumerate() {
            text += line;
            text += "\n";
            origins.push(match lines {
                options::Lines::Line(line) => format!("{label} \"{line}\""),
                options::Lines::File(_) => format!("{label}, line {}", index + 1),
            });
        }
    }
    Environment::parse(&text).map_err(|error| format!("{}: {}", origins[error.line - 1], error.message()))
}

/// The bytes that a source stands for.
fn bytes(source: &Source) -> Result<Vec<u8>, String> {
    let read = |path: &std::path::Path| {
        let mut bytes = Vec::new();
        if path.as_os_str() == "-" { io::stdin().read_to_end(&mut bytes).map(|_| bytes) } else { fs::read(path) }
            .map_err(|e| format!("{}: {e}", path.display()))
    };
    match source {
        Source::Hex(text) => hexadecimal(text),
        Source::HexFile(path) => {
            let text = String::from_utf8(read(path)?).map_err(|_| format!("{}: not hexadecimal", path.display()))?;
            hexadecimal(&text).map_err(|error| format!("{}: {error}", path.display()))
        }
        Source::BytesFile(path) => read(path),
    }
}

fn hexadecimal(text: &str) -> Result<Vec<u8>, String> {
    let mut digits = Vec::new();
    for (index, line) in text.lines().enumerate() {
        let line = line.split('#').next().unwrap_or("");
        for sign in line.chars().filter(|sign| !sign.is_whitespace()) {
            let digit = sign.to_digit(16);
            digits.push(digit.ok_or_else(|| format!("'{sign}' on line {} is no hexadecimal digit", index + 1))? as u8);
        }
    }
    if digits.len() % 2 == 1 {
        return Err(format!("{} hexadecimal digits, and a byte has two", digits.len()));
    }
    Ok(digits.chunks(2).map(|pair| pair[0] << 4 | pair[1]).collect())
}
