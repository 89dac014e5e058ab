//! The fixed list of the bought checker's answers, in plain lines, for a program that replays it without Rust.
//!
//! A line of the first list is `formula environment names number output`, of the second `read text table number record` or
//! `write record table text`; bytes are hexadecimal, `-` for none, and a line that starts with `#` is a comment. In the second list
//! number 4 stands for every text that the bought reader declines.
//!
//! Lines are chosen for what they reach: first every operator over pairs of leaves, then, of many formulas from a seed, those that show a
//! feature not yet shown often enough. Every line is kept only where the reference reading, at capacity 2,048 and with an output of
//! 1,024 bytes, gives the same.

use std::collections::{BTreeMap, BTreeSet};

use bought::driver::{self, Build};
use generator::formula::{case_sized, Style};
use generator::text::{record_case, table, text_case};
use generator::{exhaustive, Case, Rng};
use reference::work_words;

use crate::hex;

pub const SEED: u64 = 4_711;

/// Longest formula, longest answer, in bytes.
const FORMULA: usize = 64;
const OUTPUT: usize = 200;

/// How often a feature is to be shown, by a typed formula and by one with problems.
const OFTEN: [u32; 2] = [6, 2];

/// Leaves for the operators' part: fewer than the comparison's, the list is to stay small.
const LEAVES: [&[u8]; 5] = [&[0x01, 0, 0], &[0x01, 1, 0], &[0x03], &[0x04, 0], &[0x04, 8]];
const ENVIRONMENTS: [&[u8]; 1] = [&[0x50, 0, 0, 0x43, 0x44, 0x41, 0x41]];

/// What a formula and its answer show: each record kind with its operator, the answer's number, which problems are listed and how many, how
/// many names were inferred, pairs of a record kind and its parent's.
pub fn features(case: &Case, number: u32, output: &[u8]) -> BTreeSet<String> {
    let mut seen = BTreeSet::new();
    let heads = heads(&case.formula);
    for (depth, head) in &heads {
        seen.insert(format!("{head} in answer {number}"));
        if *depth == 0 {
            seen.insert(format!("root {head} answer {number}"));
        }
    }
    for pair in heads.windows(2) {
        if pair[1].0 == pair[0].0 + 1 {
            seen.insert(format!("{} above {} in answer {number}", &pair[0].1[..2], pair[1].1));
        }
    }
    let entries = case.environment.iter().filter(|b| **b == 0x50).count().min(3);
    seen.insert(format!("environment of {entries}"));
    if number == 1 {
        let problems: Vec<u8> = output.chunks(8).map(|entry| entry[1]).collect();
        let shape: String = problems.iter().take(4).map(|p| p.to_string()).collect();
        seen.insert(format!("problems {shape}{}", if problems.len() > 4 { ".." } else { "" }));
        for problem in problems {
            seen.insert(format!("problem {problem}"));
        }
    } else {
        let names = inferred(output);
        seen.insert(format!("{} inferred of {} names", names, case.names));
    }
    seen
}

/// How many 50 entries stand at the front of a typing.
fn inferred(output: &[u8]) -> usize {
    let mut at = 0;
    let mut count = 0;
    while output.get(at) == Some(&0x50) {
        at += 3;
        let mut due = 1;
        while due > 0 {
            match output[at] {
                0x42 => {
                    at += 2;
                    due -= 1;
                }
                0x43 => {}
                0x44 => due += 1,
                _ => due -= 1,
            }
            at += 1;
        }
        count += 1;
    }
    count
}

/// The records of a well-formed formula in stream order: depth, and kind with its operator.
pub fn heads(formula: &[u8]) -> Vec<(usize, String)> {
    let mut all = Vec::new();
    // Depths of the records that are due, the next one last.
    let mut due = vec![0usize];
    let mut at = 0;
    while let Some(depth) = due.pop() {
        let kind = formula[at];
        let two = |at: usize| usize::from(u16::from_le_bytes([formula[at], formula[at + 1]]));
        let (body, children, op) = match kind {
            0x01 | 0x02 | 0x42 => (2, 0, None),
            0x04 => (1, 0, Some(formula[at + 1])),
            0x05 | 0x24 | 0x28 | 0x29 => (2, two(at + 1), None),
            0x06 | 0x25 | 0x27 | 0x11 | 0x12 | 0x43 => (0, 1, None),
            0x07 | 0x22 => (1, 2, Some(formula[at + 1])),
            0x08 => (3, two(at + 2), Some(formula[at + 1])),
            0x09 => (1, 1, Some(formula[at + 1])),
            0x0A => (2, usize::from(formula[at + 2]) + 2, Some(formula[at + 1])),
            0x0B | 0x0C | 0x23 | 0x44 => (0, 2, None),
            0x26 => (1, usize::from(formula[at + 1]) + 1, None),
            0x30 => (1, 2 * usize::from(formula[at + 1]), None),
            0x31 => (1, usize::from(formula[at + 1]) + 1, None),
            0x32 => (1, 2 * usize::from(formula[at + 1]) + 1, None),
            _ => (0, 0, None),
        };
        let head = match op {
            Some(op) => format!("{kind:02X} {op}"),
            None => format!("{kind:02X}"),
        };
        all.push((depth, head));
        due.extend(std::iter::repeat(depth + 1).take(children));
        at += 1 + body;
    }
    all
}

/// The bought checker's answer to a case, if the case is well formed and small and the reference reading gives the same.
fn answered(case: &Case) -> Option<(u32, Vec<u8>)> {
    if case.formula.len() > FORMULA {
        return None;
    }
    let mut output = vec![0; 1_024];
    let mut work = vec![0; work_words(2_048) as usize];
    let judged =
        reference::infer(&case.formula, &case.environment, case.names, 2_048, 100_000, &mut output, &mut work);
    if judged.number > 1 {
        return None;
    }
    let answer = driver::infer(Build::Exact, &case.formula, &case.environment, case.names).ok()?;
    let same = u32::from(answer.number) == judged.number && answer.output == output[..judged.length as usize];
    assert!(same, "the reference reading differs on {}", hex(&case.formula));
    (answer.output.len() <= OUTPUT).then_some((answer.number.into(), answer.output))
}

/// The list of inferences.
pub fn inferences() -> String {
    let mut out = String::from(
        "# The bought checker's answers: formula environment names number output\n\
         # Made by: cargo run --release --offline -p compare --bin make_fixed\n",
    );
    let mut lines: BTreeSet<String> = BTreeSet::new();
    let mut shown: BTreeMap<String, u32> = BTreeMap::new();
    let mut keep = |case: &Case, always: bool| {
        let Some((number, output)) = answered(case) else { return };
        let features = features(case, number, &output);
        let often = OFTEN[number as usize];
        if !always && !features.iter().any(|f| shown.get(f).copied().unwrap_or(0) < often) {
            return;
        }
        let line =
            format!("{} {} {} {number} {}", hex(&case.formula), hex(&case.environment), case.names, hex(&output));
        if lines.insert(line.clone()) {
            for feature in features {
                *shown.entry(feature).or_default() += 1;
            }
            out.push_str(&line);
            out.push('\n');
        }
    };
    for case in exhaustive::operators(&LEAVES, &ENVIRONMENTS) {
        keep(&case, true);
    }
    let mut rng = Rng::new(SEED);
    for i in 0..60_000 {
        let style = [Style::Planned, Style::Planned, Style::Planned, Style::Broken, Style::Wild][i % 5];
        let names = 1 + rng.below(4) as u16;
        let fuel = 2 + rng.below(24);
        let case = case_sized(&mut rng, style, names, fuel);
        keep(&case, false);
    }
    out
}

/// The list of texts read and written.
pub fn texts() -> String {
    let mut out = String::from(
        "# The bought checker's type texts: read text table number record, write record table text\n\
         # Made by: cargo run --release --offline -p compare --bin make_fixed\n",
    );
    let mut lines: BTreeSet<String> = BTreeSet::new();
    let mut keep = |line: String| {
        if line.len() < 600 && lines.insert(line.clone()) {
            out.push_str(&line);
            out.push('\n');
        }
    };
    let mut read = |text: &[u8], table: &[u8]| {
        let mut page = [0; 512];
        let judged = reference::text::read_text(text, table, &mut page);
        // What the bought reader has no notion of is left out: a bad table, a record too deep, a page too short.
        if matches!(judged.number, 2 | 8) || (judged.number == 5 && judged.place == 0) {
            return;
        }
        let Ok(record) = driver::read_text(text, table) else { return };
        let judged = (judged.number == 0).then(|| page[..judged.length as usize].to_vec());
        assert_eq!(record, judged, "the reference reading differs on {}", hex(text));
        let (number, record) = match record {
            Some(record) => (0, hex(&record)),
            None => (4, "-".to_string()),
        };
        keep(format!("read {} {} {number} {record}", hex(text), hex(table)));
    };
    for n in [0, 1, 2, 31, 32, 33, 34] {
        let nested = |open: &str| [open.repeat(n), "ℤ".to_string(), ")".repeat(n)].concat();
        read(nested("ℙ(").as_bytes(), &[]);
        read(nested("(").as_bytes(), &[]);
    }
    let words = table(&["S", "T", "PERIOD"]);
    for text in [
        "", "ℤ", "BOOL", "(ℤ)", "ℤ×", "×ℤ", "S", "T×S", "S×T×PERIOD", "S×(T×PERIOD)", "ℙ(S×ℤ)", "ℙ", "ℙ(", "ℙ()", "ℙ(S", "(S", "S)", "SS",
        "BOOLS", "bool", "ℤℤ", "ℤ BOOL", "ℙℙ(S)", "ℙ(ℙ(S))×T", "((S×T))×ℤ", "U", "S××T", "ℕ", "ℙ1(S)",
    ] {
        read(text.as_bytes(), &words);
        for cut in 1..text.len() {
            read(&text.as_bytes()[..cut], &words);
        }
    }
    let mut rng = Rng::new(SEED);
    for _ in 0..1_500 {
        let case = text_case(&mut rng);
        read(&case.text, &case.table);
    }
    for _ in 0..1_000 {
        let case = record_case(&mut rng);
        let mut page = [0; 2_048];
        let judged = reference::text::write_text(&case.record, &case.table, &mut page, 0);
        if judged.number != 0 {
            continue;
        }
        let Ok(text) = driver::write_text(&case.record, &case.table) else { continue };
        assert_eq!(text, page[..judged.length as usize], "the reference reading differs on {}", hex(&case.record));
        keep(format!("write {} {} {}", hex(&case.record), hex(&case.table), hex(&text)));
    }
    out
}
