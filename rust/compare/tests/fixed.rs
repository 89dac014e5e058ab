//! The fixed lists: what they reach, that the reference reading gives each line, and that they are made again byte for byte.

use std::collections::BTreeSet;
use std::fs;
use std::path::PathBuf;

use compare::fixed::{features, heads, inferences, texts};
use compare::unhex;
use generator::Case;
use reference::work_words;

fn list(name: &str) -> String {
    let path = PathBuf::from(env!("CARGO_MANIFEST_DIR")).join("../../crates/replay/data").join(name);
    fs::read_to_string(&path).unwrap_or_else(|e| panic!("{}: {e}", path.display()))
}

fn lines(text: &str) -> impl Iterator<Item = Vec<&str>> {
    text.lines().filter(|line| !line.starts_with('#')).map(|line| line.split(' ').collect())
}

#[test]
fn answers_reach_everything_and_the_reference_gives_them() {
    let text = list("answers.txt");
    assert!(text.len() < 1 << 20);
    let mut seen = BTreeSet::new();
    let mut shapes = BTreeSet::new();
    let mut work = vec![0; work_words(2_048) as usize];
    for fields in lines(&text) {
        let [formula, environment, names, number, output] = fields[..] else { panic!("{fields:?}") };
        let case = Case {
            formula: unhex(formula).unwrap(),
            environment: unhex(environment).unwrap(),
            names: names.parse().unwrap(),
        };
        let number: u32 = number.parse().unwrap();
        let output = unhex(output).unwrap();
        let mut page = vec![0xAA; output.len()];
        let answer = reference::infer(&case.formula, &case.environment, case.names, 2_048, u64::MAX, &mut page, &mut work);
        assert_eq!((answer.number, page), (number, output.clone()), "{formula}");
        seen.extend(heads(&case.formula).into_iter().map(|(_, head)| format!("{head} in answer {number}")));
        shapes.extend(features(&case, number, &output).into_iter().filter(|f| f.starts_with("problem")));
    }
    // Every kind and operator, in typed formulas and in others.
    let families = [("04", 12), ("07", 27), ("08", 7), ("09", 11), ("0A", 3), ("22", 12)];
    let mut due: Vec<String> = families.iter().flat_map(|(kind, n)| (0..*n).map(move |op| format!("{kind} {op}"))).collect();
    for kind in "01 02 03 05 06 0B 0C 10 11 12 20 21 23 24 25 26 27 28 30 31 32 40 41 42 43 44".split(' ') {
        due.push(kind.to_string());
    }
    for head in &due {
        for number in 0..2 {
            assert!(seen.contains(&format!("{head} in answer {number}")), "{head} in answer {number}");
        }
    }
    for head in ["29", "4F"] {
        assert!(seen.contains(&format!("{head} in answer 1")), "{head}");
    }
    assert!(seen.contains("4F in answer 0"));
    // Every problem, alone, first and behind another; short and long lists.
    for problem in 0..6 {
        assert!(shapes.contains(&format!("problem {problem}")), "{problem}");
        assert!(shapes.contains(&format!("problems {problem}")), "{problem} alone");
    }
    for shape in ["03", "13", "43", "53", "04", "05", "40", "45", "22", "222", "33", "000", "2222", "2222.."] {
        assert!(shapes.contains(&format!("problems {shape}")), "{shape} of {shapes:?}");
    }
}

#[test]
fn texts_are_read_and_written_so_by_the_reference() {
    let text = list("texts.txt");
    assert!(text.len() < 1 << 20);
    let (mut read, mut declined, mut written) = (0, 0, 0);
    for fields in lines(&text) {
        let mut page = [0; 2_048];
        match fields[..] {
            ["read", text, table, number, record] => {
                let answer = reference::text::read_text(&unhex(text).unwrap(), &unhex(table).unwrap(), &mut page);
                if number == "0" {
                    read += 1;
                    assert_eq!((answer.number, &page[..answer.length as usize]), (0, &unhex(record).unwrap()[..]), "{text}");
                } else {
                    declined += 1;
                    assert!(matches!(answer.number, 4 | 5), "{text}");
                }
            }
            ["write", record, table, text] => {
                written += 1;
                let answer = reference::text::write_text(&unhex(record).unwrap(), &unhex(table).unwrap(), &mut page, 0);
                assert_eq!((answer.number, &page[..answer.length as usize]), (0, &unhex(text).unwrap()[..]), "{record}");
            }
            _ => panic!("{fields:?}"),
        }
    }
    assert!(read > 500 && declined > 200 && written > 500);
}

#[test]
fn the_lists_are_made_again_byte_for_byte() {
    if !bought::present_or_say("making the fixed lists again") {
        return;
    }
    assert!(inferences() == list("answers.txt"), "answers.txt is not what make_fixed makes");
    assert!(texts() == list("texts.txt"), "texts.txt is not what make_fixed makes");
}
