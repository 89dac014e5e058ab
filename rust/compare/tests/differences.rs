//! What docs/DIFFERENCES.md tells: each input, run, with what each side answers.

use bought::driver::{self, Build};
use bought::present_or_say;
use compare::unhex;
use reference::work_words;

fn bytes(text: &str) -> Vec<u8> {
    unhex(&text.replace(' ', "")).unwrap()
}

/// How many names the formulas below may speak of.
const NAMES: u32 = 3;

fn judged(formula: &str, environment: &str) -> (u32, Vec<u8>) {
    let mut output = vec![0; 1_000];
    let mut work = vec![0; work_words(2_048) as usize];
    let answer = reference::infer(&bytes(formula), &bytes(environment), NAMES, 2_048, u64::MAX, &mut output, &mut work);
    (answer.number, output[..answer.length as usize].to_vec())
}

fn heard(build: Build, formula: &str, environment: &str) -> (u32, Vec<u8>) {
    let answer = driver::infer(build, &bytes(formula), &bytes(environment), NAMES).unwrap();
    (answer.number.into(), answer.output)
}

/// R1: the rules and the bought checker with exact types list the first, the bought checker through its factory the second.
#[test]
fn synthesised_types_are_compared_by_the_bought_factory_alone() {
    let present = present_or_say("R1");
    for (formula, environment, exact, factory) in [
        ("05 0100 0C 41 01 0000", "50 0000 40", "60 00 05000000 FFFF", "60 00 05000000 FFFF 60 00 00000000 FFFF"),
        ("0B 0C 40 01 0000 41", "50 0000 41", "60 00 03000000 FFFF", "60 00 03000000 FFFF 60 00 00000000 FFFF"),
        (
            "09 06 0C 43 44 40 41 01 0000",
            "50 0000 43 44 40 40",
            "60 00 07000000 FFFF",
            "60 00 07000000 FFFF 60 00 00000000 FFFF",
        ),
        // The extra comparison binds an unknown, and a problem 3 disappears.
        (
            "22 00 01 0100 09 06 0C 43 44 41 41 01 0000",
            "50 0000 43 40",
            "60 00 0C000000 FFFF 60 00 0C000000 FFFF 60 03 02000000 0100",
            "60 00 0C000000 FFFF 60 00 0C000000 FFFF",
        ),
    ] {
        assert_eq!(judged(formula, environment), (1, bytes(exact)), "{formula}");
        if present {
            assert_eq!(heard(Build::Exact, formula, environment), (1, bytes(exact)), "{formula}");
            assert_eq!(heard(Build::Factory, formula, environment), (1, bytes(factory)), "{formula}");
        }
    }
}

/// Which of two unknowns is bound: the second equality binds x2 by the rules and x1 in the bought checker, and nothing shows it, whether
/// the names stay without a type, get one afterwards, or close a circle.
#[test]
fn the_other_unknown_is_bound_and_nothing_shows_it() {
    let present = present_or_say("which of two unknowns is bound");
    let chain = "22 00 01 0000 01 0100 22 00 01 0100 01 0200";
    for (formula, number, output) in [
        (format!("24 0200 {chain}"), 1, "60 03 05000000 0000 60 03 08000000 0100 60 03 10000000 0200"),
        (
            format!("24 0300 {chain} 22 00 01 0000 03"),
            0,
            "50 0000 41 50 0100 41 50 0200 41 51 05000000 41 51 08000000 41 51 0D000000 41 51 10000000 41 51 15000000 41 51 18000000 41",
        ),
        (
            format!("24 0300 {chain} 22 06 01 0200 01 0000"),
            1,
            "60 01 13000000 FFFF 60 03 05000000 0000 60 03 08000000 0100 60 03 10000000 0200",
        ),
    ] {
        assert_eq!(judged(&formula, ""), (number, bytes(output)), "{formula}");
        if present {
            assert_eq!(heard(Build::Exact, &formula, ""), (number, bytes(output)), "{formula}");
            assert_eq!(heard(Build::Factory, &formula, ""), (number, bytes(output)), "{formula}");
        }
    }
}

/// T5, T6 and the limits: what the bought reader of type text makes of what the rules refuse, and the other way round.
#[test]
fn text_at_the_edges() {
    let table = [&[0x81][..], b"S", &[0x83], b"dom", &[0x83], b"SET"].concat();
    let read = |text: &str| {
        let mut page = [0; 512];
        let answer = reference::text::read_text(text.as_bytes(), &table, &mut page);
        (answer.number, answer.place)
    };
    // A word goes on through letters that are not ASCII, and may start with an underscore: one identifier outside the table.
    assert_eq!(read("Sℤ"), (4, 1));
    assert_eq!(read("Sé"), (4, 1));
    assert_eq!(read("_S"), (4, 0));
    // A reserved word of the bought language may be a name of a table.
    assert_eq!(read("dom"), (0, 0));
    // A record deeper than 64 is refused, its text is read by the bought reader.
    let chain = vec!["ℤ"; 66].join("×");
    assert_eq!(read(&chain), (5, 0));
    // Products lean left.
    let mut page = [0; 8];
    reference::text::read_text("ℤ×BOOL×ℤ".as_bytes(), &table, &mut page);
    assert_eq!(page[..5], [0x44, 0x44, 0x41, 0x40, 0x41]);
    if !present_or_say("T5, T6, T9") {
        return;
    }
    let free = |text: &str| driver::read_freely(text).unwrap();
    assert_eq!(free("Sℤ").as_deref(), Some("Given(\"Sℤ\")"));
    assert_eq!(free("Sé").as_deref(), Some("Given(\"Sé\")"));
    assert_eq!(free("_S").as_deref(), Some("Given(\"_S\")"));
    assert_eq!(free("dom"), None);
    assert!(free(&chain).is_some());
    assert_eq!(free("ℤ×BOOL×ℤ").as_deref(), Some("Prod(Prod(Int, Bool), Int)"));
}
