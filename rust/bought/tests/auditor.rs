//! The auditor's cases through the bought checker: 1 to 9 where it has a notion of them, and the text cases of 12. What it has
//! no notion of (capacity, budget, steps, malformed bytes) is asked of `reference`.

use bought::driver::{Answer, Build, Silent, infer, read_text, write_text};
use bought::present_or_say;

fn hex(text: &str) -> Vec<u8> {
    let digits: Vec<u8> = text.bytes().filter(|b| !b.is_ascii_whitespace()).collect();
    digits.chunks(2).map(|two| u8::from_str_radix(std::str::from_utf8(two).unwrap(), 16).unwrap()).collect()
}

fn asked(build: Build, formula: &str, environment: &str) -> Result<Answer, Silent> {
    infer(build, &hex(formula), &hex(environment), 1)
}

fn answers(formula: &str, environment: &str, number: u8, output: &str) {
    let answer = asked(Build::Exact, formula, environment);
    assert_eq!(answer, Ok(Answer { number, output: hex(output) }), "{formula} under [{environment}]");
}

#[test]
fn cases_1_to_9() {
    if !present_or_say("the auditor's cases 1 to 9") {
        return;
    }
    answers("22 06 01 0000 04 00", "", 0, "50 0000 41  51 02000000 41  51 05000000 43 41");
    answers("22 00 01 0000 01 0000", "", 1, "60 03 02000000 0000");
    answers("22 00 04 08 04 08", "", 1, "60 02 02000000 FFFF  60 02 04000000 FFFF");
    answers("22 06 01 0000 01 0000", "", 1, "60 01 00000000 FFFF  60 03 02000000 0000");
    answers("22 00 07 00 01 0000 04 04 07 00 03 03", "", 1, "60 00 00000000 FFFF");
    answers("26 01 12 43 42 0000 20", "50 0000 41", 0, "51 02000000 43 42 0000");
    answers("26 01 12 43 42 0000 20", "", 0, "50 0000 43 42 0000  51 02000000 43 42 0000");
    answers("02 0000", "", 1, "60 04 00000000 FFFF");
    answers("20", "", 0, "");
    assert_eq!(asked(Build::Exact, "", ""), Err(Silent::Malformed));
}

#[test]
fn deep_negation() {
    if !present_or_say("the auditor's case 11") {
        return;
    }
    answers(&("25".repeat(64) + "20"), "", 0, "");
}

#[test]
fn text_cases_of_12() {
    if !present_or_say("the auditor's case 12") {
        return;
    }
    let nested = |n: usize| "ℙ(".repeat(n) + "ℤ" + &")".repeat(n);
    assert_eq!(read_text("(ℤ)".as_bytes(), &[]), Ok(Some(vec![0x41])));
    assert_eq!(read_text("ℤ×".as_bytes(), &[]), Ok(None));
    let deep = [vec![0x43; 32], vec![0x41]].concat();
    assert_eq!(read_text(nested(32).as_bytes(), &[]), Ok(Some(deep.clone())));
    assert_eq!(read_text(nested(33).as_bytes(), &[]), Ok(None));
    assert_eq!(write_text(&deep, &[]), Ok(nested(32).into_bytes()));
}

/// A finding (docs/DIFFERENCES.md, R1): built through its own factory the checker compares more types than the 0C
/// records spell. Each input with both builds' answers; the first of the two is the one of `docs/FORMAT.md`.
#[test]
fn explicit_types_exact_and_through_the_factory() {
    if !present_or_say("R1") {
        return;
    }
    for (formula, environment, exact, factory) in [
        ("05 0100 0C 41 01 0000", "50 0000 40", "60 00 05000000 FFFF", "60 00 05000000 FFFF  60 00 00000000 FFFF"),
        (
            "0B 0C 40 01 0000 41",
            "50 0000 41",
            "60 00 03000000 FFFF",
            "60 00 03000000 FFFF  60 00 00000000 FFFF",
        ),
        (
            "09 06 0C 43 44 40 41 01 0000",
            "50 0000 43 44 40 40",
            "60 00 07000000 FFFF",
            "60 00 07000000 FFFF  60 00 00000000 FFFF",
        ),
    ] {
        answers(formula, environment, 1, exact);
        let answer = asked(Build::Factory, formula, environment);
        assert_eq!(answer, Ok(Answer { number: 1, output: hex(factory) }), "{formula} through the factory");
    }
    // R2: no explicit type on a compound, nor on an atom that it does not fit.
    assert_eq!(asked(Build::Factory, "0C 43 41 05 0100 03", ""), Err(Silent::Unbuildable));
    assert_eq!(asked(Build::Factory, "0C 41 04 00", ""), Err(Silent::Unbuildable));
    answers("0C 43 41 05 0100 03", "", 0, "51 03000000 4341  51 06000000 41");
    answers("0C 41 04 00", "", 1, "60 00 02000000 FFFF");
}

/// Where it differs from `docs/FORMAT.md` in text: see docs/DIFFERENCES.md, T5, T6.
#[test]
fn text_outside_the_table() {
    if !present_or_say("T5, T6") {
        return;
    }
    let table = [&[0x81][..], b"S", &[0x83], b"dom"].concat();
    assert_eq!(read_text("S×S".as_bytes(), &table), Ok(Some(hex("44 42 0000 42 0000"))));
    assert_eq!(read_text("Sℤ".as_bytes(), &table), Ok(None));
    assert_eq!(read_text("Sé".as_bytes(), &table), Ok(None));
    assert_eq!(read_text("_S".as_bytes(), &table), Ok(None));
    assert_eq!(read_text("dom".as_bytes(), &table), Ok(None));
    assert_eq!(write_text(&hex("43 42 0100"), &table), Ok("ℙ(dom)".as_bytes().to_vec()));
}
