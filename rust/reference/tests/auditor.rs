//! The auditor's cases 1 to 12, and each limit one below, at and one above, against the reference reading.

use reference::text::{read_text, write_text};
use reference::{infer, work_words, Answer};

fn hex(text: &str) -> Vec<u8> {
    let digits: Vec<u8> = text.bytes().filter(|b| !b.is_ascii_whitespace()).collect();
    digits.chunks(2).map(|two| u8::from_str_radix(std::str::from_utf8(two).unwrap(), 16).unwrap()).collect()
}

/// An inference with dirty output and work; both must end as the answer and zeros.
fn ask(formula: &[u8], environment: &[u8], names: u32, capacity: u32, budget: u64, room: usize) -> (Answer, Vec<u8>) {
    let mut output = vec![0xAA; room];
    let mut work = vec![0xBBBB_BBBB; work_words(capacity) as usize + 3];
    let answer = infer(formula, environment, names, capacity, budget, &mut output, &mut work);
    if answer.number == 2 {
        assert!(output.iter().all(|b| *b == 0xAA) && work.iter().all(|w| *w == 0xBBBB_BBBB));
        return (answer, Vec::new());
    }
    assert!(output[answer.length as usize..].iter().all(|b| *b == 0));
    assert!(work.iter().all(|w| *w == 0));
    output.truncate(answer.length as usize);
    (answer, output)
}

fn ample(formula: &str, environment: &str) -> (Answer, Vec<u8>) {
    ask(&hex(formula), &hex(environment), 1, 2_048, u64::MAX, 65_536)
}

fn answers(formula: &str, environment: &str, number: u32, output: &str) -> u64 {
    let (answer, bytes) = ample(formula, environment);
    assert_eq!((answer.number, answer.place, &bytes), (number, 0, &hex(output)), "{formula}");
    answer.steps
}

fn refuses(formula: &[u8], number: u32, place: u64) {
    let (answer, _) = ask(formula, &[], 1, 2_048, u64::MAX, 65_536);
    assert_eq!(answer, Answer { number, place, length: 0, steps: 0 }, "{formula:02X?}");
}

const CASE_1: &str = "22 06 01 0000 04 00";

#[test]
fn cases_1_to_10() {
    assert_eq!(answers(CASE_1, "", 0, "50 0000 41 51 02000000 41 51 05000000 43 41"), 12);
    for (capacity, budget, number) in [(4, u64::MAX, 0), (3, u64::MAX, 6), (4, 11, 7), (4, 12, 0), (3, 3, 6), (3, 2, 7), (4, 3, 7)] {
        let (answer, _) = ask(&hex(CASE_1), &[], 1, capacity, budget, 100);
        assert_eq!(answer.number, number, "capacity {capacity} budget {budget}");
    }
    answers("22 00 01 0000 01 0000", "", 1, "60 03 02000000 0000");
    answers("22 00 04 08 04 08", "", 1, "60 02 02000000 FFFF 60 02 04000000 FFFF");
    assert_eq!(answers("22 06 01 0000 01 0000", "", 1, "60 01 00000000 FFFF 60 03 02000000 0000"), 7);
    answers("22 00 07 00 01 0000 04 04 07 00 03 03", "", 1, "60 00 00000000 FFFF");
    answers("26 01 12 43 42 0000 20", "50 0000 41", 0, "51 02000000 43 42 0000");
    answers("26 01 12 43 42 0000 20", "", 0, "50 0000 43 42 0000 51 02000000 43 42 0000");
    answers("02 0000", "", 1, "60 04 00000000 FFFF");
    assert_eq!(answers("20", "", 0, ""), 1);
    refuses(&[], 4, 0);
    refuses(&hex("05 0000"), 4, 0);
}

#[test]
fn case_11_depth() {
    let nested = |n: usize| [vec![0x25; n], vec![0x20]].concat();
    answers(&("25".repeat(64) + "20"), "", 0, "");
    refuses(&nested(65), 5, 65);
    // A missing record at depth 65 is malformed, and so is a wrong one.
    refuses(&[0x25; 65], 4, 65);
    refuses(&[vec![0x25; 65], vec![0x03]].concat(), 4, 65);
    // The record's children do not matter where it is too deep itself.
    refuses(&[vec![0x25; 65], hex("22 06 FF")].concat(), 5, 65);
    refuses(&[vec![0x25; 65], hex("22 0C")].concat(), 4, 65);
}

#[test]
fn case_12_text() {
    let nested = |n: usize| "ℙ(".repeat(n) + "ℤ" + &")".repeat(n);
    let read = |text: &str| {
        let mut page = vec![0xAA; 100];
        let answer = read_text(text.as_bytes(), &[], &mut page);
        assert!(page[answer.length as usize..].iter().all(|b| *b == 0xAA));
        page.truncate(answer.length as usize);
        (answer.number, answer.place, page)
    };
    assert_eq!(read("(ℤ)"), (0, 0, vec![0x41]));
    assert_eq!(read("ℤ×"), (4, 5, vec![]));
    let deep = [vec![0x43; 32], vec![0x41]].concat();
    assert_eq!(read(&nested(32)), (0, 0, deep.clone()));
    assert_eq!(read(&nested(33)), (5, 132, vec![]));
    assert_eq!(read(&"ℙ(".repeat(33)), (5, 132, vec![]));
    assert_eq!(read(&"ℙ(".repeat(32)), (4, 128, vec![]));
    assert_eq!(read(""), (4, 0, vec![]));
    assert_eq!(read("ℙ"), (4, 0, vec![]));
    assert_eq!(read("ℤ)"), (4, 3, vec![]));
    assert_eq!(read("(ℤ"), (4, 4, vec![]));
    assert_eq!(read("BOOLx"), (4, 0, vec![]));
    assert_eq!(read("ℤ×ℤ×BOOL"), (0, 0, hex("44 44 41 41 40")));
    assert_eq!(read("ℤ×(ℤ×BOOL)"), (0, 0, hex("44 41 44 41 40")));
    let chain = |n: usize| vec!["ℤ"; n].join("×");
    assert_eq!(read(&chain(66)), (5, 0, vec![]));
    assert_eq!(read(&chain(65)).0, 8);
    // Faults of the text come before its record's depth.
    assert_eq!(read(&(chain(66) + "×")).0, 4);

    let mut page = vec![0xAA; 200];
    let answer = write_text(&deep, &[], &mut page, 5);
    assert_eq!((answer.number, answer.length), (0, 163));
    assert_eq!(&page[5..168], nested(32).as_bytes());
    assert!(page[..5].iter().chain(&page[168..]).all(|b| *b == 0xAA));
    assert_eq!(write_text(&deep, &[], &mut page, 200).number, 8);
    assert_eq!(write_text(&deep, &[], &mut page, 201).number, 2);
    assert_eq!(write_text(&[vec![0x43; 64], vec![0x41]].concat(), &[], &mut [0; 400], 0).number, 0);
    let over = write_text(&[vec![0x43; 65], vec![0x41]].concat(), &[], &mut [0; 400], 0);
    assert_eq!((over.number, over.place), (5, 65));
    let table = [&[0x81][..], b"S", &[0x81], b"T"].concat();
    let mut page = [0; 10];
    assert_eq!(read_text(b"T", &table, &mut page), Answer { number: 0, place: 0, length: 3, steps: 0 });
    assert_eq!(&page[..4], &[0x42, 1, 0, 0]);
    for bad in [&[0x80][..], &[0x82, b'S'], &[0x81, b'1'], &[0x84, b'B', b'O', b'O', b'L'], &[0x81, b'S', 0x81, b'S'], &[0x82, b'S', b'-'], &[0xC1]] {
        assert_eq!(read_text(b"S", bad, &mut page).number, 2, "{bad:02X?}");
    }
}

#[test]
fn limits() {
    let ask_sized = |formula: usize, environment: usize, names: u32, capacity: u32, words: usize| {
        let mut output = [0; 8];
        infer(&vec![0xFF; formula], &vec![0xFF; environment], names, capacity, 0, &mut output, &mut vec![0; words]).number
    };
    assert_eq!(ask_sized(16_384, 0, 256, 1, 4_099), 4);
    assert_eq!(ask_sized(16_385, 0, 256, 1, 4_099), 2);
    assert_eq!(ask_sized(0, 16_384, 256, 1, 4_099), 3);
    assert_eq!(ask_sized(0, 16_385, 256, 1, 4_099), 2);
    assert_eq!(ask_sized(0, 0, 257, 1, 4_099), 2);
    assert_eq!(ask_sized(0, 0, 0, 1, 4_099), 4);
    assert_eq!(ask_sized(0, 0, 256, 1, 4_098), 2);
    assert_eq!(ask_sized(0, 0, 256, 0, 200_000), 2);
    assert_eq!(ask_sized(0, 0, 256, 32_768, 102_400), 4);
    assert_eq!(ask_sized(0, 0, 256, 32_768, 102_399), 2);
    assert_eq!(ask_sized(0, 0, 256, 32_769, 200_000), 2);

    // Slots: 1 for the extension, 1 for each member.
    let members = |n: usize| [vec![0x05, n as u8, (n >> 8) as u8], vec![0x03; n]].concat();
    let (answer, _) = ask(&members(1_023), &[], 1, 2_048, u64::MAX, 65_536);
    assert_eq!(answer.number, 0);
    refuses(&members(1_024), 5, 3 + 1_023);
    // A 0C in front of the slot that is one too many passes.
    let mut last = members(1_024);
    last.splice(3 + 1_023.., hex("0C 41 03"));
    refuses(&last, 5, 3 + 1_023 + 2);

    // Open declarations.
    let binder = |n: u8| [vec![0x26, n], vec![0x10; usize::from(n)], vec![0x20]].concat();
    let (answer, bytes) = ask(&binder(64), &[], 1, 2_048, u64::MAX, 65_536);
    assert_eq!((answer.number, bytes.len()), (1, 64 * 8));
    refuses(&binder(65), 5, 66);
    // A binder that has ended is open no more.
    let two = [vec![0x23], binder(64), binder(64)].concat();
    assert_eq!(ask(&two, &[], 1, 2_048, u64::MAX, 65_536).0.number, 1);

    // Output: exactly enough, one too few.
    let (answer, _) = ask(&hex(CASE_1), &[], 1, 4, 12, 17);
    assert_eq!(answer, Answer { number: 0, place: 0, length: 17, steps: 12 });
    let (answer, _) = ask(&hex(CASE_1), &[], 1, 4, 12, 16);
    assert_eq!(answer, Answer { number: 8, place: 0, length: 0, steps: 0 });
}

#[test]
fn environments() {
    let place = |environment: &str| {
        let (answer, _) = ask(&[0x20], &hex(environment), 2, 2_048, u64::MAX, 100);
        (answer.number, answer.place)
    };
    assert_eq!(place("50 0000 41 50 0100 40"), (0, 0));
    assert_eq!(place("50 0000 41 50 0000 FF"), (3, 4));
    assert_eq!(place("50 0000 41 51"), (3, 4));
    assert_eq!(place("50 0200 41"), (3, 0));
    assert_eq!(place("50 00"), (3, 0));
    assert_eq!(place("50 0000"), (3, 3));
    assert_eq!(place("50 0000 4F"), (3, 3));
    assert_eq!(place("50 0000 44 41"), (3, 5));
    assert_eq!(place("50 0000 42 0200"), (3, 3));
    assert_eq!(place(&("50 0000".to_string() + &"43".repeat(63) + "41")), (0, 0));
    assert_eq!(place(&("50 0000".to_string() + &"43".repeat(64) + "41")), (5, 67));
    // The environment is read before the formula.
    let (answer, _) = ask(&[], &[0xFF], 2, 2_048, u64::MAX, 100);
    assert_eq!(answer.number, 3);
}
