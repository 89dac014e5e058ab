//! The four entries as they are called: fields, bytes written, bytes left alone, empty slices. Each answer is the one that the rules
//! give and, in every field and byte, the reference reading's. Where the archive was not linked the second says nothing.

use port::{Answer, BACKEND, CAPACITY, PROVED, infer, infer_in, read_text, work_words, write_text};

fn hex(text: &str) -> Vec<u8> {
    let digits: Vec<u8> = text.bytes().filter(|b| !b.is_ascii_whitespace()).collect();
    digits.chunks(2).map(|two| u8::from_str_radix(std::str::from_utf8(two).unwrap(), 16).unwrap()).collect()
}

const CASE_1: &str = "22 06 01 0000 04 00";
const CASE_1_OUTPUT: &str = "50 0000 41 51 02000000 41 51 05000000 43 41";

#[test]
fn says_who_answers() {
    assert_eq!(BACKEND, if PROVED { "proved archive" } else { "reference reading" });
    if !PROVED {
        eprintln!("no archive at {}: the reference reading answers", port::ARCHIVE);
    }
}

#[test]
fn inference_writes_the_answer_and_zeros() {
    let mut output = [0xAA; 40];
    let answer = infer(&hex(CASE_1), &[], 1, u64::MAX, &mut output);
    assert_eq!(answer, Answer { number: 0, place: 0, length: 17, steps: 12 });
    assert_eq!(output[..17], hex(CASE_1_OUTPUT));
    assert_eq!(output[17..], [0; 23]);
}

#[test]
fn a_refusal_clears_and_2_leaves_alone() {
    let mut output = [0xAA; 16];
    let answer = infer(&hex(CASE_1), &[], 1, u64::MAX, &mut output);
    assert_eq!(answer, Answer { number: 8, place: 0, length: 0, steps: 0 });
    assert_eq!(output, [0; 16]);

    let mut output = [0xAA; 16];
    let answer = infer(&hex(CASE_1), &[], 257, u64::MAX, &mut output);
    assert_eq!(answer, Answer { number: 2, place: 0, length: 0, steps: 0 });
    assert_eq!(output, [0xAA; 16]);
}

#[test]
fn empty_slices() {
    assert_eq!(infer(&[], &[], 0, 0, &mut []), Answer { number: 4, place: 0, length: 0, steps: 0 });
    assert_eq!(infer(&[0x20], &[], 0, 1, &mut []), Answer { number: 0, place: 0, length: 0, steps: 1 });
    assert_eq!(infer_in(&[0x20], &[], 0, 1, 1, &mut [], &mut []).number, 2);
    assert_eq!(read_text(&[], &[], &mut []), Answer { number: 4, place: 0, length: 0, steps: 0 });
    assert_eq!(write_text(&[0x41], &[], &mut [], 0), Answer { number: 8, place: 0, length: 0, steps: 0 });
    assert_eq!(write_text(&[0x41], &[], &mut [], 1), Answer { number: 2, place: 0, length: 0, steps: 0 });
}

/// One equality for each pair of names, and one of a name with 3, in a conjunction.
fn equalities(pairs: impl Iterator<Item = (u16, u16)>, integer: u16) -> Vec<u8> {
    let mut formula = vec![0x24, 0, 0];
    let mut count: u16 = 1;
    for (left, right) in pairs {
        formula.extend([0x22, 0x00, 0x01]);
        formula.extend(left.to_le_bytes());
        formula.push(0x01);
        formula.extend(right.to_le_bytes());
        count += 1;
    }
    formula.extend([0x22, 0x00, 0x01]);
    formula.extend(integer.to_le_bytes());
    formula.push(0x03);
    formula[1..3].copy_from_slice(&count.to_le_bytes());
    formula
}

/// Some 15 units a name, however the chain of 255 equalities lies: nothing grows with the square of its length. One unit less is refused.
#[test]
fn chains_cost_what_their_length_is() {
    let steps = |formula: &[u8]| {
        let mut output = vec![0; 8_192];
        let answer = infer(formula, &[], 256, u64::MAX, &mut output);
        assert_eq!(answer.number, 0);
        assert_eq!(infer(formula, &[], 256, answer.steps, &mut output), answer);
        assert_eq!(infer(formula, &[], 256, answer.steps - 1, &mut output).number, 7);
        both(formula, &[], 256, CAPACITY, u64::MAX, 8_192, work_words(CAPACITY) as usize);
        answer.steps
    };
    let forward = (0..255).map(|n| (n, n + 1));
    assert_eq!(steps(&equalities(forward.clone(), 255)), 3_834, "x0 = x1, x1 = x2, ..");
    assert_eq!(steps(&equalities(forward.clone().map(|(left, right)| (right, left)), 0)), 3_834, "x1 = x0, x2 = x1, ..");
    assert_eq!(steps(&equalities(forward.rev(), 255)), 3_834, "x254 = x255, x253 = x254, ..");
    assert_eq!(steps(&equalities((1..256).map(|n| (0, n)), 0)), 3_836, "x0 = x1, x0 = x2, ..");
    assert_eq!(steps(&equalities((1..256).map(|n| (n, 0)), 0)), 3_326, "x1 = x0, x2 = x0, ..");
}

/// The same question to both, in dirty memory.
fn both(formula: &[u8], environment: &[u8], names: u32, capacity: u32, budget: u64, room: usize, words: usize) {
    let (mut output, mut expected_output) = (vec![0xAA; room], vec![0xAA; room]);
    let (mut work, mut expected_work) = (vec![0xBBBB_BBBB; words], vec![0xBBBB_BBBB; words]);
    let answer = infer_in(formula, environment, names, capacity, budget, &mut output, &mut work);
    let expected =
        reference::infer(formula, environment, names, capacity, budget, &mut expected_output, &mut expected_work);
    let question = format!("{formula:02X?} {environment:02X?} {names} {capacity} {budget} {room} {words}");
    assert_eq!(
        (answer.number, answer.place, answer.length, answer.steps),
        (expected.number, expected.place, expected.length, expected.steps),
        "{question}"
    );
    assert!(output == expected_output && work == expected_work, "{question}");
    if capacity == CAPACITY && words as u64 >= work_words(capacity) {
        let mut own = vec![0xAA; room];
        assert_eq!(infer(formula, environment, names, budget, &mut own), answer, "{question}");
        assert!(own == output, "{question}");
    }
}

#[test]
fn inference_as_the_rules_have_it() {
    let formulas = [
        CASE_1,
        "22 00 01 0000 01 0000",
        "22 00 04 08 04 08",
        "22 06 01 0000 01 0000",
        "22 00 07 00 01 0000 04 04 07 00 03 03",
        "26 01 12 43 42 0000 20",
        "02 0000",
        "20",
        "",
        "05 0000",
        "30 01 01 0000 08 05 0200 03 01 0000",
        "32 01 01 0000 10 22 00 02 0000 01 0000",
        "29 0100 03",
        "0B 01 0000 4F",
        "05 0100 0C 41 01 0000",
        "22 06 01 00",
        "22 06 01 0000 04 00 00",
    ];
    for formula in formulas.map(hex) {
        for environment in ["", "50 0000 41", "50 0000 43 42 0000", "50 0000", "50 0000 41 50 0000 41"].map(hex) {
            for (capacity, budget) in [
                (CAPACITY, u64::MAX),
                (3, u64::MAX),
                (4, 11),
                (4, 0),
                (CAPACITY, 11),
                (32_768, 12),
                (0, 1),
                (32_769, 1),
            ] {
                for room in [0, 7, 8, 17, 100] {
                    both(&formula, &environment, 1, capacity, budget, room, work_words(capacity) as usize + 3);
                }
                both(&formula, &environment, 1, capacity, budget, 100, work_words(capacity) as usize - 1);
            }
        }
    }
    let deep = |count| [vec![0x25; count], vec![0x20]].concat();
    both(&deep(64), &[], 0, CAPACITY, u64::MAX, 10, work_words(CAPACITY) as usize);
    both(&deep(65), &[], 0, CAPACITY, u64::MAX, 10, work_words(CAPACITY) as usize);
    both(&[0x20; 16_385], &[], 0, CAPACITY, u64::MAX, 10, work_words(CAPACITY) as usize);
}

#[test]
fn text_as_the_rules_have_it() {
    let nested = |count: usize| "ℙ(".repeat(count) + "ℤ" + &")".repeat(count);
    let texts = ["(ℤ)", "ℤ×", "ℙ(S×ℤ)", "S×(T×BOOL)", "BOOLx", "ℙ", "", "S T", &nested(32), &nested(33)];
    for table in [&b""[..], b"\x81S\x81T", b"\x81S\x81S", b"\x84BOOL", b"\x80"] {
        for room in [0, 1, 9, 60] {
            for text in texts {
                let (mut page, mut expected_page) = (vec![0xAA; room], vec![0xAA; room]);
                let answer = read_text(text.as_bytes(), table, &mut page);
                let expected = reference::text::read_text(text.as_bytes(), table, &mut expected_page);
                assert_eq!(
                    (answer.number, answer.place, answer.length),
                    (expected.number, expected.place, expected.length),
                    "{text}"
                );
                assert!(page == expected_page && answer.steps == 0, "{text}");
                if answer.number == 0 {
                    let record = &page[..answer.length as usize];
                    for position in [0, 1, 30, 60, 61] {
                        let (mut page, mut expected_page) = (vec![0xAA; 60], vec![0xAA; 60]);
                        let answer = write_text(record, table, &mut page, position);
                        let expected = reference::text::write_text(record, table, &mut expected_page, position);
                        assert_eq!(
                            (answer.number, answer.place, answer.length),
                            (expected.number, expected.place, expected.length),
                            "{text} from {position}"
                        );
                        assert!(page == expected_page, "{text} from {position}");
                    }
                }
            }
        }
    }
}
