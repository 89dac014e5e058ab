//! Nodes made for each record, against a table of their own: what a record adds to what its children make.

use reference::{infer_counting, work_words};

fn nodes(formula: &[u8], environment: &[u8]) -> usize {
    let mut work = vec![0; work_words(2_048) as usize];
    let (answer, nodes) = infer_counting(formula, environment, 4, 2_048, u64::MAX, &mut [0; 4_096], &mut work);
    assert!(answer.number < 2, "{formula:02X?}");
    nodes
}

#[test]
fn atoms() {
    for (op, made) in [2, 2, 2, 2, 1, 1, 4, 4, 2, 3, 5, 5].into_iter().enumerate() {
        assert_eq!(nodes(&[0x04, op as u8], &[]), made, "04 {op}");
    }
    assert_eq!(nodes(&[0x03], &[]), 1);
    assert_eq!(nodes(&[0x02, 0, 0], &[]), 1);
    assert_eq!(nodes(&[0x01, 0, 0], &[]), 1);
    // A held name is lifted once, another is one unknown.
    let pair = [0x07, 0, 0x01, 0, 0, 0x01, 0, 0];
    assert_eq!(nodes(&pair, &[]), 1 + 1);
    assert_eq!(nodes(&pair, &[0x50, 0, 0, 0x43, 0x44, 0x41, 0x40]), 4 + 1);
}

#[test]
fn operators() {
    for op in 0..27u8 {
        let made = match op {
            0 => 1,
            1..=11 => 4 + 3,
            12 => 2,
            13 => 4 + 2,
            14 => 7 + 3,
            15 => 8 + 4,
            16..=19 => 5,
            20 => 1 + 1,
            21..=24 => 1,
            25 => 4,
            _ => 5 + 1,
        };
        assert_eq!(nodes(&[0x07, op, 0x03, 0x03], &[]), 2 + made, "07 {op}");
    }
    for op in 0..7u8 {
        for count in 2..5u8 {
            let made = match op {
                0 | 1 => 2,
                2 => 4,
                3 | 4 => 1 + 3 * usize::from(count) + 2,
                _ => 1,
            };
            let formula = [vec![0x08, op, count, 0], vec![0x03; usize::from(count)]].concat();
            assert_eq!(nodes(&formula, &[]), usize::from(count) + made, "08 {op}");
        }
    }
    for (op, made) in [3, 3, 3, 3, 3, 5, 5, 2, 2, 6, 1].into_iter().enumerate() {
        assert_eq!(nodes(&[0x09, op as u8, 0x03], &[]), 1 + made, "09 {op}");
    }
    for (op, made) in [2, 2, 1].into_iter().enumerate() {
        assert_eq!(nodes(&[0x0A, op as u8, 1, 0x10, 0x20, 0x03], &[]), 1 + 1 + made, "0A {op}");
    }
    for op in 0..12u8 {
        let made = match op {
            0 | 1 => 0,
            2..=7 => 1,
            _ => 2,
        };
        assert_eq!(nodes(&[0x22, op, 0x03, 0x03], &[]), 2 + made, "22 {op}");
    }
    assert_eq!(nodes(&[0x05, 2, 0, 0x03, 0x03], &[]), 2 + 2);
    assert_eq!(nodes(&[0x06, 0x20], &[]), 1);
    assert_eq!(nodes(&[0x27, 0x03], &[]), 1 + 2);
    assert_eq!(nodes(&[0x28, 2, 0, 0x03, 0x03], &[]), 2 + 2);
    assert_eq!(nodes(&[0x29, 2, 0, 0x03, 0x03], &[]), 2);
    assert_eq!(nodes(&[0x25, 0x20], &[]), 0);
}

#[test]
fn types_and_notes() {
    // An explicit type makes its own nodes; a note the unknown (once), the given name and its power each time.
    assert_eq!(nodes(&[0x0C, 0x43, 0x41, 0x03], &[]), 1 + 2);
    assert_eq!(nodes(&[0x0C, 0x42, 0, 0, 0x03], &[]), 1 + 1);
    assert_eq!(nodes(&[0x0B, 0x03, 0x42, 0, 0], &[]), 1 + (1 + 2) + 1);
    assert_eq!(nodes(&[0x0B, 0x03, 0x44, 0x42, 0, 0, 0x42, 0, 0], &[]), 1 + (1 + 2) + 2 + 3);
    assert_eq!(nodes(&[0x0B, 0x03, 0x42, 0, 0], &[0x50, 0, 0, 0x41]), 1 + 1);
    assert_eq!(nodes(&[0x0B, 0x03, 0x4F], &[]), 1);
    assert_eq!(nodes(&[0x26, 1, 0x10, 0x20], &[]), 1);
    assert_eq!(nodes(&[0x26, 1, 0x11, 0x42, 0, 0, 0x20], &[]), 1 + 1);
    assert_eq!(nodes(&[0x26, 1, 0x12, 0x42, 0, 0, 0x20], &[]), 1 + (1 + 2) + 1);
    assert_eq!(nodes(&[0x26, 1, 0x12, 0x4F, 0x20], &[]), 1);
}

#[test]
fn assignments() {
    assert_eq!(nodes(&[0x30, 2, 0x01, 0, 0, 0x03, 0x01, 1, 0, 0x03], &[]), 4);
    assert_eq!(nodes(&[0x31, 1, 0x01, 0, 0, 0x04, 0], &[]), 1 + 1 + 2);
    assert_eq!(nodes(&[0x31, 3, 0x01, 0, 0, 0x01, 1, 0, 0x01, 2, 0, 0x04, 0], &[]), 3 + 2 + 1 + 2);
    assert_eq!(nodes(&[0x32, 1, 0x01, 0, 0, 0x10, 0x20], &[]), 1 + 1);
}
