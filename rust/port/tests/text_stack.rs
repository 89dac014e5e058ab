//! Text entries recurse over brackets (at most 33) and over the levels of a record (at most 65), never over the length of a text:
//! the deepest that the limits allow, and long products, answer in a thread of 64 KiB.

use port::{read_text, write_text};

const STACK: usize = 64 * 1024;

fn in_small_stack(run: impl FnOnce() + Send + 'static) {
    if !port::PROVED_TEXT {
        eprintln!("skipped: the proved text entries are not linked");
        return;
    }
    std::thread::Builder::new().stack_size(STACK).spawn(run).unwrap().join().unwrap();
}

/// A record whose right operands are products, down to the last depth allowed: each level is a bracket of the writer's.
fn right_products(depth: usize) -> Vec<u8> {
    let mut record = Vec::new();
    for _ in 0..depth {
        record.extend([0x44, 0x41]);
    }
    record.push(0x41);
    record
}

#[test]
fn deepest_records_are_written() {
    in_small_stack(|| {
        let mut page = vec![0; 4_096];
        let mut powers = vec![0x43; 64];
        powers.push(0x41);
        assert_eq!(write_text(&powers, &[], &mut page, 0).number, 0);
        assert_eq!(write_text(&right_products(64), &[], &mut page, 0).number, 0);
        assert_eq!(write_text(&right_products(65), &[], &mut page, 0).number, 5);
    });
}

#[test]
fn deepest_texts_are_read() {
    in_small_stack(|| {
        let mut page = vec![0; 4_096];
        let nested = |n: usize| format!("{}ℤ{}", "ℙ(".repeat(n), ")".repeat(n)).into_bytes();
        assert_eq!(read_text(&nested(32), &[], &mut page).number, 0);
        let refused = read_text(&nested(33), &[], &mut page);
        assert_eq!((refused.number, refused.place), (5, 132));
    });
}

#[test]
fn long_products_need_no_stack() {
    in_small_stack(|| {
        let mut page = vec![0; 4_096];
        let text = vec!["ℤ"; 100_000].join("×").into_bytes();
        let refused = read_text(&text, &[], &mut page);
        assert_eq!((refused.number, refused.place), (5, 0));
    });
}
