//! Inference recurses over records (at most 65 levels) and over nodes, as deep as the types of a formula are. The deepest formulas that the limits
//! allow answer in a thread of 2 MiB, at the largest capacity. `INFER_STACK` sets another size in bytes, to see how little suffices.

use port::infer_in;

const CAPACITY: u32 = 32_768;

fn stack() -> usize {
    match std::env::var("INFER_STACK") {
        Ok(bytes) => bytes.parse().expect("INFER_STACK is a number of bytes"),
        Err(_) => 2 * 1024 * 1024,
    }
}

fn in_small_stack(run: impl FnOnce() + Send + 'static) {
    if !port::PROVED {
        eprintln!("skipped: the proved entries are not linked");
        return;
    }
    std::thread::Builder::new().stack_size(stack()).spawn(run).unwrap().join().unwrap();
}

/// Number and length of an answer in ample room.
fn ask(formula: &[u8], names: u32) -> (u32, u64) {
    let mut output = vec![0xAA; 1 << 20];
    let mut work = vec![0xAAAA_AAAA; 3 * CAPACITY as usize + 4_096];
    let answer = infer_in(formula, &[], names, CAPACITY, u64::MAX, &mut output, &mut work);
    assert!(work.iter().all(|w| *w == 0));
    (answer.number, answer.length)
}

/// `name = {{..{below}..}}`, with so many brackets: the name's type is that many powers deeper.
fn wrapped(name: u8, brackets: usize, below: &[u8]) -> Vec<u8> {
    let mut bytes = vec![0x22, 0, 0x01, name, 0];
    for _ in 0..brackets {
        bytes.extend([0x05, 1, 0]);
    }
    bytes.extend(below);
    bytes
}

/// Names above names, each 60 powers deeper than the one below it, down to `ground`.
fn tower(first: u8, names: u8, ground: &[u8]) -> Vec<Vec<u8>> {
    (0..names)
        .map(|n| if n == 0 { wrapped(first, 60, ground) } else { wrapped(first + n, 60, &[0x01, first + n - 1, 0]) })
        .collect()
}

fn conjunction(parts: &[Vec<u8>]) -> Vec<u8> {
    let mut bytes = vec![0x24, parts.len() as u8, 0];
    bytes.extend(parts.concat());
    bytes
}

#[test]
fn the_deepest_records() {
    in_small_stack(|| {
        let mut formula = vec![0x25; 64];
        formula.push(0x20);
        assert_eq!(ask(&formula, 1), (0, 0));
        let mut formula = vec![0x25; 62];
        formula.extend([0x22, 0, 0x03, 0x03]);
        assert_eq!(ask(&formula, 1).0, 0);
    });
}

/// `before` so many times, `core`, and `after` as many times.
fn nested(before: &[u8], times: usize, core: &[u8], after: &[u8]) -> Vec<u8> {
    [before.repeat(times), core.to_vec(), after.repeat(times)].concat()
}

#[test]
fn the_deepest_records_of_each_kind() {
    in_small_stack(|| {
        let deepest = [
            ("maplets", nested(&[0x07, 0], 64, &[0x03], &[0x03])),
            ("sums", nested(&[0x08, 5, 2, 0], 64, &[0x03], &[0x03])),
            ("negations of numbers", nested(&[0x09, 10], 64, &[0x03], &[])),
            ("comprehensions", nested(&[0x0A, 2, 1, 0x11, 0x41, 0x20], 63, &[0x03], &[])),
            ("ascriptions", nested(&[0x0B], 64, &[0x03], &[0x41])),
            ("stated types", nested(&[0x0C, 0x41, 0x09, 10], 32, &[0x03], &[])),
            ("truths of finite sets", nested(&[0x05, 1, 0, 0x06, 0x27], 21, &[0x05, 1, 0, 0x03], &[])),
            ("equalities of truths", nested(&[0x22, 0, 0x06], 32, &[0x20], &[0x04, 4])),
            ("connectives", nested(&[0x23], 64, &[0x20], &[0x20])),
            ("junctions", nested(&[0x24, 2, 0], 64, &[0x20], &[0x20])),
            ("quantifiers", nested(&[0x26, 1, 0x11, 0x41], 63, &[0x20], &[])),
        ];
        for (kind, formula) in deepest {
            assert_eq!(ask(&formula, 1).0, 0, "{kind}");
        }
    });
}

#[test]
fn the_deepest_types() {
    // sixteen names fill the slots: the last type is 960 powers deep
    in_small_stack(|| assert_eq!(ask(&conjunction(&tower(0, 16, &[0x03])), 16).0, 0));
}

#[test]
fn deep_types_against_each_other() {
    // two towers of eight names, 480 powers each, compared with each other once they are built
    in_small_stack(|| {
        let mut parts = tower(0, 8, &[0x03]);
        parts.extend(tower(8, 8, &[0x03]));
        parts.push(vec![0x22, 0, 0x01, 7, 0, 0x01, 15, 0]);
        assert_eq!(ask(&conjunction(&parts), 16).0, 0);
        // and one power more on one side: a mismatch at the very bottom
        let mut parts = tower(0, 8, &[0x03]);
        parts.extend(tower(8, 8, &[0x05, 1, 0, 0x03]));
        parts.push(vec![0x22, 0, 0x01, 7, 0, 0x01, 15, 0]);
        assert_eq!(ask(&conjunction(&parts), 16).0, 1);
    });
}

#[test]
fn a_tower_that_would_contain_itself() {
    in_small_stack(|| {
        let mut parts = tower(0, 15, &[0x01, 20, 0]);
        parts.push(vec![0x22, 0, 0x01, 14, 0, 0x01, 20, 0]);
        assert_eq!(ask(&conjunction(&parts), 21).0, 1);
    });
}
