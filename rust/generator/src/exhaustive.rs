//! Inputs without a seed: all of a small kind, and each limit from both sides.

use crate::Case;

/// Every byte string of at most `longest` bytes, as a formula.
pub fn strings(longest: usize) -> impl Iterator<Item = Vec<u8>> {
    (0..=longest).flat_map(|length| {
        (0..256usize.pow(length as u32)).map(move |mut n| {
            let mut bytes = vec![0; length];
            for byte in bytes.iter_mut().rev() {
                *byte = n as u8;
                n >>= 8;
            }
            bytes
        })
    })
}

/// Leaves for operators to stand over: names held and not, indices bound and dangling, every kind of atom.
pub const LEAVES: [&[u8]; 14] = [
    &[0x01, 0, 0],
    &[0x01, 1, 0],
    &[0x02, 0, 0],
    &[0x03],
    &[0x04, 0],
    &[0x04, 3],
    &[0x04, 4],
    &[0x04, 6],
    &[0x04, 8],
    &[0x04, 9],
    &[0x04, 10],
    &[0x04, 11],
    &[0x05, 1, 0, 0x03],
    &[0x0C, 0x43, 0x41, 0x01, 0, 0],
];

/// Environments for them: of two names.
pub const ENVIRONMENTS: [&[u8]; 5] = [
    &[],
    &[0x50, 0, 0, 0x41],
    &[0x50, 0, 0, 0x43, 0x44, 0x41, 0x41],
    &[0x50, 0, 0, 0x43, 0x42, 0, 0, 0x50, 1, 0, 0x42, 0, 0],
    &[0x50, 1, 0, 0x43, 0x41, 0x50, 0, 0, 0x44, 0x41, 0x40],
];

/// Every operator over every pair (or one) of these leaves in each of these environments.
pub fn operators(leaves: &'static [&'static [u8]], environments: &'static [&'static [u8]]) -> impl Iterator<Item = Case> {
    let mut formulas: Vec<Vec<u8>> = Vec::new();
    for op in 0..12 {
        formulas.push(vec![0x04, op]);
    }
    for left in leaves {
        for op in 0..11 {
            formulas.push([&[0x09, op][..], left].concat());
        }
        for op in 0..3 {
            formulas.push([&[0x0A, op, 1, 0x10, 0x20][..], left].concat());
        }
        formulas.push([&[0x27][..], left].concat());
        formulas.push([&[0x28, 1, 0][..], left].concat());
        formulas.push([&[0x29, 1, 0][..], left].concat());
        formulas.push([&[0x05, 1, 0][..], left].concat());
        formulas.push([&[0x31, 1, 0x01, 1, 0][..], left].concat());
        formulas.push([&[0x31, 2, 0x01, 1, 0, 0x01, 0, 0][..], left].concat());
        formulas.push([&[0x30, 1, 0x01, 1, 0][..], left].concat());
        for spelled in [&[0x41][..], &[0x43, 0x42, 0, 0], &[0x44, 0x42, 1, 0, 0x40], &[0x4F]] {
            formulas.push([&[0x0B][..], left, spelled].concat());
            formulas.push([&[0x26, 1, 0x12][..], spelled, &[0x22, 0, 0x02, 0, 0], left].concat());
            formulas.push([&[0x32, 1, 0x01, 1, 0, 0x12][..], spelled, &[0x22, 6, 0x02, 0, 0], left].concat());
        }
        for right in leaves {
            for op in 0..27 {
                formulas.push([&[0x07, op][..], left, right].concat());
            }
            for op in 0..7 {
                formulas.push([&[0x08, op, 2, 0][..], left, right].concat());
            }
            for op in 0..12 {
                formulas.push([&[0x22, op][..], left, right].concat());
                formulas.push([&[0x26, 1, 0x10, 0x22, op][..], left, right].concat());
            }
            formulas.push([&[0x05, 2, 0][..], left, right].concat());
            formulas.push([&[0x28, 2, 0][..], left, right].concat());
            formulas.push([&[0x30, 2, 0x01, 0, 0][..], left, &[0x01, 1, 0], right].concat());
        }
    }
    formulas.into_iter().flat_map(move |formula| {
        environments.iter().map(move |environment| Case {
            formula: formula.clone(),
            environment: environment.to_vec(),
            names: 2,
        })
    })
}

/// Each limit one below, at and one above, and what stands at one place with it.
pub fn limits() -> Vec<Case> {
    let mut cases = Vec::new();
    let mut add = |formula: Vec<u8>, environment: Vec<u8>, names: u32| cases.push(Case { formula, environment, names });
    for depth in 62..=66usize {
        // Chains of every kind with one child, a leaf below.
        let chains: [(&[u8], &[u8]); 12] = [
            (&[0x25], &[0x20]),
            (&[0x09, 1], &[0x04, 8]),
            (&[0x09, 10], &[0x03]),
            (&[0x05, 1, 0], &[0x03]),
            (&[0x0B], &[0x01, 0, 0]),
            (&[0x23, 0x20], &[0x20]),
            (&[0x24, 2, 0, 0x20], &[0x21]),
            (&[0x07, 0, 0x03], &[0x03]),
            (&[0x08, 5, 2, 0, 0x03], &[0x03]),
            (&[0x26, 1, 0x10], &[0x20]),
            (&[0x0A, 2, 1, 0x10, 0x20], &[0x02, 0, 0]),
            (&[0x22, 0, 0x03], &[0x03]),
        ];
        for (link, leaf) in chains {
            let mut formula = link.repeat(depth);
            formula.extend(leaf);
            add(formula.clone(), Vec::new(), 1);
            if link == [0x0B] {
                formula.extend(vec![0x41; depth]);
                add(formula.clone(), Vec::new(), 1);
            }
            formula.pop();
            add(formula.clone(), Vec::new(), 1);
            formula.push(0xFF);
            add(formula, Vec::new(), 1);
        }
        // 0C at the depth, types at the depth, in every place that takes one.
        for inner in [&[0x0C, 0x41, 0x03][..], &[0x0B, 0x03, 0x41], &[0x0B, 0x03, 0x4F], &[0x0C, 0x0C], &[0x0C, 0x4F]] {
            add([&[0x09, 10].repeat(depth)[..], inner].concat(), Vec::new(), 1);
        }
        let power = |n: usize| [vec![0x43; n], vec![0x41]].concat();
        add([&[0x0C][..], &power(depth), &[0x01, 0, 0]].concat(), Vec::new(), 1);
        add([&[0x26, 1, 0x11][..], &power(depth), &[0x20]].concat(), Vec::new(), 1);
        add([&[0x26, 1, 0x12][..], &power(depth), &[0x20]].concat(), Vec::new(), 1);
        add([&[0x0B, 0x01, 0, 0][..], &power(depth)].concat(), Vec::new(), 1);
        add(vec![0x20], [&[0x50, 0, 0][..], &power(depth)].concat(), 1);
        add(vec![0x20], [&[0x50, 0, 0][..], &vec![0x44; depth], &vec![0x41; depth + 1]].concat(), 1);
        // Open declarations, in one binder, in two, in an assignment, and closed again.
        let binder = |n: usize| [vec![0x26, n as u8], vec![0x10; n]].concat();
        add([&binder(depth)[..], &[0x20]].concat(), Vec::new(), 1);
        add([&binder(depth - 2)[..], &binder(2), &[0x20]].concat(), Vec::new(), 1);
        add([&[0x23][..], &binder(depth), &[0x20], &binder(64), &[0x20]].concat(), Vec::new(), 1);
        add([&[0x32, depth as u8][..], &[0x01, 0, 0].repeat(depth), &vec![0x10; depth], &[0x20]].concat(), Vec::new(), 1);
        add([&[0x32, 2][..], &[0x01, 0, 0].repeat(2), &[0x10; 2], &binder(depth - 2), &[0x20]].concat(), Vec::new(), 1);
        let set = [&[0x22, 0, 0x03, 0x0A, 2, (depth - 1) as u8][..], &vec![0x10; depth - 1], &[0x20, 0x03]].concat();
        add([&binder(1)[..], &set].concat(), Vec::new(), 1);
    }
    // Slots.
    for slots in 1_022..=1_026usize {
        let members = |n: usize| [vec![0x05, n as u8, (n >> 8) as u8], vec![0x03; n]].concat();
        add(members(slots - 1), Vec::new(), 1);
        let mut explicit = members(slots - 1);
        let last = explicit.len() - 1;
        explicit.splice(last.., [0x0C, 0x41, 0x03]);
        add(explicit, Vec::new(), 1);
        let declared = [&[0x26, 2, 0x10, 0x10, 0x28][..], &((slots - 2) as u16).to_le_bytes(), &[0x04, 0].repeat(slots - 2)];
        add(declared.concat(), Vec::new(), 1);
        let n = slots / 8;
        add([&[0x29, n as u8, (n >> 8) as u8][..], &[&[0x05, 7, 0][..], &[0x03; 7]].concat().repeat(n)].concat(), Vec::new(), 1);
    }
    // Names, sizes.
    for names in [0, 1, 2, 255, 256, 257, u32::MAX] {
        for name in [0u16, 1, 2, 254, 255, 256, 0xFFFF] {
            let [low, high] = name.to_le_bytes();
            add(vec![0x01, low, high], Vec::new(), names);
            add(vec![0x0B, 0x03, 0x42, low, high], Vec::new(), names);
            add(vec![0x20], vec![0x50, low, high, 0x41], names);
            add(vec![0x20], vec![0x50, 0, 0, 0x42, low, high], names);
        }
    }
    for size in 16_382..=16_386usize {
        let mut formula = vec![0x24, 0, 0];
        let count = size - 3;
        formula[1..3].copy_from_slice(&(count as u16).to_le_bytes());
        formula.extend(vec![0x20; count]);
        add(formula, Vec::new(), 1);
        let mut environment = Vec::new();
        for name in 0..256u16 {
            environment.push(0x50);
            environment.extend(name.to_le_bytes());
            let pad = if name == 255 { size.saturating_sub(environment.len() + 1) } else { 60 };
            environment.extend(vec![0x43; pad]);
            environment.push(0x41);
        }
        add(vec![0x20], environment, 256);
    }
    cases
}

/// Formulas whose walk is long though they are short to tell: chains of equalities from both ends, types that double, notes that clash, compositions,
/// partitions, sums, towers of powers.
pub fn shapes() -> Vec<Case> {
    let mut cases = Vec::new();
    let mut add = |formula: Vec<u8>, environment: Vec<u8>, names: u32| cases.push(Case { formula, environment, names });
    let name = |n: usize| [0x01, n as u8, (n >> 8) as u8];
    let all = |parts: Vec<Vec<u8>>| [vec![0x24], (parts.len() as u16).to_le_bytes().to_vec(), parts.concat()].concat();
    let equal = |left: &[u8], right: &[u8]| [&[0x22, 0], left, right].concat();
    for n in [2usize, 3, 10, 50, 100, 200] {
        let chain = |back: bool| -> Vec<Vec<u8>> {
            let mut links: Vec<Vec<u8>> = (0..n).map(|i| equal(&name(i), &name(i + 1))).collect();
            if back {
                links.reverse();
            }
            links
        };
        for back in [false, true] {
            for end in [vec![], vec![equal(&name(0), &[0x03])], vec![equal(&name(n), &[0x04, 8])]] {
                let mut parts = chain(back);
                parts.extend(end);
                add(all(parts), Vec::new(), 256);
            }
            // A circle that closes, and one that would contain itself.
            let mut parts = chain(back);
            parts.push(equal(&name(n), &name(0)));
            add(all(parts.clone()), Vec::new(), 256);
            parts.push([&[0x22, 6][..], &name(n), &name(0)].concat());
            add(all(parts), Vec::new(), 256);
        }
        let sum = [&[0x08, 5][..], &(n as u16).to_le_bytes(), &[0x08, 6, 2, 0, 0x03, 0x01, 0, 0].repeat(n)].concat();
        add(equal(&sum, &[0x03]), Vec::new(), 1);
        for op in [3, 4] {
            let names: Vec<u8> = (0..n).flat_map(name).collect();
            let composed = [&[0x08, op][..], &(n as u16).to_le_bytes(), &names].concat();
            add(equal(&composed, &[0x04, 6]), Vec::new(), 256);
            add(composed, [0x50, 0, 0, 0x43, 0x44, 0x41, 0x40].to_vec(), 256);
        }
        let parts: Vec<u8> = (0..n).flat_map(name).collect();
        add([&[0x28][..], &(n as u16).to_le_bytes(), &parts].concat(), vec![0x50, 1, 0, 0x43, 0x41], 256);
        // Every occurrence of a given name is noted, and each note may clash.
        let row = |g: u8| [vec![0x44; n.min(60)], [0x42, g, 0].repeat(n.min(60) + 1)].concat();
        add([&[0x22, 0, 0x01, 0, 0, 0x0B, 0x03][..], &row(0)].concat(), Vec::new(), 1);
        add([&[0x22, 2, 0x01, 0, 0, 0x0B, 0x03][..], &row(0)].concat(), Vec::new(), 1);
        add([&[0x26, 1, 0x12][..], &row(1), &[0x20]].concat(), vec![0x50, 0, 0, 0x41], 2);
    }
    for n in 1..=20usize {
        // Each name's type is twice the one before.
        let double = |i: usize| equal(&name(i + 1), &[&[0x07, 0][..], &name(i), &name(i)].concat());
        let doubled: Vec<Vec<u8>> = (0..n).map(double).collect();
        let solved = |first: bool| {
            let mut parts = doubled.clone();
            let at = if first { 0 } else { parts.len() };
            parts.insert(at, equal(&name(0), &[0x03]));
            all(parts)
        };
        add(solved(true), Vec::new(), 256);
        add(solved(false), Vec::new(), 256);
        if n > 1 {
            add(all(doubled.clone()), Vec::new(), 256);
        }
        let mut twice = doubled.clone();
        twice.extend((0..n).map(|i| equal(&name(i + 1 + n), &[&[0x07, 0][..], &name(i + n * usize::from(i > 0)), &name(0)].concat())));
        twice.push(equal(&name(n), &name(2 * n)));
        add(all(twice), Vec::new(), 256);
        // Towers of powers, and a name below one.
        for op in [1, 2, 3, 4] {
            add([&[0x09, op].repeat(3 * n)[..], &name(0)].concat(), vec![0x50, 0, 0, 0x43, 0x41], 1);
            add([&[0x09, op].repeat(3 * n)[..], &[0x04, 8]].concat(), Vec::new(), 1);
        }
    }
    cases
}
