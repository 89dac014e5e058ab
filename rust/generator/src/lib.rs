//! Inputs from a seed: formulas under environments, type texts, and the same damaged.
//!
//! - [`formula`]: typable by plan, with some of the plan broken, or of any shape; and bytes damaged or of any kind.
//! - [`web`]: equalities and memberships over many names without a type.
//! - [`text`]: type texts, tables and type records.
//! - [`exhaustive`]: every short byte string, every operator over every pair of leaves, every limit from both sides.
//!
//! Everything follows from the seed alone.

pub mod exhaustive;
pub mod formula;
pub mod text;
pub mod web;

/// A formula under an environment, with the count of names.
#[derive(Debug, Clone, PartialEq, Eq)]
pub struct Case {
    pub formula: Vec<u8>,
    pub environment: Vec<u8>,
    pub names: u32,
}

/// A small generator of numbers (splitmix64): good enough to choose inputs, and the same everywhere.
#[derive(Debug, Clone)]
pub struct Rng(u64);

impl Rng {
    pub fn new(seed: u64) -> Rng {
        Rng(seed)
    }

    pub fn next(&mut self) -> u64 {
        self.0 = self.0.wrapping_add(0x9E37_79B9_7F4A_7C15);
        let mut z = self.0;
        z = (z ^ (z >> 30)).wrapping_mul(0xBF58_476D_1CE4_E5B9);
        z = (z ^ (z >> 27)).wrapping_mul(0x94D0_49BB_1331_11EB);
        z ^ (z >> 31)
    }

    /// A number below `n`, which is not 0.
    pub fn below(&mut self, n: usize) -> usize {
        (self.next() % n as u64) as usize
    }

    pub fn byte(&mut self) -> u8 {
        self.next() as u8
    }

    /// True in so many of 100 cases.
    pub fn chance(&mut self, percent: u32) -> bool {
        self.below(100) < percent as usize
    }

    pub fn pick<'a, T>(&mut self, all: &'a [T]) -> &'a T {
        &all[self.below(all.len())]
    }
}

/// A type of the generator's own.
#[derive(Debug, Clone, PartialEq, Eq)]
pub enum Ty {
    Bool,
    Int,
    Given(u16),
    Pow(Box<Ty>),
    Prod(Box<Ty>, Box<Ty>),
}

impl Ty {
    pub fn pow(base: Ty) -> Ty {
        Ty::Pow(Box::new(base))
    }

    pub fn prod(left: Ty, right: Ty) -> Ty {
        Ty::Prod(Box::new(left), Box::new(right))
    }

    /// ℙ(left × right).
    pub fn relation(left: Ty, right: Ty) -> Ty {
        Ty::pow(Ty::prod(left, right))
    }

    /// A type of at most so many levels below its root, its given names below `givens`.
    pub fn any(rng: &mut Rng, levels: usize, givens: u16) -> Ty {
        let leaf = |rng: &mut Rng| match rng.below(if givens == 0 { 5 } else { 8 }) {
            0..=2 => Ty::Int,
            3 | 4 => Ty::Bool,
            _ => Ty::Given(rng.below(usize::from(givens)) as u16),
        };
        if levels == 0 {
            return leaf(rng);
        }
        match rng.below(7) {
            0..=2 => leaf(rng),
            3 | 4 => Ty::pow(Ty::any(rng, levels - 1, givens)),
            5 => Ty::prod(Ty::any(rng, levels - 1, givens), Ty::any(rng, levels - 1, givens)),
            _ => Ty::relation(Ty::any(rng, levels - 1, givens), Ty::any(rng, levels - 1, givens)),
        }
    }

    /// Puts the type's record behind the bytes.
    pub fn put(&self, out: &mut Vec<u8>) {
        match self {
            Ty::Bool => out.push(0x40),
            Ty::Int => out.push(0x41),
            Ty::Given(name) => {
                out.push(0x42);
                out.extend(name.to_le_bytes());
            }
            Ty::Pow(base) => {
                out.push(0x43);
                base.put(out);
            }
            Ty::Prod(left, right) => {
                out.push(0x44);
                left.put(out);
                right.put(out);
            }
        }
    }
}

/// The bytes with one to three faults: cut, flipped, changed, put in, taken out, moved or doubled.
pub fn damage(rng: &mut Rng, bytes: &mut Vec<u8>) {
    for _ in 0..=rng.below(3) {
        if bytes.is_empty() {
            bytes.push(rng.byte());
            continue;
        }
        let at = rng.below(bytes.len());
        match rng.below(8) {
            0 => bytes.truncate(at),
            1 => bytes[at] ^= 1 << rng.below(8),
            2 => bytes[at] = rng.byte(),
            3 => bytes[at] = *rng.pick(&[0, 1, 2, 3, 4, 8, 0x0A, 0x0B, 0x0C, 0x10, 0x20, 0x26, 0x30, 0x40, 0x42, 0x4F, 0x50, 0xFF]),
            4 => bytes.insert(at, rng.byte()),
            5 => {
                bytes.remove(at);
            }
            6 => {
                let other = rng.below(bytes.len());
                bytes.swap(at, other);
            }
            _ => {
                let end = (at + 1 + rng.below(6)).min(bytes.len());
                let part = bytes[at..end].to_vec();
                bytes.splice(at..at, part);
            }
        }
    }
}
