//! Webs: conjunctions of equalities and memberships over many names that no environment holds, or few of them. Most comparisons meet two
//! unknowns, so these formulas show which of two is bound, how long the chains of bindings grow, and whether that changes any answer.

use crate::{Case, Rng, Ty};

/// A web over so many names, of about so many records.
pub fn web(rng: &mut Rng, names: u16, fuel: usize) -> Case {
    // Some webs are names alone; in the others a type grows here and there, and two of them may clash or close a circle.
    let nesting = rng.below(3);
    let strings = 2 + fuel / 3;
    let mut formula = vec![0x24];
    formula.extend((strings as u16).to_le_bytes());
    for _ in 0..strings {
        let operator = if rng.chance(75) { 0x00 } else { 0x06 };
        formula.extend([0x22, operator]);
        for _ in 0..2 {
            knot(rng, names, nesting, &mut formula);
        }
    }
    let mut environment = Vec::new();
    if rng.chance(40) {
        let held = rng.below(usize::from(names)) as u16;
        environment.push(0x50);
        environment.extend(held.to_le_bytes());
        Ty::any(rng, 2, 0).put(&mut environment);
    }
    Case { formula, environment, names: u32::from(names) }
}

/// A name, mostly; else a pair or a set of knots, ∅ or 3.
fn knot(rng: &mut Rng, names: u16, nesting: usize, out: &mut Vec<u8>) {
    match rng.below(if nesting == 0 { 12 } else { 16 }) {
        0 if nesting > 0 || rng.chance(20) => out.push(0x03),
        12 => out.extend([0x04, 0x08]),
        13 | 14 => {
            out.extend([0x05, 0x01, 0x00]);
            knot(rng, names, nesting - 1, out);
        }
        15 => {
            out.extend([0x07, 0x00]);
            knot(rng, names, nesting - 1, out);
            knot(rng, names, nesting - 1, out);
        }
        _ => {
            out.push(0x01);
            out.extend((rng.below(usize::from(names)) as u16).to_le_bytes());
        }
    }
}
