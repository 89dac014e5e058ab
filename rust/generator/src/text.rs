//! Type texts, tables of names, type records, and the same damaged.

use crate::{damage, Rng, Ty};

/// A text under a table.
#[derive(Debug, Clone, PartialEq, Eq)]
pub struct TextCase {
    pub text: Vec<u8>,
    pub table: Vec<u8>,
}

/// A type record under a table.
#[derive(Debug, Clone, PartialEq, Eq)]
pub struct RecordCase {
    pub record: Vec<u8>,
    pub table: Vec<u8>,
}

const WORDS: [&str; 14] =
    ["S", "T", "U1", "PERIOD", "TRANSACTION", "a_b", "BOOLx", "Bool", "x", "Z", "BO", "n0", "ACCOUNT_2", "SS"];

/// A table's bytes.
pub fn table(words: &[&str]) -> Vec<u8> {
    words.iter().flat_map(|word| [vec![0x80 + word.len() as u8], word.as_bytes().to_vec()].concat()).collect()
}

fn words(rng: &mut Rng) -> Vec<&'static str> {
    let mut words: Vec<&str> = WORDS.to_vec();
    for i in (1..words.len()).rev() {
        words.swap(i, rng.below(i + 1));
    }
    words.truncate(rng.below(6));
    words
}

/// The type's text, here and there with brackets that it does not need.
fn spell(rng: &mut Rng, ty: &Ty, words: &[&str], spare: u32, out: &mut String) {
    let wrap = rng.chance(spare);
    if wrap {
        out.push('(');
    }
    match ty {
        Ty::Bool => out.push_str("BOOL"),
        Ty::Int => out.push('ℤ'),
        Ty::Given(name) => out.push_str(words[usize::from(*name)]),
        Ty::Pow(base) => {
            out.push_str("ℙ(");
            spell(rng, base, words, spare, out);
            out.push(')');
        }
        Ty::Prod(left, right) => {
            spell(rng, left, words, spare, out);
            out.push('×');
            let bracket = matches!(**right, Ty::Prod(..));
            if bracket {
                out.push('(');
            }
            spell(rng, right, words, spare, out);
            if bracket {
                out.push(')');
            }
        }
    }
    if wrap {
        out.push(')');
    }
}

/// A type, sometimes a deep or a long one.
fn any_type(rng: &mut Rng, givens: u16) -> Ty {
    let levels = rng.below(6);
    let mut ty = Ty::any(rng, levels, givens);
    match rng.below(20) {
        0 => {
            for _ in 0..20 + rng.below(50) {
                ty = Ty::pow(ty);
            }
        }
        1 => {
            for _ in 0..50 + rng.below(30) {
                ty = Ty::prod(ty, Ty::any(rng, 0, givens));
            }
        }
        2 => {
            for _ in 0..20 + rng.below(30) {
                ty = Ty::prod(Ty::any(rng, 0, givens), ty);
            }
        }
        _ => {}
    }
    ty
}

/// A text to read: well formed in two of three cases.
pub fn text_case(rng: &mut Rng) -> TextCase {
    let words = words(rng);
    let ty = any_type(rng, words.len() as u16);
    let mut text = String::new();
    let spare = *rng.pick(&[0, 0, 5, 30]);
    spell(rng, &ty, &words, spare, &mut text);
    let mut text = text.into_bytes();
    let mut table = table(&words);
    match rng.below(12) {
        0 | 1 => damage(rng, &mut text),
        2 => {
            let tokens = ["ℤ", "ℙ(", "(", ")", "×", "BOOL", "S", "ℙ", " ", "é", "_x", "1", "dom", "λ", "ℤ"];
            let at = rng.below(text.len() + 1);
            let token = rng.pick(&tokens).as_bytes().to_vec();
            text.splice(at..at, token);
        }
        3 if rng.chance(30) => damage(rng, &mut table),
        _ => {}
    }
    TextCase { text, table }
}

/// A record to write: well formed in five of six cases.
pub fn record_case(rng: &mut Rng) -> RecordCase {
    let words = words(rng);
    let mut record = Vec::new();
    any_type(rng, words.len() as u16).put(&mut record);
    if rng.chance(16) {
        damage(rng, &mut record);
    }
    RecordCase { record, table: table(&words) }
}
