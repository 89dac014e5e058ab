//! Stand-in: simplifying well-definedness lemmas. No type check simplifies one.

use super::super::Predicate;
use super::fb::FormulaBuilder;

pub fn improve(_: &FormulaBuilder, lemma: &Predicate) -> Predicate {
    lemma.clone()
}
