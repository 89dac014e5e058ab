//! Stand-in: building well-definedness lemmas. No type check builds one.

use super::super::{FormulaFactory, Predicate};
use super::super::tag::LiteralPredOp;

pub struct FormulaBuilder {
    pub ff: FormulaFactory,
}

impl FormulaBuilder {
    pub fn new(ff: FormulaFactory) -> FormulaBuilder {
        FormulaBuilder { ff }
    }

    pub fn btrue(&self) -> Predicate {
        self.ff.literal_predicate(LiteralPredOp::BTrue, None)
    }
}
