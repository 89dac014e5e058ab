//! Stand-in: computing well-definedness lemmas. No type check computes one.

use super::super::{Assignment, Expression, Predicate};
use super::fb::FormulaBuilder;

pub fn wd_expr(fb: &FormulaBuilder, _: &Expression) -> Predicate {
    fb.btrue()
}

pub fn wd_pred(fb: &FormulaBuilder, _: &Predicate) -> Predicate {
    fb.btrue()
}

pub fn wd_assign(fb: &FormulaBuilder, _: &Assignment) -> Predicate {
    fb.btrue()
}
