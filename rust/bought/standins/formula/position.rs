//! Stand-in: a place in a formula as a path of child numbers. Only well-definedness asks for one.

use super::{BoundIdentDecl, Expression, Predicate};

pub struct Position;

pub struct PositionError;

impl Position {
    pub fn indices(&self) -> &[u32] {
        &[]
    }
}

#[derive(Clone, Copy)]
pub enum FormulaRef<'a> {
    Expr(&'a Expression),
    Pred(&'a Predicate),
    Decl(&'a BoundIdentDecl),
}

impl<'a> FormulaRef<'a> {
    pub fn child(self, _index: usize) -> Option<FormulaRef<'a>> {
        None
    }
}
