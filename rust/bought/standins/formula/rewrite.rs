//! Stand-in: rewriting a formula. No type check rewrites.
//!
//! Beside the names that the bought source re-exports it holds our one way into a node's private parts:
//! [`with_type`], which sets the explicit type of an expression. The bought factory gives compounds of typed parts a
//! type of its own making; a formula in the byte forms has exactly the types that its 0C records spell.

use std::sync::Arc;

use super::expression::ExprData;
use super::{Expression, Predicate, Type};

pub trait FormulaRewriter {}

pub fn normalize_quantified_predicate(predicate: &Predicate) -> Predicate {
    predicate.clone()
}

impl Predicate {
    /// Only well-definedness flattens its lemma.
    pub fn flatten(&self) -> Predicate {
        self.clone()
    }
}

/// The expression with `ty` for its explicit type, all else as it was. The node must not be shared yet.
pub fn with_type(mut expression: Expression, ty: Option<Type>) -> Expression {
    let node: &mut ExprData = Arc::get_mut(&mut expression.0).expect("a node just made has one owner");
    node.ty = ty;
    expression
}
