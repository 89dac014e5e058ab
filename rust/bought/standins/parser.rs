//! Stand-in: the formula parser. It fails always, so that reading a type's text is `parse_canonical` alone.

use crate::formula::{Expression, FormulaFactory};

pub struct NoParser;

pub fn parse_expression_str_with(_: &str, _: &FormulaFactory) -> Result<Expression, NoParser> {
    Err(NoParser)
}
