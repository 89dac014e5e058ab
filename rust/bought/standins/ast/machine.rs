//! Stand-in: a machine component. No formula reaches it.

use super::{ClauseRegion, Span};

pub const DEFAULT_VARIANT_LABEL: &str = "vrn";

#[derive(Debug, Clone, PartialEq, Eq)]
pub struct Machine {
    pub name: String,
    pub span: Option<Span>,
    pub name_span: Option<Span>,
    pub clauses: Vec<ClauseRegion>,
}

#[derive(Debug, Clone, PartialEq, Eq)]
pub struct Variant;
