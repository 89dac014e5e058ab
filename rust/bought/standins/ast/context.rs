//! Stand-in: a context component. No formula reaches it.

use super::{ClauseRegion, Span};

#[derive(Debug, Clone, PartialEq, Eq)]
pub struct Context {
    pub name: String,
    pub span: Option<Span>,
    pub name_span: Option<Span>,
    pub clauses: Vec<ClauseRegion>,
}
