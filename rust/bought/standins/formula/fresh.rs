//! Stand-in: choosing names that a formula does not use. No type check chooses a name.

pub struct FreshNameSolver;
