//! Stand-in: searching a formula for occurrences. No type check searches.
