//! Stand-in: substitution. No type check substitutes in a formula.
