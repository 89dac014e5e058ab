//! Stand-in: before-after predicates. No type check makes one.
