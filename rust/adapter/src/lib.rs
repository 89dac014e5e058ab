//! The proved checker for formulas of the bought crate: one call is swapped.
//!
//! ```text
//! let result = predicate.type_check(&environment);       // the bought checker
//! let result = predicate.check_proved(&environment)?;    // this one
//! ```
//!
//! [`CheckProved`] takes an `Expression`, a `Predicate` or an `Assignment` and a `SealedTypeEnvironment` to the byte forms, asks, and
//! gives back what the bought checker gives: the typed rebuild, the inferred types in first-occurrence order, and problems of its own kinds at its own spans.
//! [`Question`] has the bytes themselves.
//!
//! What the byte forms cannot say is [`Unanswered`], and so is a refusal. Otherwise the answers agree, with one exception that the
//! caller chooses: [`Explicit`].
//!
//! Without the bought source this crate is empty.

#[cfg(bought)]
mod answer;
#[cfg(bought)]
mod question;

#[cfg(bought)]
pub use answer::{CheckProved, Checked};
#[cfg(bought)]
pub use question::{Explicit, Formula, Question, Unanswered};
