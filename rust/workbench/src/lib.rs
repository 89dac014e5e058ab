//! Type checking Event-B formulas from Rust.
//!
//! Build a formula and an environment, ask, and read the answer:
//!
//! ```
//! use workbench::{Environment, Type, for_all, infer, name};
//!
//! let environment = Environment::new()
//!     .carrier_set("PERIOD")
//!     .carrier_set("TRANSACTION")
//!     .with("period", Type::relation(Type::given("TRANSACTION"), Type::given("PERIOD")))
//!     .with("rounding", Type::relation(Type::given("PERIOD"), Type::Int));
//!
//! // A rounding that is fixed per PERIOD, used for the period of each transaction.
//! let rule = for_all(["t"], name("booked").of("t").equals(name("rounding").of(name("period").of("t"))));
//! assert_eq!(rule.to_string(), "∀t·booked(t) = rounding(period(t))");
//! assert_eq!(infer(&rule, &environment).to_string(), "typed\nbooked : ℙ(TRANSACTION×ℤ)");
//!
//! // The same rounding asked of the transaction itself.
//! let wrong = for_all(["t"], name("t").is_in("TRANSACTION").implies(name("booked").of("t").equals(name("rounding").of("t"))));
//! let answer = infer(&wrong, &environment);
//! assert_eq!(answer.to_string().lines().nth(1), Some("types do not match at byte 22"));
//! ```
//!
//! - [`Expression`], [`Predicate`], [`Assignment`], [`Declaration`]: formulas, with constructors that read as the formula does.
//! - [`Environment`], [`Names`], [`Type`].
//! - [`infer`], [`read_type`], [`write_type`]; [`Checker`] for other limits.
//! - [`Answer`]: the typing, the problems or the refusal.
//!
//! The judgement is the proved archive's ([`port`]); this crate only spells bytes and reads them back. Where the archive was
//! not built the reference reading answers, which is not proved; [`BACKEND`] says which.

mod check;
mod environment;
mod formula;
mod print;
mod read;
mod types;

pub use check::*;
pub use environment::{Environment, LineError, LineFault};
pub use formula::*;
pub use port::{BACKEND, PROVED};
pub use types::{Names, Type};

/// Whether type text takes this for a name: up to 64 ASCII letters, digits and underscores, a letter first, and not `BOOL`.
///
/// ```
/// assert!(workbench::is_name("PERIOD_2"));
/// assert!(!workbench::is_name("2nd") && !workbench::is_name("BOOL") && !workbench::is_name(""));
/// ```
pub fn is_name(text: &str) -> bool {
    text.len() <= 64
        && text != "BOOL"
        && text.starts_with(|first: char| first.is_ascii_alphabetic())
        && text.bytes().all(|byte| byte.is_ascii_alphanumeric() || byte == b'_')
}
