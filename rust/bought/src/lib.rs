//! The bought checker behind the byte forms.
//!
//! Where the bought source is there, this crate's root stands in for its root module: the modules below the line are its own
//! text, unedited, with the stand-ins of `standins/` beside it (STAND-INS.md). [`driver`] takes byte forms to its
//! formulas and its results back to bytes. Where the source is not there every question is answered
//! [`driver::Silent::Absent`].

pub mod driver;

/// Where the bought source was looked for when this was built.
pub const SOURCE: &str = env!("BOUGHT_SOURCE");

/// Whether it was there.
pub const PRESENT: bool = cfg!(bought);

/// Says that a test or a run is skipped, and why; true where the bought source is there.
pub fn present_or_say(what: &str) -> bool {
    if !PRESENT {
        // Written past the test harness, which keeps what a passing test prints to itself.
        use std::io::Write;
        let _ = writeln!(std::io::stderr(), "skipped: the bought source is not at {SOURCE} ({what})");
    }
    PRESENT
}

// ---- the bought source ----

#[cfg(bought)]
include!(concat!(env!("OUT_DIR"), "/tree/modules.rs"));
