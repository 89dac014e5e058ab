//! How far a run is: a line that is written over on a terminal, or one a minute into a log.

use std::io::{IsTerminal, Write};
use std::time::{Duration, Instant};

use crate::tally::Tally;

/// How many steps pass between two looks at the clock.
const STRIDE: u64 = 1_024;

pub struct Progress {
    terminal: bool,
    shown: Instant,
}

impl Progress {
    pub fn new() -> Progress {
        Progress { terminal: std::io::stderr().is_terminal(), shown: Instant::now() }
    }

    /// Shows that `done` of `all` are done, if it is time.
    pub fn at(&mut self, what: &str, done: u64, all: u64, tally: &Tally) {
        let pause = Duration::from_secs(if self.terminal { 1 } else { 60 });
        if done % STRIDE != 0 || self.shown.elapsed() < pause {
            return;
        }
        self.shown = Instant::now();
        let (start, end) = if self.terminal { ("\r", "   ") } else { ("", "\n") };
        let (asked, faults, known) = (tally.asked(), tally.faults(), tally.known());
        eprint!("{start}{done} of {all} {what}, {asked} inputs so far, {faults} differences, {known} known{end}");
        let _ = std::io::stderr().flush();
    }

    /// Leaves the terminal's line.
    pub fn ended(&self) {
        if self.terminal {
            eprintln!();
        }
    }
}

impl Default for Progress {
    fn default() -> Progress {
        Progress::new()
    }
}
