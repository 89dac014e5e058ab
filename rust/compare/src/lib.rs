//! Comparing by running: the reference reading judges, the other sides answer the same questions, and every difference is counted by
//! class, with the smallest input of each.
//!
//! - [`side`]: who is asked, and how.
//! - [`tally`]: answers and differences, counted.
//! - [`run`]: the questions.
//! - [`progress`]: how far a run is.
//! - [`fixed`]: the fixed list of the bought checker's answers.

pub mod fixed;
pub mod progress;
pub mod run;
pub mod side;
pub mod tally;

/// Bytes as hexadecimal, `-` for none.
pub fn hex(bytes: &[u8]) -> String {
    if bytes.is_empty() {
        return "-".to_string();
    }
    bytes.iter().map(|b| format!("{b:02X}")).collect()
}

/// The bytes that [`hex`] spells.
pub fn unhex(text: &str) -> Option<Vec<u8>> {
    if text == "-" {
        return Some(Vec::new());
    }
    if text.len() % 2 != 0 {
        return None;
    }
    (0..text.len()).step_by(2).map(|i| u8::from_str_radix(text.get(i..i + 2)?, 16).ok()).collect()
}
