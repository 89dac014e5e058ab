//! The checker's four exported entries, as safe Rust functions over byte slices.
//!
//! The entries are those of the proved archive, `libhost.a` (`tools/archive host`). Where the archive was not there when this crate was
//! built, the same functions are answered by `reference`, which is not proved: [`BACKEND`] says which it is, and [`PROVED`]. The text
//! entries have an archive of their own beside it, `libtext_entries.a` (`tools/archive text_entries`), for where the whole one is not there.
//!
//! Numbers, places and lengths are those of `docs/FORMAT.md`; nothing here judges them. The calls into the archive are all in one
//! file, and it has the only `unsafe` of what a program links (`bench_unifier` has two calls of its own).

#![deny(unsafe_code)]

#[cfg(any(not(no_archive), text_archive))]
#[allow(unsafe_code)]
mod archive;
#[cfg(not(no_archive))]
use archive as side;
#[cfg(any(not(no_archive), text_archive))]
use archive as text_side;
#[cfg(no_archive)]
mod stand_in;
#[cfg(no_archive)]
use stand_in as side;
#[cfg(all(no_archive, not(text_archive)))]
use stand_in as text_side;

/// Whether the proved archive answers.
pub const PROVED: bool = cfg!(not(no_archive));

/// Whether proved entries answer for text: those of the archive, or where it is not there those of `libtext_entries.a`.
pub const PROVED_TEXT: bool = cfg!(any(not(no_archive), text_archive));

/// Who answers: `"proved archive"` or `"reference reading"`.
pub const BACKEND: &str = if PROVED { "proved archive" } else { "reference reading" };

/// Where the archive was looked for.
pub const ARCHIVE: &str = env!("TYPECHECK_ARCHIVE");

/// The capacity of [`infer`].
pub const CAPACITY: u32 = 2_048;

/// What an entry answers beside the bytes that it wrote. Text has no steps.
#[derive(Debug, Clone, Copy, PartialEq, Eq)]
pub struct Answer {
    /// 0 typed (for text: done), 1 problems, 2 to 8 refusals.
    pub number: u32,
    /// The place of a refusal.
    pub place: u64,
    /// How many bytes were written.
    pub length: u64,
    /// How many units were paid.
    pub steps: u64,
}

/// The words of work that [`infer_in`] asks for at a capacity.
pub const fn work_words(capacity: u32) -> u64 {
    3 * capacity as u64 + 4_096
}

/// Inference at capacity 2,048, in memory of its own.
pub fn infer(formula: &[u8], environment: &[u8], names: u32, budget: u64, output: &mut [u8]) -> Answer {
    side::infer(formula, environment, names, budget, output)
}

/// Inference at any capacity, in work memory that is lent.
pub fn infer_in(
    formula: &[u8],
    environment: &[u8],
    names: u32,
    capacity: u32,
    budget: u64,
    output: &mut [u8],
    work: &mut [u32],
) -> Answer {
    side::infer_in(formula, environment, names, capacity, budget, output, work)
}

/// Reads a type's text under a name table; its record goes to the page's start.
pub fn read_text(text: &[u8], table: &[u8], page: &mut [u8]) -> Answer {
    text_side::read_text(text, table, page)
}

/// Writes a type record's text under a name table into the page, from a position on.
pub fn write_text(record: &[u8], table: &[u8], page: &mut [u8], position: u64) -> Answer {
    text_side::write_text(record, table, page, position)
}
