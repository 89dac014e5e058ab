//! The calls into the proved archive. All `unsafe` of what a program links is in this file.
//!
//! Each entry takes a slice as a pointer and a length, reads or writes only what the two span, keeps nothing, and always writes the
//! numbers that it is lent places for. So a call through Rust's own slices and local variables is safe for every argument.

use crate::Answer;

#[cfg(not(no_archive))]
unsafe extern "C" {
    fn typecheck_infer(
        formula: *const u8,
        formula_length: usize,
        environment: *const u8,
        environment_length: usize,
        names: u32,
        budget: u64,
        output: *mut u8,
        output_length: usize,
        place: *mut u64,
        length: *mut u64,
        steps: *mut u64,
    ) -> u32;

    fn typecheck_infer_in(
        formula: *const u8,
        formula_length: usize,
        environment: *const u8,
        environment_length: usize,
        names: u32,
        capacity: u32,
        budget: u64,
        output: *mut u8,
        output_length: usize,
        work: *mut u32,
        work_length: usize,
        place: *mut u64,
        length: *mut u64,
        steps: *mut u64,
    ) -> u32;
}

unsafe extern "C" {
    fn typecheck_read_text(
        text: *const u8,
        text_length: usize,
        table: *const u8,
        table_length: usize,
        page: *mut u8,
        page_length: usize,
        place: *mut u64,
        length: *mut u64,
    ) -> u32;

    fn typecheck_write_text(
        record: *const u8,
        record_length: usize,
        table: *const u8,
        table_length: usize,
        page: *mut u8,
        page_length: usize,
        position: u64,
        place: *mut u64,
        length: *mut u64,
    ) -> u32;
}

#[cfg(not(no_archive))]
pub fn infer(formula: &[u8], environment: &[u8], names: u32, budget: u64, output: &mut [u8]) -> Answer {
    let (mut place, mut length, mut steps) = (0, 0, 0);
    // SAFETY: every pointer and length is that of a slice or a local that outlives the call; those written are borrowed mutably.
    let number = unsafe {
        typecheck_infer(
            formula.as_ptr(),
            formula.len(),
            environment.as_ptr(),
            environment.len(),
            names,
            budget,
            output.as_mut_ptr(),
            output.len(),
            &mut place,
            &mut length,
            &mut steps,
        )
    };
    Answer { number, place, length, steps }
}

#[cfg(not(no_archive))]
pub fn infer_in(
    formula: &[u8],
    environment: &[u8],
    names: u32,
    capacity: u32,
    budget: u64,
    output: &mut [u8],
    work: &mut [u32],
) -> Answer {
    let (mut place, mut length, mut steps) = (0, 0, 0);
    // SAFETY: as above.
    let number = unsafe {
        typecheck_infer_in(
            formula.as_ptr(),
            formula.len(),
            environment.as_ptr(),
            environment.len(),
            names,
            capacity,
            budget,
            output.as_mut_ptr(),
            output.len(),
            work.as_mut_ptr(),
            work.len(),
            &mut place,
            &mut length,
            &mut steps,
        )
    };
    Answer { number, place, length, steps }
}

pub fn read_text(text: &[u8], table: &[u8], page: &mut [u8]) -> Answer {
    let (mut place, mut length) = (0, 0);
    // SAFETY: as above.
    let number = unsafe {
        typecheck_read_text(
            text.as_ptr(),
            text.len(),
            table.as_ptr(),
            table.len(),
            page.as_mut_ptr(),
            page.len(),
            &mut place,
            &mut length,
        )
    };
    Answer { number, place, length, steps: 0 }
}

pub fn write_text(record: &[u8], table: &[u8], page: &mut [u8], position: u64) -> Answer {
    let (mut place, mut length) = (0, 0);
    // SAFETY: as above.
    let number = unsafe {
        typecheck_write_text(
            record.as_ptr(),
            record.len(),
            table.as_ptr(),
            table.len(),
            page.as_mut_ptr(),
            page.len(),
            position,
            &mut place,
            &mut length,
        )
    };
    Answer { number, place, length, steps: 0 }
}
