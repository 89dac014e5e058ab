//! The reference reading in the place of the proved archive, where that is not built.

use crate::{Answer, CAPACITY, work_words};

fn answer(a: reference::Answer) -> Answer {
    Answer { number: a.number, place: a.place, length: a.length, steps: a.steps }
}

pub fn infer(formula: &[u8], environment: &[u8], names: u32, budget: u64, output: &mut [u8]) -> Answer {
    let mut work = vec![0; work_words(CAPACITY) as usize];
    infer_in(formula, environment, names, CAPACITY, budget, output, &mut work)
}

pub fn infer_in(
    formula: &[u8],
    environment: &[u8],
    names: u32,
    capacity: u32,
    budget: u64,
    output: &mut [u8],
    work: &mut [u32],
) -> Answer {
    answer(reference::infer(formula, environment, names, capacity, budget, output, work))
}

#[cfg(not(text_archive))]
pub fn read_text(text: &[u8], table: &[u8], page: &mut [u8]) -> Answer {
    answer(reference::text::read_text(text, table, page))
}

#[cfg(not(text_archive))]
pub fn write_text(record: &[u8], table: &[u8], page: &mut [u8], position: u64) -> Answer {
    answer(reference::text::write_text(record, table, page, position))
}
