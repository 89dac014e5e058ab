//! A plain reading of the rules of type inference and type text, in trees and vectors, with nothing done cleverly.
//!
//! It is the judge, by running, of what the bought checker has no notion of: refusals and their places, steps, capacity, and every
//! byte of output and work; where the bought checker answers too, the two are compared (`compare`). Nothing here is proved, and the
//! proved code shares nothing with it.
//!
//! - [`form`]: which bytes are a formula, an environment, a type; their trees; the first fault.
//! - [`arena`]: nodes, unification, the budget.
//! - [`walk`]: the walk over a formula and its finish.
//! - [`infer`]: the whole entry. - [`text`]: type text, read and written.

pub mod arena;
pub mod form;
pub mod text;
pub mod walk;

use walk::Verdict;

/// What an entry answers beside the bytes it wrote: the number (0 typed, 1 problems, 2 to 8 refusals), the place, the written length and
/// the steps. Text has no steps.
#[derive(Debug, Clone, Copy, PartialEq, Eq)]
pub struct Answer {
    pub number: u32,
    pub place: u64,
    pub length: u64,
    pub steps: u64,
}

impl Answer {
    fn refusal(number: u32, place: usize) -> Answer {
        Answer { number, place: place as u64, length: 0, steps: 0 }
    }
}

/// Largest formula and environment, and largest name table, in bytes.
pub const LARGEST: usize = 16_384;
/// Most names.
pub const NAMES: usize = 256;
/// Most nodes.
pub const CAPACITY: u32 = 32_768;

/// The words of work that an inference at a capacity asks for.
pub fn work_words(capacity: u32) -> u64 {
    3 * u64::from(capacity) + 4_096
}

/// The inference entry: every field of the answer, every byte of output and every word of work.
pub fn infer(
    formula: &[u8],
    environment: &[u8],
    names: u32,
    capacity: u32,
    budget: u64,
    output: &mut [u8],
    work: &mut [u32],
) -> Answer {
    infer_counting(formula, environment, names, capacity, budget, output, work).0
}

/// [`infer`], and the number of nodes that the walk made (0 where it made none): the least capacity with this answer.
pub fn infer_counting(
    formula: &[u8],
    environment: &[u8],
    names: u32,
    capacity: u32,
    budget: u64,
    output: &mut [u8],
    work: &mut [u32],
) -> (Answer, usize) {
    let outside = formula.len() > LARGEST
        || environment.len() > LARGEST
        || names as usize > NAMES
        || capacity == 0
        || capacity > CAPACITY
        || (work.len() as u64) < work_words(capacity);
    if outside {
        return (Answer::refusal(2, 0), 0);
    }
    work.fill(0);
    let mut nodes = 0;
    let outcome = decide(formula, environment, names, capacity, budget, output.len(), &mut nodes);
    output.fill(0);
    let answer = match outcome {
        Ok((number, bytes, steps)) => {
            output[..bytes.len()].copy_from_slice(&bytes);
            Answer { number, place: 0, length: bytes.len() as u64, steps }
        }
        Err(fault) => Answer::refusal(fault.number, fault.place),
    };
    (answer, nodes)
}

/// Rows 3 to 8 and the two answers, each where it is the first to hold.
fn decide(
    formula: &[u8],
    environment: &[u8],
    names: u32,
    capacity: u32,
    budget: u64,
    room: usize,
    nodes: &mut usize,
) -> Result<(u32, Vec<u8>, u64), form::Fault> {
    let environment = form::environment(environment, names)?;
    let formula = form::formula(formula, names)?;
    let mut walk = walk::Walk::new(&environment, capacity as usize, budget);
    let verdict = walk.check(&formula);
    *nodes = walk.arena.count();
    let verdict = verdict.map_err(|stop| form::Fault { number: stop.number(), place: 0 })?;
    let (number, bytes) = match verdict {
        Verdict::Problems => (1, Some(walk.problems.clone())),
        Verdict::Typed => (0, walk.typing(room)),
    };
    match bytes {
        Some(bytes) if bytes.len() <= room => Ok((number, bytes, walk.arena.steps())),
        _ => Err(form::Fault { number: 8, place: 0 }),
    }
}
