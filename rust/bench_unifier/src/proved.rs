//! The exported functions of crate `unifier_trial`.

mod archive {
    unsafe extern "C" {
        pub fn trial_unify(words: *mut u32, length: usize, budget: *mut u64, count: u32, a: u32, b: u32) -> u32;
        pub fn trial_solved(words: *const u32, length: usize, budget: *mut u64, count: u32, t: u32) -> u32;
    }
}

pub fn unify(words: &mut [u32], budget: &mut u64, count: u32, a: u32, b: u32) -> u32 {
    // SAFETY: a mutable slice goes as its pointer and length, a mutable number as its pointer; both are borrowed for the call alone.
    unsafe { archive::trial_unify(words.as_mut_ptr(), words.len(), budget, count, a, b) }
}

pub fn solved(words: &[u32], budget: &mut u64, count: u32, t: u32) -> u32 {
    // SAFETY: as above; the words are only read.
    unsafe { archive::trial_solved(words.as_ptr(), words.len(), budget, count, t) }
}
