//! Counting: the judge's answers by kind, comparisons made, and differences by class with the smallest input of each.

use std::collections::BTreeMap;
use std::fmt::Write;

/// One class of difference.
struct Class {
    count: u64,
    size: usize,
    smallest: String,
    fault: bool,
}

/// What a run counted.
#[derive(Default)]
pub struct Tally {
    /// The questions put: each is one call's arguments.
    asked: u64,
    /// The judge's answers, by kind.
    answers: BTreeMap<String, u64>,
    /// Comparisons made, by side.
    compared: BTreeMap<String, u64>,
    classes: BTreeMap<String, Class>,
}

impl Tally {
    /// One more question.
    pub fn asks(&mut self) {
        self.asked += 1;
    }

    /// How many questions were put.
    pub fn asked(&self) -> u64 {
        self.asked
    }

    pub fn answered(&mut self, kind: impl Into<String>) {
        *self.answers.entry(kind.into()).or_default() += 1;
    }

    pub fn compared(&mut self, side: &str) {
        match self.compared.get_mut(side) {
            Some(count) => *count += 1,
            None => {
                self.compared.insert(side.to_string(), 1);
            }
        }
    }

    /// A difference of a class; `input` is told only where it is the smallest so far.
    pub fn differs(&mut self, class: String, fault: bool, size: usize, input: impl FnOnce() -> String) {
        let entry = self.classes.entry(class).or_insert(Class { count: 0, size: usize::MAX, smallest: String::new(), fault });
        entry.count += 1;
        if size < entry.size {
            entry.size = size;
            entry.smallest = input();
        }
    }

    /// Differences that are faults.
    pub fn faults(&self) -> u64 {
        self.classes.values().filter(|class| class.fault).map(|class| class.count).sum()
    }

    /// Differences that are known, and so no faults.
    pub fn known(&self) -> u64 {
        self.classes.values().filter(|class| !class.fault).map(|class| class.count).sum()
    }

    /// How many comparisons were made with a side.
    pub fn compared_with(&self, side: &str) -> u64 {
        self.compared.get(side).copied().unwrap_or(0)
    }

    pub fn report(&self) -> String {
        let mut out = String::new();
        let _ = writeln!(out, "  {:>12}  inputs", self.asked);
        for (kind, count) in &self.answers {
            let _ = writeln!(out, "  {count:>12}  {kind}");
        }
        for (side, count) in &self.compared {
            let _ = writeln!(out, "  {count:>12}  compared with {side}");
        }
        for (class, Class { count, smallest, fault, .. }) in &self.classes {
            let word = if *fault { "DIFFERENCE" } else { "known difference" };
            let _ = writeln!(out, "  {count:>12}  {word}: {class}\n                smallest: {smallest}");
        }
        let _ = writeln!(out, "  {:>12}  differences ({} more of known classes)", self.faults(), self.known());
        out
    }
}
