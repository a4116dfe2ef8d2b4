//! Counts how often each outcome is reached.
use std::collections::HashMap;
use std::hash::Hash;

pub struct Counts<Outcome> {
    /// What a run has to reach.
    due: Vec<Outcome>,
    counts: HashMap<Outcome, u64>,
}

impl<Outcome: Copy + Eq + Hash> Counts<Outcome> {
    pub fn new(due: Vec<Outcome>) -> Self {
        let counts = due.iter().map(|outcome| (*outcome, 0)).collect();
        Counts { due, counts }
    }

    pub fn count(&mut self, outcome: Outcome) {
        *self.counts.entry(outcome).or_insert(0) += 1;
    }

    /// The outcomes that are due and how often each was reached, the rarest first.
    pub fn rarest(&self) -> Vec<(Outcome, u64)> {
        let of_due = |outcome: &Outcome| (*outcome, self.counts[outcome]);
        let mut all: Vec<_> = self.due.iter().map(of_due).collect();
        all.sort_by_key(|(_, count)| *count);
        all
    }
}
