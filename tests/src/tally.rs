//! How often each answer was compared.

use std::collections::BTreeMap;

/// Counts by what was compared and the answer that both gave.
#[derive(Default)]
pub struct Tally(BTreeMap<(&'static str, u64), u64>);

impl Tally {
    /// Nothing compared yet.
    pub fn new() -> Tally {
        Tally::default()
    }

    /// One comparison more of `what`, with this answer.
    pub fn add(&mut self, what: &'static str, answer: u64) {
        *self.0.entry((what, answer)).or_default() += 1;
    }

    /// How often `what` was compared, whatever the answer.
    pub fn all(&self, what: &str) -> u64 {
        let counts = self.0.iter().filter(|((name, _), _)| *name == what);
        counts.map(|(_, count)| count).sum()
    }

    /// How often `what` was compared with this answer.
    pub fn count(&self, what: &'static str, answer: u64) -> u64 {
        self.0.get(&(what, answer)).copied().unwrap_or(0)
    }

    /// Prints a line for each thing compared, with the count of each answer.
    pub fn print(&self) {
        let mut names: Vec<&str> = self.0.keys().map(|(what, _)| *what).collect();
        names.dedup();
        for what in names {
            self.print_one(what);
        }
    }

    /// Prints the line of one thing compared.
    pub fn print_one(&self, what: &str) {
        let answers = self.0.iter().filter(|((name, _), _)| *name == what);
        let counts: Vec<String> = answers
            .map(|((_, answer), count)| format!("{answer}: {count}"))
            .collect();
        println!(
            "{what:34} {:>8} compared  {}",
            self.all(what),
            counts.join("  ")
        );
    }

    /// Demands that `what` had each of these answers at least `least` times, and no others.
    pub fn demand(&self, what: &'static str, answers: &[u64], least: u64) {
        for &answer in answers {
            let count = self.count(what, answer);
            assert!(count >= least, "{what}: answer {answer} only {count} times");
        }
        for (name, answer) in self.0.keys() {
            let known = *name != what || answers.contains(answer);
            assert!(known, "{what}: answer {answer} is none of {answers:?}");
        }
    }
}
