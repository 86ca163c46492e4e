//! How often each answer was met on each call, and what has passed or failed.
use std::collections::BTreeMap;

/// The counts of a run.
/// An answer that can be met and was met too rarely is a failure too.
#[derive(Default)]
pub struct Tally {
    met: BTreeMap<(String, String), u64>,
    calls: u64,
    passed: u64,
    failed: u64,
}

/// After so many failures a run stops printing each one.
/// The last line still counts them all.
const PRINTED: u64 = 5;

impl Tally {
    /// Counts one answer of a call.
    /// Both are names in the printed table.
    pub fn meet(&mut self, call: &str, answer: impl ToString) {
        self.note(call, answer);
        self.calls += 1;
    }

    /// Counts something else that a call gave.
    /// It is in the printed table, and no call of its own.
    pub fn note(&mut self, name: &str, answer: impl ToString) {
        *self.met.entry((name.to_string(), answer.to_string())).or_insert(0) += 1;
    }

    /// Counts one comparison, and prints what differs.
    /// One comparison may hold many calls.
    pub fn compare(&mut self, result: Result<(), String>) {
        match result {
            Ok(()) => self.passed += 1,
            Err(words) => {
                self.failed += 1;
                if self.failed <= PRINTED {
                    println!("DIFFERS: {words}");
                }
            }
        }
    }

    /// Prints the table of one call, and fails each of its answers that was met fewer than `least` times.
    /// An answer that is not in the list is printed at the end.
    pub fn table(&mut self, call: &str, answers: &[&str], least: u64) {
        let mut counts: Vec<(String, u64)> = Vec::new();
        for answer in answers {
            let met = self.met.remove(&(call.to_string(), answer.to_string())).unwrap_or(0);
            counts.push((answer.to_string(), met));
            if met < least {
                self.failed += 1;
                println!("TOO RARE: {call} {answer} was met {met} times, {least} are wanted");
            }
        }
        let others: Vec<_> = self.met.keys().filter(|(name, _)| name == call).cloned().collect();
        for key in others {
            let met = self.met.remove(&key).unwrap_or(0);
            counts.push((key.1, met));
        }
        let columns: Vec<String> = counts.iter().map(|(answer, met)| format!("{answer}: {met}")).collect();
        println!("{call:<12} {}", columns.join(", "));
    }

    /// Prints how many calls were counted.
    /// The tables hold them all.
    pub fn calls(&self) {
        println!("{} calls", self.calls);
    }

    /// Prints the last line and tells whether nothing failed.
    /// The line's form is fixed.
    pub fn end(&self) -> bool {
        println!("{} passed, {} failed", self.passed, self.failed);
        self.failed == 0
    }
}
