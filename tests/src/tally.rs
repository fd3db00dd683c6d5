//! Counting what was tried, and printing what disagrees.

use std::collections::BTreeMap;
use std::time::Instant;

/// Disagreements of one suite that are printed before it is stopped.
const ENOUGH: u64 = 5;

pub struct Tally {
    name: String,
    /// Whether the suite is to try as much as it can.
    pub long: bool,
    counts: BTreeMap<String, u64>,
    failures: u64,
    start: Instant,
    /// Called after enough disagreements.
    stop: fn() -> !,
}

/// Bytes as document 01 shows them.
pub fn hex(bytes: &[u8]) -> String {
    bytes.iter().map(|byte| format!("{byte:02X}")).collect()
}

impl Tally {
    pub fn new(name: &str, long: bool, stop: fn() -> !) -> Tally {
        Tally { name: name.into(), long, counts: BTreeMap::new(), failures: 0, start: Instant::now(), stop }
    }

    /// Names the seed of what follows.
    pub fn seed(&self, seed: u64) {
        println!("{}: seed {seed}", self.name);
    }

    /// Counts one try under a heading.
    pub fn count(&mut self, what: &str) {
        match self.counts.get_mut(what) {
            Some(count) => *count += 1,
            None => {
                self.counts.insert(what.into(), 1);
            }
        }
    }

    /// How often a heading was counted.
    pub fn counted(&self, what: &str) -> u64 {
        self.counts.get(what).copied().unwrap_or(0)
    }

    /// A disagreement, with the bytes that it was found on.
    pub fn fail(&mut self, what: String, problem: &[u8], answer: &[u8]) {
        self.failures += 1;
        println!("{}: DISAGREEMENT: {what}", self.name);
        println!("  problem {}", hex(problem));
        println!("  answer  {}", hex(answer));
        if self.failures >= ENOUGH {
            println!("{}: stopped after {ENOUGH} disagreements", self.name);
            (self.stop)();
        }
    }

    /// Fails unless what was found is what is expected.
    pub fn same<T: PartialEq + std::fmt::Debug>(
        &mut self,
        what: &str,
        found: T,
        expected: T,
        problem: &[u8],
        answer: &[u8],
    ) {
        if found != expected {
            self.fail(format!("{what}: found {found:?}, expected {expected:?}"), problem, answer);
        }
    }

    /// Prints the counts; the number of disagreements.
    pub fn close(self) -> u64 {
        let counts: Vec<String> = self.counts.iter().map(|(what, count)| format!("{count} {what}")).collect();
        println!("{}: {} ({:.1} s)", self.name, counts.join(", "), self.start.elapsed().as_secs_f64());
        self.failures
    }
}
