//! How often each of some named things occurred, besides what `tally` counts.

use crate::call::Call;

/// The kinds of a call that gets 0, 8 or 13.
pub const ANSWERED: [&str; 4] = ["admitted", "throttled", "looked at", "off the clock"];

/// The place in `ANSWERED` of a call and its number.
pub fn answered(call: &Call, number: u128) -> usize {
    match (call, number) {
        (Call::Peek { .. }, _) => 2,
        (_, 0) => 0,
        (_, 13) => 3,
        _ => 1,
    }
}

pub struct Counts<const N: usize> {
    /// What was compared, and in words what was found.
    name: &'static str,
    found: &'static str,
    kinds: [&'static str; N],
    counts: [u64; N],
}

impl<const N: usize> Counts<N> {
    pub fn new(name: &'static str, found: &'static str, kinds: [&'static str; N]) -> Counts<N> {
        Counts {
            name,
            found,
            kinds,
            counts: [0; N],
        }
    }

    /// Counts one of a kind, if it is so.
    pub fn count(&mut self, kind: usize, so: bool) {
        self.add(kind, u64::from(so));
    }

    /// Counts so many of a kind.
    pub fn add(&mut self, kind: usize, times: u64) {
        self.counts[kind] += times;
    }

    /// Counts what others have counted.
    pub fn add_all<'a>(mut self, others: impl Iterator<Item = &'a Counts<N>>) -> Counts<N> {
        let counts = others.flat_map(|other| other.counts.iter().enumerate());
        counts.for_each(|(kind, &times)| self.add(kind, times));
        self
    }

    /// How many of a kind.
    pub fn of(&self, kind: usize) -> u64 {
        self.counts[kind]
    }

    pub fn line(&self) -> String {
        let cells = self.kinds.iter().zip(self.counts);
        let cells: Vec<String> = cells.map(|(kind, n)| format!("{kind} {n}")).collect();
        format!("{:8} {}: {}\n", self.name, self.found, cells.join(", "))
    }

    /// What should have occurred and did not, in words.
    pub fn missing(&self) -> impl Iterator<Item = String> + '_ {
        let never = self.kinds.iter().zip(self.counts).filter(|(_, n)| *n == 0);
        never.map(|(kind, _)| format!("{} {kind}", self.name))
    }
}
