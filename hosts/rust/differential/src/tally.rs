//! How often each number was answered, a slot taken over, a plan changed and a fallen moment taken, by kind of run, engine (or the
//! book) and call; and which must have been and which not.

use crate::call::Call;
use crate::kinds::{Kind, CHANGED, FALLEN, NAMES, NEVER, NUMBERS, PLACES, TAKEOVER};

/// What the book is called beside the engines.
pub const BOOK: &str = "book";

const CALLS: [&str; 3] = ["acquire", "peek", "clear"];

/// What was seen of a call besides its number, and how many slots the table has.
pub struct Seen {
    pub took_over: bool,
    pub changed: bool,
    pub fell: bool,
    pub slots: usize,
}

/// The counts of one engine, or of the book.
pub struct Tally {
    kind: &'static Kind,
    who: &'static str,
    counts: [[u64; PLACES]; 3],
    /// The most slots of a table.
    slots: [usize; 3],
}

impl Tally {
    pub fn new(kind: &'static Kind, who: &'static str) -> Tally {
        Tally {
            kind,
            who,
            counts: [[0; PLACES]; 3],
            slots: [0; 3],
        }
    }

    /// Counts an answer that was compared, so its number is one of the documents'.
    pub fn count(&mut self, call: &Call, number: u128, seen: Seen) {
        let row = match call {
            Call::Acquire { .. } => 0,
            Call::Peek { .. } => 1,
            Call::Clear => 2,
        };
        let place = NUMBERS.iter().position(|&known| known == number);
        let counts = &mut self.counts[row];
        counts[place.expect("a number of the documents")] += 1;
        counts[TAKEOVER] += u64::from(seen.took_over);
        counts[CHANGED] += u64::from(seen.changed);
        counts[FALLEN] += u64::from(seen.fell && matches!(number, 0 | 8 | 9 | 12 | 13));
        self.slots[row] = self.slots[row].max(seen.slots);
    }

    /// How many calls of an engine were made.
    pub fn calls(&self) -> u64 {
        let numbers = self.counts.iter().flat_map(|counts| &counts[..TAKEOVER]);
        if self.who == BOOK {
            0
        } else {
            numbers.sum()
        }
    }

    pub fn header() -> String {
        let names: String = NAMES.iter().map(|name| format!("{name:>9}")).collect();
        format!("{:30}{names}{:>9}", "", "slots")
    }

    /// A line for each call that was made.
    pub fn lines(&self) -> String {
        let mut text = String::new();
        for ((call, counts), slots) in CALLS.iter().zip(&self.counts).zip(self.slots) {
            if counts.iter().any(|&count| count > 0) {
                let cells: String = counts.iter().map(|count| format!("{count:>9}")).collect();
                let (kind, who) = (self.kind.name, self.who);
                text += &format!("{kind:8} {who:12} {call:8}{cells}{slots:>9}\n");
            }
        }
        text
    }

    /// What should have occurred and did not, in words. The book knows no slots, so it sees none taken over.
    pub fn missing(&self) -> Vec<String> {
        let due = |&&place: &&usize| self.who != BOOK || place != TAKEOVER;
        let reach = self
            .kind
            .reach
            .map(|places| -> Vec<usize> { places.iter().filter(due).copied().collect() });
        self.found([&reach[0], &reach[1], &reach[2]], |count| count == 0)
    }

    /// What cannot have occurred and did, in words.
    pub fn impossible(&self) -> Vec<String> {
        let mut found = self.found(NEVER, |count| count > 0);
        found.extend(self.found([self.kind.never; 3], |count| count > 0));
        found
    }

    /// Those of each call's places of which the count is so.
    fn found(&self, places: [&[usize]; 3], so: fn(u64) -> bool) -> Vec<String> {
        let mut found = Vec::new();
        for ((call, counts), places) in CALLS.iter().zip(&self.counts).zip(places) {
            for &place in places.iter().filter(|&&place| so(counts[place])) {
                let (kind, who) = (self.kind.name, self.who);
                found.push(format!("{kind} {who} {call} {}", NAMES[place]));
            }
        }
        found
    }
}
