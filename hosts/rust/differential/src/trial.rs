//! What every kind of run has: random numbers, the fault under trial, the count of outcomes, and a word on where it is.

use crate::call::Call;
use crate::ceiling::{self, Stretches};
use crate::compare::Pair;
use crate::engine::{Engine, NAMES};
use crate::kinds::Kind;
use crate::rng::Rng;
use crate::spoil::Spoil;
use crate::tally::{Seen, Tally, BOOK};
use model::table::Answer;
use std::time::{Duration, Instant};

const EVERY: Duration = Duration::from_secs(10);

pub struct Trial {
    pub rng: Rng,
    pub spoil: Option<Spoil>,
    /// One for each engine, and in runs one for the book.
    pub tallies: Vec<Tally>,
    /// What the notes of its runs come to.
    pub stretches: Stretches,
    /// How many calls of both engines the kind of run is to make, or a few more.
    pub calls: u64,
    done: u64,
    name: &'static str,
    spoken: Instant,
}

impl Trial {
    pub fn new(kind: &'static Kind, seed: u64, calls: u64, spoil: Option<Spoil>) -> Trial {
        Trial {
            rng: Rng::new(seed),
            spoil,
            tallies: tallies(kind),
            stretches: ceiling::none(),
            calls,
            done: 0,
            name: kind.name,
            spoken: Instant::now(),
        }
    }

    pub fn more(&self) -> bool {
        self.done < self.calls
    }

    /// Counts a call of an engine that got this answer.
    pub fn count<E: Engine>(&mut self, pair: &Pair<E>, call: &Call, answer: &Answer) {
        let seen = Seen {
            took_over: pair.took_over(call.subscriber()),
            changed: answer[0] == 0 && pair.changed(call),
            fell: pair.fell(),
            slots: pair.slots(),
        };
        self.tallies[E::PLACE].count(call, answer[0], seen);
        self.done += 1;
        if self.done.is_multiple_of(4096) && self.spoken.elapsed() > EVERY {
            eprintln!(
                "{}: {} calls, of at least {}",
                self.name, self.done, self.calls
            );
            self.spoken = Instant::now();
        }
    }

    /// Counts an answer of the book, which takes no slot.
    pub fn count_book(&mut self, call: &Call, answer: &Answer, seen: Seen) {
        if let Some(tally) = self.tallies.get_mut(NAMES.len()) {
            tally.count(call, answer[0], seen);
        }
    }
}

fn tallies(kind: &'static Kind) -> Vec<Tally> {
    let book = kind.book.then_some(BOOK);
    let names = NAMES.into_iter().chain(book);
    names.map(|name| Tally::new(kind, name)).collect()
}
