//! The kinds of cases: what each must reach, and where its cases come from.

mod border;
mod damaged;
mod ending;
mod example;
mod first;
mod full;
mod length;
mod limit;
mod noise;
mod run;
mod tricky;

use crate::program::Feed;
use crate::rng::Rng;

pub struct Case {
    pub input: Vec<u8>,
    pub feed: Feed,
}

impl Case {
    pub fn whole(input: Vec<u8>) -> Case {
        Case {
            input,
            feed: Feed::Whole,
        }
    }
}

pub enum Source {
    /// The same cases in every comparison, but for numbers that do not matter.
    Listed(fn(&mut Rng) -> Vec<Case>),
    /// So many of a hundred of the cases that are drawn.
    Drawn(u64, fn(&mut Rng) -> Case),
}

pub struct Kind {
    pub name: &'static str,
    /// The numbers that must be answered. 7 never is: nothing but its own asks writes in the table of a text.
    pub reach: &'static [usize],
    pub source: Source,
}

pub const KINDS: [Kind; 12] = [
    Kind {
        name: "example",
        reach: &[0, 1, 2, 3, 4, 5, 6, 8, 9, 10, 11, 13],
        source: Source::Listed(example::all),
    },
    Kind {
        name: "first",
        reach: &[0, 1, 2, 10],
        source: Source::Listed(first::all),
    },
    Kind {
        name: "limit",
        reach: &[0, 3, 4, 5, 6, 8, 9, 10, 11, 13],
        source: Source::Listed(limit::all),
    },
    Kind {
        name: "ending",
        reach: &[0, 8, 13],
        source: Source::Listed(ending::all),
    },
    Kind {
        name: "full",
        reach: &[0, 8, 9],
        source: Source::Listed(full::all),
    },
    Kind {
        name: "length",
        reach: &[0, 10],
        source: Source::Listed(length::all),
    },
    Kind {
        name: "border",
        reach: &[0, 8, 9, 10],
        source: Source::Listed(border::all),
    },
    Kind {
        name: "run",
        reach: &[0, 3, 4, 5, 6, 8, 9, 10, 11, 13],
        source: Source::Drawn(4, run::one),
    },
    Kind {
        name: "tricky",
        reach: &[0, 3, 4, 5, 6, 8, 9, 10, 11],
        source: Source::Drawn(16, tricky::one),
    },
    Kind {
        name: "damaged",
        reach: &[0, 3, 6, 8, 9, 10, 11, 13],
        source: Source::Drawn(45, damaged::whole),
    },
    Kind {
        name: "pieces",
        reach: &[0, 8, 9, 10, 11, 13],
        source: Source::Drawn(20, damaged::in_pieces),
    },
    Kind {
        name: "noise",
        reach: &[10],
        source: Source::Drawn(15, noise::one),
    },
];
