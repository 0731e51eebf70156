//! The kinds of runs, and what each must reach and cannot.

/// The places of what is counted: the numbers; an admission that takes over the slot of another who owes nothing any more; a call
/// that gets 0 under another plan than the subscriber's before; and one that gets 0, 8, 9, 12 or 13 at an earlier moment than
/// another before it.
pub const NUMBERS: [u128; 13] = [0, 1, 2, 3, 4, 5, 6, 7, 8, 9, 11, 12, 13];
const EARLY: usize = 10;
const OWING: usize = 11;
const OFF_CLOCK: usize = 12;
pub const TAKEOVER: usize = 13;
pub const CHANGED: usize = 14;
pub const FALLEN: usize = 15;
pub const PLACES: usize = 16;
pub const NAMES: [&str; PLACES] = [
    "0", "1", "2", "3", "4", "5", "6", "7", "8", "9", "11", "12", "13", "takeover", "changed",
    "fallen",
];

/// A kind of run, what its acquires, peeks and clears must reach and none of its calls may, and whether the book takes part.
pub struct Kind {
    pub name: &'static str,
    pub reach: [&'static [usize]; 3],
    pub never: &'static [usize],
    pub book: bool,
}

/// What acquires, peeks and clears never get: a peek asks for no cost and takes no slot, and a clear is lent the table alone.
pub const NEVER: [&[usize]; 3] = [
    &[],
    &[5, 6, 8, 9, OFF_CLOCK],
    &[1, 3, 4, 5, 6, 7, 8, 9, EARLY, OWING, OFF_CLOCK],
];

/// Single calls on damaged tables reach everything.
pub const SINGLE: Kind = Kind {
    name: "single",
    reach: [
        &[
            0, 1, 2, 3, 4, 5, 6, 7, 8, 9, EARLY, OWING, OFF_CLOCK, TAKEOVER, CHANGED,
        ],
        &[0, 1, 2, 3, 4, 7, EARLY, OWING, CHANGED],
        &[0, 2],
    ],
    never: &[],
    book: false,
};

/// Single calls on damaged tables of exactly as many slots as a table may have reach every number that depends on the table.
pub const MOST: Kind = Kind {
    name: "most",
    reach: [
        &[0, 2, 7, 8, 9, EARLY, OWING, OFF_CLOCK, TAKEOVER, CHANGED],
        &[0, 2, 7, EARLY],
        &[0],
    ],
    never: &[],
    book: false,
};

/// .. and of one slot more nothing but 2, or 1 before it.
pub const BEYOND: Kind = Kind {
    name: "beyond",
    reach: [&[1, 2], &[2], &[2]],
    never: &[0, 3, 4, 5, 6, 7, 8, 9, EARLY, OWING, OFF_CLOCK],
    book: false,
};

/// A run starts with a cleared table, so neither 2 nor 7 can occur: nothing else than an admission writes in a slot, and
/// whatever is below the newest one gets 11 before.
const FROM_A_CLEAR: &[usize] = &[2, 7];

/// .. nor 11 while the clock rises.
const NEVER_FALLING: &[usize] = &[2, 7, EARLY, FALLEN];

pub const RISING: Kind = Kind {
    name: "rising",
    reach: [
        &[0, 3, 4, 5, 6, 8, 9, OWING, OFF_CLOCK, TAKEOVER, CHANGED],
        &[0, 3, 4, OWING, CHANGED],
        &[0],
    ],
    never: NEVER_FALLING,
    book: true,
};

pub const FALLING: Kind = Kind {
    name: "falling",
    reach: [
        &[
            0, 1, 3, 4, 5, 6, 8, 9, EARLY, OWING, OFF_CLOCK, TAKEOVER, CHANGED, FALLEN,
        ],
        &[0, 1, 3, 4, EARLY, OWING, CHANGED, FALLEN],
        &[0],
    ],
    never: FROM_A_CLEAR,
    book: true,
};

/// Tables of 41 to 4,096 slots.
pub const BETWEEN: Kind = Kind {
    name: "between",
    reach: CROWDED,
    never: FROM_A_CLEAR,
    book: true,
};

/// Tables of the most slots by default, which are all filled, so that a 9 here is one where each of them is taken.
pub const WIDE: Kind = Kind {
    name: "wide",
    reach: CROWDED,
    never: FROM_A_CLEAR,
    book: true,
};

const CROWDED: [&[usize]; 3] = [
    &[0, 8, 9, EARLY, OWING, OFF_CLOCK, TAKEOVER, CHANGED],
    &[0, EARLY, OWING],
    &[0],
];

/// Runs on one or two slots, whose holders owe throughout.
pub const LASTING: Kind = Kind {
    name: "lasting",
    reach: [
        &[0, 8, 9, EARLY, OWING, OFF_CLOCK],
        &[0, EARLY, OWING],
        &[0],
    ],
    never: FROM_A_CLEAR,
    book: true,
};

/// A cost that is too much, and the same again later.
pub const ENDING: Kind = Kind {
    name: "ending",
    reach: [&[0, 8, OFF_CLOCK], &[], &[0]],
    never: &[1, 2, 3, 4, 5, 6, 7, 9, EARLY, OWING, CHANGED],
    book: true,
};

/// A shop that takes every unit that is there, and others, with a slot for each.
pub const GREEDY: Kind = Kind {
    name: "greedy",
    reach: [&[0, 8], &[], &[0]],
    never: &[1, 2, 3, 4, 5, 6, 7, 9, EARLY, FALLEN],
    book: true,
};

/// Document 001's case, which is over long before the clock is.
pub const STEADY: Kind = Kind {
    name: "steady",
    reach: [&[0, 8], &[], &[0]],
    never: &[1, 2, 7, EARLY, OWING, OFF_CLOCK, CHANGED, FALLEN],
    book: true,
};
