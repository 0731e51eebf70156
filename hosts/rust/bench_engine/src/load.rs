//! The asks that are timed, and those that fill the table before.

use crate::call::{Ask, Plan};
use crate::draws::Draws;
use crate::plans::{BURSTS, ONE, WIDE};

pub const START: u64 = 1_700_000_000_000;

/// More holders than this do not ask for their slots, which would take longer than all that is timed.
const MOST_TO_ASK: u64 = 4096;

pub struct Kind {
    pub name: &'static str,
    /// What is lent. Holders and strangers have these plans in turn.
    plans: &'static [Plan],
    pub slots: usize,
    /// How many subscribers hold a slot from the start.
    holders: u64,
    /// Every other ask, on average, is from somebody who never asked before.
    strangers: bool,
    /// Two asks are less than so many milliseconds apart, half of it on average.
    gap: u64,
    /// One ask is made where another load has so many, since each takes longer.
    rarer: usize,
    /// What the proved engine's time is to be at most, as a part of the index loop's; nothing if that is not said.
    asked: &'static str,
}

const fn kind(name: &'static str, slots: usize, holders: u64, strangers: bool, gap: u64) -> Kind {
    Kind {
        name,
        plans: &ONE,
        slots,
        holders,
        strangers,
        gap,
        rarer: 1,
        asked: "",
    }
}

/// On as many slots as a table may have. The default asks are over before anybody owes nothing.
const fn most(name: &'static str, holders: u64, strangers: bool) -> Kind {
    kind(name, 65_535, holders, strangers, 9).rarer(10)
}

/// One subscriber, who finds its slot at once.
const fn first(name: &'static str) -> Kind {
    kind(name, 16, 1, false, 8192)
}

impl Kind {
    const fn asked(self, asked: &'static str) -> Kind {
        Kind { asked, ..self }
    }

    const fn rarer(self, rarer: usize) -> Kind {
        Kind { rarer, ..self }
    }

    const fn lent(self, plans: &'static [Plan]) -> Kind {
        Kind { plans, ..self }
    }

    /// The number of the plan under which the holder or stranger with this number asks.
    fn plan_of(&self, who: u64) -> u32 {
        (who % self.plans.len() as u64) as u32
    }
}

pub const KINDS: [Kind; 16] = [
    kind("shops, 300", 300, 300, false, 28),
    kind("shops, strangers", 300, 300, true, 12),
    kind("1024, full", 1024, 1024, false, 9),
    kind("full", 4096, 4096, false, 3).asked("0.25"),
    kind("quarter", 4096, 1024, false, 9).asked("0.35"),
    kind("strangers, full", 4096, 4096, true, 2).asked("0.35"),
    kind("strangers, free", 4096, 1024, true, 5).asked("0.35"),
    most("most, 20000", 20_000, false),
    most("most, full", 65_535, false).asked("0.25"),
    most("most, strangers", 65_535, true).asked("0.35"),
    first("first slot"),
    first("plans, first slot").lent(&WIDE),
    kind("bursts, full", 4096, 4096, false, 3)
        .lent(&BURSTS)
        .rarer(5),
    kind("bursts, strangers", 4096, 4096, true, 2)
        .lent(&BURSTS)
        .rarer(5),
    kind("plans, full", 4096, 4096, false, 3)
        .lent(&WIDE)
        .rarer(5),
    kind("plans, strangers", 4096, 4096, true, 2)
        .lent(&WIDE)
        .rarer(5),
];

/// What is asked of the load with this name.
pub fn asked(name: &str) -> &'static str {
    let kind = KINDS.iter().find(|kind| kind.name == name);
    kind.map_or("", |kind| kind.asked)
}

pub struct Load {
    pub plans: &'static [Plan],
    pub slots: usize,
    /// Who holds a slot at the start, in the order of the slots, and owes the whole burst from then.
    pub holders: Vec<u32>,
    /// How each of them comes to it by asking, unless they are too many.
    pub warm_up: Vec<Ask>,
    pub asks: Vec<Ask>,
}

impl Load {
    pub fn new(kind: &Kind, seed: u64, asks: usize) -> Load {
        Load {
            plans: kind.plans,
            slots: kind.slots,
            holders: (0..kind.holders).map(holder).collect(),
            warm_up: warm_up(kind),
            asks: drawn(kind, seed, asks),
        }
    }
}

/// Each holder asks for its plan's whole burst.
fn warm_up(kind: &Kind) -> Vec<Ask> {
    if kind.holders > MOST_TO_ASK {
        return Vec::new();
    }
    let asks = (0..kind.holders).map(|i| {
        let plan = kind.plan_of(i);
        Ask {
            moment: START,
            subscriber: holder(i),
            plan,
            cost: kind.plans[plan as usize][2],
        }
    });
    asks.collect()
}

fn drawn(kind: &Kind, seed: u64, asks: usize) -> Vec<Ask> {
    let mut draws = Draws(seed);
    let mut moment = START;
    let asks = (0..asks.div_ceil(kind.rarer) as u64).map(|i| {
        moment += draws.below(kind.gap);
        let strange = kind.strangers && draws.below(2) == 0;
        let known = draws.below(kind.holders);
        let (who, subscriber) = if strange {
            (i, stranger(i))
        } else {
            (known, holder(known))
        };
        Ask {
            moment,
            subscriber,
            plan: kind.plan_of(who),
            cost: 1 + draws.below(3) as u32,
        }
    });
    asks.collect()
}

fn holder(i: u64) -> u32 {
    (2 * i + 2) as u32
}

fn stranger(i: u64) -> u32 {
    (2 * i + 1) as u32
}
