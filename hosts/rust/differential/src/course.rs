//! The calls of one long run under one list of plans: a clock that mostly creeps, more subscribers than slots, and costs that keep
//! slots busy, so that throttling, refilling, takeover of free slots and a full table all occur again and again; subscribers that
//! come under another plan while they owe, and after; moments near the end of the clock; and if the clock falls, moments below the
//! newest admission, at it and above it.

mod clock;
mod plans;

use crate::call::{ask, peek, plan_of, Call, Terms};
use crate::choose::{self, LAST};
use crate::list::List;
use crate::lists;
use crate::rng::Rng;
use model::plan::div_up;
use model::table::Answer;
use std::collections::BTreeMap;

/// How many slots: few; from 41 to 4,096; or exactly so many, which are filled once, under plans and at moments that let
/// everybody come to owe nothing then.
#[derive(Clone, Copy, PartialEq, Eq)]
pub enum Size {
    Few,
    Between,
    Exactly(usize),
}

/// What a subscriber was told when it was admitted last: under which plan, and when it owes nothing any more.
#[derive(Clone, Copy)]
struct Told {
    plan: u32,
    reset: u64,
}

pub struct Course {
    pub list: List,
    pub slots: usize,
    /// The plans that are lent, or that a bad list was made of.
    plans: Vec<Terms>,
    size: Size,
    subscribers: u64,
    /// Where the slots are many, how many subscribers are still to ask one after the other, until the table is full.
    to_come: u32,
    falls: bool,
    /// What the clock shows.
    moment: u64,
    /// The newest moment at which anything was admitted, as the answers tell, and who was.
    newest: u64,
    holder: Option<u32>,
    told: BTreeMap<u32, Told>,
    /// In how many milliseconds a whole burst drains, of the plan under which that takes longest.
    drain: u64,
    /// The longest ordinary step of the clock.
    pace: u64,
}

fn slots(rng: &mut Rng, size: Size) -> u64 {
    match (size, rng.below(16)) {
        (Size::Exactly(slots), _) => slots as u64,
        (Size::Between, _) => 40 + rng.of_any_size(4096 - 40),
        (Size::Few, 0) => rng.from(9, 40),
        (Size::Few, 1..=5) => 1,
        (Size::Few, _) => rng.from(2, 8),
    }
}

fn drain(terms: &Terms) -> u64 {
    let plan = plan_of(terms);
    div_up(plan.full(), plan.limit) as u64
}

impl Course {
    pub fn new(rng: &mut Rng, size: Size, falls: bool) -> Course {
        let plans = plans::any(rng, size);
        let slots = slots(rng, size);
        let least = match size {
            Size::Exactly(_) => 1 + slots / 2, // so that somebody without a slot asks soon
            _ => 1,
        };
        let subscribers = slots + rng.from(least, slots + 2);
        let longest = plans.iter().map(drain).max().unwrap_or(0);
        let share = rng.pick(&plans.iter().map(drain).collect::<Vec<_>>()) / subscribers;
        let mut course = Course {
            list: plans::list(rng, size, &plans),
            slots: slots as usize,
            plans,
            size,
            subscribers,
            to_come: 0,
            falls,
            moment: 0,
            newest: 0,
            holder: None,
            told: BTreeMap::new(),
            drain: longest,
            pace: rng.pick(&[1, share / 8, share / 2, share, 2 * share]),
        };
        course.start_the_clock(rng);
        course.gather();
        course
    }

    /// How many calls the run has.
    pub fn length(&self, rng: &mut Rng) -> u64 {
        let slots = self.slots as u64;
        match self.size {
            Size::Few if rng.once_in(32) => rng.from(50, 3000),
            Size::Few => rng.from(50, 400),
            Size::Between => 100 + rng.from(2 * slots, 3 * slots),
            // seven of eight calls fill a slot, and then some more
            Size::Exactly(_) => slots + slots / 7 + 3000,
        }
    }

    /// The table is filled once.
    fn once(&self) -> bool {
        matches!(self.size, Size::Exactly(_))
    }

    /// A cleared table of many slots is filled first: one subscriber more than slots asks, while the clock stands.
    fn gather(&mut self) {
        if self.size != Size::Few {
            self.to_come = self.slots as u32 + 1;
        }
    }

    /// The next call, after one that got this answer.
    pub fn next(&mut self, rng: &mut Rng, last: &Call, answer: &Answer) -> Call {
        self.hear(last, answer);
        if self.to_come > 0 {
            return self.newcomer(rng);
        }
        if !self.once() && rng.once_in(200 + 2 * self.slots as u64) {
            self.gather();
            return Call::Clear;
        }
        if let Some(call) = self.again(rng, last, answer) {
            return call;
        }
        self.tick(rng);
        self.anybody(rng)
    }

    fn hear(&mut self, last: &Call, answer: &Answer) {
        match *last {
            Call::Acquire {
                moment,
                subscriber,
                plan,
                ..
            } if answer[0] == 0 => {
                (self.newest, self.holder) = (moment, Some(subscriber));
                let reset = answer[3] as u64;
                self.told.insert(subscriber, Told { plan, reset });
            }
            Call::Clear => {
                (self.newest, self.holder) = (0, None);
                self.told.clear();
            }
            _ => (),
        }
    }

    /// The last calls of a run: at the clock's last moment who was admitted last, and so has a slot, asks for its whole burst
    /// twice. The second time at the latest it is not there on this clock.
    pub fn end(&self) -> impl Iterator<Item = Call> + '_ {
        let whole = self.holder.map(|holder| {
            let plan = self.plan(holder);
            ask(LAST, holder, plan, self.terms(plan).burst)
        });
        whole.into_iter().flat_map(|call| [call; 2])
    }

    /// The plan under which a subscriber was admitted last; each begins under one of its own.
    fn plan(&self, subscriber: u32) -> u32 {
        let told = self.told.get(&subscriber);
        told.map_or(subscriber % self.plans.len() as u32, |told| told.plan)
    }

    /// The plan of this number, or any if it is not lent.
    fn terms(&self, plan: u32) -> &Terms {
        self.plans.get(plan as usize).unwrap_or(&self.plans[0])
    }

    fn newcomer(&mut self, rng: &mut Rng) -> Call {
        if rng.once_in(8) {
            return self.anybody(rng);
        }
        let subscriber = self.to_come;
        self.to_come -= 1;
        let plan = self.plan(subscriber);
        ask(self.moment, subscriber, plan, self.cost(rng, plan))
    }

    /// A call of anybody, now and then under another plan; or one that is refused, or whose moment alone falls.
    fn anybody(&self, rng: &mut Rng) -> Call {
        let mut moment = match self.falls && rng.once_in(12) {
            true => self.earlier(rng),
            false => self.moment,
        };
        let mut subscriber = rng.from(1, self.subscribers) as u32;
        let mut plan = self.plan(subscriber);
        if rng.once_in(6) {
            plan = lists::other(rng, plan, self.plans.len());
        }
        let mut cost = self.cost(rng, plan);
        match rng.below(160) {
            0 => moment = choose::beyond_the_clock(rng),
            1 => subscriber = 0,
            2 => cost = 0,
            3 => cost = rng.pick(&[self.terms(plan).burst.saturating_add(1), u32::MAX]),
            4 => plan = lists::unlent(rng, self.plans.len()),
            _ => (),
        }
        if rng.once_in(6) {
            peek(moment, subscriber, plan)
        } else {
            ask(moment, subscriber, plan, cost)
        }
    }

    /// Now and then, the throttled call again after its wait, or the call that got 12 when nothing is owed any more; or either a
    /// millisecond earlier.
    fn again(&mut self, rng: &mut Rng, last: &Call, answer: &Answer) -> Option<Call> {
        let subscriber = last.subscriber();
        let due = match (last.moment()?, answer[0]) {
            (moment, 8) => moment + answer[4] as u64,
            (_, 12) => self.told.get(&subscriber)?.reset,
            _ => return None,
        };
        if !rng.once_in(3 + self.slots as u64 / 16) || due > LAST {
            return None;
        }
        self.moment = due - rng.below(2);
        Some(last.at(self.moment))
    }

    fn cost(&self, rng: &mut Rng, plan: u32) -> u32 {
        let burst = self.terms(plan).burst;
        match rng.below(4) {
            0 => 1,
            1 => burst,
            _ => rng.from(1, burst as u64) as u32,
        }
    }
}
