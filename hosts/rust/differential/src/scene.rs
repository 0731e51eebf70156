//! A call at random, and a damaged table that is chosen for it, so that every outcome is frequent.

use crate::call::{ask, peek, plan_of, Call, Terms};
use crate::choose::{self, LAST};
use crate::engine::Engine;
use crate::list::List;
use crate::lists;
use crate::rng::Rng;
use model::decision::least_wait;
use model::plan::Plan;
use model::table::Table;

mod damage;
pub use damage::owing;
use damage::table;

pub struct Scene<E> {
    pub list: List,
    pub moment: u64,
    pub subscriber: u32,
    /// The number asked for.
    pub plan: u32,
    pub cost: u32,
    pub table: Table<E>,
}

/// What a table at random is chosen for.
struct Around {
    /// The plans that are lent, or that a bad list was made of.
    plans: Vec<Plan>,
    /// The number asked for, or any if that is not lent.
    asked: u32,
    moment: u128,
    subscriber: u32,
    cost: u128,
    /// What the subscriber may owe so that the cost is too much.
    debt: Option<u128>,
}

impl Around {
    /// The plan that has this number; the one asked for, if none has.
    fn plan(&self, number: u32) -> &Plan {
        let known = self.plans.get(number as usize);
        known.unwrap_or(&self.plans[self.asked as usize])
    }

    fn knows(&self, number: u8) -> bool {
        (number as usize) < self.plans.len()
    }
}

impl<E: Engine> Scene<E> {
    /// With a table of so many slots.
    pub fn new(rng: &mut Rng, slots: usize) -> Scene<E> {
        let plans = plans(rng);
        let (plan, asked) = asked(rng, plans.len());
        let terms = plans[asked as usize];
        let subscriber = choose::subscriber(rng);
        let cost = choose::cost(rng, terms.burst);
        let debt = choose::too_much(rng, &plan_of(&terms), cost as u128);
        let wait = debt.map_or(1, |debt| least_wait(&plan_of(&terms), debt, cost as u128));
        let moment = choose::moment_for(rng, &terms, wait as u64);
        let around = Around {
            plans: plans.iter().map(plan_of).collect(),
            asked,
            moment: moment as u128,
            subscriber,
            cost: cost as u128,
            debt: debt.filter(|_| moment <= LAST),
        };
        Scene {
            list: list(rng, &plans),
            moment,
            subscriber,
            plan,
            cost,
            table: table(rng, &around, slots),
        }
    }

    pub fn ask(&self) -> Call {
        ask(self.moment, self.subscriber, self.plan, self.cost)
    }

    pub fn peek(&self) -> Call {
        peek(self.moment, self.subscriber, self.plan)
    }
}

fn plans(rng: &mut Rng) -> Vec<Terms> {
    let (first, count) = (choose::good_terms(rng), lists::count(rng));
    lists::beside(rng, first, count)
}

/// Now and then a bad one.
fn list(rng: &mut Rng, plans: &[Terms]) -> List {
    match rng.once_in(18) {
        true => List::new(lists::bad(rng, plans)),
        false => List::of(plans),
    }
}

/// The number asked for, now and then one that is not lent; and one that is.
fn asked(rng: &mut Rng, count: usize) -> (u32, u32) {
    let lent = lists::number(rng, count);
    match rng.once_in(24) {
        true => (lists::unlent(rng, count), lent),
        false => (lent, lent),
    }
}
