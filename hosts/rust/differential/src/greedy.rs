//! Runs that meet the ceiling (document 02, Item 7): a greedy shop takes its whole burst and later every unit that has come in,
//! before its bucket runs over. Each time that this leaves no part of a unit, which is so after every P / gcd(N, P) milliseconds,
//! the shop was admitted as much as the ceiling allows since it began. Others ask beside it.

use crate::call::{ask, plan_of, Call, Terms};
use crate::ceiling;
use crate::choose::{self, LAST, MOST};
use crate::compare::{circumstances, Difference};
use crate::joint::Joint;
use crate::list::List;
use crate::lists;
use crate::rng::Rng;
use crate::trial::Trial;
use model::plan::Plan;

const SHOP: u32 = 7;

/// How many bursts come in, at most, in a run.
const MOST_BURSTS: u128 = 32;

pub fn run(trial: &mut Trial) -> Result<(), Difference> {
    while trial.more() {
        one(trial)?;
    }
    Ok(())
}

fn one(trial: &mut Trial) -> Result<(), Difference> {
    let mut course = Course::new(&mut trial.rng);
    let mut joint = Joint::new(trial, &List::of(&course.plans), course.slots as usize);
    joint.call(trial, &Call::Clear)?;
    joint.call(trial, &course.shop(course.terms.burst))?;
    while course.moment < course.end {
        let units = course.step(&mut trial.rng);
        if trial.rng.once_in(2) {
            let other = course.other(&mut trial.rng);
            joint.call(trial, &other)?;
        }
        take(trial, &mut joint, &course, units)?;
    }
    joint.call(trial, &course.shop(1))?;
    Ok(())
}

/// The shop asks for all units that are there, or for one if none is. If no part of a unit is left then, the ceiling is met.
fn take(
    trial: &mut Trial,
    joint: &mut Joint,
    course: &Course,
    units: u32,
) -> Result<(), Difference> {
    let before = ceiling::met(&trial.stretches);
    let call = course.shop(units.max(1));
    joint.call(trial, &call)?;
    let met = ceiling::met(&trial.stretches);
    let more = before.iter().zip(met).all(|(&before, met)| before < met);
    if course.part > 0 || more {
        return Ok(());
    }
    Err(format!(
        "a greedy shop that began at {} does not meet the ceiling in each engine's notes\n{}",
        course.begin,
        circumstances(&List::of(&course.plans), &call)
    ))
}

struct Course {
    plans: Vec<Terms>,
    number: u32,
    terms: Terms,
    /// As many as there are subscribers, so that each finds one.
    slots: u64,
    begin: u64,
    end: u64,
    moment: u64,
    /// What is left of a unit in the shop's bucket, in grains.
    part: u128,
}

impl Course {
    fn new(rng: &mut Rng) -> Course {
        let terms = terms(rng);
        let count = lists::count(rng);
        let (plans, number) = lists::among(rng, terms, count);
        let length = length(rng, &plan_of(&terms));
        let latest = LAST - length;
        let (soon, anywhen) = (rng.below(10_000), rng.of_any_size(latest));
        let begin = rng.pick(&[0, soon, anywhen, latest]);
        Course {
            plans,
            number,
            terms,
            slots: rng.from(2, 4),
            begin,
            end: begin + length,
            moment: begin,
            part: 0,
        }
    }

    /// Goes on by as much as the bucket takes, or less; how many units are there then.
    fn step(&mut self, rng: &mut Rng) -> u32 {
        let plan = plan_of(&self.terms);
        let longest = ((plan.full() - self.part) / plan.limit) as u64;
        let some = rng.from(1, longest);
        let step = rng.pick(&[1, some, longest]).min(self.end - self.moment);
        self.moment += step;
        let level = self.part + plan.limit * step as u128;
        self.part = level % plan.period;
        (level / plan.period) as u32
    }

    fn shop(&self, cost: u32) -> Call {
        ask(self.moment, SHOP, self.number, cost)
    }

    /// Somebody else under any plan.
    fn other(&self, rng: &mut Rng) -> Call {
        let other = SHOP + rng.from(1, self.slots - 1) as u32;
        let plan = lists::number(rng, self.plans.len());
        let burst = self.plans[plan as usize].burst;
        ask(self.moment, other, plan, rng.from(1, burst as u64) as u32)
    }
}

/// So many milliseconds that the ceiling is met at the end, and often on the way; at most half of the clock.
fn length(rng: &mut Rng, plan: &Plan) -> u64 {
    let common = gcd(plan.limit, plan.period);
    let cycle = (plan.period / common) as u64;
    let most = MOST_BURSTS * plan.burst / (plan.limit / common);
    cycle * rng.of_any_size((most as u64).min(LAST / 2 / cycle))
}

/// A plan whose bucket need not run over before the ceiling is met, which is soon; of every other one a unit comes in within whole
/// milliseconds.
fn terms(rng: &mut Rng) -> Terms {
    loop {
        let mut terms = choose::good_terms(rng);
        if rng.once_in(2) {
            terms.period = terms.limit * rng.of_any_size((MOST[1] / terms.limit) as u64) as u32;
        }
        if meets(&plan_of(&terms)) {
            return terms;
        }
    }
}

/// What is left of a unit is at most P − gcd(N, P), and what comes in within a millisecond must fit beside it.
fn meets(plan: &Plan) -> bool {
    let common = gcd(plan.limit, plan.period);
    let fits = plan.limit + plan.period <= plan.full() + common;
    fits && plan.limit / common <= MOST_BURSTS * plan.burst
}

fn gcd(a: u128, b: u128) -> u128 {
    match b {
        0 => a,
        _ => gcd(b, a % b),
    }
}
