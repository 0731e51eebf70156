//! Both engines as one would write them in Rust without proofs: the same columns, the same checks, u64 throughout. They share
//! nothing with the second implementation.

pub mod gcra;
pub mod search;
pub mod token_bucket;

use crate::call::{Answer, Ask, Plan};

const MOST_PLANS: usize = 16;
const MOST_LIMIT: u32 = 1_000_000;
const MOST_PERIOD: u32 = 2_678_400_000;
const MOST_BURST: u32 = 1_000_000;
const MOST_SLOTS: usize = 65_535;
pub const LAST_MOMENT: u64 = (1 << 42) - 1;

fn is_good([limit, period, burst]: &Plan) -> bool {
    (1..=MOST_LIMIT).contains(limit)
        && (1..=MOST_PERIOD).contains(period)
        && (1..=MOST_BURST).contains(burst)
}

/// The plan asked for; or the number of the first check that applies, of 1, 2, 3, 11, 4, 5 and 6.
fn check(plans: &[Plan], slots: Option<usize>, newest: u64, ask: &Ask) -> Result<Plan, u64> {
    if !(1..=MOST_PLANS).contains(&plans.len()) || !plans.iter().all(is_good) {
        return Err(1);
    }
    let plan = *plans.get(ask.plan as usize).ok_or(1u64)?;
    if !slots.is_some_and(|slots| (1..=MOST_SLOTS).contains(&slots)) {
        return Err(2);
    }
    if ask.moment > LAST_MOMENT {
        return Err(3);
    }
    if ask.moment < newest {
        return Err(11);
    }
    if ask.subscriber == 0 {
        return Err(4);
    }
    if ask.cost == 0 {
        return Err(5);
    }
    if ask.cost > plan[2] {
        return Err(6);
    }
    Ok(plan)
}

fn refuse(number: u64, ask: &Ask, out: &mut Answer) {
    *out = [number, ask.subscriber as u64, 0, 0, 0];
}

fn limit(plan: &Plan) -> u64 {
    plan[0] as u64
}

fn price(plan: &Plan, cost: u32) -> u64 {
    plan[1] as u64 * cost as u64
}

fn full(plan: &Plan) -> u64 {
    price(plan, plan[2])
}

fn admit(plan: &Plan, ask: &Ask, debt: u64, out: &mut Answer) {
    answer(0, plan, ask, debt, 0, out);
}

/// What must drain before the cost fits is waited for, unless the clock ends before that.
fn throttle(plan: &Plan, ask: &Ask, debt: u64, out: &mut Answer) {
    let excess = debt + price(plan, ask.cost) - full(plan);
    let wait = excess.div_ceil(limit(plan));
    if ask.moment + wait > LAST_MOMENT {
        return refuse(13, ask, out);
    }
    answer(8, plan, ask, debt, wait, out);
}

fn answer(number: u64, plan: &Plan, ask: &Ask, debt: u64, wait: u64, out: &mut Answer) {
    let left = (full(plan) - debt) / price(plan, 1);
    let reset = ask.moment + debt.div_ceil(limit(plan));
    *out = [number, ask.subscriber as u64, left, reset, wait];
}
