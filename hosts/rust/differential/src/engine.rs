//! What the comparison must know of an engine besides the model's record: its calls in the archive, and the numbers
//! where its record is at a bound.

use crate::call::Call;
use crate::lent::Lent;
use crate::out::{answered, Out};
use crate::rng::Rng;
use model::decision::{Bucket, Paced, Record};
use model::plan::{div_up, Plan};
use model::table::Stored;
use railcadence::numbers;

/// The engines' names, in the order of `Engine::PLACE`.
pub const NAMES: [&str; 2] = [Paced::NAME, Bucket::NAME];

pub trait Engine: Stored {
    const NAME: &'static str;
    const PLACE: usize;
    /// On a list of plans and a table as they are lent.
    fn call(plans: &[u32], table: &mut Lent, call: &Call) -> Out;
    /// Free at the moment, with nothing to spare.
    fn just_free(self, plan: &Plan, moment: u128) -> bool;
    /// A record at one of the bounds that matter at this moment, beside it, or anywhere.
    fn near_a_bound(rng: &mut Rng, plan: &Plan, moment: u128, cost: u128) -> Self;
    /// A record that owes exactly this much at this moment; at most a full bucket.
    fn owing(rng: &mut Rng, plan: &Plan, moment: u128, debt: u128) -> Self;
}

impl Engine for Paced {
    const NAME: &'static str = "gcra";
    const PLACE: usize = 0;

    fn call(plans: &[u32], table: &mut Lent, call: &Call) -> Out {
        let Lent {
            ids,
            plan_numbers,
            columns,
            newest,
        } = table;
        let (tats, newest) = (&mut columns[0], &mut newest[0]);
        answered(|out| match *call {
            Call::Acquire {
                moment: m,
                subscriber: s,
                plan: p,
                cost,
            } => numbers::gcra_acquire(plans, ids, plan_numbers, tats, newest, m, s, p, cost, out),
            Call::Peek {
                moment: m,
                subscriber: s,
                plan: p,
            } => numbers::gcra_peek(plans, ids, plan_numbers, tats, newest, m, s, p, out),
            Call::Clear => numbers::gcra_clear(ids, plan_numbers, tats, newest, out),
        })
    }

    fn just_free(self, plan: &Plan, moment: u128) -> bool {
        self.0 == moment * plan.limit
    }

    fn near_a_bound(rng: &mut Rng, plan: &Plan, moment: u128, cost: u128) -> Paced {
        let (m, full) = (moment * plan.limit, plan.full());
        let bound = match rng.below(8) {
            0 => 0,
            1 | 2 => m,
            3 => m + full,
            // the largest TAT on which the cost is admitted
            4 => (m + full).saturating_sub(plan.period * cost),
            5 => m + rng.below(full.max(1) as u64) as u128,
            6 => u64::MAX as u128,
            _ => rng.next() as u128,
        };
        Paced(beside(rng, bound))
    }

    fn owing(_: &mut Rng, plan: &Plan, moment: u128, debt: u128) -> Paced {
        Paced(moment * plan.limit + debt)
    }
}

impl Engine for Bucket {
    const NAME: &'static str = "token-bucket";
    const PLACE: usize = 1;

    fn call(plans: &[u32], table: &mut Lent, call: &Call) -> Out {
        let Lent {
            ids,
            plan_numbers,
            columns,
            newest,
        } = table;
        let (levels, lasts) = columns.split_at_mut(1);
        let (levels, lasts, newest) = (&mut levels[0], &mut lasts[0], &mut newest[0]);
        answered(|out| match *call {
            Call::Acquire {
                moment: m,
                subscriber: s,
                plan: p,
                cost,
            } => numbers::token_bucket_acquire(
                plans,
                ids,
                plan_numbers,
                levels,
                lasts,
                newest,
                m,
                s,
                p,
                cost,
                out,
            ),
            Call::Peek {
                moment: m,
                subscriber: s,
                plan: p,
            } => numbers::token_bucket_peek(
                plans,
                ids,
                plan_numbers,
                levels,
                lasts,
                newest,
                m,
                s,
                p,
                out,
            ),
            Call::Clear => {
                numbers::token_bucket_clear(ids, plan_numbers, levels, lasts, newest, out)
            }
        })
    }

    fn just_free(self, plan: &Plan, moment: u128) -> bool {
        self.is_free(plan, moment) && self.level + (moment - self.last) * plan.limit == plan.full()
    }

    fn near_a_bound(rng: &mut Rng, plan: &Plan, moment: u128, cost: u128) -> Bucket {
        if rng.once_in(4) {
            return full_at(rng, plan, moment);
        }
        let last = last_near_a_bound(rng, moment);
        let (full, refill) = (plan.full(), moment.saturating_sub(last) * plan.limit);
        let bound = match rng.below(8) {
            0 => 0,
            1 => full,
            2 => full + 1,
            // the least level that is full by now, and the least on which the cost is admitted
            3 => full.saturating_sub(refill),
            4 => (plan.period * cost).saturating_sub(refill),
            5 => rng.below(full.max(1) as u64) as u128,
            6 => u64::MAX as u128,
            _ => rng.next() as u128,
        };
        let level = beside(rng, bound);
        Bucket { level, last }
    }

    fn owing(rng: &mut Rng, plan: &Plan, moment: u128, debt: u128) -> Bucket {
        let level_now = plan.full() - debt;
        // no longer ago than the whole level takes to come in
        let most = moment.min(level_now / plan.limit) as u64;
        let some = rng.below(most + 1);
        let ago = rng.pick(&[0, some, most]) as u128;
        Bucket {
            level: level_now - ago * plan.limit,
            last: moment - ago,
        }
    }
}

/// A bucket of any level whose last admission is just long enough ago for it to be full, or a millisecond off.
fn full_at(rng: &mut Rng, plan: &Plan, moment: u128) -> Bucket {
    let level = rng.below(plan.full() as u64 + 1) as u128;
    let ago = div_up(plan.full() - level, plan.limit);
    let last = beside(rng, moment.saturating_sub(ago));
    Bucket { level, last }
}

fn last_near_a_bound(rng: &mut Rng, moment: u128) -> u128 {
    match rng.below(16) {
        0 => 0,
        1 => u64::MAX as u128,
        2 => rng.next() as u128,
        3..=7 => beside(rng, moment),
        8..=10 => moment.saturating_sub(rng.below(1000) as u128),
        _ => moment.saturating_sub(rng.of_any_size(moment.max(1) as u64) as u128),
    }
}

/// The bound, or the number before or after it; stored numbers have 64 bits.
fn beside(rng: &mut Rng, bound: u128) -> u128 {
    let near = (bound + rng.below(3) as u128).saturating_sub(1);
    near.min(u64::MAX as u128)
}
