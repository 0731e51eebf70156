//! Arguments at random, chosen so that every outcome is frequent.

use crate::call::Terms;
use crate::rng::Rng;
use model::checks::MOST_SLOTS;
use model::plan::{Plan, LAST_MOMENT};

/// Of a plan's limit, period and burst.
pub const MOST: [u32; 3] = [1_000_000, 2_678_400_000, 1_000_000];
pub const LAST: u64 = LAST_MOMENT as u64;

/// Under which a burst takes longest to drain, and longer than the clock lasts.
pub const SLOWEST: Terms = Terms {
    limit: 1,
    period: MOST[1],
    burst: MOST[2],
};

/// A plan within its limits, at one of them now and then.
pub fn good_terms(rng: &mut Rng) -> Terms {
    let [limit, period, burst] = MOST.map(|most| match rng.below(8) {
        0 => 1,
        1 => most,
        2 => most - 1,
        3 | 4 => rng.from(1, 10) as u32,
        _ => rng.of_any_size(most as u64) as u32,
    });
    Terms {
        limit,
        period,
        burst,
    }
}

/// A plan of which one number is outside its limits, just so or far.
pub fn bad_terms(rng: &mut Rng) -> Terms {
    let mut terms = good_terms(rng);
    let which = rng.below(3) as usize;
    let wrong = rng.pick(&[0, MOST[which] + 1, u32::MAX]);
    *[&mut terms.limit, &mut terms.period, &mut terms.burst][which] = wrong;
    terms
}

/// Either, mostly a good one.
pub fn terms(rng: &mut Rng) -> Terms {
    if rng.once_in(12) {
        bad_terms(rng)
    } else {
        good_terms(rng)
    }
}

pub fn moment(rng: &mut Rng) -> u64 {
    match rng.below(12) {
        0 => 0,
        1 => 1,
        2 => LAST,
        3 => LAST - rng.below(1000),
        4 => beyond_the_clock(rng),
        5..=7 => rng.below(10_000),
        _ => rng.of_any_size(LAST),
    }
}

/// Any moment; or one in the clock's last period or in the last milliseconds that a wait takes; or the last at which the wait
/// ends within the clock, or the next.
pub fn moment_for(rng: &mut Rng, terms: &Terms, wait: u64) -> u64 {
    match rng.below(8) {
        0 => LAST - rng.below(terms.period.max(1) as u64),
        1 => LAST - rng.below(wait.clamp(1, LAST)),
        2 => LAST.saturating_sub(wait) + rng.below(2),
        _ => moment(rng),
    }
}

pub fn beyond_the_clock(rng: &mut Rng) -> u64 {
    let anywhere = LAST + rng.of_any_size(LAST);
    rng.pick(&[LAST + 1, u64::MAX, anywhere])
}

pub fn subscriber(rng: &mut Rng) -> u32 {
    match rng.below(16) {
        0 => 0,
        1..=3 => 1,
        4 => u32::MAX,
        5..=8 => rng.next() as u32,
        _ => rng.from(1, 4) as u32,
    }
}

pub fn cost(rng: &mut Rng, burst: u32) -> u32 {
    match rng.below(16) {
        0 => 0,
        1 => burst.saturating_add(1),
        2 => u32::MAX,
        3..=6 => 1,
        7..=9 => burst,
        _ => rng.of_any_size(burst.max(1) as u64) as u32,
    }
}

/// What somebody may owe for whom the cost is too much: the wait is 1 ms, as long as it can be, whole milliseconds or just not,
/// or anything between. Nothing under a plan or for a cost outside the limits.
pub fn too_much(rng: &mut Rng, plan: &Plan, cost: u128) -> Option<u128> {
    if !plan.within_limits() || !(1..=plan.burst).contains(&cost) {
        return None;
    }
    let most = plan.period * cost;
    let lacking = match rng.below(4) {
        0 => 1,
        1 => most,
        2 => {
            let whole = rng.below((most / plan.limit) as u64 + 1) as u128 * plan.limit;
            (whole + rng.below(3) as u128).saturating_sub(1)
        }
        _ => rng.below(most as u64) as u128,
    };
    Some(plan.full() - most + lacking.clamp(1, most))
}

/// How many slots a table has; now and then none, or one too many.
pub fn length(rng: &mut Rng) -> usize {
    match rng.below(128) {
        0 => rng.of_any_size(MOST_SLOTS as u64 + 1) as usize,
        1..=3 => rng.from(9, 100) as usize,
        4..=11 => 0,
        12..=40 => 1,
        41..=70 => 2,
        _ => rng.from(3, 8) as usize,
    }
}
