//! Waits that end with the clock: 1 spends its whole burst at the last moment at which the wait for a cost ends within the
//! clock, and 2 a millisecond later; both ask for the cost then, and until the clock's last moment.

use super::Case;
use crate::rng::Rng;
use crate::text::{ask, plan, Terms, LAST};

/// Slots, limit, period and burst. Under the last, some waits are longer than the clock.
const PLANS: [[u64; 4]; 8] = [
    [2, 3, 1000, 2],
    [3, 1, 1, 1],
    [2, 7, 10, 5],
    [1024, 1, 86_400_000, 100],
    [2, 999_999, 2_678_399_999, 999_999],
    [3, 1_000_000, 1, 1_000_000],
    [2, 1_000_000, 2_678_400_000, 1_000_000],
    [2, 1, 2_678_400_000, 1_000_000],
];

pub fn all(_: &mut Rng) -> Vec<Case> {
    let mut cases = Vec::new();
    for [slots, limit, period, burst] in PLANS {
        let terms = Terms {
            slots,
            limit,
            period,
            burst,
        };
        for cost in [1, 2, burst / 2, burst - 1, burst] {
            if (1..=burst).contains(&cost) {
                cases.push(Case::whole(one(&terms, cost)));
            }
        }
    }
    cases
}

fn one(terms: &Terms, cost: u64) -> Vec<u8> {
    let wait = (terms.period * cost).div_ceil(terms.limit);
    let last = LAST.saturating_sub(wait);
    let mut text = plan(terms);
    for (subscriber, moment) in [(1, last), (2, last + 1)] {
        text.extend(ask(moment, subscriber, terms.burst));
        text.extend(ask(moment, subscriber, cost));
    }
    // 1 is admitted at the last moment, and not twice; 2 is not on this clock
    let between = LAST.saturating_sub(wait / 2);
    for moment in [last + 1, between, LAST - 1, LAST, LAST] {
        let moment = moment.max(last + 1);
        text.extend(ask(moment, 1, cost));
        text.extend(ask(moment, 2, cost));
    }
    text
}
