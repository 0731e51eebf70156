//! A ceiling for a contract: in any stretch of L milliseconds, both end moments included, a shop is admitted at most the burst and
//! what comes in within L. A host that notes each admission counts exactly so much in one run, in both engines.

use railcadence::{Answer, Gcra, Outcome, Plan, Plans, TokenBucket};

const PLAN: Plan = Plan::new(3, 1000, 2);

/// Moment, shop and cost: shop 7 takes all that is there, and one unit more, which must wait.
const ASKS: [(u64, u32, u32); 8] = [
    (0, 7, 2),
    (0, 8, 2),
    (333, 7, 1),
    (334, 7, 1),
    (667, 7, 1),
    (1000, 7, 1),
    (1000, 7, 1),
    (1000, 8, 2),
];

fn admits(ask: impl FnMut((u64, u32, u32)) -> Answer) {
    let answers = ASKS.map(ask);
    let numbers = answers.map(|answer| answer.to_numbers()[0]);
    assert_eq!(numbers, [0, 0, 8, 0, 0, 0, 8, 0]);
    let (left, reset, wait) = (0, 1667, 334);
    assert_eq!(answers[6].outcome, Outcome::Throttled { left, reset, wait });
    let units = |shop: u32, first: u64, last: u64| -> u32 {
        let admitted = ASKS
            .iter()
            .zip(answers)
            .filter(|(_, answer)| answer.is_admitted());
        let counted = admitted.filter(|((moment, subscriber, _), _)| {
            *subscriber == shop && (first..=last).contains(moment)
        });
        counted.map(|((_, _, cost), _)| cost).sum()
    };
    assert_eq!([units(7, 0, 1000), units(8, 0, 1000)], [5, 4]);
    assert_eq!([units(7, 0, 999), units(7, 1, 1000)], [4, 3]);
    let ceiling = PLAN.limit * 1000 + PLAN.period * PLAN.burst;
    assert_eq!(PLAN.period * units(7, 0, 1000), ceiling);
}

#[test]
fn a_run_meets_the_ceiling() {
    let plans = Plans::new(&[PLAN]).expect("a good plan");
    let (mut gcra, mut bucket) = (Gcra::with_slots(2), TokenBucket::with_slots(2));
    admits(|(moment, shop, cost)| gcra.acquire(&plans, moment, shop, 0, cost));
    admits(|(moment, shop, cost)| bucket.acquire(&plans, moment, shop, 0, cost));
}
