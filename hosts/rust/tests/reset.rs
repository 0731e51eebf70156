//! Document 02, Item 2: the reset is the first whole millisecond at which the debt is 0. A shop that asks for its whole burst
//! there is admitted, and a millisecond earlier it is told to wait for one.

use model::book::Book;
use model::decision::{Bucket, Paced};
use model::plan::Plan;
use model::plans::Plans;
use model::table::{Answer, Table};

const MOMENT: u64 = 1000;
const SHOP: u32 = 7;

/// The answers of GCRA, the token bucket and the book to a cost at a moment, after the costs before it at 1000.
fn asked(plan: Plan, spent: &[u32], moment: u64, cost: u32) -> [Answer; 3] {
    let (mut paced, mut bucket) = (Table::<Paced>::cleared(1), Table::<Bucket>::cleared(1));
    let plans = Plans::one(plan);
    let mut book = Book::new(plans.clone(), 1);
    for &cost in spent {
        paced.acquire(&plans, MOMENT, SHOP, 0, cost);
        bucket.acquire(&plans, MOMENT, SHOP, 0, cost);
        book.acquire(MOMENT, SHOP, 0, cost);
    }
    [
        paced.acquire(&plans, moment, SHOP, 0, cost),
        bucket.acquire(&plans, moment, SHOP, 0, cost),
        book.acquire(moment, SHOP, 0, cost),
    ]
}

#[test]
fn the_whole_burst_is_there_at_the_reset() {
    for (limit, period, burst) in [(3, 1000, 2), (7, 10, 5), (1, 1, 1), (1_000_000, 999, 3)] {
        let plan = Plan::new(limit, period, burst);
        for cost in 1..=burst {
            let [answer, bucket, book] = asked(plan, &[], MOMENT, cost);
            assert_eq!([answer; 2], [bucket, book]);
            let reset = answer[3] as u64;
            let late = asked(plan, &[cost], reset, burst);
            assert_eq!(late.map(|answer| answer[0]), [0; 3], "{plan:?} {cost}");
            let early = asked(plan, &[cost], reset - 1, burst);
            let told = early.map(|answer| (answer[0], answer[3] as u64, answer[4]));
            assert_eq!(told, [(8, reset, 1); 3], "{plan:?} {cost}");
        }
    }
}
