//! Document 02, Item 13: where the least wait ends within the clock the answer is 8, and the same request that much later is
//! admitted; where it does not, the answer is 13, and no later moment of the clock admits.

use model::book::Book;
use model::decision::{Bucket, Paced};
use model::plan::Plan;
use model::plans::Plans;
use model::table::{Answer, Table};

const LAST: u64 = 4_398_046_511_103;
const SHOP: u32 = 7;

/// Limit, period and burst; a burst drains within a second.
const PLANS: [(u32, u32, u32); 5] = [
    (3, 1000, 2),
    (7, 10, 5),
    (1, 1, 1),
    (1_000_000, 999, 3),
    (999, 1000, 9),
];

/// Both tables and the book, of a shop that has spent its whole burst.
struct Spent {
    plan: Plan,
    paced: Table<Paced>,
    bucket: Table<Bucket>,
    book: Book,
}

impl Spent {
    fn at(plan: Plan, moment: u64) -> Spent {
        let mut spent = Spent {
            plan,
            paced: Table::cleared(1),
            bucket: Table::cleared(1),
            book: Book::new(Plans::one(plan), 1),
        };
        assert_eq!(spent.asked(moment, plan.burst as u32)[0], 0);
        spent
    }

    /// The one answer of both tables and the book.
    fn asked(&mut self, moment: u64, cost: u32) -> Answer {
        let plans = Plans::one(self.plan);
        let paced = self.paced.acquire(&plans, moment, SHOP, 0, cost);
        let bucket = self.bucket.acquire(&plans, moment, SHOP, 0, cost);
        let book = self.book.acquire(moment, SHOP, 0, cost);
        assert_eq!([bucket, book], [paced; 2], "{:?} {moment}", self.plan);
        paced
    }

    fn tables(&self) -> (Table<Paced>, Table<Bucket>) {
        (self.paced.clone(), self.bucket.clone())
    }
}

/// Each plan with each cost up to its burst, and the wait for it of a shop that has spent its burst, far from the clock's end.
fn waits() -> Vec<(Plan, u32, u64)> {
    let mut waits = Vec::new();
    for (limit, period, burst) in PLANS {
        let plan = Plan::new(limit, period, burst);
        for cost in 1..=burst {
            let answer = Spent::at(plan, 1000).asked(1000, cost);
            assert_eq!(answer[0], 8);
            waits.push((plan, cost, answer[4] as u64));
        }
    }
    waits
}

/// It is told up to the last moment at which it ends within the clock, and is the least.
#[test]
fn under_8_the_wait_is_on_the_clock() {
    for (plan, cost, wait) in waits() {
        for moment in [LAST - wait, LAST - wait - 1, LAST - wait - 5000] {
            let mut shop = Spent::at(plan, moment);
            let answer = shop.asked(moment, cost);
            assert_eq!((answer[0], answer[4]), (8, wait as u128));
            let early = shop.asked(moment + wait - 1, cost);
            assert_eq!((early[0], early[4]), (8, 1));
            assert_eq!(shop.asked(moment + wait, cost)[0], 0);
        }
    }
}

/// From the first moment at which it does not end within the clock, to the last.
#[test]
fn under_13_no_later_moment_admits() {
    for (plan, cost, wait) in waits() {
        for moment in [LAST - wait + 1, LAST] {
            let mut shop = Spent::at(plan, moment);
            let before = shop.tables();
            for later in moment..=LAST {
                assert_eq!(shop.asked(later, cost), [13, SHOP as u128, 0, 0, 0]);
            }
            assert_eq!(shop.tables(), before);
            assert_eq!(shop.asked(LAST + 1, cost)[0], 3);
        }
    }
}
