//! GCRA, the token bucket and the book, side by side: each call goes to all three, and all three answer.

use model::book::Book;
use model::decision::{Bucket, Paced};
use model::plans::Plans;
use model::table::{Answer, Table};

pub struct Three {
    plans: Plans,
    pub paced: Table<Paced>,
    pub bucket: Table<Bucket>,
    book: Book,
}

impl Three {
    /// As a clear leaves them.
    pub fn new(list: &[u32], slots: usize) -> Three {
        let plans = Plans::lent(list);
        Three {
            paced: Table::cleared(slots),
            bucket: Table::cleared(slots),
            book: Book::new(plans.clone(), slots),
            plans,
        }
    }

    pub fn acquire(&mut self, moment: u64, who: u32, plan: u32, cost: u32) -> [Answer; 3] {
        let (plans, paced, bucket) = (&self.plans, &mut self.paced, &mut self.bucket);
        [
            paced.acquire(plans, moment, who, plan, cost),
            bucket.acquire(plans, moment, who, plan, cost),
            self.book.acquire(moment, who, plan, cost),
        ]
    }

    pub fn peek(&self, moment: u64, who: u32, plan: u32) -> [Answer; 3] {
        [
            self.paced.peek(&self.plans, moment, who, plan),
            self.bucket.peek(&self.plans, moment, who, plan),
            self.book.peek(moment, who, plan),
        ]
    }

    pub fn clear(&mut self) -> [Answer; 3] {
        [self.paced.clear(), self.bucket.clear(), self.book.clear()]
    }

    pub fn newest(&self) -> [u128; 3] {
        let (paced, bucket) = (self.paced.newest, self.bucket.newest);
        [paced as u128, bucket as u128, self.book.newest()]
    }
}
