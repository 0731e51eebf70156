//! Document 01, 'Seats', with document 02's newest moment (Item 6) and several plans (Item 3): ask (`acquire`), look (`peek`) and
//! clear over a table of slots. The columns are vectors of any lengths, as a host could lend them, and the newest moment and the
//! plan numbers any numbers.

use crate::checks::{Look, MOST_SLOTS};
use crate::decision::{judge, refusal, report, Bucket, Paced, Record, Verdict};
use crate::plan::Plan;
use crate::plans::Plans;
use std::marker::PhantomData;

/// Number, subscriber, left, reset and wait.
pub type Answer = [u128; 5];

pub fn answer(subscriber: u32, verdict: Verdict) -> Answer {
    let v = verdict;
    [v.number, subscriber as u128, v.left, v.reset, v.wait]
}

/// A record that lies in columns, one number in each.
pub trait Stored: Record {
    const COLUMNS: &'static [&'static str];
    fn load(columns: &[Vec<u64>], slot: usize) -> Self;
    fn store(self, columns: &mut [Vec<u64>], slot: usize);
}

/// A number on its way to a column. Within the limits of a plan and the clock every number fits.
fn word(number: u128) -> u64 {
    u64::try_from(number).expect("a stored number of 64 bits")
}

impl Stored for Paced {
    const COLUMNS: &'static [&'static str] = &["tat"];

    fn load(columns: &[Vec<u64>], slot: usize) -> Paced {
        Paced(columns[0][slot] as u128)
    }

    fn store(self, columns: &mut [Vec<u64>], slot: usize) {
        columns[0][slot] = word(self.0);
    }
}

impl Stored for Bucket {
    const COLUMNS: &'static [&'static str] = &["level", "last"];

    fn load(columns: &[Vec<u64>], slot: usize) -> Bucket {
        Bucket {
            level: columns[0][slot] as u128,
            last: columns[1][slot] as u128,
        }
    }

    fn store(self, columns: &mut [Vec<u64>], slot: usize) {
        columns[0][slot] = word(self.level);
        columns[1][slot] = word(self.last);
    }
}

/// The ids, the numbers of the slots' plans, the columns of the record in the order of `Stored::COLUMNS`, and the newest moment at
/// which anything was admitted.
#[derive(Clone, Debug, PartialEq, Eq)]
pub struct Table<R> {
    pub ids: Vec<u32>,
    pub plan_numbers: Vec<u8>,
    pub columns: Vec<Vec<u64>>,
    pub newest: u64,
    kind: PhantomData<R>,
}

impl<R: Stored> Table<R> {
    pub fn new(
        ids: Vec<u32>,
        plan_numbers: Vec<u8>,
        columns: Vec<Vec<u64>>,
        newest: u64,
    ) -> Table<R> {
        assert_eq!(columns.len(), R::COLUMNS.len(), "the number of columns");
        Table {
            ids,
            plan_numbers,
            columns,
            newest,
            kind: PhantomData,
        }
    }

    /// A table as a clear leaves it.
    pub fn cleared(slots: usize) -> Table<R> {
        let columns = vec![vec![0; slots]; R::COLUMNS.len()];
        Table::new(vec![0; slots], vec![0; slots], columns, 0)
    }

    pub fn acquire(
        &mut self,
        plans: &Plans,
        moment: u64,
        subscriber: u32,
        plan: u32,
        cost: u32,
    ) -> Answer {
        let (look, cost) = (self.look(plans, moment, subscriber, plan), cost as u128);
        let verdict = match look.asking(cost) {
            Err(number) => refusal(number),
            Ok(asked) => self.decide(&look, asked, cost),
        };
        answer(subscriber, verdict)
    }

    pub fn peek(&self, plans: &Plans, moment: u64, subscriber: u32, plan: u32) -> Answer {
        let look = self.look(plans, moment, subscriber, plan);
        let own = self.own(subscriber);
        let standing = |asked| Ok((asked, self.standing(&look, asked, own)?));
        let verdict = match look.checked().and_then(standing) {
            Err(number) => refusal(number),
            Ok((asked, record)) => report(asked, look.moment, record),
        };
        answer(subscriber, verdict)
    }

    /// Makes every column and the newest moment all zeros and answers 0, or answers 2 and touches nothing; it names no
    /// subscriber.
    pub fn clear(&mut self) -> Answer {
        if !self.usable() {
            return answer(0, refusal(2));
        }
        self.ids.fill(0);
        self.plan_numbers.fill(0);
        for column in &mut self.columns {
            column.fill(0);
        }
        self.newest = 0;
        [0; 5]
    }

    fn look<'a>(&self, plans: &'a Plans, moment: u64, subscriber: u32, plan: u32) -> Look<'a> {
        Look {
            plans,
            plan,
            usable: self.usable(),
            newest: self.newest as u128,
            moment: moment as u128,
            subscriber,
        }
    }

    /// An ask that passed the checks up to 6: only an admission writes, and only in its own slot and the newest moment.
    fn decide(&mut self, look: &Look, asked: &Plan, cost: u128) -> Verdict {
        let own = self.own(look.subscriber);
        let record = match self.standing(look, asked, own) {
            Err(number) => return refusal(number),
            Ok(record) => record,
        };
        let Some(slot) = own.or_else(|| self.lowest_free(look)) else {
            return refusal(9);
        };
        let (verdict, next) = judge(asked, look.moment, record, cost);
        if verdict.number == 0 {
            self.ids[slot] = look.subscriber;
            self.plan_numbers[slot] = u8::try_from(look.plan).expect("one of at most 16");
            next.store(&mut self.columns, slot);
            self.newest = word(look.moment);
        }
        verdict
    }

    /// Columns of one length, which is within the limits of a table.
    fn usable(&self) -> bool {
        let slots = self.ids.len();
        (1..=MOST_SLOTS).contains(&slots)
            && self.plan_numbers.len() == slots
            && self.columns.iter().all(|c| c.len() == slots)
    }

    /// The lowest slot that carries the subscriber.
    fn own(&self, subscriber: u32) -> Option<usize> {
        self.ids.iter().position(|&id| id == subscriber)
    }

    /// The plan whose number a slot keeps, if it is lent.
    fn kept<'a>(&self, look: &Look<'a>, slot: usize) -> Option<&'a Plan> {
        look.plans.numbered(self.plan_numbers[slot] as u32)
    }

    /// Whether a slot that isn't empty is free goes by its own plan; one that is unknown makes it unfree.
    fn lowest_free(&self, look: &Look) -> Option<usize> {
        let owes_nothing = |slot, plan| R::load(&self.columns, slot).is_free(plan, look.moment);
        let free = |slot| {
            let plan = self.kept(look, slot);
            self.ids[slot] == 0 || plan.is_some_and(|plan| owes_nothing(slot, plan))
        };
        (0..self.ids.len()).find(|&slot| free(slot))
    }

    /// The record by which the subscriber is judged under the plan asked for; or 7, which goes by the plan of its slot, or 12. Who
    /// owes nothing and comes under another plan is treated as having no record.
    fn standing(&self, look: &Look, asked: &Plan, own: Option<usize>) -> Result<R, u128> {
        let fresh = R::fresh(asked, look.moment);
        let Some(slot) = own else { return Ok(fresh) };
        let record = R::load(&self.columns, slot);
        let Some(kept) = self.kept(look, slot) else {
            return Err(7);
        };
        if record.impossible(kept, look.moment) {
            Err(7)
        } else if self.plan_numbers[slot] as u32 == look.plan {
            Ok(record)
        } else if record.debt(kept, look.moment) > 0 {
            Err(12)
        } else {
            Ok(fresh)
        }
    }
}

#[cfg(test)]
mod tests;
