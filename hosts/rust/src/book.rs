//! Document 01, 'The book': the answers from the lists of admitted calls alone. It is fed the list of plans, the number of slots
//! and the calls, and nothing that an engine answers or stores. A subscriber's list is its latest unbroken run of admitted calls
//! under one plan (document 02, Item 3).

use crate::checks::{Look, MOST_SLOTS};
use crate::decision::{denied, refusal, settled, Verdict};
use crate::plan::Plan;
use crate::plans::Plans;
use crate::table::{answer, Answer};
use std::collections::BTreeMap;

struct Admitted {
    moment: i128,
    cost: i128,
}

/// A subscriber's latest admitted calls, all under the plan of this number.
#[derive(Default)]
struct Run {
    plan: u32,
    calls: Vec<Admitted>,
}

pub struct Book {
    plans: Plans,
    slots: usize,
    runs: BTreeMap<u32, Run>,
    /// Of every admitted call since the last clear: to look through many lists at every call takes its time.
    moments: Vec<u64>,
    mistake: Option<Mistake>,
}

/// What a wrong book does, with which the comparisons are tried; the rules have no such thing.
#[derive(Clone, Copy, PartialEq, Eq)]
pub enum Mistake {
    /// It sees only the last so many calls of a list.
    Forgets(usize),
    /// It takes the newest moment from the caller's own list alone.
    OwnNewest,
    /// It begins no list anew when the plan changes.
    NeverRestarts,
    /// It gives 12 by what would be owed under the plan asked for.
    ByTheAsked,
    /// It gives no 12.
    Never12,
    /// It gives 12 though nothing is owed.
    Always12,
}

impl Book {
    /// It starts empty.
    pub fn new(plans: Plans, slots: usize) -> Book {
        Book {
            plans,
            slots,
            runs: BTreeMap::new(),
            moments: Vec::new(),
            mistake: None,
        }
    }

    pub fn mistaken(plans: Plans, slots: usize, mistake: Option<Mistake>) -> Book {
        Book {
            mistake,
            ..Book::new(plans, slots)
        }
    }

    pub fn acquire(&mut self, moment: u64, subscriber: u32, plan: u32, cost: u32) -> Answer {
        let look = self.look(moment, subscriber, plan);
        let verdict = match look.asking(cost as u128) {
            Err(number) => refusal(number),
            Ok(asked) => self.decide(&look, asked, cost as u128),
        };
        if verdict.number == 0 {
            self.admit(moment, subscriber, plan, cost);
        }
        answer(subscriber, verdict)
    }

    pub fn peek(&self, moment: u64, subscriber: u32, plan: u32) -> Answer {
        let look = self.look(moment, subscriber, plan);
        let verdict = match look.checked() {
            Err(number) => refusal(number),
            Ok(_) if self.owes_under_another(&look) => refusal(12),
            Ok(asked) => settled(asked, look.moment, self.owed_under(&look)),
        };
        answer(subscriber, verdict)
    }

    pub fn clear(&mut self) -> Answer {
        self.runs.clear();
        self.moments.clear();
        [0; 5]
    }

    /// The newest moment in the lists of all subscribers, or 0 if all are empty (document 02, Item 6). A list that begins anew
    /// begins with the newest moment, so it is that of all admitted calls.
    pub fn newest(&self) -> u128 {
        let newest = self.moments.iter().max();
        newest.map_or(0, |&moment| moment as u128)
    }

    /// The number of the plan of the subscriber's list.
    pub fn plan_of(&self, subscriber: u32) -> Option<u32> {
        self.runs.get(&subscriber).map(|run| run.plan)
    }

    /// What the subscriber owes at the moment s, by the plan of its list.
    pub fn debt(&self, subscriber: u32, s: u128) -> u128 {
        let run = self.runs.get(&subscriber);
        run.map_or(0, |run| self.owed(run, s))
    }

    fn look(&self, moment: u64, subscriber: u32, plan: u32) -> Look<'_> {
        Look {
            plans: &self.plans,
            plan,
            usable: (1..=MOST_SLOTS).contains(&self.slots),
            newest: self.newest_for(subscriber),
            moment: moment as u128,
            subscriber,
        }
    }

    fn newest_for(&self, subscriber: u32) -> u128 {
        if self.mistake != Some(Mistake::OwnNewest) {
            return self.newest();
        }
        let own = self.runs.get(&subscriber);
        let moments = own.iter().flat_map(|run| &run.calls);
        let moments = moments.map(|call| call.moment as u128);
        moments.max().unwrap_or(0)
    }

    /// An ask that passed the checks up to 6.
    fn decide(&self, look: &Look, asked: &Plan, cost: u128) -> Verdict {
        if self.owes_under_another(look) {
            return refusal(12);
        }
        if self.is_full(look) {
            return refusal(9);
        }
        let debt = self.owed_under(look);
        let after = debt + asked.period * cost;
        if after > asked.full() {
            return denied(asked, look.moment, debt, cost);
        }
        settled(asked, look.moment, after)
    }

    /// Its debt is positive, and the call names another plan than that of its list.
    fn owes_under_another(&self, look: &Look) -> bool {
        let run = self.runs.get(&look.subscriber);
        run.is_some_and(|run| match self.mistake {
            _ if run.plan == look.plan => false,
            Some(Mistake::ByTheAsked) => self.owed_by(look.plan, run, look.moment) > 0,
            Some(Mistake::Never12) => false,
            Some(Mistake::Always12) => true,
            _ => self.owed(run, look.moment) > 0,
        })
    }

    /// What a call that passed 12 finds owed under the plan asked for: nothing, if its subscriber's list is under another.
    fn owed_under(&self, look: &Look) -> u128 {
        match self.plan_of(look.subscriber) == Some(look.plan) {
            true => self.debt(look.subscriber, look.moment),
            false => 0,
        }
    }

    /// As many other subscribers as there are slots have a positive debt.
    fn is_full(&self, look: &Look) -> bool {
        if self.runs.len() < self.slots {
            return false; // not so many were ever admitted
        }
        let others = self.runs.iter();
        let others = others.filter(|(&other, _)| other != look.subscriber);
        let owing = others.filter(|(_, run)| self.owed(run, look.moment) > 0);
        owing.count() == self.slots
    }

    /// Under the plan of the list the call is added at its end; under another the list begins anew with it.
    fn admit(&mut self, moment: u64, subscriber: u32, plan: u32, cost: u32) {
        let run = self.runs.entry(subscriber).or_default();
        if run.plan != plan && self.mistake != Some(Mistake::NeverRestarts) {
            run.calls.clear();
        }
        run.plan = plan;
        run.calls.push(Admitted {
            moment: moment as i128,
            cost: cost as i128,
        });
        if let Some(Mistake::Forgets(most)) = self.mistake {
            run.calls.drain(..run.calls.len().saturating_sub(most));
        }
        self.moments.push(moment);
    }

    fn owed(&self, run: &Run, s: u128) -> u128 {
        self.owed_by(run.plan, run, s)
    }

    /// The largest, over every call i in the list, of P × (costs from call i to the end) − N × (s − moment of i), or 0
    /// if none is positive.
    fn owed_by(&self, plan: u32, run: &Run, s: u128) -> u128 {
        let plan = self.plans.numbered(plan).expect("of an admitted call");
        let (n, p, s) = (plan.limit as i128, plan.period as i128, s as i128);
        let (mut costs, mut largest) = (0, 0);
        for call in run.calls.iter().rev() {
            costs += call.cost;
            largest = largest.max(p * costs - n * (s - call.moment));
        }
        largest as u128
    }
}

#[cfg(test)]
mod tests {
    use super::*;
    use crate::example::{plan, plans, LAST_LINES, LINES};

    #[test]
    fn document_01_example() {
        let mut book = Book::new(plans(), 1);
        for (moment, subscriber, cost, expected) in LINES {
            assert_eq!(book.acquire(moment, subscriber, 0, cost), expected);
        }
        assert_eq!(book.newest(), 2000);
        assert_eq!(book.peek(2000, 8, 0), [0, 8, 0, 2667, 0]);
        assert_eq!(book.clear(), [0; 5]);
        assert_eq!(book.newest(), 0);
        assert_eq!(book.acquire(0, 7, 0, 2), [0, 7, 0, 667, 0]);
    }

    /// Nobody is added to a list under 13, so 7 is admitted when its wait is over, and 8 is not.
    #[test]
    fn document_02_item_13() {
        let mut book = Book::new(plans(), 2);
        for (moment, subscriber, cost, expected) in LAST_LINES {
            assert_eq!(book.acquire(moment, subscriber, 0, cost), expected);
        }
        let owes = [0, 8, 0, 4_398_046_511_437, 0];
        assert_eq!(book.peek(4_398_046_511_103, 8, 0), owes);
    }

    fn number(slots: usize, plan: Plan, moment: u64, subscriber: u32, cost: u32) -> u128 {
        Book::new(Plans::one(plan), slots).acquire(moment, subscriber, 0, cost)[0]
    }

    #[test]
    fn document_01_further() {
        assert_eq!(number(1, Plan::new(1_000_000, 1000, 2), 0, 7, 1), 0);
        assert_eq!(number(1, Plan::new(1_000_001, 1000, 2), 0, 7, 1), 1);
        assert_eq!(number(1, Plan::new(3, 1000, 0), 0, 7, 1), 1);
        assert_eq!(number(1, plan(), 4_398_046_511_103, 7, 1), 0);
        assert_eq!(number(1, plan(), 4_398_046_511_104, 7, 1), 3);
        assert_eq!(number(65_535, plan(), 0, 7, 1), 0);
        assert_eq!(number(65_536, plan(), 0, 7, 1), 2);
        assert_eq!(number(1, plan(), 0, 0, 0), 4);
        assert_eq!(Book::new(plans(), 1).acquire(0, 7, 0, 2), [0, 7, 0, 667, 0]);
        assert_eq!(Book::new(plans(), 1).peek(1000, 7, 0), [0, 7, 2, 1000, 0]);
    }

    #[test]
    fn document_001_counts_40() {
        let mut book = Book::new(Plans::one(Plan::new(10, 1000, 10)), 1);
        let answers = (0..=3000).map(|moment| book.acquire(moment, 7, 0, 1));
        assert_eq!(answers.filter(|answer| answer[0] == 0).count(), 40);
    }

    /// Error 1: the interval taken as 333 ms would admit ask 1001 too (the table's test says why).
    #[test]
    fn the_interval_is_not_rounded() {
        let mut book = Book::new(plans(), 1);
        for k in 0..=1000 {
            assert_eq!(book.acquire(333 * k, 7, 0, 1)[0], 0, "ask {k}");
        }
        assert_eq!(book.acquire(333 * 1001, 7, 0, 1)[0], 8);
    }

    /// 1000 asks at one moment: a book that forgets admits more than the burst, and another does not.
    #[test]
    fn every_call_counts_or_the_last_ones() {
        let plans = Plans::one(Plan::new(1, 1, 500));
        for (most, admitted) in [(1000, 500), (100, 1000)] {
            let mistake = Some(Mistake::Forgets(most));
            let mut book = Book::mistaken(plans.clone(), 1, mistake);
            let asks = (0..1000).map(|_| book.acquire(0, 7, 0, 1)[0]);
            assert_eq!(asks.filter(|&number| number == 0).count(), admitted);
        }
    }

    /// Another's admission counts, unless the book looks at the caller's alone.
    #[test]
    fn the_newest_moment_is_of_all_or_of_the_caller() {
        for (mistake, number) in [(None, 11), (Some(Mistake::OwnNewest), 0)] {
            let mut book = Book::mistaken(plans(), 2, mistake);
            assert_eq!(book.acquire(2000, 7, 0, 1)[0], 0);
            assert_eq!(book.peek(1999, 8, 0)[0], number);
            assert_eq!(book.acquire(1999, 8, 0, 1)[0], number);
            assert_eq!(book.acquire(1998, 8, 0, 1)[0], 11);
        }
    }

    /// A long rest leaves no credit: a term that fell below 0 is not carried into the debt of later calls.
    #[test]
    fn a_rest_fills_no_further_than_the_burst() {
        let mut book = Book::new(plans(), 1);
        assert_eq!(book.acquire(0, 7, 0, 2)[0], 0);
        assert_eq!(book.acquire(1_000_000, 7, 0, 2), [0, 7, 0, 1_000_667, 0]);
        assert_eq!(book.acquire(1_000_000, 7, 0, 1)[0], 8);
    }
}
