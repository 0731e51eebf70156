//! Document 01, 'The decision' and 'When the gate says no', on one record under one plan. Checks 2, 4, 9, 11 and 12, which need
//! seats, the newest moment or another plan, are the table's.

use crate::checks::Look;
use crate::plan::{div_up, Plan, LAST_MOMENT};
use crate::plans::Plans;

/// Number, left, reset and wait.
#[derive(Clone, Copy, Debug, PartialEq, Eq)]
pub struct Verdict {
    pub number: u128,
    pub left: u128,
    pub reset: u128,
    pub wait: u128,
}

pub fn refusal(number: u128) -> Verdict {
    Verdict {
        number,
        left: 0,
        reset: 0,
        wait: 0,
    }
}

/// What an engine stores for one subscriber.
pub trait Record: Copy {
    /// The record that a subscriber without a seat is judged by: the bucket is full.
    fn fresh(plan: &Plan, moment: u128) -> Self;
    fn impossible(self, plan: &Plan, moment: u128) -> bool;
    fn is_free(self, plan: &Plan, moment: u128) -> bool;
    /// The debt if nothing is admitted.
    fn debt(self, plan: &Plan, moment: u128) -> u128;
    /// The record after an admission, or nothing if the cost is not admitted.
    fn spend(self, plan: &Plan, moment: u128, cost: u128) -> Option<Self>;
}

/// The paced engine's record: the TAT in grains.
#[derive(Clone, Copy, Debug, PartialEq, Eq)]
pub struct Paced(pub u128);

impl Record for Paced {
    fn fresh(_: &Plan, _: u128) -> Paced {
        Paced(0)
    }

    fn impossible(self, plan: &Plan, moment: u128) -> bool {
        self.0 > moment * plan.limit + plan.full()
    }

    fn is_free(self, plan: &Plan, moment: u128) -> bool {
        self.0 <= moment * plan.limit
    }

    fn debt(self, plan: &Plan, moment: u128) -> u128 {
        let m = moment * plan.limit;
        self.0.max(m) - m
    }

    fn spend(self, plan: &Plan, moment: u128, cost: u128) -> Option<Paced> {
        let m = moment * plan.limit;
        let t = self.0.max(m);
        let next = t + plan.period * cost;
        // t + P×cost − P×B ≤ m, with nothing subtracted
        (next <= m + plan.full()).then_some(Paced(next))
    }
}

/// The bucket engine's record: a level in grains and the moment of the last admission.
#[derive(Clone, Copy, Debug, PartialEq, Eq)]
pub struct Bucket {
    pub level: u128,
    pub last: u128,
}

impl Bucket {
    fn level_now(self, plan: &Plan, moment: u128) -> u128 {
        let refill = moment.saturating_sub(self.last) * plan.limit;
        plan.full().min(self.level + refill)
    }
}

impl Record for Bucket {
    fn fresh(plan: &Plan, moment: u128) -> Bucket {
        Bucket {
            level: plan.full(),
            last: moment,
        }
    }

    fn impossible(self, plan: &Plan, moment: u128) -> bool {
        self.level > plan.full() || self.last > moment
    }

    fn is_free(self, plan: &Plan, moment: u128) -> bool {
        self.last <= moment
            && self.level <= plan.full()
            && self.level + (moment - self.last) * plan.limit >= plan.full()
    }

    fn debt(self, plan: &Plan, moment: u128) -> u128 {
        plan.full() - self.level_now(plan, moment)
    }

    fn spend(self, plan: &Plan, moment: u128, cost: u128) -> Option<Bucket> {
        let level = self
            .level_now(plan, moment)
            .checked_sub(plan.period * cost)?;
        Some(Bucket {
            level,
            last: moment,
        })
    }
}

/// Number 0 with left and reset from the debt after the call, which is at most a full bucket; the reset is the first whole
/// millisecond at which it is 0 (document 02, Item 2).
pub fn settled(plan: &Plan, moment: u128, debt: u128) -> Verdict {
    Verdict {
        number: 0,
        left: (plan.full() - debt) / plan.period,
        reset: moment + div_up(debt, plan.limit),
        wait: 0,
    }
}

/// The least wait for a cost that is not admitted at this debt: (debt + P×cost − P×B) / N, rounded up.
pub fn least_wait(plan: &Plan, debt: u128, cost: u128) -> u128 {
    div_up(debt + plan.period * cost - plan.full(), plan.limit)
}

/// A wait that does not end within the clock.
struct NotOnThisClock;

/// The step that reckons a wait (document 02, Item 13): the least one, if its end is within the clock.
fn wait(plan: &Plan, moment: u128, debt: u128, cost: u128) -> Result<u128, NotOnThisClock> {
    let least = least_wait(plan, debt, cost);
    if moment + least <= LAST_MOMENT {
        Ok(least)
    } else {
        Err(NotOnThisClock)
    }
}

/// What a cost that is not admitted gets, in both engines and in the book: number 8 with left and reset from the debt, and the
/// wait; or 13 in its place.
pub fn denied(plan: &Plan, moment: u128, debt: u128, cost: u128) -> Verdict {
    match wait(plan, moment, debt, cost) {
        Ok(wait) => Verdict {
            number: 8,
            wait,
            ..settled(plan, moment, debt)
        },
        Err(NotOnThisClock) => refusal(13),
    }
}

/// What a look says of a record that is possible.
pub fn report<R: Record>(plan: &Plan, moment: u128, record: R) -> Verdict {
    settled(plan, moment, record.debt(plan, moment))
}

/// What an ask says of a record that is possible, and the record afterwards.
pub fn judge<R: Record>(plan: &Plan, moment: u128, record: R, cost: u128) -> (Verdict, R) {
    match record.spend(plan, moment, cost) {
        Some(next) => (settled(plan, moment, next.debt(plan, moment)), next),
        None => {
            let debt = record.debt(plan, moment);
            (denied(plan, moment, debt, cost), record)
        }
    }
}

/// A look at this moment on a list of one plan, by somebody whom only checks 1 and 3 can stop.
fn anybody(plans: &Plans, moment: u128) -> Look<'_> {
    Look {
        plans,
        plan: 0,
        usable: true,
        newest: 0,
        moment,
        subscriber: 1,
    }
}

/// A look at one record: checks 1, 3 and 7, else left and reset under number 0.
pub fn look<R: Record>(plan: &Plan, moment: u128, record: R) -> Verdict {
    match anybody(&Plans::one(*plan), moment).checked() {
        Err(number) => refusal(number),
        Ok(plan) if record.impossible(plan, moment) => refusal(7),
        Ok(plan) => report(plan, moment, record),
    }
}

/// An ask on one record: checks 1, 3, 5, 6, 7 and 8 or 13, and the record afterwards.
pub fn ask<R: Record>(plan: &Plan, moment: u128, record: R, cost: u128) -> (Verdict, R) {
    match anybody(&Plans::one(*plan), moment).asking(cost) {
        Err(number) => (refusal(number), record),
        Ok(plan) if record.impossible(plan, moment) => (refusal(7), record),
        Ok(plan) => judge(plan, moment, record, cost),
    }
}

/// How many asks of cost 1, one a millisecond from 0 up to but not including `end`, are admitted on a record that starts
/// as `record`.
pub fn steady<R: Record>(plan: &Plan, record: R, end: u128) -> u128 {
    let mut record = record;
    let mut admitted = 0;
    for moment in 0..end {
        let (verdict, next) = ask(plan, moment, record, 1);
        record = next;
        admitted += (verdict.number == 0) as u128;
    }
    admitted
}

#[cfg(test)]
mod tests {
    use super::*;
    use std::fmt::Debug;

    const EXAMPLE: (u32, u32, u32) = (3, 1000, 2);

    fn plan() -> Plan {
        Plan::new(EXAMPLE.0, EXAMPLE.1, EXAMPLE.2)
    }

    /// The lines of document 01's example that concern one record: moment, cost, and number, left, reset, wait. The last is
    /// what the record alone says; the table says 11 before it.
    const SHOP_7: [(u128, u128, [u128; 4]); 6] = [
        (1000, 1, [0, 1, 1334, 0]),
        (1000, 1, [0, 0, 1667, 0]),
        (1000, 1, [8, 0, 1667, 334]),
        (1333, 1, [8, 0, 1667, 1]),
        (1334, 1, [0, 0, 2000, 0]),
        (1334, 3, [6, 0, 0, 0]),
    ];
    const SHOP_8: [(u128, u128, [u128; 4]); 2] =
        [(2000, 2, [0, 0, 2667, 0]), (1999, 1, [7, 0, 0, 0])];

    fn play<R: Record>(fresh: R, lines: &[(u128, u128, [u128; 4])]) {
        let mut record = fresh;
        for &(moment, cost, [number, left, reset, wait]) in lines {
            let (verdict, next) = ask(&plan(), moment, record, cost);
            let expected = Verdict {
                number,
                left,
                reset,
                wait,
            };
            assert_eq!(verdict, expected, "at {moment}, cost {cost}");
            record = next;
        }
    }

    #[test]
    fn document_01_example() {
        play(Paced(0), &SHOP_7);
        play(Paced(0), &SHOP_8);
        let full = plan().full();
        play(
            Bucket {
                level: full,
                last: 1000,
            },
            &SHOP_7,
        );
        play(
            Bucket {
                level: full,
                last: 2000,
            },
            &SHOP_8,
        );
    }

    #[test]
    fn document_01_further() {
        assert!(Plan::new(1_000_000, 1000, 2).within_limits());
        assert!(!Plan::new(1_000_001, 1000, 2).within_limits());
        assert!(!Plan::new(3, 1000, 0).within_limits());
        assert_eq!(ask(&plan(), 4_398_046_511_103, Paced(0), 1).0.number, 0);
        assert_eq!(ask(&plan(), 4_398_046_511_104, Paced(0), 1).0.number, 3);
        let whole_burst = ask(&plan(), 1000, Paced(0), 2).0;
        assert_eq!((whole_burst.number, whole_burst.left), (0, 0));
        let unknown = look(&plan(), 1000, Paced(0));
        assert_eq!((unknown.number, unknown.left, unknown.reset), (0, 2, 1000));
    }

    /// The verdict on a unit at the moment at which the whole burst was spent, which leaves the record as it is.
    fn after_the_burst<R: Record + Debug + PartialEq>(moment: u128) -> Verdict {
        let (_, spent) = ask(&plan(), moment, R::fresh(&plan(), moment), 2);
        let (verdict, after) = ask(&plan(), moment, spent, 1);
        assert_eq!(after, spent);
        verdict
    }

    /// The unit is there 334 ms later.
    fn a_wait_ends_within_the_clock<R: Record + Debug + PartialEq>() {
        let last_8 = Verdict {
            number: 8,
            left: 0,
            reset: 4_398_046_511_436,
            wait: 334,
        };
        assert_eq!(after_the_burst::<R>(4_398_046_510_769), last_8);
        assert_eq!(after_the_burst::<R>(4_398_046_510_770), refusal(13));
        assert_eq!(after_the_burst::<R>(4_398_046_511_103), refusal(13));
    }

    #[test]
    fn document_02_item_13() {
        a_wait_ends_within_the_clock::<Paced>();
        a_wait_ends_within_the_clock::<Bucket>();
    }

    #[test]
    fn document_001_counts_40() {
        let plan = Plan::new(10, 1000, 10);
        let full = plan.full();
        assert_eq!(steady(&plan, Paced(0), 3001), 40);
        assert_eq!(
            steady(
                &plan,
                Bucket {
                    level: full,
                    last: 0
                },
                3001
            ),
            40
        );
    }
}
