//! Document 01, 'When the gate says no': checks 1 to 6, in their order, with 11 just after 3 (document 02, Item 6), under one of
//! the plans that are lent (Item 3). They look at no record.

use crate::plan::{Plan, LAST_MOMENT};
use crate::plans::Plans;

/// Of the library (document 02, Item 8); the program has its own.
pub const MOST_SLOTS: usize = 65_535;

/// A look, and what it comes upon.
pub struct Look<'a> {
    pub plans: &'a Plans,
    /// The number of the plan asked for.
    pub plan: u32,
    /// Whether the table passes check 2.
    pub usable: bool,
    /// The newest moment at which anything was admitted.
    pub newest: u128,
    pub moment: u128,
    pub subscriber: u32,
}

impl<'a> Look<'a> {
    /// The plan asked for, or the first of checks 1, 2, 3, 11 and 4 that applies.
    pub fn checked(&self) -> Result<&'a Plan, u128> {
        let plan = self.plans.numbered(self.plan).ok_or(1u128)?;
        if !self.usable {
            Err(2)
        } else if self.moment > LAST_MOMENT {
            Err(3)
        } else if self.moment < self.newest {
            Err(11)
        } else if self.subscriber == 0 {
            Err(4)
        } else {
            Ok(plan)
        }
    }

    /// The same of an ask for a cost: the plan asked for, or the first of checks 1, 2, 3, 11, 4, 5 and 6 that applies.
    pub fn asking(&self, cost: u128) -> Result<&'a Plan, u128> {
        let plan = self.checked()?;
        if cost == 0 {
            Err(5)
        } else if cost > plan.burst {
            Err(6)
        } else {
            Ok(plan)
        }
    }
}

#[cfg(test)]
mod tests {
    use super::*;

    const LATE: u128 = LAST_MOMENT + 1;

    /// Two plans, with a burst of 2 and of 5.
    fn look(plans: &Plans) -> Look<'_> {
        Look {
            plans,
            plan: 0,
            usable: true,
            newest: 5,
            moment: 5,
            subscriber: 7,
        }
    }

    fn number(look: &Look, cost: u128) -> u128 {
        look.asking(cost).err().unwrap_or(0)
    }

    /// Each row makes one more check apply, from the last to the first, which must answer.
    #[test]
    fn the_first_that_applies_answers() {
        let plans = Plans::lent(&[3, 1000, 2, 3, 1000, 5]);
        let mut look = look(&plans);
        assert_eq!(number(&look, 2), 0);
        assert_eq!(number(&look, 3), 6);
        assert_eq!(number(&look, 0), 5);
        look.subscriber = 0;
        assert_eq!((number(&look, 0), look.checked().err()), (4, Some(4)));
        look.newest = 6;
        assert_eq!((number(&look, 0), look.checked().err()), (11, Some(11)));
        (look.newest, look.moment) = (LATE + 1, LATE);
        assert_eq!((number(&look, 0), look.checked().err()), (3, Some(3)));
        look.usable = false;
        assert_eq!((number(&look, 0), look.checked().err()), (2, Some(2)));
        look.plan = 2;
        assert_eq!((number(&look, 0), look.checked().err()), (1, Some(1)));
    }

    #[test]
    fn a_newest_moment_beyond_the_clock() {
        let plans = Plans::one(Plan::new(3, 1000, 2));
        let mut look = look(&plans);
        (look.newest, look.moment) = (LAST_MOMENT, LAST_MOMENT);
        assert!(look.checked().is_ok());
        look.newest = LATE;
        assert_eq!(look.checked().err(), Some(11));
    }

    /// 6 goes by the plan asked for.
    #[test]
    fn the_burst_is_that_of_the_plan_asked_for() {
        let plans = Plans::lent(&[3, 1000, 2, 3, 1000, 5]);
        for (plan, costs) in [(0, [2, 3]), (1, [5, 6])] {
            let look = Look {
                plan,
                ..look(&plans)
            };
            assert_eq!(costs.map(|cost| number(&look, cost)), [0, 6]);
        }
    }

    /// Any plan that is bad, asked for or not; and any number that is not lent.
    #[test]
    fn document_02_item_3_number_1() {
        let (good, bad) = ([3, 1000, 2], [3, 1000, 0]);
        for (list, asked, expected) in [
            (vec![], 0, 1),
            ([good, good].concat(), 1, 0),
            ([good, bad].concat(), 0, 1),
            ([good, bad].concat(), 1, 1),
            ([good, good].concat(), 2, 1),
            ([good, good].concat(), 256, 1),
            ([good, good].concat(), u32::MAX, 1),
            (vec![3, 1000, 2, 3], 0, 1),
            (good.repeat(16), 15, 0),
            (good.repeat(17), 0, 1),
        ] {
            let plans = Plans::lent(&list);
            let look = Look {
                plan: asked,
                ..look(&plans)
            };
            assert_eq!(number(&look, 1), expected, "{asked} of {list:?}");
            assert_eq!(look.checked().err().unwrap_or(0), expected);
        }
    }
}
