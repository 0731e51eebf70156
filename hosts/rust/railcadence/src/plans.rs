//! The plans that are lent together.

use crate::plan::Plan;
use std::error::Error;
use std::fmt::{Display, Formatter};

/// 1 to 16 plans, all within their limits, that are lent to a call together. A request is made under one of them, which it
/// names by its number: the first is 0.
///
/// A slot keeps the number of the plan under which its subscriber was admitted last, and what is owed there is reckoned by
/// that plan. Who still owes and asks under another is refused with [`Reason::OtherPlan`](crate::Reason::OtherPlan); who owes
/// nothing may ask under any, and keeps its slot:
///
/// ```
/// use railcadence::{Gcra, Outcome, Plan, Plans, Reason};
///
/// const SHOP: u32 = 0;
/// const MUSEUM: u32 = 1;
/// let plans = Plans::new(&[Plan::new(3, 1000, 2), Plan::new(10, 1000, 5)])?;
/// let mut table = Gcra::with_slots(300);
/// assert!(table.acquire(&plans, 1000, 7, SHOP, 2).is_admitted());
///
/// let early = table.acquire(&plans, 1200, 7, MUSEUM, 4);
/// assert_eq!(early.outcome, Outcome::Refused(Reason::OtherPlan));
/// let balance = table.peek(&plans, 1200, 7, SHOP).balance.unwrap();
/// assert_eq!(balance.reset, 1667); // nothing is owed from then on
/// assert!(table.acquire(&plans, 1667, 7, MUSEUM, 4).is_admitted());
/// # Ok::<(), railcadence::BadPlans>(())
/// ```
///
/// Plans are told apart by their numbers, though their values be the same. So lend the same plans in every call on a table.
/// Further ones may be added at their end; before one gets other values or another number, or is taken away, clear the table.
#[derive(Clone, Debug, PartialEq, Eq)]
pub struct Plans {
    values: [u32; 3 * Plans::MOST],
    count: usize,
}

impl Plans {
    /// The most plans that may be lent together.
    pub const MOST: usize = 16;

    /// These plans, with numbers from 0 on; or what is wrong with them.
    ///
    /// ```
    /// use railcadence::{BadPlans, Plan, Plans};
    ///
    /// let good = Plan::new(3, 1000, 2);
    /// assert!(Plans::new(&[good; 16]).is_ok());
    /// assert_eq!(Plans::new(&[good; 17]), Err(BadPlans::TooMany(17)));
    /// assert_eq!(Plans::new(&[]), Err(BadPlans::Empty));
    ///
    /// let plan = Plan::new(3, 1000, 0);
    /// assert_eq!(Plans::new(&[good, plan]), Err(BadPlans::OutsideLimits { number: 1, plan }));
    /// ```
    pub fn new(plans: &[Plan]) -> Result<Plans, BadPlans> {
        let count = plans.len();
        if count == 0 {
            return Err(BadPlans::Empty);
        }
        if count > Plans::MOST {
            return Err(BadPlans::TooMany(count));
        }
        let mut values = [0; 3 * Plans::MOST];
        for ((number, &plan), place) in (0..).zip(plans).zip(values.chunks_exact_mut(3)) {
            if !plan.is_within_limits() {
                return Err(BadPlans::OutsideLimits { number, plan });
            }
            place.copy_from_slice(&[plan.limit, plan.period, plan.burst]);
        }
        Ok(Plans { values, count })
    }

    /// The plan with this number, if it is among them.
    ///
    /// ```
    /// use railcadence::{Plan, Plans};
    ///
    /// let plan = Plan::new(3, 1000, 2);
    /// let plans = Plans::new(&[plan])?;
    /// assert_eq!((plans.get(0), plans.get(1)), (Some(plan), None));
    /// # Ok::<(), railcadence::BadPlans>(())
    /// ```
    pub fn get(&self, number: u32) -> Option<Plan> {
        let plan = self.values().chunks_exact(3).nth(number as usize)?;
        Some(Plan::new(plan[0], plan[1], plan[2]))
    }

    /// Limit, period and burst of each plan in turn, as the calls in [`numbers`](crate::numbers) take them.
    ///
    /// ```
    /// use railcadence::{Plan, Plans};
    ///
    /// let plans = Plans::new(&[Plan::new(3, 1000, 2), Plan::new(10, 1000, 5)])?;
    /// assert_eq!(plans.values(), [3, 1000, 2, 10, 1000, 5]);
    /// # Ok::<(), railcadence::BadPlans>(())
    /// ```
    pub fn values(&self) -> &[u32] {
        &self.values[..3 * self.count]
    }
}

/// What is wrong with plans. As text, it says what to do.
///
/// ```
/// use railcadence::{Plan, Plans};
///
/// let wrong = Plans::new(&[Plan::new(3, 1000, 0)]).unwrap_err();
/// assert_eq!(
///     wrong.to_string(),
///     "plan 0 has a limit of 3, a period of 1000 and a burst of 0: take a limit of 1 to 1000000 units, a period of \
///      1 to 2678400000 ms and a burst of 1 to 1000000 units"
/// );
/// ```
#[derive(Clone, Copy, Debug, PartialEq, Eq, Hash)]
#[non_exhaustive]
pub enum BadPlans {
    /// There are none.
    Empty,
    /// There are so many, more than 16.
    TooMany(usize),
    /// A number of this plan is outside its limits. It is the first such plan.
    OutsideLimits {
        /// The plan's number.
        number: u32,
        /// The plan.
        plan: Plan,
    },
}

impl Display for BadPlans {
    fn fmt(&self, f: &mut Formatter) -> std::fmt::Result {
        match self {
            BadPlans::Empty => write!(f, "there are no plans: take 1 to 16"),
            BadPlans::TooMany(count) => write!(f, "there are {count} plans: take 1 to 16"),
            BadPlans::OutsideLimits { number, plan } => write!(
                f,
                "plan {number} has a limit of {}, a period of {} and a burst of {}: take a limit of 1 to 1000000 units, a \
                 period of 1 to 2678400000 ms and a burst of 1 to 1000000 units",
                plan.limit, plan.period, plan.burst
            ),
        }
    }
}

impl Error for BadPlans {}
