//! The GCRA engine: one number a slot. [`Gcra`] is a table that owns its columns and its newest moment; the functions work on
//! lent ones.

use crate::answer::{cleared, written, Answer};
use crate::numbers;
use crate::plans::Plans;
use crate::reason::Reason;
use crate::report::Report;

/// A table of the GCRA engine.
///
/// It has a slot for each subscriber that owes something, so it needs as many slots as subscribers owe something at the
/// same time; a slot is taken over when its subscriber owes nothing any more, by the plan whose number the slot keeps.
///
/// Beside its columns it keeps the newest moment at which anything was admitted; an earlier one is refused with
/// [`Reason::EarlyMoment`]. All of it can be read, saved, and made a table again:
///
/// ```
/// use railcadence::{Gcra, Plan, Plans};
///
/// let plans = Plans::new(&[Plan::new(3, 1000, 2), Plan::new(10, 1000, 5)])?;
/// let mut table = Gcra::with_slots(2);
/// table.acquire(&plans, 1000, 7, 0, 2);
/// table.acquire(&plans, 1000, 8, 1, 4);
/// assert_eq!(table.ids(), [7, 8]);
/// assert_eq!(table.plan_numbers(), [0, 1]);
/// assert_eq!(table.tats(), [5000, 14000]); // under plan 0, 3 ticks a millisecond and 1000 a unit: 1000 × 3 + 2 × 1000
/// assert_eq!(table.newest(), 1000);
///
/// let (ids, plan_numbers, tats, newest) = table.into_columns();
/// let again = Gcra::from_columns(ids, plan_numbers, tats, newest);
/// assert_eq!(again.peek(&plans, 1000, 7, 0).to_numbers(), [0, 7, 0, 1667, 0]);
/// # Ok::<(), railcadence::BadPlans>(())
/// ```
#[derive(Clone, Debug, PartialEq, Eq)]
pub struct Gcra {
    ids: Vec<u32>,
    plan_numbers: Vec<u8>,
    tats: Vec<u64>,
    newest: u64,
}

impl Gcra {
    /// An empty table of 1 to 65,535 slots. With 0 every call gets [`Reason::BadTable`].
    ///
    /// ```
    /// use railcadence::{Gcra, Reason};
    ///
    /// assert_eq!(Gcra::with_slots(65_535).clear(), Ok(()));
    /// assert_eq!(Gcra::with_slots(0).clear(), Err(Reason::BadTable));
    /// ```
    pub fn with_slots(slots: u16) -> Gcra {
        let slots = usize::from(slots);
        Gcra::from_columns(vec![0; slots], vec![0; slots], vec![0; slots], 0)
    }

    /// A table of any columns and any newest moment, damaged ones too: slot i is `ids[i]`, `plan_numbers[i]` and `tats[i]`.
    /// With columns of different lengths, or of none or more than 65,535 slots, every call gets [`Reason::BadTable`]. With a
    /// newest moment above 2^42 − 1, every moment up to that gets [`Reason::EarlyMoment`] until a clear.
    pub fn from_columns(ids: Vec<u32>, plan_numbers: Vec<u8>, tats: Vec<u64>, newest: u64) -> Gcra {
        Gcra {
            ids,
            plan_numbers,
            tats,
            newest,
        }
    }

    /// The columns, `ids`, `plan_numbers` and `tats`, and the newest moment.
    pub fn into_columns(self) -> (Vec<u32>, Vec<u8>, Vec<u64>, u64) {
        (self.ids, self.plan_numbers, self.tats, self.newest)
    }

    /// The subscriber in each slot; 0 is an empty slot.
    pub fn ids(&self) -> &[u32] {
        &self.ids
    }

    /// For each slot the number of the plan under which its subscriber was admitted last.
    pub fn plan_numbers(&self) -> &[u8] {
        &self.plan_numbers
    }

    /// For each slot the moment at which nothing is owed any more, in ticks of the slot's plan: a millisecond is `limit`
    /// ticks.
    pub fn tats(&self) -> &[u64] {
        &self.tats
    }

    /// The newest moment at which anything was admitted since the table was cleared; 0 if nothing was.
    pub fn newest(&self) -> u64 {
        self.newest
    }

    /// Decides on a request for `cost` units under the plan with this number, and spends them if it is admitted. Nothing else
    /// changes the table.
    ///
    /// ```
    /// use railcadence::{Gcra, Outcome, Plan, Plans, Reason};
    ///
    /// let plans = Plans::new(&[Plan::new(3, 1000, 2)])?;
    /// let mut table = Gcra::with_slots(1);
    /// let mut ask = |moment, subscriber, cost| table.acquire(&plans, moment, subscriber, 0, cost).outcome;
    ///
    /// assert_eq!(ask(1000, 7, 2), Outcome::Admitted { left: 0, reset: 1667 });
    /// assert_eq!(ask(1000, 7, 3), Outcome::Refused(Reason::CostAboveBurst));
    /// assert_eq!(ask(1000, 8, 1), Outcome::Refused(Reason::TableFull));
    /// assert_eq!(ask(1667, 8, 1), Outcome::Admitted { left: 1, reset: 2001 }); // 7 owes nothing any more
    /// assert_eq!(ask(1666, 8, 1), Outcome::Refused(Reason::EarlyMoment));
    /// # Ok::<(), railcadence::BadPlans>(())
    /// ```
    pub fn acquire(
        &mut self,
        plans: &Plans,
        moment: u64,
        subscriber: u32,
        plan: u32,
        cost: u32,
    ) -> Answer {
        acquire(
            plans,
            &mut self.ids,
            &mut self.plan_numbers,
            &mut self.tats,
            &mut self.newest,
            moment,
            subscriber,
            plan,
            cost,
        )
    }

    /// Reports what a subscriber has left under a plan and when it owes nothing any more. It spends nothing, and never
    /// throttles.
    ///
    /// ```
    /// use railcadence::{Balance, Gcra, Plan, Plans};
    ///
    /// let plans = Plans::new(&[Plan::new(3, 1000, 2)])?;
    /// let unknown = Gcra::with_slots(1).peek(&plans, 1000, 7, 0);
    /// assert_eq!(unknown.balance, Ok(Balance { left: 2, reset: 1000 }));
    /// # Ok::<(), railcadence::BadPlans>(())
    /// ```
    pub fn peek(&self, plans: &Plans, moment: u64, subscriber: u32, plan: u32) -> Report {
        peek(
            plans,
            &self.ids,
            &self.plan_numbers,
            &self.tats,
            &self.newest,
            moment,
            subscriber,
            plan,
        )
    }

    /// Makes every slot empty and the newest moment 0; the only error is [`Reason::BadTable`], and then nothing changes.
    ///
    /// ```
    /// use railcadence::{Gcra, Plan, Plans};
    ///
    /// let mut table = Gcra::with_slots(1);
    /// table.acquire(&Plans::new(&[Plan::new(3, 1000, 2)])?, 1000, 7, 0, 1);
    /// assert_eq!(table.clear(), Ok(()));
    /// assert_eq!(table, Gcra::with_slots(1));
    /// # Ok::<(), railcadence::BadPlans>(())
    /// ```
    pub fn clear(&mut self) -> Result<(), Reason> {
        let Gcra {
            ids,
            plan_numbers,
            tats,
            newest,
        } = self;
        clear(ids, plan_numbers, tats, newest)
    }
}

/// [`Gcra::acquire`] on lent columns, and the newest moment that goes with them.
///
/// ```
/// use railcadence::{gcra, Plan, Plans};
///
/// let plans = Plans::new(&[Plan::new(3, 1000, 2)])?;
/// let (mut ids, mut plan_numbers, mut tats, mut newest) = ([0; 300], [0; 300], [0; 300], 0);
/// let answer = gcra::acquire(&plans, &mut ids, &mut plan_numbers, &mut tats, &mut newest, 1000, 7, 0, 1);
/// assert!(answer.is_admitted());
/// # Ok::<(), railcadence::BadPlans>(())
/// ```
#[allow(clippy::too_many_arguments)]
pub fn acquire(
    plans: &Plans,
    ids: &mut [u32],
    plan_numbers: &mut [u8],
    tats: &mut [u64],
    newest: &mut u64,
    moment: u64,
    subscriber: u32,
    plan: u32,
    cost: u32,
) -> Answer {
    let plans = plans.values();
    Answer::from_numbers(written(|out| {
        numbers::gcra_acquire(
            plans,
            ids,
            plan_numbers,
            tats,
            newest,
            moment,
            subscriber,
            plan,
            cost,
            out,
        )
    }))
}

/// [`Gcra::peek`] on lent columns.
#[allow(clippy::too_many_arguments)]
pub fn peek(
    plans: &Plans,
    ids: &[u32],
    plan_numbers: &[u8],
    tats: &[u64],
    newest: &u64,
    moment: u64,
    subscriber: u32,
    plan: u32,
) -> Report {
    let plans = plans.values();
    Report::from_numbers(written(|out| {
        numbers::gcra_peek(
            plans,
            ids,
            plan_numbers,
            tats,
            newest,
            moment,
            subscriber,
            plan,
            out,
        )
    }))
}

/// [`Gcra::clear`] on lent columns.
pub fn clear(
    ids: &mut [u32],
    plan_numbers: &mut [u8],
    tats: &mut [u64],
    newest: &mut u64,
) -> Result<(), Reason> {
    cleared(written(|out| {
        numbers::gcra_clear(ids, plan_numbers, tats, newest, out)
    }))
}
