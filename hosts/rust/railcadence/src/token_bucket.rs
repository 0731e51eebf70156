//! The token bucket engine: two numbers a slot. [`TokenBucket`] is a table that owns its columns and its newest moment; the
//! functions work on lent ones.

use crate::answer::{cleared, written, Answer};
use crate::numbers;
use crate::plans::Plans;
use crate::reason::Reason;
use crate::report::Report;

/// A table of the token bucket engine, with the calls of [`Gcra`](crate::Gcra).
///
/// ```
/// use railcadence::{Plan, Plans, TokenBucket};
///
/// let plans = Plans::new(&[Plan::new(3, 1000, 2), Plan::new(10, 1000, 5)])?;
/// let mut table = TokenBucket::with_slots(2);
/// table.acquire(&plans, 1000, 7, 1, 1);
/// assert_eq!(table.ids(), [7, 0]);
/// assert_eq!(table.plan_numbers(), [1, 0]);
/// assert_eq!(table.levels(), [4000, 0]); // 1000 ticks a unit: four of five units are left
/// assert_eq!(table.lasts(), [1000, 0]);
///
/// let (ids, plan_numbers, levels, lasts, newest) = table.into_columns();
/// let again = TokenBucket::from_columns(ids, plan_numbers, levels, lasts, newest);
/// assert_eq!(again.peek(&plans, 1000, 7, 1).to_numbers(), [0, 7, 4, 1100, 0]);
/// # Ok::<(), railcadence::BadPlans>(())
/// ```
#[derive(Clone, Debug, PartialEq, Eq)]
pub struct TokenBucket {
    ids: Vec<u32>,
    plan_numbers: Vec<u8>,
    levels: Vec<u64>,
    lasts: Vec<u64>,
    newest: u64,
}

impl TokenBucket {
    /// An empty table of 1 to 65,535 slots. With 0 every call gets [`Reason::BadTable`].
    pub fn with_slots(slots: u16) -> TokenBucket {
        let slots = usize::from(slots);
        let (levels, lasts) = (vec![0; slots], vec![0; slots]);
        TokenBucket::from_columns(vec![0; slots], vec![0; slots], levels, lasts, 0)
    }

    /// As [`Gcra::from_columns`](crate::Gcra::from_columns); slot i is `ids[i]`, `plan_numbers[i]`, `levels[i]` and `lasts[i]`.
    pub fn from_columns(
        ids: Vec<u32>,
        plan_numbers: Vec<u8>,
        levels: Vec<u64>,
        lasts: Vec<u64>,
        newest: u64,
    ) -> TokenBucket {
        TokenBucket {
            ids,
            plan_numbers,
            levels,
            lasts,
            newest,
        }
    }

    /// The columns, `ids`, `plan_numbers`, `levels` and `lasts`, and the newest moment.
    pub fn into_columns(self) -> (Vec<u32>, Vec<u8>, Vec<u64>, Vec<u64>, u64) {
        (
            self.ids,
            self.plan_numbers,
            self.levels,
            self.lasts,
            self.newest,
        )
    }

    /// The subscriber in each slot; 0 is an empty slot.
    pub fn ids(&self) -> &[u32] {
        &self.ids
    }

    /// As [`Gcra::plan_numbers`](crate::Gcra::plan_numbers).
    pub fn plan_numbers(&self) -> &[u8] {
        &self.plan_numbers
    }

    /// For each slot the level that the last admission left, in ticks of the slot's plan: a unit is `period` ticks.
    pub fn levels(&self) -> &[u64] {
        &self.levels
    }

    /// For each slot the moment of the last admission, in milliseconds.
    pub fn lasts(&self) -> &[u64] {
        &self.lasts
    }

    /// As [`Gcra::newest`](crate::Gcra::newest).
    pub fn newest(&self) -> u64 {
        self.newest
    }

    /// As [`Gcra::acquire`](crate::Gcra::acquire).
    pub fn acquire(
        &mut self,
        plans: &Plans,
        moment: u64,
        subscriber: u32,
        plan: u32,
        cost: u32,
    ) -> Answer {
        acquire(
            plans,
            &mut self.ids,
            &mut self.plan_numbers,
            &mut self.levels,
            &mut self.lasts,
            &mut self.newest,
            moment,
            subscriber,
            plan,
            cost,
        )
    }

    /// As [`Gcra::peek`](crate::Gcra::peek).
    pub fn peek(&self, plans: &Plans, moment: u64, subscriber: u32, plan: u32) -> Report {
        peek(
            plans,
            &self.ids,
            &self.plan_numbers,
            &self.levels,
            &self.lasts,
            &self.newest,
            moment,
            subscriber,
            plan,
        )
    }

    /// As [`Gcra::clear`](crate::Gcra::clear).
    pub fn clear(&mut self) -> Result<(), Reason> {
        let TokenBucket {
            ids,
            plan_numbers,
            levels,
            lasts,
            newest,
        } = self;
        clear(ids, plan_numbers, levels, lasts, newest)
    }
}

/// [`TokenBucket::acquire`] on lent columns, and the newest moment that goes with them.
///
/// ```
/// use railcadence::{token_bucket, Plan, Plans};
///
/// let plans = Plans::new(&[Plan::new(3, 1000, 2)])?;
/// let (mut ids, mut plan_numbers) = ([0; 300], [0; 300]);
/// let (mut levels, mut lasts, mut newest) = ([0; 300], [0; 300], 0);
/// let answer = token_bucket::acquire(
///     &plans, &mut ids, &mut plan_numbers, &mut levels, &mut lasts, &mut newest, 1000, 7, 0, 1,
/// );
/// assert!(answer.is_admitted());
/// # Ok::<(), railcadence::BadPlans>(())
/// ```
#[allow(clippy::too_many_arguments)]
pub fn acquire(
    plans: &Plans,
    ids: &mut [u32],
    plan_numbers: &mut [u8],
    levels: &mut [u64],
    lasts: &mut [u64],
    newest: &mut u64,
    moment: u64,
    subscriber: u32,
    plan: u32,
    cost: u32,
) -> Answer {
    let plans = plans.values();
    Answer::from_numbers(written(|out| {
        numbers::token_bucket_acquire(
            plans,
            ids,
            plan_numbers,
            levels,
            lasts,
            newest,
            moment,
            subscriber,
            plan,
            cost,
            out,
        )
    }))
}

/// [`TokenBucket::peek`] on lent columns.
#[allow(clippy::too_many_arguments)]
pub fn peek(
    plans: &Plans,
    ids: &[u32],
    plan_numbers: &[u8],
    levels: &[u64],
    lasts: &[u64],
    newest: &u64,
    moment: u64,
    subscriber: u32,
    plan: u32,
) -> Report {
    let plans = plans.values();
    Report::from_numbers(written(|out| {
        numbers::token_bucket_peek(
            plans,
            ids,
            plan_numbers,
            levels,
            lasts,
            newest,
            moment,
            subscriber,
            plan,
            out,
        )
    }))
}

/// [`TokenBucket::clear`] on lent columns.
pub fn clear(
    ids: &mut [u32],
    plan_numbers: &mut [u8],
    levels: &mut [u64],
    lasts: &mut [u64],
    newest: &mut u64,
) -> Result<(), Reason> {
    cleared(written(|out| {
        numbers::token_bucket_clear(ids, plan_numbers, levels, lasts, newest, out)
    }))
}
