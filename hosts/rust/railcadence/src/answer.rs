//! What an acquire answers.

use crate::reason::Reason;
use crate::report::Balance;
use std::fmt::{Display, Formatter};

const ADMITTED: u64 = 0;
const THROTTLED: u64 = 8;

/// The answer to an acquire.
///
/// ```
/// use railcadence::{Gcra, Plan, Plans};
///
/// let plans = Plans::new(&[Plan::new(3, 1000, 2)])?;
/// let answer = Gcra::with_slots(1).acquire(&plans, 1000, 7, 0, 1);
/// assert_eq!(answer.subscriber, 7);
/// assert!(answer.is_admitted());
/// assert_eq!(answer.outcome.to_string(), "admitted: 1 left, nothing owed from moment 1334 on");
/// # Ok::<(), railcadence::BadPlans>(())
/// ```
#[derive(Clone, Copy, Debug, PartialEq, Eq, Hash)]
pub struct Answer {
    /// The subscriber asked for, in refusals too.
    pub subscriber: u32,
    /// What came of it.
    pub outcome: Outcome,
}

/// What came of an acquire. Further rules will bring further outcomes, so a `match` needs an arm for the rest:
///
/// ```compile_fail,E0004
/// fn name(outcome: railcadence::Outcome) -> &'static str {
///     match outcome {
///         railcadence::Outcome::Admitted { .. } => "admitted",
///         railcadence::Outcome::Throttled { .. } => "throttled",
///         railcadence::Outcome::Refused(_) => "refused",
///     }
/// }
/// ```
#[derive(Clone, Copy, Debug, PartialEq, Eq, Hash)]
#[non_exhaustive]
pub enum Outcome {
    /// The cost is spent.
    Admitted {
        /// Whole units left after the call.
        left: u64,
        /// The first moment at which nothing is owed any more. A subscriber that has a slot gets its whole burst from then on,
        /// and not before, if nothing else is admitted meanwhile and that moment is within its limit.
        reset: u64,
    },
    /// Not now. Nothing is spent.
    Throttled {
        /// Whole units left.
        left: u64,
        /// The first moment at which nothing is owed any more. A subscriber that has a slot gets its whole burst from then on,
        /// and not before, if nothing else is admitted meanwhile and that moment is within its limit.
        reset: u64,
        /// The least number of milliseconds after which the same request is admitted, if nothing else is admitted
        /// meanwhile. It ends within the moment's limit; a request whose wait would not gets [`Reason::NotOnClock`].
        wait: u64,
    },
    /// No, and why. Nothing is spent.
    Refused(Reason),
}

impl Answer {
    /// The answer that the five numbers of a call stand for; the subscriber is one that was passed as 32 bits.
    pub(crate) fn from_numbers([number, subscriber, left, reset, wait]: [u64; 5]) -> Answer {
        let outcome = match number {
            ADMITTED => Outcome::Admitted { left, reset },
            THROTTLED => Outcome::Throttled { left, reset, wait },
            _ => Outcome::Refused(Reason::from_number(number)),
        };
        Answer {
            subscriber: subscriber as u32,
            outcome,
        }
    }

    /// Number, subscriber, left, reset and wait, as the C interface and the text program give them.
    ///
    /// ```
    /// use railcadence::{Gcra, Plan, Plans};
    ///
    /// let plans = Plans::new(&[Plan::new(3, 1000, 2)])?;
    /// let answer = Gcra::with_slots(1).acquire(&plans, 1000, 7, 0, 1);
    /// assert_eq!(answer.to_numbers(), [0, 7, 1, 1334, 0]);
    /// # Ok::<(), railcadence::BadPlans>(())
    /// ```
    pub fn to_numbers(&self) -> [u64; 5] {
        let [left, reset, wait] = match self.outcome {
            Outcome::Admitted { left, reset } => [left, reset, 0],
            Outcome::Throttled { left, reset, wait } => [left, reset, wait],
            Outcome::Refused(_) => [0; 3],
        };
        let subscriber = u64::from(self.subscriber);
        [self.outcome.number(), subscriber, left, reset, wait]
    }

    /// Whether the cost was spent.
    pub fn is_admitted(&self) -> bool {
        matches!(self.outcome, Outcome::Admitted { .. })
    }
}

impl Outcome {
    /// The outcome's number: 0 admitted, 8 throttled, otherwise the reason's.
    pub fn number(&self) -> u64 {
        match self {
            Outcome::Admitted { .. } => ADMITTED,
            Outcome::Throttled { .. } => THROTTLED,
            Outcome::Refused(reason) => reason.number(),
        }
    }

    /// Whether the same request may simply be made again later: throttled, after the wait, the table was full, or the
    /// subscriber still owed under another plan.
    ///
    /// ```
    /// use railcadence::{Gcra, Plan, Plans};
    ///
    /// let plans = Plans::new(&[Plan::new(3, 1000, 2), Plan::new(10, 1000, 5)])?;
    /// let mut table = Gcra::with_slots(1);
    /// table.acquire(&plans, 1000, 7, 0, 2);
    /// let mut may_retry = |subscriber, plan, cost| {
    ///     table.acquire(&plans, 1000, subscriber, plan, cost).outcome.may_retry()
    /// };
    /// assert!(may_retry(7, 0, 1)); // 334 ms to wait
    /// assert!(may_retry(8, 0, 1)); // the only slot is taken
    /// assert!(may_retry(7, 1, 1)); // it owes under plan 0
    /// assert!(!may_retry(7, 0, 3)); // more than the burst
    /// # Ok::<(), railcadence::BadPlans>(())
    /// ```
    pub fn may_retry(&self) -> bool {
        match self {
            Outcome::Admitted { .. } => false,
            Outcome::Throttled { .. } => true,
            Outcome::Refused(reason) => reason.may_retry(),
        }
    }
}

impl Display for Outcome {
    fn fmt(&self, f: &mut Formatter) -> std::fmt::Result {
        match *self {
            Outcome::Admitted { left, reset } => {
                write!(f, "admitted: {}", Balance { left, reset })
            }
            Outcome::Throttled { wait, .. } => write!(f, "throttled: try again in {wait} ms"),
            Outcome::Refused(reason) => write!(f, "refused: {reason}"),
        }
    }
}

/// What a call writes.
pub(crate) fn written(call: impl FnOnce(&mut [u64; 5])) -> [u64; 5] {
    let mut out = [0; 5];
    call(&mut out);
    out
}

/// The answer of a clear, of which the first number says all.
pub(crate) fn cleared([number, ..]: [u64; 5]) -> Result<(), Reason> {
    match number {
        0 => Ok(()),
        _ => Err(Reason::from_number(number)),
    }
}

#[cfg(test)]
mod tests {
    use super::*;

    #[test]
    fn every_number_is_an_answer_and_comes_back() {
        for number in (0..20).chain([u64::MAX]) {
            let throttled = number == THROTTLED;
            let told = if number == 0 || throttled { 3 } else { 0 };
            let wait = if throttled { 5 } else { 0 };
            let numbers = [number, 7, told, told, wait];
            assert_eq!(Answer::from_numbers(numbers).to_numbers(), numbers);
        }
    }

    #[test]
    fn only_8_and_9_and_12_may_be_tried_again() {
        let may_retry = |number| {
            let outcome = Answer::from_numbers([number, 7, 0, 0, 1]).outcome;
            outcome.may_retry()
        };
        let numbers = (0..20).chain([u64::MAX]);
        assert!(numbers.filter(|number| may_retry(*number)).eq([8, 9, 12]));
    }

    #[test]
    fn a_clear_is_done_or_refused() {
        assert_eq!(cleared([0; 5]), Ok(()));
        assert_eq!(cleared([2, 0, 0, 0, 0]), Err(Reason::BadTable));
        assert_eq!(cleared([17, 0, 0, 0, 0]), Err(Reason::Unknown(17)));
    }
}
