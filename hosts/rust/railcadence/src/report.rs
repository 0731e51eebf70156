//! What a peek answers.

use crate::reason::Reason;
use std::fmt::{Display, Formatter};

/// The answer to a peek. It admits nothing, however much is left: whoever wants to spend units acquires them.
///
/// ```
/// use railcadence::{Balance, Gcra, Plan, Plans, Reason};
///
/// let plans = Plans::new(&[Plan::new(3, 1000, 2)])?;
/// let table = Gcra::with_slots(1);
/// let report = table.peek(&plans, 1000, 7, 0);
/// assert_eq!(report.subscriber, 7);
/// assert_eq!(report.balance, Ok(Balance { left: 2, reset: 1000 }));
/// assert_eq!(report.to_string(), "2 left, nothing owed from moment 1000 on");
///
/// let report = table.peek(&plans, 1000, 0, 0);
/// assert_eq!(report.balance, Err(Reason::NoSubscriber));
/// assert_eq!(report.to_string(), "refused: subscriber 0 is nobody: number subscribers from 1");
/// # Ok::<(), railcadence::BadPlans>(())
/// ```
///
/// So nobody can take it for an admission:
///
/// ```compile_fail,E0599
/// let plans = railcadence::Plans::new(&[railcadence::Plan::new(3, 1000, 2)]).unwrap();
/// railcadence::Gcra::with_slots(1).peek(&plans, 1000, 7, 0).is_admitted();
/// ```
#[derive(Clone, Copy, Debug, PartialEq, Eq, Hash)]
pub struct Report {
    /// The subscriber asked for, in refusals too.
    pub subscriber: u32,
    /// What the subscriber has, or why it is not told.
    pub balance: Result<Balance, Reason>,
}

/// What a subscriber has.
#[derive(Clone, Copy, Debug, PartialEq, Eq, Hash)]
pub struct Balance {
    /// Whole units left.
    pub left: u64,
    /// The first moment at which nothing is owed any more. A subscriber that has a slot gets its whole burst from then on,
    /// and not before, if nothing else is admitted meanwhile and that moment is within its limit.
    pub reset: u64,
}

impl Report {
    /// The report that the five numbers of a peek stand for; the subscriber is one that was passed as 32 bits.
    pub(crate) fn from_numbers([number, subscriber, left, reset, _]: [u64; 5]) -> Report {
        Report {
            subscriber: subscriber as u32,
            balance: match number {
                0 => Ok(Balance { left, reset }),
                _ => Err(Reason::from_number(number)),
            },
        }
    }

    /// Number, subscriber, left, reset and wait, as the C interface gives them; a peek's wait is 0.
    ///
    /// ```
    /// use railcadence::{Gcra, Plan, Plans};
    ///
    /// let plans = Plans::new(&[Plan::new(3, 1000, 2)])?;
    /// let report = Gcra::with_slots(1).peek(&plans, 1000, 7, 0);
    /// assert_eq!(report.to_numbers(), [0, 7, 2, 1000, 0]);
    /// # Ok::<(), railcadence::BadPlans>(())
    /// ```
    pub fn to_numbers(&self) -> [u64; 5] {
        let subscriber = u64::from(self.subscriber);
        match self.balance {
            Ok(Balance { left, reset }) => [0, subscriber, left, reset, 0],
            Err(reason) => [reason.number(), subscriber, 0, 0, 0],
        }
    }
}

impl Display for Balance {
    fn fmt(&self, f: &mut Formatter) -> std::fmt::Result {
        let Balance { left, reset } = self;
        write!(f, "{left} left, nothing owed from moment {reset} on")
    }
}

impl Display for Report {
    fn fmt(&self, f: &mut Formatter) -> std::fmt::Result {
        match self.balance {
            Ok(balance) => write!(f, "{balance}"),
            Err(reason) => write!(f, "refused: {reason}"),
        }
    }
}

#[cfg(test)]
mod tests {
    use super::*;

    #[test]
    fn every_number_is_a_report_and_comes_back() {
        for number in (0..20).chain([u64::MAX]) {
            let told = if number == 0 { 3 } else { 0 };
            let numbers = [number, 7, told, told, 0];
            assert_eq!(Report::from_numbers(numbers).to_numbers(), numbers);
        }
    }
}
