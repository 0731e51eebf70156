//! Why a request is refused.

use std::error::Error;
use std::fmt::{Display, Formatter, Result};

/// Why a request is refused. The first that applies, in this order, is given.
///
/// As text, a reason says what is wrong and what to do.
///
/// ```
/// use railcadence::Reason;
///
/// assert_eq!(Reason::NoSubscriber.number(), 4);
/// assert_eq!(Reason::NoSubscriber.to_string(), "subscriber 0 is nobody: number subscribers from 1");
/// ```
#[derive(Clone, Copy, Debug, PartialEq, Eq, Hash)]
#[non_exhaustive]
pub enum Reason {
    /// The plan asked for is not among those lent. On [`numbers`](crate::numbers) also: no plans are lent, more than 16, or one
    /// outside its limits.
    BadPlan,
    /// The columns are of different lengths, or there are not 1 to 65,535 slots.
    BadTable,
    /// The moment is above 2^42 − 1 milliseconds.
    LateMoment,
    /// The moment is before the newest at which anything was admitted: the clock went back, or more than one clock serves
    /// the table.
    EarlyMoment,
    /// The subscriber is 0.
    NoSubscriber,
    /// The cost is 0.
    ZeroCost,
    /// The cost is above the burst of the plan asked for, and can never be admitted under it.
    CostAboveBurst,
    /// The subscriber's own slot holds what no admission up to this moment can have left under the slot's plan, or the number
    /// of a plan that is not lent: the table is damaged, or other plans are lent.
    CorruptRecord,
    /// The subscriber still owes under another plan. Ask under that one, or later, when nothing is owed any more: from when
    /// that is a peek under that plan says.
    OtherPlan,
    /// No moment up to 2^42 − 1 milliseconds will admit the request: it is not served while this clock lasts. This comes in
    /// the place of [`Outcome::Throttled`](crate::Outcome::Throttled), and only when less is left of the clock than the cost
    /// takes to be earned.
    NotOnClock,
    /// The subscriber has no slot, and none is free.
    TableFull,
    /// A number that this wrapper does not know, as an archive with further rules may give.
    Unknown(u64),
}

impl Reason {
    pub(crate) fn from_number(number: u64) -> Reason {
        match number {
            1 => Reason::BadPlan,
            2 => Reason::BadTable,
            3 => Reason::LateMoment,
            4 => Reason::NoSubscriber,
            5 => Reason::ZeroCost,
            6 => Reason::CostAboveBurst,
            7 => Reason::CorruptRecord,
            9 => Reason::TableFull,
            11 => Reason::EarlyMoment,
            12 => Reason::OtherPlan,
            13 => Reason::NotOnClock,
            _ => Reason::Unknown(number),
        }
    }

    /// The reason's number.
    pub fn number(&self) -> u64 {
        match self {
            Reason::BadPlan => 1,
            Reason::BadTable => 2,
            Reason::LateMoment => 3,
            Reason::NoSubscriber => 4,
            Reason::ZeroCost => 5,
            Reason::CostAboveBurst => 6,
            Reason::CorruptRecord => 7,
            Reason::TableFull => 9,
            Reason::EarlyMoment => 11,
            Reason::OtherPlan => 12,
            Reason::NotOnClock => 13,
            Reason::Unknown(number) => *number,
        }
    }

    /// Whether the same request may simply be made again later, which is so of [`Reason::TableFull`] and
    /// [`Reason::OtherPlan`]. Under any other reason that does not help: the caller is at fault and has something to mend
    /// first, or, under [`Reason::NotOnClock`], the clock ends too soon.
    pub fn may_retry(&self) -> bool {
        matches!(self, Reason::TableFull | Reason::OtherPlan)
    }
}

impl Display for Reason {
    fn fmt(&self, f: &mut Formatter) -> Result {
        let words = match self {
            Reason::BadPlan => {
                "the plan asked for is not lent, or the plans are none, more than 16 or not all within their limits"
            }
            Reason::BadTable => {
                "the columns differ in length, or there are not 1 to 65535 slots: make the table anew"
            }
            Reason::LateMoment => {
                "the moment is above 4398046511103: pass milliseconds, and count them from a later zero"
            }
            Reason::EarlyMoment => {
                "the moment is before the newest admission: set the clock right, and use one clock for a table; if \
                 moments are counted from another zero, clear the table"
            }
            Reason::NoSubscriber => "subscriber 0 is nobody: number subscribers from 1",
            Reason::ZeroCost => "the cost is 0: ask for 1 unit or more, or peek",
            Reason::CostAboveBurst => {
                "the cost is above the plan's burst and never admitted: ask for less at once, or under another plan"
            }
            Reason::CorruptRecord => {
                "no admission up to this moment can have left the subscriber's record, so the table is damaged or other \
                 plans are lent: clear the table"
            }
            Reason::OtherPlan => {
                "the subscriber still owes under another plan: ask under that one, or again when nothing is owed"
            }
            Reason::NotOnClock => {
                "no moment up to 4398046511103 will admit the request: ask for less at once, or clear the table and count \
                 moments from a later zero"
            }
            Reason::TableFull => {
                "no slot is the subscriber's own and none is free: try again later, or make the table larger"
            }
            Reason::Unknown(number) => {
                return write!(f, "this wrapper does not know number {number}: take the one that goes with the archive");
            }
        };
        f.write_str(words)
    }
}

impl Error for Reason {}

#[cfg(test)]
mod tests {
    use super::*;

    #[test]
    fn a_number_of_further_rules_is_no_panic() {
        for number in [10, 14, 15, 16, u64::MAX] {
            assert_eq!(Reason::from_number(number), Reason::Unknown(number));
        }
    }
}
