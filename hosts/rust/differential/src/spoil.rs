//! Deliberate faults, to try the comparison itself: what the archive did is changed as one mistake would have changed it.

mod change;
mod done;
mod faults;
mod plans;

use crate::call::{Call, Terms};
use crate::out::Out;
use faults::{BOTH_AT_ONCE, EVERYWHERE, FAULTS, IN_THE_END, THE_BOOK};
use model::book::Mistake;
use model::ceiling;
use model::decision::{least_wait, settled};
use model::plan::{Plan, LAST_MOMENT};
use model::table::Answer;

pub use done::Done;
pub use faults::Fault;

/// A book that sees only the last admitted calls of a subscriber.
pub const SHORT_MEMORY: Mistake = Mistake::Forgets(100);

/// A fault and its place; on the command line PLACE:FAULT.
#[derive(Clone, Copy)]
pub struct Spoil {
    place: &'static str,
    fault: Fault,
}

impl Spoil {
    pub fn by_name(name: &str) -> Option<Spoil> {
        let (place, fault_name) = name.split_once(':')?;
        let (fault, _, places, _) = FAULTS.iter().find(|known| known.1 == fault_name)?;
        let place = places.iter().find(|known| **known == place)?;
        Some(Spoil {
            place,
            fault: *fault,
        })
    }

    /// The fault that an engine has.
    pub fn of_engine(self, name: &str) -> Option<Fault> {
        [name, BOTH_AT_ONCE, EVERYWHERE]
            .contains(&self.place)
            .then_some(self.fault)
    }

    /// The fault that the book has with both engines.
    pub fn of_all(self) -> Option<Fault> {
        (self.place == EVERYWHERE).then_some(self.fault)
    }

    /// The fault that the book alone has.
    pub fn of_book(self) -> Option<Fault> {
        (self.place == THE_BOOK).then_some(self.fault)
    }

    /// The fault in what is heard where a wait ends.
    pub fn of_the_end(self) -> Option<Fault> {
        (self.place == IN_THE_END).then_some(self.fault)
    }

    /// Whether it keeps this call from the book.
    pub fn keeps_from_the_book(self, call: &Call) -> bool {
        self.fault == Fault::Deaf && matches!(call, Call::Acquire { cost: 1, .. })
    }

    /// What the book does wrong with its lists.
    pub fn of_the_lists(self) -> Option<Mistake> {
        if self.place != THE_BOOK {
            return None;
        }
        match self.fault {
            Fault::ShortMemory => Some(SHORT_MEMORY),
            Fault::OwnNewest => Some(Mistake::OwnNewest),
            Fault::ListKept => Some(Mistake::NeverRestarts),
            Fault::OwingByAsked => Some(Mistake::ByTheAsked),
            Fault::OwingPassed => Some(Mistake::Never12),
            Fault::ChangeRefused => Some(Mistake::Always12),
            _ => None,
        }
    }

    /// What a host does wrong with the notes that it keeps of an engine.
    pub fn of_the_notes(self, engine: &str) -> Option<ceiling::Mistake> {
        match self.of_engine(engine)? {
            Fault::CeilingLower => Some(ceiling::Mistake::Lower),
            Fault::FirstUncounted => Some(ceiling::Mistake::NoFirst),
            Fault::LastUncounted => Some(ceiling::Mistake::NoLast),
            Fault::OthersAdded => Some(ceiling::Mistake::OfAll),
            Fault::PlansAdded => Some(ceiling::Mistake::AnyPlan),
            Fault::NotesKept => Some(ceiling::Mistake::NeverCleared),
            _ => None,
        }
    }

    /// Changes the fields for HTTP that the archive reckoned from an answer.
    pub fn fields(self, terms: &Terms, answer: &[u64; 5], fields: &mut Out) {
        match (self.fault, answer[0]) {
            (Fault::RetryDown, 8) => fields[4] = answer[4] / 1000,
            (Fault::QuotaLimit, _) => fields[0] = terms.limit as u64,
            (Fault::ResetMoment, 0 | 8) => fields[3] = answer[3].div_ceil(1000),
            (Fault::RefusalTold, _) => fields[2] = answer[2],
            (Fault::RetryOffClock, 13) => fields[4] = answer[4].div_ceil(1000),
            _ => (),
        }
        if let Some(time) = self.shortens_both() {
            fields[time] = fields[time].saturating_sub(1);
        }
    }

    /// How much too early the reset is.
    pub fn early(self) -> u64 {
        u64::from(self.fault == Fault::ResetEarly)
    }

    /// The place of the time, if any, that is a second too short in the model's fields and the archive's alike.
    pub fn shortens_both(self) -> Option<usize> {
        match self.fault {
            Fault::RetryEarly => Some(4),
            Fault::ResetSoon => Some(3),
            _ => None,
        }
    }
}

/// A line for each fault at each of its places.
pub fn list() -> String {
    let mut text = String::new();
    for (_, name, places, words) in FAULTS {
        for place in *places {
            text += &format!("{:32}{words}\n", format!("{place}:{name}"));
        }
    }
    text
}

/// Changes the answer of a model, or of the book, as the archive's is where all make the same mistake.
pub fn model_answer(fault: Fault, call: &Call, answer: &mut Answer) {
    match (fault, call, answer[0]) {
        (Fault::Nonsense, Call::Acquire { .. }, 0 | 8) => answer[3] += 1,
        (Fault::CorruptForEarly, _, 11) => answer[0] = 7,
        (Fault::UnitAbove, &Call::Acquire { cost, .. }, 8) if answer[2] + 1 == cost as u128 => {
            *answer = [0, answer[1], 0, answer[3], 0]
        }
        (Fault::OwingSilent, Call::Peek { .. }, 12) => answer[0] = 0,
        (Fault::PeekOffClock, Call::Peek { .. }, 0) if answer[3] > LAST_MOMENT => {
            *answer = [13, answer[1], 0, 0, 0]
        }
        _ => (),
    }
}

/// Changes the answer to an acquire of somebody who owes this much, and for whom the cost is too much, as if the clock ended
/// elsewhere.
pub fn move_the_end(fault: Fault, plan: &Plan, call: &Call, debt: u128, answer: &mut Answer) {
    let end = match fault {
        Fault::EndlessClock => u128::MAX,
        Fault::ClockShort => LAST_MOMENT - 1,
        Fault::ClockLong => LAST_MOMENT + 1,
        _ => return,
    };
    if let (&Call::Acquire { moment, cost, .. }, 8 | 13) = (call, answer[0]) {
        let (moment, wait) = (moment as u128, least_wait(plan, debt, cost as u128));
        let told = settled(plan, moment, debt);
        *answer = match moment + wait <= end {
            true => [8, answer[1], told.left, told.reset, wait],
            false => [13, answer[1], 0, 0, 0],
        };
    }
}

/// The same of what a model writes to the newest moment.
pub fn model_newest(fault: Fault, call: &Call, answer: &Answer, newest: &mut u64) {
    if let (Fault::NewestLate, Call::Acquire { .. }, 0) = (fault, call, answer[0]) {
        *newest += 1;
    }
}
