//! One call as the archive did it, and what one mistake would have made of it.

use super::{model_answer, move_the_end, Fault};
use crate::call::Call;
use crate::choose::LAST;
use crate::engine::Engine;
use crate::lent::Lent;
use crate::list::List;
use crate::out::Out;
use model::checks::MOST_SLOTS;
use model::plan::Plan;
use model::table::{Answer, Table};
use std::array;

/// The plans, the table before and after, and the answer.
pub struct Done<'a, E> {
    pub list: &'a mut List,
    pub call: &'a Call,
    pub before: &'a Table<E>,
    pub after: &'a mut Lent,
    pub out: &'a mut Out,
}

impl<E: Engine> Done<'_, E> {
    pub fn spoil(&mut self, fault: Fault) {
        match self.call {
            Call::Acquire { moment, .. } => self.spoil_acquire(fault, *moment as u128),
            Call::Peek { moment, .. } => self.spoil_peek(fault, *moment as u128),
            Call::Clear => self.spoil_clear(fault),
        }
        match (fault, self.out[0]) {
            (Fault::Nobody, 1..=7 | 9 | 11..=13) => self.out[1] = 0,
            (Fault::SlotsShort, 0 | 3..=9 | 11..=13) if self.has(MOST_SLOTS) => self.refuse(2),
            (Fault::SlotsBeyond, 2) if self.has(MOST_SLOTS + 1) => self.out[0] = 0,
            _ => (),
        }
        if let Some(moment) = self.call.moment() {
            self.spoil_newest(fault, moment);
        }
        self.spoil_plans(fault);
    }

    /// What goes wrong about the newest moment in acquires and peeks alike.
    fn spoil_newest(&mut self, fault: Fault, moment: u64) {
        let newest = self.before.newest;
        match (fault, self.out[0]) {
            (Fault::EqualEarly, 0 | 4..=9 | 12 | 13) if moment == newest => self.refuse(11),
            (Fault::EarlyLax, 11) if moment + 1 == newest => self.unchecked(),
            (Fault::EarlyFirst, 3) if moment < newest => self.out[0] = 11,
            (Fault::EarlyLast, 11) if self.call.subscriber() == 0 => self.out[0] = 4,
            (Fault::BeyondIgnored, 11) if newest > LAST => self.unchecked(),
            (Fault::CorruptForEarly, 11) => self.out[0] = 7,
            _ => (),
        }
    }

    fn spoil_acquire(&mut self, fault: Fault, moment: u128) {
        match (fault, self.out[0]) {
            (Fault::WaitShort, 8) => self.out[4] -= 1,
            (Fault::LeftMore, 0 | 8) => self.out[2] += 1,
            (Fault::ResetLate | Fault::Nonsense, 0 | 8) => self.out[3] += 1,
            (Fault::ResetDown, 0 | 8) => self.round_down(moment),
            (Fault::FullForCorrupt, 7) => self.out[0] = 9,
            (Fault::DenialWrites, 8) => self.touch(0, self.own()),
            (Fault::DenialRefills, 8) => self.refill(moment),
            (Fault::LastLate, 0) => self.touch(1, self.own()),
            (Fault::Neighbour, 0) => self.touch(0, self.own() ^ 1),
            (Fault::Unwritten, 0) => self.unwrite(),
            (Fault::NewestUnwritten, 0) => self.after.newest[0] = self.before.newest,
            (Fault::NewestLate, 0) => self.after.newest[0] += 1,
            (Fault::NewestDenied, 8) => self.after.newest[0] = moment as u64,
            (Fault::NewestOutside, 0) => self.after.newest.overrun(0),
            (Fault::Outside, 0) => self.after.ids.overrun(0),
            (Fault::Before, 0) => self.after.columns[E::COLUMNS.len() - 1].underrun(0),
            (Fault::OffClockWait, 13) => self.out[4] = 1,
            (Fault::OffClockWrites, 13) => self.touch(0, self.own()),
            (Fault::OffClockLate, 13) => self.out[0] = 3,
            (Fault::EndlessClock | Fault::ClockShort | Fault::ClockLong, 8 | 13) => {
                self.deny(fault, moment)
            }
            (Fault::SixNumbers, _) => self.out.overrun(0),
            (Fault::UnitAbove, 8) => self.admit_a_unit_above(),
            (Fault::FreeStrict, 0) if self.took_just_free(moment) => self.refuse(9),
            _ => (),
        }
    }

    fn spoil_peek(&mut self, fault: Fault, moment: u128) {
        match (fault, self.out[0]) {
            (Fault::PeekLeft, 0) => self.out[2] += 1,
            (Fault::ResetDown, 0) => self.round_down(moment),
            (Fault::PeekWrites, 0) => self.touch(E::COLUMNS.len() - 1, self.own()),
            (Fault::PeekNewest, 0) => self.after.newest[0] = moment as u64,
            (Fault::PeekUnchecked, 11) => self.unchecked(),
            (Fault::PeekOffClock, 0) if self.out[3] > LAST => self.refuse(13),
            _ => (),
        }
    }

    fn spoil_clear(&mut self, fault: Fault) {
        match (fault, self.out[0]) {
            (Fault::ClearShort, 0) => {
                let last = self.before.ids.len() - 1;
                self.after.ids.inside_mut()[last] = self.before.ids[last];
            }
            (Fault::ClearNewest, 0) => self.after.newest[0] = self.before.newest,
            (Fault::ClearNumbers, 0) => {
                let numbers = &self.before.plan_numbers;
                self.after.plan_numbers.copy_from_slice(numbers);
            }
            (Fault::ClearEager, 2) => self.after.newest[0] = 0,
            _ => (),
        }
    }

    /// Whether each column has so many slots.
    fn has(&self, slots: usize) -> bool {
        let mut lengths = self.before.columns.iter().map(Vec::len);
        self.before.ids.len() == slots
            && self.before.plan_numbers.len() == slots
            && lengths.all(|length| length == slots)
    }

    /// The plan asked for, in a good list.
    fn asked(&self) -> Option<Plan> {
        let plans = self.list.plans();
        self.call
            .plan()
            .and_then(|plan| plans.numbered(plan))
            .copied()
    }

    /// Answers with this number, and leaves the table as it was before.
    pub fn refuse(&mut self, number: u64) {
        *self.after = Lent::new(self.before);
        let subscriber = self.out[1];
        self.out.copy_from_slice(&[number, subscriber, 0, 0, 0]);
    }

    /// Answers as if the clock ended elsewhere.
    fn deny(&mut self, fault: Fault, moment: u128) {
        let Some(plan) = self.asked() else { return };
        let record = E::load(&self.before.columns, self.own());
        let debt = record.debt(&plan, moment);
        let mut answer: Answer = array::from_fn(|place| u128::from(self.out[place]));
        move_the_end(fault, &plan, self.call, debt, &mut answer);
        self.write(answer);
    }

    /// Admits a cost of one unit more than is left, and writes nothing.
    fn admit_a_unit_above(&mut self) {
        let mut answer: Answer = array::from_fn(|place| u128::from(self.out[place]));
        model_answer(Fault::UnitAbove, self.call, &mut answer);
        self.write(answer);
    }

    /// Leaves the columns as they were before, and the newest moment as it is.
    fn unwrite(&mut self) {
        let newest = self.after.newest.clone();
        *self.after = Lent {
            newest,
            ..Lent::new(self.before)
        };
    }

    /// Does what would be due in place of 11, but for the newest moment, which stays.
    fn unchecked(&mut self) {
        let mut table = self.before.clone();
        table.newest = 0;
        let answer = self.call.on(self.list.plans(), &mut table);
        table.newest = self.before.newest;
        self.write(answer);
        *self.after = Lent::new(&table);
    }

    pub fn write(&mut self, answer: Answer) {
        self.out
            .copy_from_slice(&answer.map(|number| number as u64));
    }

    /// The slot that carries the call's subscriber after the call; beyond the table if none does.
    fn own(&self) -> usize {
        let ids = self.after.ids.inside();
        let own = ids.iter().position(|&id| id == self.call.subscriber());
        own.unwrap_or(ids.len())
    }

    /// Reports the reset as it would be with the debt divided by the limit and rounded down.
    fn round_down(&mut self, moment: u128) {
        let columns = self.after.columns.iter();
        let columns: Vec<Vec<u64>> = columns.map(|column| column.inside().to_vec()).collect();
        let slot = self.own();
        if let (Some(plan), true) = (self.asked(), slot < self.after.ids.len()) {
            let debt = E::load(&columns, slot).debt(&plan, moment);
            self.out[3] = (moment + debt / plan.limit) as u64;
        }
    }

    /// Writes in one number of a slot's record, where the table has the slot.
    fn touch(&mut self, column: usize, slot: usize) {
        if let Some(cell) = self.after.columns[column].inside_mut().get_mut(slot) {
            *cell = cell.wrapping_add(1);
        }
    }

    /// Writes the subscriber's record as an admission of cost 0 would.
    fn refill(&mut self, moment: u128) {
        let (slot, mut table) = (self.own(), self.before.clone());
        let (Some(plan), true) = (self.asked(), slot < table.ids.len()) else {
            return;
        };
        let record = E::load(&table.columns, slot);
        if let Some(refilled) = record.spend(&plan, moment, 0) {
            refilled.store(&mut table.columns, slot);
            *self.after = Lent::new(&table);
        }
    }

    /// The subscriber took over another's slot that was free with nothing to spare.
    fn took_just_free(&self, moment: u128) -> bool {
        let slot = self.own();
        let before = self.before.ids[slot];
        let kept = self.before.plan_numbers[slot] as u32;
        let record = E::load(&self.before.columns, slot);
        let plan = self.list.plans().numbered(kept);
        let just_free = plan.is_some_and(|plan| record.just_free(plan, moment));
        before != 0 && before != self.call.subscriber() && just_free
    }
}
