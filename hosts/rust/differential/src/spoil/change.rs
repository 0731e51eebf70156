//! What goes wrong where somebody comes under another plan than its slot keeps (document 02, Item 3).

use super::{Done, Fault};
use crate::call::Call;
use crate::engine::Engine;
use model::plan::Plan;

/// The slot of a call's subscriber, which keeps another number than is asked for.
struct Change<E> {
    slot: usize,
    record: E,
    moment: u128,
    /// The plan asked for, and the one that the slot keeps, if that is lent.
    asked: Plan,
    kept: Option<Plan>,
    cost: u128,
}

impl<E: Engine> Change<E> {
    /// Of a call that passed the checks up to 5.
    fn of(done: &Done<E>) -> Option<Change<E>> {
        if !matches!(done.out[0], 0 | 6..=9 | 12 | 13) {
            return None;
        }
        let (number, subscriber) = (done.call.plan()?, done.call.subscriber());
        let slot = done.before.ids.iter().position(|&id| id == subscriber)?;
        let kept = u32::from(*done.before.plan_numbers.get(slot)?);
        let plans = done.list.plans();
        let cost = match *done.call {
            Call::Acquire { cost, .. } => cost as u128,
            _ => 0,
        };
        (kept != number).then_some(Change {
            slot,
            record: E::load(&done.before.columns, slot),
            moment: done.call.moment()? as u128,
            asked: *plans.numbered(number)?,
            kept: plans.numbered(kept).copied(),
            cost,
        })
    }

    fn owes(&self) -> bool {
        let possible = |kept: &Plan| !self.record.impossible(kept, self.moment);
        let kept = self.kept.filter(possible);
        kept.is_some_and(|kept| self.record.debt(&kept, self.moment) > 0)
    }

    fn owes_by_asked(&self) -> bool {
        self.record.debt(&self.asked, self.moment) > 0
    }

    fn corrupt_by_asked(&self) -> bool {
        self.record.impossible(&self.asked, self.moment)
    }

    /// Whether the kept plan has this cost, and whether it has not.
    fn fits(&self) -> bool {
        self.kept.is_some_and(|kept| self.cost <= kept.burst)
    }

    fn exceeds(&self) -> bool {
        self.kept.is_some_and(|kept| self.cost > kept.burst)
    }

    fn same_values(&self) -> bool {
        let values = |plan: Plan| (plan.limit, plan.period, plan.burst);
        self.kept.map(values) == Some(values(self.asked))
    }
}

impl<E: Engine> Done<'_, E> {
    pub fn spoil_change(&mut self, fault: Fault) {
        let Some(change) = Change::of(self) else {
            return;
        };
        let (slot, peek) = (change.slot, matches!(self.call, Call::Peek { .. }));
        match (fault, self.out[0]) {
            (Fault::UnknownOwner, 7) if change.kept.is_none() => self.adopt(slot),
            (Fault::CorruptByAsked, 0 | 12) if change.corrupt_by_asked() => self.refuse(7),
            (Fault::CorruptByAsked, 7) if !change.corrupt_by_asked() => self.refuse(12),
            (Fault::OwingPassed, 12) => self.forgive(&change),
            (Fault::PeekOwing, 12) if peek => self.forgive(&change),
            (Fault::OwingSilent, 12) if peek => self.out[0] = 0,
            (Fault::ChangeRefused, 0) => self.refuse(12),
            (Fault::OwingByAsked, 0) if change.owes_by_asked() => self.refuse(12),
            (Fault::OwingByAsked, 12) if !change.owes_by_asked() => self.forgive(&change),
            (Fault::OwingFirst, 7) => self.refuse(12),
            (Fault::OwingBeforeCost, 6) if change.owes() => self.refuse(12),
            (Fault::OwingWrites, 12) => self.after.plan_numbers[slot] = self.asked_number(),
            (Fault::ByValue, 12) if change.same_values() => self.adopt(slot),
            (Fault::BurstKept, 0 | 12) if change.exceeds() => self.refuse(6),
            (Fault::BurstKept, 6) if change.fits() && change.owes() => self.refuse(12),
            (Fault::RecordKept, 0) => self.adopt(slot),
            (Fault::SlotLeft, 0) => self.redo(|table| table.ids[slot] ^= u32::MAX),
            _ => (),
        }
    }

    /// Takes the record as one under the plan asked for.
    fn adopt(&mut self, slot: usize) {
        let asked = self.asked_number();
        self.redo(|table| table.plan_numbers[slot] = asked);
    }

    /// Takes the subscriber as having no record.
    fn forgive(&mut self, change: &Change<E>) {
        let asked = self.asked_number();
        let fresh = E::fresh(&change.asked, change.moment);
        self.redo(|table| {
            table.plan_numbers[change.slot] = asked;
            fresh.store(&mut table.columns, change.slot);
        });
    }
}
