//! What goes wrong about the plans that are lent (document 02, Item 3): which lists and numbers are taken, whether a slot is free
//! by its plan, and what is written of the plan.

use super::{Done, Fault};
use crate::call::Call;
use crate::engine::Engine;
use crate::lent::Lent;
use model::plans::{Plans, MOST_PLANS};
use model::table::Table;

impl<E: Engine> Done<'_, E> {
    pub fn spoil_plans(&mut self, fault: Fault) {
        match (self.call, self.out[0]) {
            (_, 1) => self.spoil_list(fault),
            (_, 2) if fault == Fault::NumbersLength => {
                self.redo(|table| table.plan_numbers.resize(table.ids.len(), 0))
            }
            (Call::Acquire { .. }, 0 | 9) if of_the_search(fault) => self.spoil_search(fault),
            _ => (),
        }
        if let (Call::Acquire { .. }, 0) = (self.call, self.out[0]) {
            self.spoil_written(fault);
        }
        self.spoil_change(fault);
    }

    /// A list or a number that should get 1.
    fn spoil_list(&mut self, fault: Fault) {
        let (numbers, most) = (self.list.numbers(), 3 * MOST_PLANS);
        let Some(asked) = self.call.plan() else {
            return;
        };
        let (list, number) = match fault {
            Fault::BadBeside => (mended(numbers, asked), asked),
            Fault::Seventeen if numbers.len() == most + 3 => (numbers[..most].to_vec(), asked),
            Fault::ListCut => (numbers[..numbers.len() / 3 * 3].to_vec(), asked),
            Fault::NumberBeyond if numbers.len() == 3 * asked as usize => {
                (numbers.to_vec(), asked.saturating_sub(1))
            }
            Fault::NumberWrapped => (numbers.to_vec(), u32::from(asked as u8)),
            _ => return,
        };
        self.redo_under(&Plans::lent(&list), self.call.under(number), |_| ());
    }

    /// What goes wrong where somebody without a slot looks for one that is free.
    fn spoil_search(&mut self, fault: Fault) {
        let plans = self.list.plans().clone();
        let known = |number: u8| plans.numbered(number as u32).is_some();
        let (caller, asked) = (self.call.subscriber(), self.asked_number());
        self.redo_slots(|id, number| match (fault, known(*number)) {
            (Fault::FreeByAsked, true) if *id != caller => *number = asked,
            (Fault::UnknownFree, false) if *id != caller => *id = 0,
            (Fault::EmptyUnknown, false) if *id == 0 => *id = !caller,
            _ => (),
        });
    }

    fn spoil_written(&mut self, fault: Fault) {
        match fault {
            Fault::NumberUnwritten => {
                let numbers = &self.before.plan_numbers;
                self.after.plan_numbers.copy_from_slice(numbers);
            }
            Fault::NumbersOutside => self.after.plan_numbers.overrun(0),
            Fault::PlansWritten => self.list.scribble(),
            _ => (),
        }
    }

    /// The number asked for, as a slot keeps it.
    pub fn asked_number(&self) -> u8 {
        self.call.plan().map_or(0, |plan| plan as u8)
    }

    /// Does what the model does where each id and plan number is changed so, if any is.
    fn redo_slots(&mut self, change: impl Fn(&mut u32, &mut u8)) {
        let mut table = self.before.clone();
        let slots = table.ids.iter_mut().zip(&mut table.plan_numbers);
        slots.for_each(|(id, number)| change(id, number));
        if (&table.ids, &table.plan_numbers) != (&self.before.ids, &self.before.plan_numbers) {
            self.redo(|before| *before = table);
        }
    }

    /// Does what the model does on a table that is changed so; but of the table only what an admission writes is kept.
    pub fn redo(&mut self, change: impl FnOnce(&mut Table<E>)) {
        let plans = self.list.plans().clone();
        self.redo_under(&plans, *self.call, change);
    }

    /// The same under other plans.
    fn redo_under(&mut self, plans: &Plans, call: Call, change: impl FnOnce(&mut Table<E>)) {
        let mut changed = self.before.clone();
        change(&mut changed);
        let answer = call.on(plans, &mut changed);
        let mut table = self.before.clone();
        let own = changed.ids.iter().position(|&id| id == call.subscriber());
        if let (Call::Acquire { .. }, 0, Some(slot)) = (call, answer[0], own) {
            table.ids[slot] = changed.ids[slot];
            if let Some(number) = table.plan_numbers.get_mut(slot) {
                *number = changed.plan_numbers[slot];
            }
            E::load(&changed.columns, slot).store(&mut table.columns, slot);
            table.newest = changed.newest;
        }
        self.write(answer);
        *self.after = Lent::new(&table);
    }
}

fn of_the_search(fault: Fault) -> bool {
    matches!(
        fault,
        Fault::FreeByAsked | Fault::UnknownFree | Fault::EmptyUnknown
    )
}

/// The list with the plan asked for in the place of each bad one.
fn mended(numbers: &[u32], asked: u32) -> Vec<u32> {
    let good = |plan: &&[u32]| Plans::lent(plan).numbered(0).is_some();
    let asked = numbers.chunks(3).nth(asked as usize).unwrap_or(&[]);
    let plans = numbers.chunks(3);
    let plans = plans.map(|plan| Some(plan).filter(good).unwrap_or(asked));
    plans.collect::<Vec<_>>().concat()
}
