//! Tables that are damaged in one way or another: ids twice, records of empty slots, impossible records, plan numbers that are not
//! lent, a newest moment that nothing was admitted at, and columns of unequal lengths.

use super::Around;
use crate::call::{plan_of, Terms};
use crate::choose::LAST;
use crate::engine::Engine;
use crate::lists;
use crate::rng::Rng;
use model::table::Table;

/// How many slots of a table are drawn; the others repeat them, in any order.
const MOST_DRAWN: usize = 256;

#[derive(Clone, Copy, PartialEq, Eq)]
enum Mood {
    /// Any ids, any records.
    Any,
    /// Nobody is the subscriber, and no slot is free.
    Full,
    /// The same, but for one slot that is free.
    OneFree,
    /// The subscriber has a slot or two, and mostly owes too much for the cost, or comes from another plan.
    Known,
}

const MOODS: [Mood; 5] = [
    Mood::Any,
    Mood::Full,
    Mood::OneFree,
    Mood::Known,
    Mood::Known,
];

pub fn table<E: Engine>(rng: &mut Rng, around: &Around, slots: usize) -> Table<E> {
    let mood = rng.pick(&MOODS);
    let mut table = Table::<E>::cleared(slots);
    table.newest = newest(rng, around.moment as u64);
    let drawn = slots.min(MOST_DRAWN);
    for slot in 0..drawn {
        table.ids[slot] = id(rng, around.subscriber, mood);
        table.plan_numbers[slot] = lists::kept(rng, around.asked, around.plans.len());
        let owing = matches!(mood, Mood::Full | Mood::OneFree);
        let record: E = record(rng, around, table.plan_numbers[slot], owing);
        record.store(&mut table.columns, slot);
    }
    for slot in drawn..slots {
        let like = rng.below(drawn as u64) as usize;
        table.ids[slot] = table.ids[like];
        table.plan_numbers[slot] = table.plan_numbers[like];
        E::load(&table.columns, like).store(&mut table.columns, slot);
    }
    if slots > 0 {
        mend(rng, around, mood, &mut table);
    }
    if rng.once_in(12) {
        cut(rng, &mut table);
    }
    table
}

/// A table of a few slots on which somebody owes so much at a moment under the plan of this number, and nothing was admitted
/// later; the others may be damaged.
pub fn owing<E: Engine>(
    rng: &mut Rng,
    plans: &[Terms],
    number: u32,
    moment: u64,
    subscriber: u32,
    debt: u128,
) -> Table<E> {
    let around = Around {
        plans: plans.iter().map(plan_of).collect(),
        asked: number,
        moment: moment as u128,
        subscriber,
        cost: 1,
        debt: None,
    };
    let slots = rng.from(1, 8) as usize;
    let mut table = Table::<E>::cleared(slots);
    for slot in 0..slots {
        table.ids[slot] = id(rng, subscriber, Mood::Full);
        table.plan_numbers[slot] = lists::kept(rng, number, plans.len());
        let record: E = record(rng, &around, table.plan_numbers[slot], false);
        record.store(&mut table.columns, slot);
    }
    let slot = rng.below(slots as u64) as usize;
    table.ids[slot] = subscriber;
    table.plan_numbers[slot] = number as u8;
    let record = E::owing(rng, around.plan(number), moment as u128, debt);
    record.store(&mut table.columns, slot);
    let some = rng.below(moment + 1);
    table.newest = rng.pick(&[0, some, moment]);
    table
}

/// A newest moment for a call at this moment: mostly one that lets it pass, also just so; or one beyond it, just so, at the
/// end of the clock, or anywhere.
fn newest(rng: &mut Rng, moment: u64) -> u64 {
    match rng.below(16) {
        0 => rng.next(),
        1 => rng.pick(&[LAST, LAST + 1, u64::MAX]),
        2 | 3 => moment.saturating_add(1),
        4..=6 => moment,
        7 => moment.saturating_sub(1),
        8..=11 => 0,
        _ => rng.of_any_size(moment.max(1)).min(moment),
    }
}

fn id(rng: &mut Rng, subscriber: u32, mood: Mood) -> u32 {
    let another = another(rng, subscriber);
    match mood {
        Mood::Any | Mood::Known => rng.pick(&[0, 1, 2, 3, u32::MAX, another]),
        Mood::Full | Mood::OneFree => another,
    }
}

/// Somebody else, whose id is one bit away from the subscriber's.
fn another(rng: &mut Rng, subscriber: u32) -> u32 {
    match subscriber ^ (1 << rng.below(32)) {
        0 => subscriber + 1,
        id => id,
    }
}

/// A record near a bound, mostly by the plan of its own number; if it has to owe, one that does if a few draws find one.
fn record<E: Engine>(rng: &mut Rng, around: &Around, number: u8, owing: bool) -> E {
    let by = match rng.once_in(6) {
        true => around.asked,
        false => number as u32,
    };
    let own = around.plan(number as u32);
    let must = owing && around.knows(number);
    let mut record = E::near_a_bound(rng, around.plan(by), around.moment, around.cost);
    for _ in 0..20 {
        if !must || !record.is_free(own, around.moment) {
            break;
        }
        record = E::near_a_bound(rng, own, around.moment, around.cost);
    }
    record
}

/// Gives the table what its mood promises.
fn mend<E: Engine>(rng: &mut Rng, around: &Around, mood: Mood, table: &mut Table<E>) {
    let slots = table.ids.len() as u64;
    let anywhere = rng.below(slots);
    let slot = rng.pick(&[anywhere, slots - 1]) as usize;
    match mood {
        Mood::Any | Mood::Full => (),
        Mood::OneFree if rng.once_in(2) => table.ids[slot] = 0,
        Mood::OneFree => free(rng, around, slot, table),
        Mood::Known => {
            table.ids[slot] = around.subscriber;
            if rng.once_in(3) {
                table.ids[rng.below(slots) as usize] = around.subscriber;
            }
            let own = table.ids.iter().position(|&id| id == around.subscriber);
            know(rng, around, own.unwrap_or(slot), table);
        }
    }
}

/// Makes a slot free by a plan that is lent, if a few draws find a record that is.
fn free<E: Engine>(rng: &mut Rng, around: &Around, slot: usize, table: &mut Table<E>) {
    let number = lists::number(rng, around.plans.len());
    let plan = around.plan(number);
    for _ in 0..20 {
        let record = E::near_a_bound(rng, plan, around.moment, around.cost);
        if record.is_free(plan, around.moment) {
            table.plan_numbers[slot] = number as u8;
            record.store(&mut table.columns, slot);
            break;
        }
    }
}

/// The subscriber's own slot: whatever it has; or it owes too much for the cost; or it keeps another plan, and owes nothing, a
/// grain, or any amount up to the most.
fn know<E: Engine>(rng: &mut Rng, around: &Around, slot: usize, table: &mut Table<E>) {
    if around.moment > LAST as u128 {
        return;
    }
    let (number, debt) = match (rng.below(8), around.debt) {
        (0..=2, Some(debt)) => (around.asked, debt),
        (3..=6, _) => {
            let number = lists::other(rng, around.asked, around.plans.len());
            let full = around.plan(number).full() as u64;
            let any = rng.below(full + 1);
            (number, rng.pick(&[0, 0, 1, any, full]) as u128)
        }
        _ => return,
    };
    table.plan_numbers[slot] = number as u8;
    let record = E::owing(rng, around.plan(number), around.moment, debt);
    record.store(&mut table.columns, slot);
}

/// Makes one column shorter or longer than the others.
fn cut<E: Engine>(rng: &mut Rng, table: &mut Table<E>) {
    let slots = table.ids.len() as u64;
    let length = rng.pick(&[slots + 1, slots.saturating_sub(1), 0, 1, 1000]) as usize;
    match rng.below(table.columns.len() as u64 + 2) as usize {
        0 => table.ids.resize(length, 1),
        1 => table.plan_numbers.resize(length, 1),
        column => table.columns[column - 2].resize(length, 1),
    }
}
