//! The bucket engine.

use super::search::Search;
use super::{admit, check, full, limit, price, refuse, throttle};
use crate::call::{Answer, Ask, Plan};
use crate::table::Table;

pub fn acquire<S: Search>(plans: &[Plan], table: &mut Table, ask: &Ask, out: &mut Answer) {
    let (ids, numbers) = (&mut table.ids[..], &mut table.plan_numbers[..]);
    let (levels, lasts) = (&mut table.records[..], &mut table.lasts[..]);
    let equal = [numbers.len(), levels.len(), lasts.len()] == [ids.len(); 3];
    let plan = match check(plans, equal.then_some(ids.len()), table.newest, ask) {
        Ok(plan) => plan,
        Err(number) => return refuse(number, ask, out),
    };
    let is_free = |number: u8, level: u64, last: u64| {
        let plan = plans.get(number as usize);
        plan.is_some_and(|plan| is_full(plan, level, last, ask))
    };
    let full = full(&plan);
    let (slot, level) = match S::own(ids, ask.subscriber) {
        Some(own) => match own_level(plans, numbers[own], levels[own], lasts[own], ask) {
            Ok(level) => (own, full.min(level)),
            Err(number) => return refuse(number, ask, out),
        },
        None => match S::free_bucket(ids, numbers, levels, lasts, is_free) {
            Some(free) => (free, full),
            None => return refuse(9, ask, out),
        },
    };
    let price = price(&plan, ask.cost);
    if level < price {
        return throttle(&plan, ask, full - level, out);
    }
    ids[slot] = ask.subscriber;
    numbers[slot] = ask.plan as u8;
    levels[slot] = level - price;
    lasts[slot] = ask.moment;
    table.newest = ask.moment;
    admit(&plan, ask, full - (level - price), out);
}

fn is_full(plan: &Plan, level: u64, last: u64, ask: &Ask) -> bool {
    let full = full(plan);
    last <= ask.moment && level <= full && level + (ask.moment - last) * limit(plan) >= full
}

/// What the subscriber's own slot now has, or more than any bucket if nothing is owed under another plan; or the number of a
/// refusal.
fn own_level(plans: &[Plan], number: u8, level: u64, last: u64, ask: &Ask) -> Result<u64, u64> {
    let plan = plans.get(number as usize).ok_or(7u64)?;
    if level > full(plan) || last > ask.moment {
        return Err(7);
    }
    if number as u32 == ask.plan {
        return Ok(level + (ask.moment - last) * limit(plan));
    }
    if !is_full(plan, level, last, ask) {
        return Err(12);
    }
    Ok(u64::MAX)
}
