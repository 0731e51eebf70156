//! The paced engine.

use super::search::Search;
use super::{admit, check, full, limit, price, refuse, throttle};
use crate::call::{Answer, Ask, Plan};
use crate::table::Table;

pub fn acquire<S: Search>(plans: &[Plan], table: &mut Table, ask: &Ask, out: &mut Answer) {
    let (ids, numbers) = (&mut table.ids[..], &mut table.plan_numbers[..]);
    let tats = &mut table.records[..];
    let equal = ids.len() == numbers.len() && ids.len() == tats.len();
    let plan = match check(plans, equal.then_some(ids.len()), table.newest, ask) {
        Ok(plan) => plan,
        Err(number) => return refuse(number, ask, out),
    };
    let is_free = |number: u8, tat: u64| {
        let plan = plans.get(number as usize);
        plan.is_some_and(|plan| tat <= ask.moment * limit(plan))
    };
    let (slot, tat) = match S::own(ids, ask.subscriber) {
        Some(own) => match own_tat(plans, numbers[own], tats[own], ask) {
            Ok(tat) => (own, tat),
            Err(number) => return refuse(number, ask, out),
        },
        None => match S::free_tat(ids, numbers, tats, is_free) {
            Some(free) => (free, 0),
            None => return refuse(9, ask, out),
        },
    };
    let now = ask.moment * limit(&plan);
    let tat = tat.max(now);
    let next = tat + price(&plan, ask.cost);
    if next > now + full(&plan) {
        return throttle(&plan, ask, tat - now, out);
    }
    ids[slot] = ask.subscriber;
    numbers[slot] = ask.plan as u8;
    tats[slot] = next;
    table.newest = ask.moment;
    admit(&plan, ask, next - now, out);
}

/// The TAT of the subscriber's own slot, or none if nothing is owed under another plan; or the number of a refusal.
fn own_tat(plans: &[Plan], number: u8, tat: u64, ask: &Ask) -> Result<u64, u64> {
    let plan = plans.get(number as usize).ok_or(7u64)?;
    let now = ask.moment * limit(plan);
    if tat > now + full(plan) {
        return Err(7);
    }
    if number as u32 == ask.plan {
        return Ok(tat);
    }
    if tat > now {
        return Err(12);
    }
    Ok(0)
}
