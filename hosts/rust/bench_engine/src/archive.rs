//! The proved archive's calls that are timed.

use crate::call::{Answer, Ask, Plan};
use crate::table::Table;
use railcadence::numbers;

pub fn gcra_acquire(plans: &[Plan], table: &mut Table, ask: &Ask, out: &mut Answer) {
    numbers::gcra_acquire(
        plans.as_flattened(),
        &mut table.ids,
        &mut table.plan_numbers,
        &mut table.records,
        &mut table.newest,
        ask.moment,
        ask.subscriber,
        ask.plan,
        ask.cost,
        out,
    );
}

pub fn gcra_clear(table: &mut Table) -> Answer {
    let mut out = [0; 5];
    let (ids, plan_numbers) = (&mut table.ids, &mut table.plan_numbers);
    let (tats, newest) = (&mut table.records, &mut table.newest);
    numbers::gcra_clear(ids, plan_numbers, tats, newest, &mut out);
    out
}

pub fn token_bucket_acquire(plans: &[Plan], table: &mut Table, ask: &Ask, out: &mut Answer) {
    numbers::token_bucket_acquire(
        plans.as_flattened(),
        &mut table.ids,
        &mut table.plan_numbers,
        &mut table.records,
        &mut table.lasts,
        &mut table.newest,
        ask.moment,
        ask.subscriber,
        ask.plan,
        ask.cost,
        out,
    );
}

pub fn token_bucket_clear(table: &mut Table) -> Answer {
    let mut out = [0; 5];
    let (ids, plan_numbers) = (&mut table.ids, &mut table.plan_numbers);
    let (levels, lasts, newest) = (&mut table.records, &mut table.lasts, &mut table.newest);
    numbers::token_bucket_clear(ids, plan_numbers, levels, lasts, newest, &mut out);
    out
}
