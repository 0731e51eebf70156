//! The timed rounds, in which the contenders take turns.

use crate::call::{Ask, Plan};
use crate::clock;
use crate::compare::Agreed;
use crate::contender::{Acquire, Contender, Engine};
use crate::load::Load;
use crate::table::Table;
use std::hint::black_box;

/// The median nanoseconds per acquire of each contender.
pub fn medians(
    engine: &Engine,
    load: &Load,
    agreed: &Agreed,
    rounds: usize,
) -> Result<[f64; 3], String> {
    let mut tables = [(); 3].map(|()| engine.used_table(load.slots));
    let mut times = [(); 3].map(|()| Vec::new());
    for turn in 0..3 * rounds {
        let who = turn % 3;
        let contender = &engine.contenders[who];
        times[who].push(round(contender, &mut tables[who], load, &agreed.start));
        if tables[who] != agreed.end {
            return Err("a timed round leaves another table".to_string());
        }
    }
    Ok(times.map(|times| sorted(times)[rounds / 2]))
}

pub fn sorted(mut times: Vec<f64>) -> Vec<f64> {
    times.sort_by(f64::total_cmp);
    times
}

/// Clears the table and fills it, and times the asks alone.
fn round(contender: &Contender, table: &mut Table, load: &Load, start: &Table) -> f64 {
    let plans = black_box(load.plans);
    (contender.clear)(table);
    run_asks(contender.acquire, plans, table, &load.warm_up);
    if load.warm_up.is_empty() {
        table.copy_from(start);
    }
    let begun = clock::now();
    run_asks(contender.acquire, plans, table, &load.asks);
    (clock::now() - begun) / load.asks.len() as f64
}

/// A function of its own, by whose name valgrind finds what it is to count.
#[inline(never)]
pub fn run_asks(acquire: Acquire, plans: &[Plan], table: &mut Table, asks: &[Ask]) {
    let (acquire, mut out) = (black_box(acquire), [0; 5]);
    for ask in asks {
        acquire(plans, table, ask, &mut out);
        black_box(&mut out);
    }
}
