//! How many instructions an acquire takes, as valgrind counts them, whatever else the machine does.

use crate::load::Load;
use crate::time::run_asks;
use crate::{pairs, Options};
use std::env;
use std::process::Command;

/// Counts what is done in `run_asks` alone.
const VALGRIND: [&str; 3] = [
    "--tool=callgrind",
    "--callgrind-out-file=/dev/null",
    "--toggle-collect=*run_asks*",
];

/// A line for each load with each engine.
pub fn print(options: &Options) -> Result<(), String> {
    println!("{}", options.terms());
    println!(
        "instructions per acquire, with those of the loop that asks, and proved divided by plain"
    );
    println!(
        "{:17} {:13} {:>10} {:>10} {:>10} {:>12} {:>10}",
        "load", "engine", "proved", "index loop", "position", "/ index loop", "/ position"
    );
    for (place, (kind, engine)) in pairs().enumerate() {
        let asks = Load::new(kind, options.seed, options.asks).asks.len() as f64;
        let each = |who| Ok::<f64, String>(instructions(options, 3 * place + who)? / asks);
        let (proved, index, position) = (each(0)?, each(1)?, each(2)?);
        let (to_index, to_position) = (proved / index, proved / position);
        let (load, engine) = (kind.name, engine.name);
        println!("{load:17} {engine:13} {proved:10.0} {index:10.0} {position:10.0} {to_index:12.2} {to_position:10.2}");
    }
    Ok(())
}

/// Of all asks of the contender at this place.
fn instructions(options: &Options, place: usize) -> Result<f64, String> {
    let program = env::current_exe().map_err(|error| error.to_string())?;
    let mut valgrind = Command::new("valgrind");
    valgrind.args(VALGRIND).arg(program).args(options.words());
    let ran = valgrind.args(["--only", &place.to_string()]).output();
    let ran = ran.map_err(|error| format!("valgrind cannot be run: {error}"))?;
    let text = String::from_utf8_lossy(&ran.stderr);
    let count = text.split("Collected : ").nth(1);
    let count = count.and_then(|rest| rest.split_whitespace().next()?.parse().ok());
    count.ok_or(format!("valgrind counts nothing: {text}"))
}

/// Asks the contender at this place what is timed otherwise.
pub fn ask_one(options: &Options, place: usize) -> Result<(), String> {
    let (kind, engine) = pairs().nth(place / 3).ok_or("there are not so many")?;
    let load = Load::new(kind, options.seed, options.asks);
    let acquire = engine.contenders[place % 3].acquire;
    let table = &mut engine.spent_table(&load);
    run_asks(acquire, load.plans, table, &load.asks);
    Ok(())
}
