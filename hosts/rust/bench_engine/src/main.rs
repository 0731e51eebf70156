//! Times an acquire of the proved engines, through their C interface, beside plain ones. `USAGE` says how to run it.

mod archive;
mod call;
mod clock;
mod compare;
mod contender;
mod count;
#[path = "../../plain/src/draws.rs"]
mod draws;
mod layouts;
mod load;
mod plain;
mod plans;
mod row;
mod table;
mod time;

use compare::NUMBERS;
use contender::{Engine, ENGINES};
use load::{Kind, Load, KINDS};
use plans::ONE;
use row::Row;
use std::env;
use std::process::ExitCode;

const USAGE: &str = "\
bench_engine [--asks N] [--rounds N] [--seed N] [--count | BUILD..]
  Asks the proved archive and two plain limiters the same, in turns, and compares all answers and the final tables.
  --asks N    how many asks of each load (default 50000); a tenth of it on 65535 slots, a fifth where sixteen plans fill 4096
  --rounds N  how often each is timed (default 5, the least)
  --seed N    draws other asks (default 1)
  --count     has valgrind count the instructions, in place of a comparison and times
  --only N    asks one of them alone, once: what --count runs under valgrind
  BUILD..     runs these builds of itself in its place, and prints a table of what they report
Ends with 0, with 1 if answers or tables differ or something cannot be run, and with 2 if not called as above.";

struct Options {
    asks: usize,
    rounds: usize,
    seed: u64,
    count: bool,
    /// The place of the only contender among all, counted by loads, in each by engines, and in each by contenders.
    only: Option<usize>,
    builds: Vec<String>,
}

impl Options {
    /// The words that give another build the same options.
    fn words(&self) -> Vec<String> {
        let (asks, rounds, seed) = (self.asks, self.rounds, self.seed);
        let text = format!("--asks {asks} --rounds {rounds} --seed {seed}");
        text.split(' ').map(String::from).collect()
    }

    /// What is asked of every contender.
    fn terms(&self) -> String {
        let [[limit, period, burst]] = ONE;
        format!(
            "{limit} units in {period} ms, burst {burst}; sixteen plans that differ in their bursts alone where it is 'bursts', and \
             sixteen that differ widely where it is 'plans'\n\
             4096 slots, but 'shops' has 300, '1024' so many, 'most' 65535 and 'first slot' 16; {} asks of each load, a tenth of it \
             where it is 'most', and a fifth where sixteen plans fill the table; seed {}",
            self.asks, self.seed
        )
    }
}

fn read(mut words: impl Iterator<Item = String>) -> Option<Options> {
    let mut options = Options {
        asks: 50_000,
        rounds: 5,
        seed: 1,
        count: false,
        only: None,
        builds: Vec::new(),
    };
    while let Some(word) = words.next() {
        if word == "--count" {
            options.count = true;
            continue;
        }
        if !word.starts_with("--") {
            options.builds.push(word);
            continue;
        }
        let number: u64 = words.next()?.parse().ok()?;
        match word.as_str() {
            "--asks" => options.asks = number as usize,
            "--rounds" => options.rounds = number as usize,
            "--seed" => options.seed = number,
            "--only" => options.only = Some(number as usize),
            _ => return None,
        }
    }
    (options.rounds >= 5 && options.asks > 0).then_some(options)
}

/// How many asks got each number.
fn numbers(counts: &[u64; NUMBERS]) -> String {
    let seen = counts.iter().enumerate().filter(|(_, &count)| count > 0);
    let words: Vec<String> = seen.map(|(n, count)| format!("{count} x {n}")).collect();
    words.join(", ")
}

/// Compares and times one load with one engine.
fn measure(options: &Options, engine: &Engine, kind: &Kind) -> Result<Row, String> {
    let load = Load::new(kind, options.seed, options.asks);
    let in_words = |words| format!("{}, {}: {words}", kind.name, engine.name);
    let agreed = compare::compare(engine, &load).map_err(in_words)?;
    let medians = time::medians(engine, &load, &agreed, options.rounds).map_err(in_words)?;
    Ok(Row {
        load: kind.name.to_string(),
        engine: engine.name.to_string(),
        answered: numbers(&agreed.counts),
        medians,
    })
}

/// Every load with every engine.
fn pairs() -> impl Iterator<Item = (&'static Kind, &'static Engine)> {
    KINDS
        .iter()
        .flat_map(|kind| ENGINES.iter().map(move |engine| (kind, engine)))
}

fn measure_all(options: &Options) -> Result<(), String> {
    for (kind, engine) in pairs() {
        println!("{}", measure(options, engine, kind)?);
    }
    Ok(())
}

fn run_builds(options: &Options) -> Result<(), String> {
    println!(
        "{}; {} rounds in each of {} builds",
        options.terms(),
        options.rounds,
        options.builds.len()
    );
    println!(
        "ns per acquire, and proved divided by plain: the median of the builds (the least to the most); \
         'asked' is what / index loop is to be at most"
    );
    let rows = layouts::run(&options.builds, &options.words())?;
    layouts::print(&rows);
    Ok(())
}

fn main() -> ExitCode {
    let Some(options) = read(env::args().skip(1)) else {
        eprintln!("{USAGE}");
        return ExitCode::from(2);
    };
    let done = match options.only {
        Some(place) => count::ask_one(&options, place),
        None if options.count => count::print(&options),
        None if options.builds.is_empty() => measure_all(&options),
        None => run_builds(&options),
    };
    match done {
        Ok(()) => ExitCode::SUCCESS,
        Err(words) => {
            eprintln!("bench_engine: {words}");
            ExitCode::from(1)
        }
    }
}
