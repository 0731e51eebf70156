//! Compares the proved archive, through its C interface, with the second implementation: after every call the answer, every
//! column and the newest moment, under any list of plans, on any table and on tables of the most slots and of one more; over a run
//! both engines with the book, also where subscribers change their plans, where the clock falls and where it must remember long,
//! and what each engine admits with the ceiling; where a wait ends; what a reset is worth; and the fields for HTTP.
//! `options::USAGE` says how to run it.

mod call;
mod ceiling;
mod choose;
mod compare;
mod counts;
mod course;
mod ending;
mod engine;
mod greedy;
mod http;
mod joint;
mod kinds;
mod lasting;
mod lent;
mod list;
mod lists;
mod offered;
mod options;
mod out;
mod reset;
mod rng;
mod runs;
mod scene;
mod single;
mod spoil;
mod steady;
mod tally;
mod trial;

use compare::Difference;
use kinds::{
    Kind, BETWEEN, BEYOND, ENDING, FALLING, GREEDY, LASTING, MOST, RISING, SINGLE, STEADY, WIDE,
};
use options::{Options, Wish};
use std::env;
use std::io::{self, Write};
use std::process::ExitCode;
use tally::Tally;
use trial::Trial;

type Run = fn(&mut Trial) -> Result<(), Difference>;

/// What was compared, for the report.
struct Compared {
    tallies: Vec<Tally>,
    stretches: ceiling::Stretches,
    offered: offered::Offered,
    lasting: lasting::Remembered,
    ends: ending::Ends,
    resets: reset::Resets,
    fields: http::Fields,
}

/// The kinds of which nothing but the tally is reported, and how many calls each makes of so many.
fn plain_kinds(calls: u64) -> [(&'static Kind, u64, Run); 8] {
    let part = |percent| calls / 100 * percent;
    // 2000 reach what they must; more of them only in longer comparisons, since a call on so many slots takes its time
    let limit = (calls / 75).min(2000).max(calls / 2000);
    [
        (&MOST, limit, single::most),
        (&BEYOND, limit / 2, single::beyond),
        (&RISING, part(10), runs::rising),
        (&FALLING, part(25), runs::falling),
        (&BETWEEN, part(5), runs::between),
        (&WIDE, part(3), runs::wide),
        (&GREEDY, part(2), greedy::run),
        (&STEADY, 3001, steady::run),
    ]
}

/// Every kind of run, where a wait ends, what a reset is worth, and the fields for HTTP.
fn compare_all(options: &Options) -> Result<Compared, Difference> {
    let part = |percent| options.calls / 100 * percent;
    let spoil = options.spoil.as_ref().map(|(_, spoil)| *spoil);
    let trial = |kind, calls| Trial::new(kind, options.seed, calls, spoil);
    let mut single = trial(&SINGLE, part(55));
    let offered = single::any(&mut single)?;
    let mut trials = vec![single];
    for (kind, calls, run) in plain_kinds(options.calls) {
        let mut trial = trial(kind, calls);
        run(&mut trial)?;
        trials.push(trial);
    }
    // so many that runs of every sort are among them
    let mut lasting = trial(&LASTING, part(2).max(8000));
    let remembered = lasting::run(&mut lasting)?;
    let mut ending = trial(&ENDING, part(5));
    let ends = ending::run(&mut ending)?;
    trials.extend([lasting, ending]);
    Ok(Compared {
        stretches: ceiling::none().add_all(trials.iter().map(|trial| &trial.stretches)),
        tallies: trials.into_iter().flat_map(|trial| trial.tallies).collect(),
        offered,
        lasting: remembered,
        ends,
        resets: reset::run(options.seed, part(5), spoil)?,
        fields: http::run(options.seed, part(5), spoil)?,
    })
}

/// How often each number occurred.
fn report(tallies: &[Tally]) -> String {
    let total: u64 = tallies.iter().map(Tally::calls).sum();
    let lines: String = tallies.iter().map(Tally::lines).collect();
    format!(
        "{total} calls agree; how often each number was answered, and the most slots of a table:\n{}\n{lines}",
        Tally::header()
    )
}

/// Writes to standard output; if that fails, says so, and with what exit status to end.
fn say(text: &str) -> Result<(), u8> {
    io::stdout().write_all(text.as_bytes()).map_err(|error| {
        eprintln!("standard output cannot be written: {error}");
        2
    })
}

/// The whole comparison, and with what exit status it fails.
fn run(options: &Options) -> Result<(), u8> {
    say(&format!("{}\n", options.again()))?;
    let compared = compare_all(options).map_err(|difference| {
        eprintln!("{difference}The same again: {}", options.again());
        1
    })?;
    say(&report(&compared.tallies))?;
    say(&compared.offered.line())?;
    say(&compared.stretches.line())?;
    say(&compared.lasting.line())?;
    say(&compared.ends.line())?;
    say(&compared.resets.line())?;
    say(&compared.fields.line())?;
    let impossible = compared.tallies.iter().flat_map(Tally::impossible);
    let impossible: Vec<String> = impossible.collect();
    if !impossible.is_empty() {
        eprintln!(
            "These cannot occur there by the rules, and did: {}. The same again: {}",
            impossible.join(", "),
            options.again()
        );
        return Err(1);
    }
    let missing = compared.tallies.iter().flat_map(Tally::missing);
    let missing = missing.chain(compared.offered.missing());
    let missing = missing.chain(compared.stretches.missing());
    let missing = missing.chain(compared.lasting.missing());
    let missing = missing.chain(compared.ends.missing());
    let missing = missing.chain(compared.resets.missing());
    let missing: Vec<String> = missing.chain(compared.fields.missing()).collect();
    if missing.is_empty() {
        return Ok(());
    }
    eprintln!(
        "These never occurred, so nothing was compared there: {}. More calls may reach them (--calls).",
        missing.join(", ")
    );
    Err(3)
}

fn main() -> ExitCode {
    let ended = match options::read(env::args().skip(1)) {
        Ok(Wish::Run(options)) => run(&options),
        Ok(Wish::List) => say(&spoil::list()),
        Err(words) => {
            eprintln!("{words}\n{}", options::USAGE);
            Err(2)
        }
    };
    ended.map_or_else(ExitCode::from, |()| ExitCode::SUCCESS)
}
