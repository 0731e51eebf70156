//! The rows of several builds, which differ in where the linker puts each function, put together.

use crate::load::asked;
use crate::row::Row;
use crate::time::sorted;
use std::process::{Command, Stdio};

/// The rows that each build prints when it is run with these words.
pub fn run(builds: &[String], words: &[String]) -> Result<Vec<Vec<Row>>, String> {
    let mut all = Vec::new();
    for build in builds {
        let ran = Command::new(build)
            .args(words)
            .stderr(Stdio::inherit())
            .output();
        let ran = ran.map_err(|error| format!("{build} cannot be run: {error}"))?;
        if !ran.status.success() {
            return Err(format!("{build} ends with {}", ran.status));
        }
        let text = String::from_utf8_lossy(&ran.stdout);
        let rows: Option<Vec<Row>> = text.lines().map(Row::read).collect();
        all.push(rows.ok_or(format!("{build} prints no rows"))?);
    }
    Ok(all)
}

pub fn print(builds: &[Vec<Row>]) {
    println!(
        "{:17} {:13} {:>22} {:>22} {:>22} {:>20} {:>5} {:>20}   answered",
        "load", "engine", "proved", "index loop", "position", "/ index loop", "asked", "/ position"
    );
    for place in 0..builds.first().map_or(0, Vec::len) {
        let rows: Vec<&Row> = builds.iter().filter_map(|rows| rows.get(place)).collect();
        print_row(&rows);
    }
}

/// One load with one engine, from every build.
fn print_row(rows: &[&Row]) {
    let of = |number: fn(&Row) -> f64| sorted(rows.iter().map(|row| number(row)).collect());
    let times = [
        of(|row| row.medians[0]),
        of(|row| row.medians[1]),
        of(|row| row.medians[2]),
    ];
    let ratios = [
        of(|row| row.medians[0] / row.medians[1]),
        of(|row| row.medians[0] / row.medians[2]),
    ];
    let (load, engine, answered) = (&rows[0].load, &rows[0].engine, &rows[0].answered);
    let times = times.map(|times| cell(&times, 0)).join(" ");
    let [to_index, to_position] = ratios.map(|ratios| cell(&ratios, 2));
    let asked = asked(load);
    println!("{load:17} {engine:13} {times} {to_index} {asked:>5} {to_position}   {answered}");
}

/// The median, the least and the most of some numbers in order.
fn cell(numbers: &[f64], digits: usize) -> String {
    let (least, most) = (numbers[0], numbers[numbers.len() - 1]);
    let median = numbers[numbers.len() / 2];
    format!("{median:5.digits$} ({least:5.digits$} to {most:5.digits$})")
}
