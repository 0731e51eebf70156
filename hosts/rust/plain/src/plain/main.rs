//! The text program as one would write it without proofs, to set the proved one beside it: u64 throughout, a loop over the
//! slots, buffered input and output. It shares nothing with the second implementation.

mod gate;
mod line;

use gate::{Answer, Gate};
use line::Line;
use std::io::{self, BufRead, Write};
use std::process::ExitCode;

const BUFFER: usize = 1 << 16;
const UNREADABLE: Answer = [10, 0, 0, 0, 0];

fn write_answer(out: &mut impl Write, answer: Answer) -> io::Result<()> {
    let [number, subscriber, left, reset, wait] = answer;
    writeln!(out, "{number}\t{subscriber}\t{left}\t{reset}\t{wait}")
}

/// The gate that a good first line opens, or the number that ends the run.
fn first(line: &[u8]) -> Result<Gate, u64> {
    match line::read(line) {
        Some(Line::Plan(numbers)) => Gate::open(numbers),
        _ => Err(UNREADABLE[0]),
    }
}

fn unread(error: io::Error) -> String {
    format!("standard input cannot be read: {error}")
}

fn unwritten(error: io::Error) -> String {
    format!("standard output cannot be written: {error}")
}

fn run(mut input: impl BufRead, mut out: impl Write) -> Result<(), String> {
    writeln!(out, "outcome\tsubscriber\tleft\treset\twait").map_err(unwritten)?;
    let mut line = Vec::new();
    if input.read_until(b'\n', &mut line).map_err(unread)? == 0 {
        return out.flush().map_err(unwritten);
    }
    let mut gate = match first(&line) {
        Ok(gate) => gate,
        Err(number) => {
            write_answer(&mut out, [number, 0, 0, 0, 0]).map_err(unwritten)?;
            return out.flush().map_err(unwritten);
        }
    };
    line.clear();
    while input.read_until(b'\n', &mut line).map_err(unread)? > 0 {
        let answer = match line::read(&line) {
            Some(Line::Ask([moment, subscriber, cost])) => gate.ask(moment, subscriber, cost),
            _ => UNREADABLE,
        };
        write_answer(&mut out, answer).map_err(unwritten)?;
        line.clear();
    }
    out.flush().map_err(unwritten)
}

fn main() -> ExitCode {
    let input = io::BufReader::with_capacity(BUFFER, io::stdin().lock());
    let out = io::BufWriter::with_capacity(BUFFER, io::stdout().lock());
    match run(input, out) {
        Ok(()) => ExitCode::SUCCESS,
        Err(words) => {
            let _ = writeln!(io::stderr(), "plain: {words}");
            ExitCode::FAILURE
        }
    }
}
