//! One case, given to the program and to the second implementation; and a difference between their outputs in words.

use crate::cases::Case;
use crate::program::{Ended, Outcome, Program};
use crate::spoil::{self, Spoil};
use crate::text::{begins_a_run, lines};
use model::text::transcript;
use std::io;

/// How many bytes of a line are shown.
const MOST_SHOWN: usize = 200;

/// What is wrong, in words, and both outputs.
pub struct Difference {
    pub words: String,
    pub expected: Vec<u8>,
    pub got: Vec<u8>,
}

/// The output on which both agree, or a difference. An error means that the program could not be started.
pub fn compare(
    program: &Program,
    case: &Case,
    spoil: Option<Spoil>,
) -> io::Result<Result<Vec<u8>, Difference>> {
    let expected = spoil::expected(spoil, &case.input, transcript(&case.input));
    let fed = spoil::input(spoil, &case.input);
    let most = 2 * expected.len() + (1 << 20);
    let (output, mut words) = match program.run(&fed, &case.feed, most)? {
        Outcome::Stopped(output, words) => (output, vec![words]),
        Outcome::Ended(ended) => {
            let words = ending(&ended, spoil);
            (ended.output, words)
        }
    };
    let got = spoil::output(spoil, &case.input, output);
    if got != expected {
        words.push(first_difference(&case.input, &expected, &got));
    }
    if words.is_empty() {
        return Ok(Ok(expected));
    }
    let words = words.join("\n  ");
    Ok(Err(Difference {
        words,
        expected,
        got,
    }))
}

/// What is wrong with the way it ended.
fn ending(ended: &Ended, spoil: Option<Spoil>) -> Vec<String> {
    let mut words = Vec::new();
    if matches!(spoil, Some(Spoil::EndsBadly)) {
        words.push("it is taken to have ended with a status that is not 0".to_string());
    } else if !ended.status.success() {
        words.push(format!("it ended with {}", ended.status));
    }
    if !ended.errors.is_empty() {
        let said = shown(ended.errors.as_bytes());
        words.push(format!("it said on standard error {said}"));
    }
    words
}

/// The first line in which the outputs differ, with the line of input that it answers.
fn first_difference(input: &[u8], expected: &[u8], got: &[u8]) -> String {
    let same = lines(expected).zip(lines(got)).take_while(|(a, b)| a == b);
    let place = same.count();
    let line = |text| lines(text).nth(place).map_or("nothing".to_string(), shown);
    let answers = match place {
        0 => "the header".to_string(),
        // in a run, line n of the output answers line n of the input
        _ if begins_a_run(input) => line(input),
        1 => lines(input).next().map_or("nothing".to_string(), shown),
        _ => "nothing".to_string(),
    };
    format!(
        "line {} of the output differs\n    answers   {answers}\n    expected  {}\n    got       {}",
        place + 1,
        line(expected),
        line(got)
    )
}

/// A line with its odd bytes made visible.
fn shown(line: &[u8]) -> String {
    let start = &line[..line.len().min(MOST_SHOWN)];
    match line.len() - start.len() {
        0 => format!("\"{}\"", start.escape_ascii()),
        more => format!("\"{}\" and {more} bytes more", start.escape_ascii()),
    }
}
