//! How often each number was answered, by kind of case, how many lines of each sort there were, and how often the archive gave
//! each result; and what of this must have occurred and what not.

use crate::cases::Kind;
use crate::ending::{first_13, last_8, Answered};
use crate::text::{begins_a_run, lines};

/// What a line is to the reader, the first sort that fits; of the asks, those where a wait ends with the clock or just not.
#[derive(Clone, Copy)]
enum Sort {
    GoodFirst,
    RefusedFirst,
    UnreadableFirst,
    AfterTheEnd,
    Last8,
    First13,
    Ask,
    WithoutLf,
    TooLong,
    Empty,
    WithCr,
    WithNul,
    SecondPlan,
    FourFields,
    Other,
}

use Sort::*;

const SORTS: [(Sort, &str); 15] = [
    (GoodFirst, "good first line"),
    (RefusedFirst, "first line refused with 1 or 2"),
    (UnreadableFirst, "first line unreadable"),
    (AfterTheEnd, "line after the end of the run"),
    (Last8, "ask that must wait until the clock's last moment"),
    (
        First13,
        "ask a millisecond later that gets 13 in place of such a wait",
    ),
    (Ask, "ask that can be read: other"),
    (WithoutLf, "unreadable: without LF"),
    (TooLong, "unreadable: longer than 128 bytes"),
    (Empty, "unreadable: empty"),
    (WithCr, "unreadable: CR at its end"),
    (WithNul, "unreadable: with a NUL"),
    (SecondPlan, "unreadable: a second plan line"),
    (FourFields, "unreadable: an ask of four fields"),
    (Other, "unreadable: other"),
];

const UNREADABLE: usize = 10;
/// A record that no admission can have left, and somebody who comes under another plan: a text, which has one plan, cannot come to
/// either.
const CORRUPT: usize = 7;
const OTHER_PLAN: usize = 12;
/// A wait that does not end within the clock.
const OFF_CLOCK: usize = 13;
const NUMBERS: [usize; 14] = [
    0, 1, 2, 3, 4, 5, 6, CORRUPT, 8, 9, UNREADABLE, 11, OTHER_PLAN, OFF_CLOCK,
];

/// Of `railcadence_transcribe`, by their numbers.
const RESULTS: [&str; 3] = [
    "text written by the archive",
    "columns too short for the archive",
    "output too short for the archive",
];

pub struct Tally {
    pub cases: u64,
    /// By kind of case, and by number.
    numbers: Vec<(&'static str, &'static [usize], [u64; NUMBERS.len()])>,
    sorts: [u64; SORTS.len()],
    results: [u64; RESULTS.len()],
}

/// The number that an answer begins with.
fn number(answer: &[u8]) -> usize {
    let digits = answer.iter().take_while(|byte| byte.is_ascii_digit());
    digits.fold(0, |number, digit| 10 * number + (digit - b'0') as usize)
}

/// The place of a number in `NUMBERS`.
fn place(number: usize) -> usize {
    let place = NUMBERS.iter().position(|&known| known == number);
    place.expect("a number of the documents")
}

/// Of the last of these lines.
fn sort(lines: &[Answered]) -> Sort {
    let (line, answer) = lines[lines.len() - 1];
    match number(answer) {
        UNREADABLE => unreadable_sort(line),
        8 if last_8((line, answer)) => Last8,
        OFF_CLOCK if lines.last_chunk().is_some_and(|four| first_13(*four)) => First13,
        _ => Ask,
    }
}

fn unreadable_sort(line: &[u8]) -> Sort {
    let fields = line.split(|&byte| byte == b'\t').count();
    match line {
        _ if !line.ends_with(b"\n") => WithoutLf,
        _ if line.len() > 128 => TooLong,
        b"\n" => Empty,
        _ if line.ends_with(b"\r\n") => WithCr,
        _ if line.contains(&0) => WithNul,
        _ if line.starts_with(b"plan\t") => SecondPlan,
        _ if line.starts_with(b"ask\t") && fields == 4 => FourFields,
        _ => Other,
    }
}

impl Tally {
    pub fn new() -> Tally {
        Tally {
            cases: 0,
            numbers: Vec::new(),
            sorts: [0; SORTS.len()],
            results: [0; RESULTS.len()],
        }
    }

    pub fn begin(&mut self, kind: &Kind) {
        let counts = [0; NUMBERS.len()];
        self.numbers.push((kind.name, kind.reach, counts));
    }

    /// Counts a case that was compared.
    pub fn count(&mut self, input: &[u8], output: &[u8]) {
        self.cases += 1;
        let answers: Vec<usize> = lines(output).skip(1).map(number).collect();
        let (_, _, counts) = self.numbers.last_mut().expect("a kind");
        answers
            .iter()
            .for_each(|&number| counts[place(number)] += 1);
        if !begins_a_run(input) {
            return self.count_ended(lines(input).count() as u64, &answers);
        }
        self.add(GoodFirst, 1);
        // in a run, line n of the output answers line n of the input
        let all: Vec<Answered> = lines(input).zip(lines(output)).collect();
        for place in 1..all.len() {
            self.add(sort(&all[..=place]), 1);
        }
    }

    /// Counts calls of the archive that were compared.
    pub fn count_results(&mut self, results: &[u64]) {
        for &result in results {
            self.results[result as usize] += 1;
        }
    }

    /// A run of so many lines that ended at its first, or is empty.
    fn count_ended(&mut self, lines: u64, answers: &[usize]) {
        match answers {
            [] => return,
            [UNREADABLE, ..] => self.add(UnreadableFirst, 1),
            _ => self.add(RefusedFirst, 1),
        }
        self.add(AfterTheEnd, lines - 1);
    }

    fn add(&mut self, sort: Sort, lines: u64) {
        self.sorts[sort as usize] += lines;
    }

    pub fn table(&self) -> String {
        let heads = NUMBERS.iter().map(|number| format!("{number:>8}"));
        let heads: String = heads.collect();
        let mut text = format!("{:10}{heads}\n", "");
        for (name, _, counts) in &self.numbers {
            let cells: String = counts.iter().map(|count| format!("{count:>8}")).collect();
            text += &format!("{name:10}{cells}\n");
        }
        text += "how many lines of each sort were read:\n";
        for (sort, words) in SORTS {
            text += &format!("{:>10}  {words}\n", self.sorts[sort as usize]);
        }
        text += "how often the archive gave each result:\n";
        for (count, words) in self.results.iter().zip(RESULTS) {
            text += &format!("{count:>10}  {words}\n");
        }
        text
    }

    /// What cannot have occurred and did, in words.
    pub fn impossible(&self) -> Vec<String> {
        let mut found = Vec::new();
        for (name, _, counts) in &self.numbers {
            let so = |&number: &usize| counts[place(number)] > 0;
            let impossible = [CORRUPT, OTHER_PLAN].into_iter().filter(so);
            found.extend(impossible.map(|number| format!("{name} {number}")));
        }
        found
    }

    /// What should have occurred and did not, in words.
    pub fn missing(&self) -> Vec<String> {
        let mut missing = Vec::new();
        for (name, reach, counts) in &self.numbers {
            let never = reach.iter().filter(|&&number| counts[place(number)] == 0);
            missing.extend(never.map(|number| format!("{name} {number}")));
        }
        let never = SORTS
            .iter()
            .filter(|(sort, _)| self.sorts[*sort as usize] == 0);
        missing.extend(never.map(|(_, words)| words.to_string()));
        let never = self.results.iter().zip(RESULTS);
        let never = never.filter(|(count, _)| **count == 0);
        missing.extend(never.map(|(_, words)| words.to_string()));
        missing
    }
}
