//! Mistakes of a writer, as changes of what it wrote. The first line is the header.

use super::Lines;
use crate::ending::{last_8, numbers};
use crate::text::{self, begins_a_run};

const TEN: &[u8] = b"10\t0\t0\t0\t0\n";

/// Changes the fields of each answer with one of these numbers.
fn each(lines: &mut Lines, numbers: &[&str], change: impl Fn(&mut Vec<String>)) {
    for line in lines.iter_mut().skip(1) {
        let text = String::from_utf8_lossy(line);
        let mut fields: Vec<String> = text.trim_end().split('\t').map(String::from).collect();
        if fields.len() == 5 && numbers.contains(&fields[0].as_str()) {
            change(&mut fields);
            *line = (fields.join("\t") + "\n").into_bytes();
        }
    }
}

pub fn wait_short(lines: &mut Lines, _: &[u8]) {
    each(lines, &["8"], |fields| {
        let wait: u64 = fields[4].parse().unwrap_or(1);
        fields[4] = (wait - 1).to_string();
    });
}

pub fn swapped(lines: &mut Lines, _: &[u8]) {
    each(lines, &["0", "8"], |fields| fields.swap(2, 3));
}

pub fn nobody(lines: &mut Lines, _: &[u8]) {
    let refusals = ["3", "5", "6", "9", "11", "13"];
    each(lines, &refusals, |fields| fields[1] = "0".to_string());
}

pub fn late_unread(lines: &mut Lines, _: &[u8]) {
    for line in lines.iter_mut().skip(1) {
        if line.starts_with(b"3\t") {
            *line = TEN.to_vec();
        }
    }
}

/// In a run, line n of the output answers line n of the input.
pub fn equal_early(lines: &mut Lines, input: &[u8]) {
    let field = |line: &[u8]| line.split(|&byte| byte == b'\t').nth(1).map(<[u8]>::to_vec);
    let mut newest = Some(b"0".to_vec());
    for (answer, ask) in lines.iter_mut().zip(text::lines(input)).skip(1) {
        if !answer.starts_with(b"0\t") {
            continue;
        }
        let (moment, subscriber) = (field(ask), field(answer).unwrap_or_default());
        if moment == newest {
            *answer = [b"11\t", &subscriber[..], b"\t0\t0\t0\n"].concat();
        }
        newest = moment;
    }
}

pub fn early_last(lines: &mut Lines, _: &[u8]) {
    each(lines, &["11"], |fields| {
        if fields[1] == "0" {
            fields[0] = "4".to_string();
        }
    });
}

pub fn corrupt_for_early(lines: &mut Lines, _: &[u8]) {
    each(lines, &["11"], |fields| fields[0] = "7".to_string());
}

pub fn owing_for_off_clock(lines: &mut Lines, _: &[u8]) {
    each(lines, &["13"], |fields| fields[0] = "12".to_string());
}

/// In a run, line n of the output answers line n of the input.
pub fn clock_short(lines: &mut Lines, input: &[u8]) {
    for (answer, ask) in lines.iter_mut().zip(text::lines(input)).skip(1) {
        if last_8((ask, answer)) {
            let subscriber = numbers(answer)[1];
            *answer = format!("13\t{subscriber}\t0\t0\t0\n").into_bytes();
        }
    }
}

pub fn off_clock_late(lines: &mut Lines, _: &[u8]) {
    each(lines, &["13"], |fields| fields[0] = "3".to_string());
}

pub fn ten_dropped(lines: &mut Lines, _: &[u8]) {
    lines.retain(|line| line != TEN);
}

pub fn ten_twice(lines: &mut Lines, _: &[u8]) {
    let twice = |line: &Vec<u8>| match line == TEN {
        true => [TEN, TEN].concat(),
        false => line.clone(),
    };
    *lines = lines.iter().map(twice).collect();
}

pub fn ten_named(lines: &mut Lines, _: &[u8]) {
    each(lines, &["10"], |fields| fields[1] = "7".to_string());
}

pub fn header_missing(lines: &mut Lines, _: &[u8]) {
    lines.remove(0);
}

pub fn last_lf_missing(lines: &mut Lines, _: &[u8]) {
    lines.last_mut().map(Vec::pop);
}

pub fn last_lost(lines: &mut Lines, _: &[u8]) {
    if lines.len() > 1 {
        lines.pop();
    }
}

pub fn going_on(lines: &mut Lines, input: &[u8]) {
    if !begins_a_run(input) {
        lines.resize(text::lines(input).count() + 1, TEN.to_vec());
    }
}

pub fn first_silent(lines: &mut Lines, input: &[u8]) {
    if !begins_a_run(input) {
        lines.truncate(1);
    }
}

pub fn plan_answered(lines: &mut Lines, input: &[u8]) {
    if begins_a_run(input) {
        lines.insert(1, b"0\t0\t0\t0\t0\n".to_vec());
    }
}
