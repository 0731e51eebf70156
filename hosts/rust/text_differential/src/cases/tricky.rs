//! Lines that are put together from fields and ends of which many are just not allowed, after a good plan. The moments mostly
//! rise, so that asks get further than 11.

use super::Case;
use crate::rng::Rng;
use crate::text::{plan, Terms};

const NUMBERS: [&str; 46] = [
    "",
    "0",
    "00",
    "01",
    "007",
    "1",
    "2",
    "7",
    "8",
    "10",
    "99",
    "1000",
    "1333",
    "1334",
    "2000",
    "+1",
    "-1",
    "-0",
    "1 ",
    " 1",
    "1.0",
    "1e3",
    "0x1",
    "1_0",
    "1,000",
    "a",
    "٣",
    "１",
    "²",
    "\u{feff}1",
    "1\0",
    "1\r",
    "4294967295",
    "4294967296",
    "4294967297",
    "9999999999",
    "4398046511103",
    "4398046511104",
    "18446744073709551615",
    "18446744073709551616",
    "18446744073709551617",
    "99999999999999999999",
    "100000000000000000000",
    "36893488147419103233",
    "340282366920938463463374607431768211457",
    "11111111111111111111111111111111111111111111111111111111111111111111111111",
];

const WORDS: [&str; 12] = [
    "ask",
    "plan",
    "Ask",
    "ASK",
    "as",
    "asks",
    "ask ",
    " ask",
    "",
    "look",
    "plans",
    "\u{feff}ask",
];
/// The usual ones: each line takes one of two, and after some lines a later two.
const MOMENTS: [&str; 7] = ["1000", "1333", "1334", "1999", "2000", "2001", "9000"];
const TABS: [&str; 6] = ["\t\t", " ", "", "\t ", "\x0b", ","];
const ENDS: [&str; 8] = [
    "\r\n", "\t\n", " \n", "\0\n", "\n\n", "\n\r", "\x0c\n", "\n\t",
];

/// One of the usual, or now and then one of the others.
fn usually<'a>(rng: &mut Rng, usual: &'a str, others: &[&'a str]) -> &'a str {
    if rng.once_in(16) {
        rng.pick(others)
    } else {
        usual
    }
}

fn number<'a>(rng: &mut Rng, usual: &[&'a str]) -> &'a str {
    if rng.once_in(5) {
        rng.pick(&NUMBERS)
    } else {
        rng.pick(usual)
    }
}

pub fn one(rng: &mut Rng) -> Case {
    let terms = Terms {
        slots: rng.from(1, 3),
        limit: 3,
        period: 1000,
        burst: 2,
    };
    let mut text = plan(&terms);
    for place in 0..rng.from(1, 40) as usize {
        text.extend(line(rng, place).bytes());
    }
    if rng.once_in(4) {
        text.pop();
    }
    Case::whole(text)
}

fn line(rng: &mut Rng, place: usize) -> String {
    let word = usually(rng, "ask", &WORDS);
    let mut line = word.to_string();
    let usual: [&[&str]; 4] = [
        &MOMENTS[place / 7..][..2],
        &["0", "1", "7", "7", "8", "8", "9", "4294967295"],
        &["0", "1", "1", "1", "2", "2", "2", "3"],
        &["0", "1", "2"],
    ];
    let fields = match (word, rng.below(16)) {
        (_, 0) => rng.below(5) as usize,
        ("plan", _) => 4,
        _ => 3,
    };
    for usual in usual.into_iter().take(fields) {
        line += usually(rng, "\t", &TABS);
        line += number(rng, usual);
    }
    line + usually(rng, "\n", &ENDS)
}
