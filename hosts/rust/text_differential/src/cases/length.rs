//! Lines that are too long, or just not: as the first line, in the middle, and as the last, with and without LF.

use super::Case;
use crate::program::Feed;
use crate::rng::Rng;
use crate::text::{ask, plan, PLAIN};

/// With the LF.
const LENGTHS: [usize; 14] = [
    48, 49, 50, 64, 126, 127, 128, 129, 130, 255, 256, 257, 4096, 70_000,
];
const MEGABYTE: usize = 1 << 20;

/// Makes a line of a length, without its LF.
type Filler = fn(usize) -> Vec<u8>;

const FILLERS: [Filler; 7] = [
    |length| vec![b'7'; length],
    |length| vec![b'\t'; length],
    |length| vec![0; length],
    |length| repeated(b"ask\t1000\t7\t1", length),
    |length| repeated(b"ask\t1000\t7\t1\t", length),
    |length| padded("ask\t", "1000\t7\t1", length),
    |length| padded("plan\t3\t3\t1000\t", "2", length),
];

fn repeated(text: &[u8], length: usize) -> Vec<u8> {
    text.iter().copied().cycle().take(length).collect()
}

/// A line that would be read, but for the zeros in it.
fn padded(start: &str, end: &str, length: usize) -> Vec<u8> {
    let zeros = length - start.len() - end.len();
    [start, &"0".repeat(zeros), end].concat().into_bytes()
}

pub fn all(_: &mut Rng) -> Vec<Case> {
    let mut cases = Vec::new();
    for filler in FILLERS {
        for length in LENGTHS {
            let line = [filler(length - 1), vec![b'\n']].concat();
            cases.extend(places(&line).map(Case::whole));
        }
        let line = [filler(MEGABYTE - 1), vec![b'\n']].concat();
        let [first, middle, last, _] = places(&line);
        cases.extend([first, last].map(Case::whole));
        cases.push(Case {
            input: middle,
            feed: Feed::File,
        });
    }
    cases
}

/// An input with the line first, one with it in the middle, one with it at the end, and one without its LF at the end.
fn places(line: &[u8]) -> [Vec<u8>; 4] {
    let (plan, asks) = (plan(&PLAIN), [ask(1000, 7, 1), ask(1000, 8, 2)].concat());
    let without = &line[..line.len() - 1];
    [
        [line, &plan, &asks].concat(),
        [&plan, &asks, line, &asks, line, line, &asks].concat(),
        [&plan, &asks, line].concat(),
        [&plan, &asks, without].concat(),
    ]
}
