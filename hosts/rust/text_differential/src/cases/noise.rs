//! Bytes at random: any, or of the letters that texts are made of; alone or after a good plan.

use super::Case;
use crate::program::Feed;
use crate::rng::Rng;
use crate::text::{plan, PLAIN};

const LETTERS: &[u8] = b"ask\tplan\t0123456789\n\n\t\t\r\0 +-";
const PARTS: [&[u8]; 10] = [
    b"ask\t",
    b"plan\t",
    b"1",
    b"0",
    b"7",
    b"1000",
    b"\t",
    b"\n",
    b"\t1\t1\n",
    b"ask\t5\t1\t1\n",
];

pub fn one(rng: &mut Rng) -> Case {
    let mut input = match rng.once_in(4) {
        true => Vec::new(),
        false => plan(&PLAIN),
    };
    let size = rng.of_any_size(5000);
    let sort = rng.below(3);
    for _ in 0..size {
        match sort {
            0 => input.push(rng.next() as u8),
            1 => input.push(rng.pick(LETTERS)),
            _ => input.extend(rng.pick(&PARTS)),
        }
    }
    let feed = match rng.once_in(4) {
        true => Feed::File,
        false => Feed::Whole,
    };
    Case { input, feed }
}
