//! Texts that were good before some of their bytes were changed.

use super::run::Run;
use super::Case;
use crate::program::Feed;
use crate::rng::Rng;

/// Put in somewhere, or in place of a byte.
const BYTES: [&[u8]; 20] = [
    b"\t",
    b"\n",
    b"\r",
    b"\r\n",
    b"\0",
    b" ",
    b"+",
    b"-",
    b"0",
    b"1",
    b"9",
    b".",
    b"\xef\xbb\xbf",
    b"\xff",
    b"\x80",
    b"\t\t",
    b"\n\n",
    b"ask",
    b"plan",
    b"\x7f",
];

/// Put in as lines.
const LINES: [&[u8]; 10] = [
    b"\n",
    b"plan\t3\t3\t1000\t2\n",
    b"plan\t1\t0\t0\t0\n",
    b"plan\n",
    b"ask\n",
    b"ask\t01\t1\t1\n",
    b"ask\t1\t1\t1\r\n",
    b"ask\t18446744073709551616\t1\t1\n",
    b"ask\t1\t4294967296\t1\n",
    b"outcome\tsubscriber\tleft\treset\twait\n",
];

pub fn whole(rng: &mut Rng) -> Case {
    Case::whole(text(rng))
}

pub fn in_pieces(rng: &mut Rng) -> Case {
    let input = text(rng);
    let mut sizes = Vec::new();
    let most = rng.pick(&[3, 30, 300]);
    while sizes.iter().sum::<usize>() < input.len().min(100 * most) {
        sizes.push(rng.from(1, most as u64) as usize);
    }
    Case {
        input,
        feed: Feed::Pieces(sizes),
    }
}

fn text(rng: &mut Rng) -> Vec<u8> {
    let slots = rng.from(1, 5);
    let count = rng.of_any_size(60);
    let mut lines = Run::new(rng, slots).text(rng, count);
    for _ in 0..rng.below(4) {
        damage_lines(rng, &mut lines);
    }
    // mostly the first line stays, so that the run goes on
    let kept = if rng.once_in(10) { 0 } else { lines[0].len() };
    let mut text = lines.concat();
    for _ in 0..rng.below(6) {
        damage_bytes(rng, &mut text, kept);
    }
    if rng.once_in(6) {
        text.truncate(rng.below(text.len() as u64 + 1) as usize);
    }
    text
}

/// Behind the first line.
fn damage_lines(rng: &mut Rng, lines: &mut Vec<Vec<u8>>) {
    let at = rng.from(1, lines.len() as u64) as usize;
    let other = rng.from(1, lines.len() as u64 - 1) as usize;
    match rng.below(6) {
        0 if at < lines.len() => lines.swap(at, other),
        1 if at < lines.len() => lines.insert(other, lines[at].clone()),
        2 => lines.insert(at, long(rng)),
        _ => lines.insert(at, rng.pick(&LINES).to_vec()),
    }
}

fn long(rng: &mut Rng) -> Vec<u8> {
    let length = rng.pick(&[127, 128, 129, 256, 1000]);
    let byte = rng.pick(b"1\ta ");
    [vec![byte; length - 1], vec![b'\n']].concat()
}

/// Behind the first `kept` bytes.
fn damage_bytes(rng: &mut Rng, text: &mut Vec<u8>, kept: usize) {
    if text.len() <= kept + 1 {
        return;
    }
    let at = rng.from(kept as u64, text.len() as u64 - 2) as usize;
    match rng.below(7) {
        0 => text[at] ^= 1 << rng.below(8),
        1 => drop(text.remove(at)),
        2 => text.insert(at, text[at]),
        3 => text.swap(at, at + 1),
        4 => text[at] = rng.next() as u8,
        5 => drop(text.splice(at..at, rng.pick(&BYTES).iter().copied())),
        _ => drop(text.splice(at..=at, rng.pick(&BYTES).iter().copied())),
    }
}
