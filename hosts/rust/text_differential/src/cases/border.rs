//! Inputs that are cut in two at the sizes that buffers have, the cut being before, in or after a line's LF or a number; and
//! inputs that end there.

use super::Case;
use crate::program::Feed;
use crate::rng::Rng;
use crate::text::{fill, plan, Terms};

const BORDERS: [usize; 12] = [
    4095, 4096, 4097, 8191, 8192, 8193, 65535, 65536, 65537, 131_071, 131_072, 131_073,
];

/// How far behind the border a line's LF may stand.
const BEHIND: [usize; 6] = [0, 1, 2, 4, 9, 20];

/// What follows the border.
const AFTER: usize = 3000;

pub fn all(rng: &mut Rng) -> Vec<Case> {
    let mut cases = Vec::new();
    for border in BORDERS {
        for behind in BEHIND {
            cases.push(cut(asks(rng, border + behind, AFTER), border));
        }
        let ends = asks(rng, border, 0);
        cases.push(Case::whole(ends.clone()));
        cases.push(Case {
            input: ends[..border - 1].to_vec(),
            feed: Feed::File,
        });
        for (before, behind) in [(128, 0), (300, 0), (100, 100), (64, 64), (3000, 1000)] {
            cases.push(cut(long_line(rng, border, before, behind), border));
        }
    }
    cases
}

fn cut(input: Vec<u8>, border: usize) -> Case {
    let feed = Feed::Pieces(vec![border]);
    Case { input, feed }
}

fn start(rng: &mut Rng) -> Vec<u8> {
    // a burst that drains in a second, in five minutes, or in 27 years
    let (period, burst) = rng.pick(&[(1000, 10), (1_000_000, 3), (86_400_000, 100_000)]);
    plan(&Terms {
        slots: rng.from(1, 40),
        limit: 10,
        period,
        burst,
    })
}

/// Asks, one of which ends at `end`, and `more` bytes of them.
fn asks(rng: &mut Rng, end: usize, more: usize) -> Vec<u8> {
    let mut text = start(rng);
    fill(rng, &mut text, end);
    if more > 0 {
        fill(rng, &mut text, end + more);
    }
    text
}

/// An unreadable line that begins `before` bytes before the border and ends `behind` bytes behind it.
fn long_line(rng: &mut Rng, border: usize, before: usize, behind: usize) -> Vec<u8> {
    let mut text = start(rng);
    fill(rng, &mut text, border - before);
    text.resize(border + behind - 1, b'1');
    text.push(b'\n');
    let end = text.len() + AFTER;
    fill(rng, &mut text, end);
    text
}
