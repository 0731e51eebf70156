//! Tables of many sizes that are full to the last slot, and whose slots then get free one by one.

use super::Case;
use crate::rng::Rng;
use crate::text::{ask, plan, Terms};

const SLOTS: [u64; 10] = [1, 2, 3, 4, 255, 256, 257, 512, 1023, 1024];

/// A whole burst drains in so many milliseconds.
const DRAIN: u64 = 20_000;

pub fn all(_: &mut Rng) -> Vec<Case> {
    SLOTS.map(|slots| Case::whole(one(slots))).into()
}

fn one(slots: u64) -> Vec<u8> {
    let terms = Terms {
        slots,
        limit: 1,
        period: DRAIN / 2,
        burst: 2,
    };
    let mut text = plan(&terms);
    let stranger = slots + 1;
    // slot n is taken at moment n, and is asked for while all are taken
    (0..slots).for_each(|n| text.extend(ask(n, n + 1, 2)));
    (0..slots).for_each(|n| text.extend(ask(slots, n + 1, 1)));
    text.extend(ask(slots, stranger, 1));
    // slot n gets free, after a millisecond in which no slot is, and a stranger takes it; its old owner finds none
    for n in 0..slots {
        text.extend(ask(DRAIN + n - 1, stranger + n, 2));
        text.extend(ask(DRAIN + n, stranger + n, 2));
        text.extend(ask(DRAIN + n, n + 1, 1));
    }
    (0..slots).for_each(|n| text.extend(ask(DRAIN + slots, stranger + n, 1)));
    text
}
