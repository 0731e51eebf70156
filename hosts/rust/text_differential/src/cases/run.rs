//! Runs under one plan: a clock that mostly creeps and in some falls, few or many subscribers for the slots, and costs that
//! keep slots busy, so that waits, refilling, takeover of free slots and a full table all occur again and again; half of them
//! near the end of the clock, so that waits end beyond it.

use super::Case;
use crate::program::Feed;
use crate::rng::Rng;
use crate::text::{ask, plan, Terms, LAST};

const HOUR: u64 = 3_600_000;

pub struct Run {
    terms: Terms,
    subscribers: u64,
    /// Numbers of subscribers, this far apart.
    stride: u64,
    falls: bool,
    /// What the clock shows, and the latest that it showed.
    moment: u64,
    latest: u64,
    /// In how many milliseconds a whole burst drains.
    drain: u64,
    /// The longest ordinary step of the clock.
    pace: u64,
}

/// A long run, one in eight very long; from a file, or through a pipe in one or more pieces.
pub fn one(rng: &mut Rng) -> Case {
    let slots = match rng.below(4) {
        0 => rng.pick(&[1, 2, 1023, 1024]),
        1 => rng.from(1, 1024),
        _ => rng.of_any_size(64),
    };
    let long = rng.once_in(8);
    let lines = rng.from(200, if long { 40_000 } else { 4000 });
    let mut run = Run::new(rng, slots);
    let input = run.text(rng, lines).concat();
    let feed = match rng.below(4) {
        0 => Feed::File,
        1 => Feed::Pieces((0..20).map(|_| rng.from(1, 20_000) as usize).collect()),
        _ => Feed::Whole,
    };
    Case { input, feed }
}

fn terms(rng: &mut Rng, slots: u64) -> Terms {
    let any = rng.once_in(3);
    let mut number = |most, common: &[u64]| match any {
        true => rng.of_any_size(most),
        false => rng.pick(common),
    };
    Terms {
        slots,
        limit: number(1_000_000, &[1, 2, 3, 7, 10, 1000]),
        period: number(2_678_400_000, &[1, 2, 10, 999, 1000, 86_400_000]),
        burst: number(1_000_000, &[1, 2, 3, 5, 10, 100]),
    }
}

impl Run {
    pub fn new(rng: &mut Rng, slots: u64) -> Run {
        let terms = terms(rng, slots);
        let subscribers = match rng.below(4) {
            0 => slots.div_ceil(4),
            1 => slots,
            2 => slots + rng.from(1, 3),
            _ => 2 * slots + 1,
        };
        let drain = (terms.period * terms.burst).div_ceil(terms.limit);
        let share = drain / subscribers;
        Run {
            terms,
            subscribers,
            stride: rng.pick(&[1, 1, 7, 65_536, 1_000_003]),
            falls: rng.once_in(3),
            moment: match rng.below(4) {
                0 => rng.below(10_000),
                1 => rng.of_any_size(LAST),
                2 => LAST - rng.below(terms.period),
                _ => LAST - rng.below(drain.clamp(1, LAST)),
            },
            latest: 0,
            drain,
            pace: rng.pick(&[1, share / 8, share / 2, share, 2 * share]),
        }
    }

    /// The plan line, and so many others. In every other run all subscribers ask in their order first.
    pub fn text(&mut self, rng: &mut Rng, lines: u64) -> Vec<Vec<u8>> {
        let mut text = vec![plan(&self.terms)];
        if rng.once_in(2) {
            let in_order = 0..self.subscribers.min(lines);
            text.extend(in_order.map(|which| ask(self.moment, self.subscriber(which), 1)));
        }
        text.extend((text.len() as u64..=lines).map(|_| self.line(rng)));
        text
    }

    fn subscriber(&self, which: u64) -> u64 {
        1 + which * self.stride
    }

    fn line(&mut self, rng: &mut Rng) -> Vec<u8> {
        self.tick(rng);
        let burst = self.terms.burst;
        let subscriber = self.subscriber(rng.below(self.subscribers));
        let cost = match rng.below(4) {
            0 => 1,
            1 => burst,
            _ => rng.from(1, burst),
        };
        match rng.below(200) {
            0 => ask(LAST + rng.from(1, 3), subscriber, cost),
            1 => ask(self.moment, 0, cost),
            2 => ask(self.moment, subscriber, 0),
            3 => ask(self.moment, subscriber, burst + 1),
            4 if rng.once_in(2) => b"ask\t1\t1\n".to_vec(),
            _ => ask(self.moment, subscriber, cost),
        }
    }

    fn tick(&mut self, rng: &mut Rng) {
        // seldom enough for the table to be full in between
        let step = match rng.below(64 + 4 * self.terms.slots) {
            0 => self.drain,
            odd if odd % 2 == 1 => 0,
            _ => rng.from(0, self.pace),
        };
        self.moment = (self.moment + step).min(LAST);
        self.latest = self.latest.max(self.moment);
        if self.falls {
            self.put_back(rng);
        }
    }

    /// Now and then the clock is put back, and some lines later it is put right.
    fn put_back(&mut self, rng: &mut Rng) {
        if self.moment == self.latest && rng.once_in(24) {
            let back = rng.pick(&[1, self.pace, self.drain]).max(1);
            let some = rng.from(1, back);
            let back = rng.pick(&[1, some, some, HOUR, self.moment]);
            self.moment = self.moment.saturating_sub(back);
        } else if rng.once_in(8) {
            self.moment = self.latest;
        }
    }
}
