//! The clock of a run: where it starts, how it goes on, and where it falls.

use super::{Course, Size};
use crate::choose::LAST;
use crate::rng::Rng;

const HOUR: u64 = 3_600_000;

impl Course {
    /// At the start, and anew after a clear: there also a clock that rises may begin earlier. Near its end, waits end beyond it.
    pub fn start_the_clock(&mut self, rng: &mut Rng) {
        self.moment = match rng.below(5) {
            0 => 0,
            1 => rng.below(10_000),
            _ if self.once() => rng.of_any_size(LAST / 2),
            2 if self.size == Size::Few => LAST - rng.below(self.plans[0].period as u64),
            2 | 3 => rng.of_any_size(LAST),
            _ => LAST - rng.below(self.drain.clamp(1, LAST)),
        };
    }

    pub(super) fn tick(&mut self, rng: &mut Rng) {
        let rests = if self.once() {
            192
        } else {
            64 + self.slots as u64
        };
        let step = if rng.once_in(rests) {
            self.drain
        } else if rng.once_in(2) {
            0
        } else {
            rng.from(0, self.pace)
        };
        self.moment = self.moment.saturating_add(step).min(LAST);
        if self.falls {
            self.put_back(rng);
        }
    }

    /// Now and then the clock is put back; and some calls later it is put right, if that is below the newest admission.
    fn put_back(&mut self, rng: &mut Rng) {
        if self.moment >= self.newest {
            if rng.once_in(64) {
                self.moment = self.earlier(rng);
            }
        } else if rng.once_in(8) {
            self.moment = (self.newest + rng.from(0, self.pace)).min(LAST);
        }
    }

    /// A moment some way before what the clock shows, or an hour, or 0; or the newest admission's, just before it or just
    /// after, if the clock has come so far.
    pub(super) fn earlier(&self, rng: &mut Rng) -> u64 {
        let back = rng.pick(&[1, self.pace, self.drain]).max(1);
        let moment = match rng.below(8) {
            0 => 0,
            1 => self.newest.saturating_sub(1),
            2 => self.newest,
            3 => self.newest + 1,
            4 => self.moment.saturating_sub(HOUR),
            _ => self.moment.saturating_sub(rng.from(1, back)),
        };
        moment.min(self.moment)
    }
}
