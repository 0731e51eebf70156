//! The paced engine over a table of slots.

const MOST_LIMIT: u64 = 1_000_000;
const MOST_PERIOD: u64 = 2_678_400_000;
const MOST_BURST: u64 = 1_000_000;
const MOST_SLOTS: u64 = 1024;
const LAST_MOMENT: u64 = (1 << 42) - 1;

/// Number, subscriber, left, reset, wait.
pub type Answer = [u64; 5];

pub struct Gate {
    limit: u64,
    period: u64,
    burst: u64,
    subscribers: Vec<u64>,
    tats: Vec<u64>,
    /// The newest moment at which anything was admitted.
    newest: u64,
}

impl Gate {
    pub fn open([slots, limit, period, burst]: [u64; 4]) -> Result<Gate, u64> {
        let within = |number, most| 1 <= number && number <= most;
        if !within(limit, MOST_LIMIT) || !within(period, MOST_PERIOD) || !within(burst, MOST_BURST)
        {
            return Err(1);
        }
        if !within(slots, MOST_SLOTS) {
            return Err(2);
        }
        Ok(Gate {
            limit,
            period,
            burst,
            subscribers: vec![0; slots as usize],
            tats: vec![0; slots as usize],
            newest: 0,
        })
    }

    pub fn ask(&mut self, moment: u64, subscriber: u64, cost: u64) -> Answer {
        let refused = |number| [number, subscriber, 0, 0, 0];
        if moment > LAST_MOMENT {
            return refused(3);
        }
        if moment < self.newest {
            return refused(11);
        }
        if subscriber == 0 {
            return refused(4);
        }
        if cost == 0 {
            return refused(5);
        }
        if cost > self.burst {
            return refused(6);
        }
        let now = moment * self.limit;
        let Some(slot) = self.slot(subscriber, now) else {
            return refused(9);
        };
        let own = self.subscribers[slot] == subscriber;
        let tat = if own { self.tats[slot] } else { 0 };
        let full = self.period * self.burst;
        if tat > now + full {
            return refused(7);
        }
        let next = tat.max(now) + self.period * cost;
        if next > now + full {
            let debt = tat.max(now) - now;
            let wait = (next - full - now).div_ceil(self.limit);
            if moment + wait > LAST_MOMENT {
                return refused(13);
            }
            return self.answer(8, subscriber, moment, debt, wait);
        }
        self.subscribers[slot] = subscriber;
        self.tats[slot] = next;
        self.newest = moment;
        self.answer(0, subscriber, moment, next - now, 0)
    }

    fn answer(&self, number: u64, subscriber: u64, moment: u64, debt: u64, wait: u64) -> Answer {
        let left = (self.period * self.burst - debt) / self.period;
        let reset = moment + debt.div_ceil(self.limit);
        [number, subscriber, left, reset, wait]
    }

    /// The subscriber's own slot, or else the lowest that is free.
    fn slot(&self, subscriber: u64, now: u64) -> Option<usize> {
        for i in 0..self.subscribers.len() {
            if self.subscribers[i] == subscriber {
                return Some(i);
            }
        }
        (0..self.tats.len()).find(|&i| self.subscribers[i] == 0 || self.tats[i] <= now)
    }
}
