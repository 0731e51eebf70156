//! Document 01, 'Grains': the limits, and reckoning in grains.

#[derive(Clone, Copy, Debug)]
pub struct Plan {
    pub limit: u128,
    pub period: u128,
    pub burst: u128,
}

pub const LAST_MOMENT: u128 = (1 << 42) - 1;

impl Plan {
    pub fn new(limit: u32, period: u32, burst: u32) -> Plan {
        Plan {
            limit: limit as u128,
            period: period as u128,
            burst: burst as u128,
        }
    }

    pub fn within_limits(&self) -> bool {
        (1..=1_000_000).contains(&self.limit)
            && (1..=2_678_400_000).contains(&self.period)
            && (1..=1_000_000).contains(&self.burst)
    }

    /// A full bucket holds P×B grains.
    pub fn full(&self) -> u128 {
        self.period * self.burst
    }
}

/// A quotient rounded up; by 0 it is 0, which document 01 leaves free.
pub fn div_up(a: u128, d: u128) -> u128 {
    if d == 0 {
        0
    } else {
        a.div_ceil(d)
    }
}
