//! The plans that the loads lend.

use crate::call::Plan;

/// A cost of 2 drains in 4571 ms, and costs of 1 and 3 within half a millisecond, so that rounding shows. On up to 4,096 slots
/// whoever holds one asks for 2 in about 4096 ms on average, which is a little too much; beside strangers on 300 slots in 3300 ms,
/// so that everybody owes throughout.
const ALONE: Plan = [2, 4571, 40];

pub const ONE: [Plan; 1] = [ALONE];

/// Sixteen that differ in their bursts alone.
pub const BURSTS: [Plan; 16] = {
    let mut plans = [ALONE; 16];
    let mut i = 1;
    while i < 16 {
        plans[i][2] += 40 * i as u32;
        i += 1;
    }
    plans
};

/// Sixteen that differ widely in what they count in. A unit still drains in some 2286 ms, so that the same asks are a little too
/// much for each, and a burst in a minute and a half at least.
pub const WIDE: [Plan; 16] = [
    ALONE,
    [1, 2_287, 41],
    [3, 6_857, 43],
    [7, 15_999, 47],
    [10, 22_855, 53],
    [24, 54_853, 59],
    [60, 137_131, 61],
    [100, 228_551, 67],
    [365, 834_209, 71],
    [1_000, 2_285_501, 73],
    [4_096, 9_361_409, 79],
    [10_000, 22_855_001, 83],
    [60_000, 137_130_001, 89],
    [250_000, 571_375_001, 97],
    [999_999, 2_285_497_715, 101],
    [1_000_000, 2_285_500_001, 103],
];
