//! Asks with every number at its limits, one beyond them, and far beyond, under plans at their limits.

use super::Case;
use crate::rng::Rng;
use crate::text::{plan, Terms};

const MOMENTS: [&str; 14] = [
    "0",
    "1",
    "1000",
    "4398046511102",
    "4398046511103",
    "4398046511104",
    "4398046511105",
    "9223372036854775807",
    "9223372036854775808",
    "18446744073709551615",
    "18446744073709551616",
    "18446744073709551617",
    "184467440737095516160",
    "340282366920938463463374607431768211457",
];

const SUBSCRIBERS: [&str; 8] = [
    "0",
    "1",
    "2",
    "2147483648",
    "4294967295",
    "4294967296",
    "4294967297",
    "18446744073709551617",
];

/// Slots, limit, period and burst.
const PLANS: [[u64; 4]; 8] = [
    [1024, 3, 1000, 2],
    [1, 3, 1000, 2],
    [2, 1, 1, 1],
    [1, 1_000_000, 2_678_400_000, 1_000_000],
    [3, 1, 2_678_400_000, 1_000_000],
    [1024, 1_000_000, 1, 1],
    [2, 1_000_000, 2_678_400_000, 1],
    [4, 999_999, 2_678_399_999, 999_999],
];

fn costs(burst: u64) -> Vec<String> {
    let near = [0, 1, burst - 1, burst, burst + 1];
    let far = [u32::MAX as u64, 1 << 32, (1 << 32) + 1, u64::MAX];
    let mut costs: Vec<String> = near.iter().chain(&far).map(u64::to_string).collect();
    costs.push("18446744073709551617".to_string());
    costs
}

/// One input for each plan, with every cost for every subscriber at every moment; and one with the moments falling.
pub fn all(_: &mut Rng) -> Vec<Case> {
    let mut cases = Vec::new();
    for [slots, limit, period, burst] in PLANS {
        let terms = Terms {
            slots,
            limit,
            period,
            burst,
        };
        let mut moments = MOMENTS;
        for _ in 0..2 {
            let asks = moments.iter().flat_map(|moment| asks_at(moment, burst));
            let lines = [plan(&terms)].into_iter().chain(asks);
            cases.push(Case::whole(lines.flatten().collect()));
            moments.reverse();
        }
    }
    cases
}

fn asks_at(moment: &str, burst: u64) -> Vec<Vec<u8>> {
    let mut asks = Vec::new();
    for subscriber in SUBSCRIBERS {
        for cost in costs(burst) {
            asks.push(format!("ask\t{moment}\t{subscriber}\t{cost}\n").into_bytes());
        }
    }
    asks
}
