//! The texts that are timed: asks for subscribers in turn, under a plan with 1,024 slots.

use crate::draws::Draws;

pub struct Load {
    pub name: &'static str,
    /// How many subscribers ask, and so how many slots are taken.
    subscribers: u64,
    costs: u64,
}

pub const LOADS: [Load; 2] = [
    Load {
        name: "full, 1024 of 1024 slots taken",
        subscribers: 1024,
        costs: 14,
    },
    Load {
        name: "quarter, 256 of 1024 slots taken",
        subscribers: 256,
        costs: 3,
    },
];

const START: u64 = 1_700_000_000_000;
/// Odd, so that in as many asks as there are subscribers each of them asks once.
const STRIDE: u64 = 379;

impl Load {
    /// So many asks, one a millisecond on average. Costs are such that about as much is asked for as the plan allows; they and
    /// the moments are drawn, so that debts and waits take all sorts of values.
    pub fn text(&self, asks: u64) -> Vec<u8> {
        let mut text = "plan\t1024\t7\t1000\t20\n".to_string();
        let mut draws = Draws(1);
        let mut moment = START;
        for i in 0..asks {
            let subscriber = 1_000_003 * (1 + i * STRIDE % self.subscribers);
            let cost = 1 + draws.below(self.costs);
            text += &format!("ask\t{moment}\t{subscriber}\t{cost}\n");
            moment += draws.below(3);
        }
        text.into_bytes()
    }
}
