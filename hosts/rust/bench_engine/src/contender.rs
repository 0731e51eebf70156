//! Who is timed: of each engine the proved one, and the plain one with either search. All are called alike, by a pointer to
//! the function, over a table of the same columns, and write their five numbers where they are told.

use crate::archive;
use crate::call::{Answer, Ask, Plan};
use crate::load::{Load, START};
use crate::plain::search::{Index, Position};
use crate::plain::{gcra, token_bucket};
use crate::table::Table;

pub type Acquire = fn(&[Plan], &mut Table, &Ask, &mut Answer);

pub struct Contender {
    pub acquire: Acquire,
    /// Makes every column and the newest moment all zeros, and answers 0.
    pub clear: fn(&mut Table) -> Answer,
}

pub struct Engine {
    pub name: &'static str,
    has_lasts: bool,
    /// Proved, index loop, position.
    pub contenders: [Contender; 3],
}

impl Engine {
    /// A table that was used for something else.
    pub fn used_table(&self, slots: usize) -> Table {
        Table {
            ids: vec![7; slots],
            plan_numbers: vec![7; slots],
            records: vec![7; slots],
            lasts: vec![7; if self.has_lasts { slots } else { 0 }],
            newest: 7,
        }
    }

    /// The table in which every holder of the load has spent the whole burst at the start.
    pub fn spent_table(&self, load: &Load) -> Table {
        let mut table = self.used_table(load.slots);
        table.fill_with_zeros();
        table.newest = START;
        let plans = (0..).zip(load.plans).cycle();
        for (slot, (&holder, (number, plan))) in load.holders.iter().zip(plans).enumerate() {
            table.ids[slot] = holder;
            table.plan_numbers[slot] = number;
            if self.has_lasts {
                table.lasts[slot] = START; // and the level is 0
            } else {
                let [limit, period, burst] = plan.map(u64::from);
                table.records[slot] = START * limit + period * burst;
            }
        }
        table
    }
}

pub const ENGINES: [Engine; 2] = [
    Engine {
        name: "gcra",
        has_lasts: false,
        contenders: [
            Contender {
                acquire: archive::gcra_acquire,
                clear: archive::gcra_clear,
            },
            plain(gcra::acquire::<Index>),
            plain(gcra::acquire::<Position>),
        ],
    },
    Engine {
        name: "token bucket",
        has_lasts: true,
        contenders: [
            Contender {
                acquire: archive::token_bucket_acquire,
                clear: archive::token_bucket_clear,
            },
            plain(token_bucket::acquire::<Index>),
            plain(token_bucket::acquire::<Position>),
        ],
    },
];

const fn plain(acquire: Acquire) -> Contender {
    Contender {
        acquire,
        clear: Table::fill_with_zeros,
    }
}
