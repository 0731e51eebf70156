//! What is lent to the archive beside a text, and what is due of it: the lengths, the two numbers of the result, and what
//! columns, newest moment and output hold before and after.

use crate::lent::{Guarded, Lent};
use crate::rng::Rng;
use model::decision::Paced;
use model::table::Table;
use model::text::Played;
use railcadence::numbers;

/// The results, by their numbers.
pub const WRITTEN: u64 = 0;
pub const SHORT_TABLE: u64 = 1;
pub const SHORT_OUTPUT: u64 = 2;

/// The header is so long, and an answer's line no longer.
const HEADER: usize = 35;
const LONGEST_ANSWER: usize = 105;
/// The least of each column.
const SLOTS: usize = 1024;

/// Around the output and the result.
const GUARD: u64 = 0xa5a5_a5a5_a5a5_a5a5;
/// What the result holds before a call, so that a number that is left unwritten shows.
const UNWRITTEN: u64 = 0x5a5a_5a5a_5a5a_5a5a;

/// The lengths of ids, plan numbers, TATs and output.
#[derive(Clone, Copy, Debug)]
pub struct Lengths {
    ids: usize,
    plan_numbers: usize,
    tats: usize,
    out: usize,
}

/// Lengths for a text, each with the result that is due. Document 01 knows no output or columns that are too short; what
/// is due there is what the header of the C interface says.
pub fn all(rng: &mut Rng, text: &[u8]) -> [(Lengths, u64); 10] {
    let lines = text.iter().filter(|&&byte| byte == b'\n').count();
    let room = HEADER + LONGEST_ANSWER * (lines + 1);
    let mut below = |end: usize| rng.below(end as u64) as usize;
    let mut more = || SLOTS + below(50);
    let (longer, some) = ([more(), more(), more()], [more(), more()]);
    let short = below(SLOTS);
    let (little, much) = (below(room), room + 1 + below(300));
    let lengths = [
        ([SLOTS; 3], room, WRITTEN),
        (longer.map(|length| length + 1), much, WRITTEN),
        ([SLOTS; 3], room - 1, SHORT_OUTPUT),
        ([some[0], SLOTS, some[1]], little, SHORT_OUTPUT),
        ([SLOTS - 1, SLOTS, SLOTS], room, SHORT_TABLE),
        ([SLOTS, SLOTS - 1, SLOTS], room, SHORT_TABLE),
        ([SLOTS, SLOTS, SLOTS - 1], room, SHORT_TABLE),
        ([short, some[0], some[1]], room - 1, SHORT_TABLE),
        ([some[0], short, some[1]], much, SHORT_TABLE),
        ([some[0], some[1], short], much, SHORT_TABLE),
    ];
    lengths.map(|([ids, plan_numbers, tats], out, due)| {
        let lengths = Lengths {
            ids,
            plan_numbers,
            tats,
            out,
        };
        (lengths, due)
    })
}

/// What columns, newest moment and output hold.
#[derive(Clone)]
pub struct Held {
    pub table: Table<Paced>,
    pub out: Vec<u8>,
}

impl Held {
    /// Columns without zeros, any newest moment but 0, and an output without a byte that a text has.
    pub fn some(rng: &mut Rng, lengths: Lengths) -> Held {
        let ids = (0..lengths.ids).map(|_| rng.from(1, 9) as u32).collect();
        let numbers = (0..lengths.plan_numbers).map(|_| rng.from(1, 255) as u8);
        let numbers = numbers.collect();
        let tats = (0..lengths.tats).map(|_| rng.next() | 1).collect();
        Held {
            table: Table::new(ids, numbers, vec![tats], rng.next() | 1),
            out: (0..lengths.out).map(|place| place as u8 | 0x80).collect(),
        }
    }

    /// What is due after a text that is written. Where a run began, the newest moment and the table in front are the run's. Of
    /// the slots behind it document 01 says nothing: they stay, as the contract has it.
    pub fn after(&self, played: &Played) -> Held {
        let mut after = self.clone();
        after.out[..played.output.len()].copy_from_slice(&played.output);
        if let Some(table) = &played.table {
            let slots = table.ids.len();
            after.table.ids[..slots].copy_from_slice(&table.ids);
            after.table.plan_numbers[..slots].copy_from_slice(&table.plan_numbers);
            after.table.columns[0][..slots].copy_from_slice(&table.columns[0]);
            after.table.newest = table.newest;
        }
        after
    }
}

/// The same as it is lent: columns, newest moment, output and result between guards.
pub struct Lending {
    pub table: Lent,
    pub out: Guarded<u8>,
    pub result: Guarded<u64>,
}

impl Lending {
    pub fn new(held: &Held) -> Lending {
        Lending {
            table: Lent::new(&held.table),
            out: Guarded::new(&held.out, GUARD as u8),
            result: Guarded::new(&[UNWRITTEN; 2], GUARD),
        }
    }

    pub fn transcribe(&mut self, text: &[u8]) {
        numbers::transcribe(
            text,
            &mut self.table.ids,
            &mut self.table.plan_numbers,
            &mut self.table.columns[0],
            &mut self.table.newest[0],
            &mut self.out,
            self.result.inside_mut().try_into().expect("two numbers"),
        );
    }

    /// Nothing outside of what was lent is written.
    pub fn intact(&self) -> bool {
        self.table.intact() && self.out.intact() && self.result.intact()
    }
}
