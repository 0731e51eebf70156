//! The untimed pass: all contenders must give the same answers and leave the same table.

use crate::call::{Answer, Ask, Plan};
use crate::contender::{Contender, Engine};
use crate::load::{Load, START};
use crate::plain::LAST_MOMENT;
use crate::table::Table;

/// The numbers from 0 to 13.
pub const NUMBERS: usize = 14;

/// Asks at the clock's end under plan 0: moment, subscriber, cost, and the number that is due. Who spends the whole burst of 40
/// waits 2286 ms for a unit, subscriber 1 until the last moment, and 2 until one that is beyond it.
const LAST_ASKS: [(u64, u32, u32, u64); 7] = [
    (LAST_MOMENT - 2286, 1, 40, 0),
    (LAST_MOMENT - 2286, 1, 1, 8),
    (LAST_MOMENT - 2285, 2, 40, 0),
    (LAST_MOMENT - 2285, 2, 1, 13),
    (LAST_MOMENT - 1, 1, 1, 8),
    (LAST_MOMENT, 2, 1, 13),
    (LAST_MOMENT, 1, 1, 0),
];

/// What all agree on.
pub struct Agreed {
    /// How many of the asks got each number.
    pub counts: [u64; NUMBERS],
    /// The table before the asks, and after them.
    pub start: Table,
    pub end: Table,
}

pub fn compare(engine: &Engine, load: &Load) -> Result<Agreed, String> {
    let mut all = All {
        contenders: &engine.contenders,
        plans: load.plans,
        tables: [(); 3].map(|()| engine.used_table(load.slots)),
    };
    let start = engine.spent_table(load);
    all.clear()?;
    all.warm_up(load, &start)?;
    let mut counts = [0; NUMBERS];
    // who was admitted last: before the asks, whoever holds the first slot, and at the start like all
    let mut admitted = Ask {
        moment: START,
        subscriber: load.holders[0],
        plan: 0,
        cost: 1,
    };
    for ask in &load.asks {
        let answer = all.ask(ask)?;
        let count = counts.get_mut(answer[0] as usize);
        *count.ok_or(format!("no such number: {}", words(ask, &answer)))? += 1;
        if answer[0] == 0 {
            admitted = *ask;
        }
    }
    all.ask_what_is_refused(&admitted)?;
    let end = all.common()?;
    all.ask_as_a_stranger(&admitted)?;
    all.ask_at_the_clocks_end()?;
    Ok(Agreed { counts, start, end })
}

/// All contenders, each with its table.
struct All<'a> {
    contenders: &'a [Contender; 3],
    plans: &'a [Plan],
    tables: [Table; 3],
}

impl All<'_> {
    fn clear(&mut self) -> Result<(), String> {
        for (contender, table) in self.contenders.iter().zip(&mut self.tables) {
            let answer = (contender.clear)(table);
            if answer != [0; 5] || !table.is_all_zeros() {
                return Err("a table is not all zeros after its clear".to_string());
            }
        }
        Ok(())
    }

    /// Leaves the table that a load starts with, by asks unless they are too many.
    fn warm_up(&mut self, load: &Load, start: &Table) -> Result<(), String> {
        for ask in &load.warm_up {
            self.ask_due(ask, 0)?;
        }
        for table in &mut self.tables {
            if load.warm_up.is_empty() {
                table.copy_from(start);
            } else if table != start {
                return Err("the warm-up leaves another table than a spent one".to_string());
            }
        }
        Ok(())
    }

    /// What the asks of a load are not, made by whoever was admitted last: the moment falls, the plan is not lent, or, if
    /// there is another, it is not the one under which something is owed.
    fn ask_what_is_refused(&mut self, last: &Ask) -> Result<(), String> {
        let (moment, lent) = (last.moment - 1, self.plans.len() as u32);
        self.ask_due(&Ask { moment, ..*last }, 11)?;
        self.ask_due(
            &Ask {
                plan: lent,
                ..*last
            },
            1,
        )?;
        let plan = (last.plan + 1) % lent;
        if plan != last.plan {
            self.ask_due(&Ask { plan, ..*last }, 12)?;
        }
        Ok(())
    }

    /// After 200 seconds without an ask, a slot of plan 0 is free, by its own plan: one with the last plan's burst, where there
    /// are sixteen, would not be.
    fn ask_as_a_stranger(&mut self, last: &Ask) -> Result<(), String> {
        let ask = Ask {
            moment: last.moment + 200_000,
            subscriber: u32::MAX,
            plan: self.plans.len() as u32 - 1,
            cost: 1,
        };
        self.ask_due(&ask, 0)?;
        self.common().map(|_| ())
    }

    /// The moments of a load are far from the clock's end, where nobody owes anything any more.
    fn ask_at_the_clocks_end(&mut self) -> Result<(), String> {
        for (moment, subscriber, cost, number) in LAST_ASKS {
            let ask = Ask {
                moment,
                subscriber,
                plan: 0,
                cost,
            };
            self.ask_due(&ask, number)?;
        }
        self.common().map(|_| ())
    }

    /// The table that all have.
    fn common(&self) -> Result<Table, String> {
        let [proved, index, position] = &self.tables;
        if proved != index || proved != position {
            return Err("the tables differ at the end".to_string());
        }
        Ok(proved.clone())
    }

    /// Makes an ask that must get this number from all.
    fn ask_due(&mut self, ask: &Ask, number: u64) -> Result<(), String> {
        let answer = self.ask(ask)?;
        if answer[0] != number {
            return Err(format!("{number} is due: {}", words(ask, &answer)));
        }
        Ok(())
    }

    /// The answer that all give.
    fn ask(&mut self, ask: &Ask) -> Result<Answer, String> {
        let mut answers = [[u64::MAX; 5]; 3]; // so that a number that is not written shows
        let both = self.contenders.iter().zip(&mut self.tables);
        for ((contender, table), answer) in both.zip(&mut answers) {
            (contender.acquire)(self.plans, table, ask, answer);
        }
        if answers != [answers[0]; 3] {
            let all = answers.map(|answer| format!("{answer:?}")).join(", ");
            return Err(format!(
                "the answers differ: {}; proved, index, position: {all}",
                asked(ask)
            ));
        }
        Ok(answers[0])
    }
}

fn asked(ask: &Ask) -> String {
    let (moment, subscriber, plan, cost) = (ask.moment, ask.subscriber, ask.plan, ask.cost);
    format!("moment {moment} subscriber {subscriber} plan {plan} cost {cost}")
}

fn words(ask: &Ask, answer: &Answer) -> String {
    format!("{}: {answer:?}", asked(ask))
}
