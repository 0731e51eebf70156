//! The ceiling over a run (document 02, Item 7): of each engine a host notes what the archive answered, and every stretch of its
//! notes is held to the plan.

use crate::call::Call;
use crate::compare::{circumstances, Difference};
use crate::counts::Counts;
use crate::engine::NAMES;
use crate::list::List;
use crate::spoil::Spoil;
use model::ceiling::{Looked, Notes, Stretch};
use model::table::Answer;

const ENGINES: usize = NAMES.len();
const KINDS: [&str; 2 * ENGINES] = ["gcra", "token-bucket", "gcra met", "token-bucket met"];

/// How many stretches of each engine's notes were looked at, and how many of those longer than 0 ms met the ceiling.
pub type Stretches = Counts<{ 2 * ENGINES }>;

pub fn none() -> Stretches {
    Counts::new("ceiling", "stretches of runs are within it", KINDS)
}

/// How many met the ceiling, of each engine.
pub fn met(counts: &Stretches) -> [u64; ENGINES] {
    [0, 1].map(|engine| counts.of(ENGINES + engine))
}

/// The notes of one run, of each engine by itself.
pub struct Ceiling {
    list: List,
    notes: [Notes; ENGINES],
}

impl Ceiling {
    pub fn new(list: &List, spoil: Option<Spoil>) -> Ceiling {
        let notes = |name| {
            let mistake = spoil.and_then(|spoil| spoil.of_the_notes(name));
            Notes::mistaken(list.plans().clone(), mistake)
        };
        Ceiling {
            list: list.clone(),
            notes: NAMES.map(notes),
        }
    }

    /// Notes a call and what the engines answered.
    pub fn note(
        &mut self,
        call: &Call,
        answers: &[Answer; ENGINES],
        counts: &mut Stretches,
    ) -> Result<(), Difference> {
        for (engine, answer) in answers.iter().enumerate() {
            let looked = noted(&mut self.notes[engine], call, answer[0]);
            if let Some(stretch) = looked.above {
                return Err(self.difference(engine, call, stretch));
            }
            counts.add(engine, looked.stretches);
            counts.add(ENGINES + engine, looked.met);
        }
        Ok(())
    }

    fn difference(&self, engine: usize, call: &Call, stretch: Stretch) -> Difference {
        let Stretch { from, until, cost } = stretch;
        format!(
            "{}: {cost} units from {from} to {until} are above the ceiling\n{}",
            NAMES[engine],
            circumstances(&self.list, call)
        )
    }
}

/// A host notes what got 0.
fn noted(notes: &mut Notes, call: &Call, number: u128) -> Looked {
    match (*call, number) {
        (
            Call::Acquire {
                moment,
                subscriber,
                plan,
                cost,
            },
            0,
        ) => notes.admitted(moment, subscriber, plan, cost),
        (Call::Clear, 0) => {
            notes.cleared();
            Looked::default()
        }
        _ => Looked::default(),
    }
}
