//! What a reset is worth (document 02, Item 2): after a call with 0 or 8 on any table, of a shop that has a slot, and with nothing
//! else admitted, the whole burst is admitted at the reset, and a millisecond earlier it must wait for one. Where the reset is
//! beyond the clock, it is not there on this clock (Item 13). The same of the whole burst of another plan, for which there is no
//! wait but 12 (Item 3).

use crate::call::{ask, plan_of, Terms};
use crate::choose::{self, LAST};
use crate::compare::{circumstances, Difference, Pair};
use crate::counts::{answered, Counts, ANSWERED};
use crate::engine::Engine;
use crate::list::List;
use crate::lists;
use crate::rng::Rng;
use crate::scene::Scene;
use crate::spoil::Spoil;
use model::decision::{Bucket, Paced};

const NOT_WHOLE: usize = 3;
const AT_ONCE: usize = 4;
const BEYOND: usize = 5;
const LAST_12: usize = 6;
const CHANGED: usize = 7;
const KINDS: [&str; 8] = {
    let [admitted, throttled, looked_at, _] = ANSWERED;
    [
        admitted,
        throttled,
        looked_at,
        "not whole",
        "at once",
        "beyond the clock",
        "last 12",
        "changed",
    ]
};

/// After how many calls of each kind a shop asked for its whole burst; how many of the resets lay between two whole milliseconds
/// before they were rounded, were the moment of the call, or were beyond the clock; and how many shops that asked under another
/// plan got 12 a millisecond before the reset, and were admitted at it.
pub type Resets = Counts<8>;

struct Trial {
    rng: Rng,
    early: u64,
    counts: Resets,
}

/// Each time a shop of either engine.
pub fn run(seed: u64, times: u64, spoil: Option<Spoil>) -> Result<Resets, Difference> {
    let mut trial = Trial {
        rng: Rng::new(seed),
        early: spoil.map_or(0, Spoil::early),
        counts: Counts::new(
            "reset",
            "the whole burst is there at it, and no earlier",
            KINDS,
        ),
    };
    for _ in 0..times {
        trial.shop::<Paced>()?;
        trial.shop::<Bucket>()?;
    }
    Ok(trial.counts)
}

impl Trial {
    /// A call on a damaged table; and if the shop then has a slot, a whole burst around the reset, of its plan or of another.
    fn shop<E: Engine>(&mut self) -> Result<(), Difference> {
        let slots = choose::length(&mut self.rng);
        let scene = Scene::<E>::new(&mut self.rng, slots);
        let call = match self.rng.below(3) {
            0 => scene.peek(),
            _ => scene.ask(),
        };
        let (list, moment) = (scene.list, scene.moment);
        let mut pair = Pair::new(list.clone(), scene.table, None);
        let answer = pair.call(&call)?;
        if !matches!(answer[0], 0 | 8) {
            return Ok(());
        }
        let Some((kept, owed)) = pair.owed(scene.subscriber, moment) else {
            return Ok(());
        };
        let asked = self.next_plan(&list, kept);
        let reset = (answer[3] as u64).saturating_sub(self.early);
        for (later, number, wait) in self.due(moment, reset, asked == kept) {
            let whole = ask(later, scene.subscriber, asked, terms(&list, asked).burst);
            let got = pair.call(&whole)?;
            if (got[0], got[4]) != (number, wait) {
                return Err(format!(
                    "{}: the reset is {reset}; {whole} gets {got:?}, and {number} with a wait of {wait} is due\n{}",
                    E::NAME,
                    circumstances(&list, &call)
                ));
            }
            self.counts
                .count(LAST_12, number == 12 && later + 1 == reset);
            self.counts.count(CHANGED, number == 0 && asked != kept);
        }
        self.counts.count(answered(&call, answer[0]), true);
        let limit = plan_of(&terms(&list, kept)).limit;
        self.counts.count(NOT_WHOLE, !owed.is_multiple_of(limit));
        self.counts.count(AT_ONCE, reset == moment);
        self.counts.count(BEYOND, reset > LAST);
        Ok(())
    }

    /// The plan that the shop keeps, or every other time another, if one is lent.
    fn next_plan(&mut self, list: &List, kept: u32) -> u32 {
        let other = lists::other(&mut self.rng, kept, list.numbers().len() / 3);
        self.rng.pick(&[kept, other])
    }

    /// When the whole burst is asked for after a call at this moment, and the number and the wait that are due.
    fn due(&mut self, moment: u64, reset: u64, same_plan: bool) -> Vec<(u64, u128, u128)> {
        let any = self.rng.from(moment, LAST);
        match (reset, same_plan) {
            _ if reset <= moment => vec![(reset, 0, 0)],
            (_, true) if reset > LAST => vec![(any, 13, 0), (LAST, 13, 0)],
            (_, false) if reset > LAST => vec![(any, 12, 0), (LAST, 12, 0)],
            (_, true) => vec![(reset - 1, 8, 1), (reset, 0, 0)],
            (_, false) => vec![(reset - 1, 12, 0), (reset, 0, 0)],
        }
    }
}

/// The plan of a good list that has this number.
fn terms(list: &List, number: u32) -> Terms {
    let first = 3 * number as usize;
    let [limit, period, burst] = list.numbers()[first..first + 3] else {
        panic!("three numbers")
    };
    Terms {
        limit,
        period,
        burst,
    }
}
