//! Single calls, each on a damaged table of its own, of either engine in turn: tables of any length, of the most slots, and of
//! one slot more.

use crate::call::Call;
use crate::choose;
use crate::compare::{Difference, Pair};
use crate::engine::Engine;
use crate::offered::{self, Offered};
use crate::rng::Rng;
use crate::scene::Scene;
use crate::trial::Trial;
use model::checks::MOST_SLOTS;
use model::decision::{Bucket, Paced};

pub fn any(trial: &mut Trial) -> Result<Offered, Difference> {
    let mut counts = offered::nothing();
    all(trial, choose::length, &mut counts)?;
    Ok(counts)
}

pub fn most(trial: &mut Trial) -> Result<(), Difference> {
    all(trial, |_| MOST_SLOTS, &mut offered::nothing())
}

pub fn beyond(trial: &mut Trial) -> Result<(), Difference> {
    all(trial, |_| MOST_SLOTS + 1, &mut offered::nothing())
}

type Length = fn(&mut Rng) -> usize;

fn all(trial: &mut Trial, length: Length, counts: &mut Offered) -> Result<(), Difference> {
    while trial.more() {
        one::<Paced>(trial, length, counts)?;
        one::<Bucket>(trial, length, counts)?;
    }
    Ok(())
}

fn one<E: Engine>(
    trial: &mut Trial,
    length: Length,
    counts: &mut Offered,
) -> Result<(), Difference> {
    let slots = length(&mut trial.rng);
    let scene = Scene::<E>::new(&mut trial.rng, slots);
    let call = match trial.rng.below(16) {
        0 => Call::Clear,
        1..=4 => scene.peek(),
        _ => scene.ask(),
    };
    let mut pair = Pair::new(scene.list, scene.table, trial.spoil);
    let answer = pair.call(&call)?;
    trial.count(&pair, &call, &answer);
    pair.count_offer(counts, &call, &answer);
    Ok(())
}
