//! Long runs, which begin with a clear: on tables of few slots with a clock that only rises, or that falls now and then, and on
//! larger ones, the largest of which has the most slots by default.

use crate::call::Call;
use crate::compare::Difference;
use crate::course::{Course, Size};
use crate::joint::Joint;
use crate::trial::Trial;
use model::checks::MOST_SLOTS;

pub fn rising(trial: &mut Trial) -> Result<(), Difference> {
    all(trial, Size::Few, false)
}

pub fn falling(trial: &mut Trial) -> Result<(), Difference> {
    all(trial, Size::Few, true)
}

pub fn between(trial: &mut Trial) -> Result<(), Difference> {
    all(trial, Size::Between, true)
}

/// So many slots that one run, which has more than two calls for each, makes at least the calls that are due; at most as many as
/// a table may have, and then over again until they are made.
pub fn wide(trial: &mut Trial) -> Result<(), Difference> {
    let slots = (trial.calls as usize / 20 * 11).clamp(1, MOST_SLOTS);
    all(trial, Size::Exactly(slots), true)
}

fn all(trial: &mut Trial, size: Size, falls: bool) -> Result<(), Difference> {
    while trial.more() {
        let course = Course::new(&mut trial.rng, size, falls);
        one(trial, course)?;
    }
    Ok(())
}

fn one(trial: &mut Trial, mut course: Course) -> Result<(), Difference> {
    let mut joint = Joint::new(trial, &course.list, course.slots);
    let mut call = Call::Clear;
    for _ in 0..course.length(&mut trial.rng) {
        let answer = joint.call(trial, &call)?;
        if matches!(call, Call::Clear) && trial.rng.once_in(2) {
            course.start_the_clock(&mut trial.rng);
        }
        call = course.next(&mut trial.rng, &call, &answer);
    }
    for call in course.end() {
        joint.call(trial, &call)?;
    }
    Ok(())
}
