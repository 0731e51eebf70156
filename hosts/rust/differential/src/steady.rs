//! Document 001's case: 10 units a second, burst 10, a request of cost 1 every millisecond from 0 to 3000. Of these
//! exactly 40 are admitted.

use crate::call::{ask, Call, Terms};
use crate::compare::Difference;
use crate::joint::Joint;
use crate::list::List;
use crate::trial::Trial;

pub fn run(trial: &mut Trial) -> Result<(), Difference> {
    let terms = Terms {
        limit: 10,
        period: 1000,
        burst: 10,
    };
    let mut joint = Joint::new(trial, &List::of(&[terms]), 1);
    joint.call(trial, &Call::Clear)?;
    let mut admitted = 0;
    for moment in 0..=3000 {
        let answer = joint.call(trial, &ask(moment, 7, 0, 1))?;
        admitted += u64::from(answer[0] == 0);
    }
    if admitted == 40 {
        Ok(())
    } else {
        Err(format!(
            "document 001's case: both engines and the book admit {admitted}, and not 40\n"
        ))
    }
}
