//! Where a wait ends (document 02, Item 13): a shop that owes so much asks for a cost that is too much, at the last moment at
//! which the wait ends within the clock, a millisecond later, and anywhere. Under 8 the same request is admitted when the wait
//! is over, and not a millisecond earlier; under 13 it gets 13 at every later moment of the clock. On damaged tables of either
//! engine, and in runs of both and the book.

use crate::call::{ask, plan_of, Call, Terms};
use crate::choose::{self, LAST};
use crate::compare::{circumstances, Difference, Pair};
use crate::counts::Counts;
use crate::engine::Engine;
use crate::joint::Joint;
use crate::list::List;
use crate::lists;
use crate::rng::Rng;
use crate::scene;
use crate::spoil::{self, Spoil};
use crate::trial::Trial;
use model::decision::{least_wait, Bucket, Paced};
use model::table::Answer;

const SHOP: u32 = 7;

/// The first two are counted at each gate.
const LAST_8: usize = 0;
const FIRST_13: usize = 1;
const LONGER: usize = 6;
const NOT_WHOLE: usize = 7;
const KINDS: [&str; 8] = [
    "gcra last 8",
    "gcra first 13",
    "token-bucket last 8",
    "token-bucket first 13",
    "run last 8",
    "run first 13",
    "longer than the clock",
    "not whole",
];

/// How many waits ended at the clock's last moment, and how many would have a millisecond later; how many were longer than the
/// clock, and how many lay between two whole milliseconds before they were rounded.
pub type Ends = Counts<8>;

pub fn run(trial: &mut Trial) -> Result<Ends, Difference> {
    let found = "a wait ends within the clock, or is 13";
    let mut counts = Counts::new("ending", found, KINDS);
    while trial.more() {
        on_tables(trial, &mut counts)?;
        in_runs(trial, &mut counts)?;
    }
    Ok(counts)
}

/// A shop on a table that is damaged elsewhere, of each engine.
fn on_tables(trial: &mut Trial, counts: &mut Ends) -> Result<(), Difference> {
    let denial = Denial::any(&mut trial.rng);
    for moment in denial.moments(&mut trial.rng, 0) {
        denial.on_a_table::<Paced>(trial, moment, counts)?;
        denial.on_a_table::<Bucket>(trial, moment, counts)?;
    }
    Ok(())
}

/// A shop that has spent its whole burst so long ago, of both engines and the book.
fn in_runs(trial: &mut Trial, counts: &mut Ends) -> Result<(), Difference> {
    let (denial, ago) = Denial::after_the_burst(&mut trial.rng);
    for moment in denial.moments(&mut trial.rng, ago) {
        let slots = trial.rng.from(1, 3) as usize;
        let mut joint = Joint::new(trial, &List::of(&denial.plans), slots);
        joint.call(trial, &Call::Clear)?;
        let whole = denial.terms.burst;
        joint.call(trial, &ask(moment - ago, SHOP, denial.number, whole))?;
        denial.follow(trial, &mut joint, moment, counts)?;
    }
    Ok(())
}

/// What a request is put to; the answer is compared and counted.
trait Gate {
    const PLACE: usize;
    fn ask(&mut self, trial: &mut Trial, call: &Call) -> Result<Answer, Difference>;
}

impl<E: Engine> Gate for Pair<E> {
    const PLACE: usize = E::PLACE;

    fn ask(&mut self, trial: &mut Trial, call: &Call) -> Result<Answer, Difference> {
        let answer = self.call(call)?;
        trial.count(self, call, &answer);
        Ok(answer)
    }
}

impl Gate for Joint {
    const PLACE: usize = 2;

    fn ask(&mut self, trial: &mut Trial, call: &Call) -> Result<Answer, Difference> {
        self.call(trial, call)
    }
}

/// A cost that is too much for who owes this much under one of some plans, which has this number.
struct Denial {
    plans: Vec<Terms>,
    number: u32,
    terms: Terms,
    cost: u32,
    debt: u128,
}

impl Denial {
    fn new(rng: &mut Rng, terms: Terms, cost: u32, debt: u128) -> Denial {
        let count = lists::count(rng);
        let (plans, number) = lists::among(rng, terms, count);
        Denial {
            plans,
            number,
            terms,
            cost,
            debt,
        }
    }

    fn any(rng: &mut Rng) -> Denial {
        let (terms, cost) = request(rng);
        let debt = choose::too_much(rng, &plan_of(&terms), cost as u128);
        Denial::new(rng, terms, cost, debt.expect("a cost within its limits"))
    }

    /// So many milliseconds after the whole burst, when the cost is not there yet.
    fn after_the_burst(rng: &mut Rng) -> (Denial, u64) {
        let (terms, cost) = request(rng);
        let plan = plan_of(&terms);
        let whole = least_wait(&plan, plan.full(), cost as u128) as u64;
        let some = rng.below(whole);
        let ago = rng.pick(&[0, some, whole - 1]);
        let debt = plan.full() - ago as u128 * plan.limit;
        (Denial::new(rng, terms, cost, debt), ago)
    }

    fn request(&self, moment: u64) -> Call {
        ask(moment, SHOP, self.number, self.cost)
    }

    fn wait(&self) -> u64 {
        least_wait(&plan_of(&self.terms), self.debt, self.cost as u128) as u64
    }

    /// The last moment at which the wait ends within the clock, the next, and any; none before the earliest.
    fn moments(&self, rng: &mut Rng, earliest: u64) -> Vec<u64> {
        let mut moments = Vec::new();
        if let Some(last) = LAST.checked_sub(self.wait()) {
            moments.extend([last, last + 1]);
        }
        if earliest <= LAST {
            moments.push(rng.from(earliest, LAST));
        }
        moments.retain(|&moment| moment >= earliest);
        moments
    }

    fn on_a_table<E: Engine>(
        &self,
        trial: &mut Trial,
        moment: u64,
        counts: &mut Ends,
    ) -> Result<(), Difference> {
        let (rng, number) = (&mut trial.rng, self.number);
        let table = scene::owing::<E>(rng, &self.plans, number, moment, SHOP, self.debt);
        let mut pair = Pair::new(List::of(&self.plans), table, trial.spoil);
        self.follow(trial, &mut pair, moment, counts)
    }

    /// Asks at this moment, and again later, with nothing admitted between.
    fn follow<G: Gate>(
        &self,
        trial: &mut Trial,
        gate: &mut G,
        moment: u64,
        counts: &mut Ends,
    ) -> Result<(), Difference> {
        let call = self.request(moment);
        let answer = gate.ask(trial, &call)?;
        self.count::<G>(moment, &answer, counts);
        let heard = self.heard(trial.spoil, &call, answer);
        for (later, number) in due(&mut trial.rng, moment, &heard) {
            let got = gate.ask(trial, &self.request(later))?;
            if got[0] != number {
                return Err(format!(
                    "after {heard:?} the same request gets {got:?} at {later}, and {number} is due\n{}",
                    circumstances(&List::of(&self.plans), &call)
                ));
            }
        }
        Ok(())
    }

    fn count<G: Gate>(&self, moment: u64, answer: &Answer, counts: &mut Ends) {
        let (plan, end) = (plan_of(&self.terms), moment + self.wait());
        counts.count(2 * G::PLACE + LAST_8, answer[0] == 8 && end == LAST);
        counts.count(2 * G::PLACE + FIRST_13, answer[0] == 13 && end == LAST + 1);
        counts.count(LONGER, answer[0] == 13 && self.wait() > LAST);
        let owed_after = self.debt + plan.period * self.cost as u128;
        counts.count(
            NOT_WHOLE,
            !(owed_after - plan.full()).is_multiple_of(plan.limit),
        );
    }

    /// What the shop takes for the answer.
    fn heard(&self, spoil: Option<Spoil>, call: &Call, answer: Answer) -> Answer {
        let mut heard = answer;
        if let Some(fault) = spoil.and_then(Spoil::of_the_end) {
            spoil::move_the_end(fault, &plan_of(&self.terms), call, self.debt, &mut heard);
        }
        heard
    }
}

/// A good plan, now and then the slowest, and a cost up to its burst.
fn request(rng: &mut Rng) -> (Terms, u32) {
    let terms = match rng.once_in(16) {
        true => choose::SLOWEST,
        false => choose::good_terms(rng),
    };
    let some = rng.of_any_size(terms.burst as u64) as u32;
    (terms, rng.pick(&[1, some, terms.burst]))
}

/// When the same request is made again after this answer at this moment, and the number that is due.
fn due(rng: &mut Rng, moment: u64, answer: &Answer) -> [(u64, u128); 2] {
    let over = moment + answer[4] as u64;
    match answer[0] {
        8 => [(over - 1, 8), (over, 0)],
        _ => [(rng.from(moment, LAST), 13), (LAST, 13)],
    }
}
