//! Runs that must be remembered long: one or two slots, a large burst, and some hundreds of admissions of subscribers who owe
//! something throughout, so that what they owe depends on calls far back; and mostly so late that it depends on them whether a
//! wait ends within the clock. Now and then one of them comes under another plan, and is told that it owes.

use crate::call::{ask, peek, plan_of, Call, Terms};
use crate::choose::{self, LAST};
use crate::compare::Difference;
use crate::counts::{answered, Counts, ANSWERED};
use crate::joint::{self, Joint};
use crate::list::List;
use crate::lists;
use crate::rng::Rng;
use crate::spoil::SHORT_MEMORY;
use crate::trial::Trial;
use model::book::Book;
use model::plan::div_up;
use model::table::Answer;

/// How many answers a book with a short memory gets wrong.
pub type Remembered = Counts<4>;

pub fn run(trial: &mut Trial) -> Result<Remembered, Difference> {
    let found = "a book with a short memory gets these wrong";
    let mut counts = Counts::new("lasting", found, ANSWERED);
    while trial.more() {
        one(trial, &mut counts)?;
    }
    Ok(counts)
}

fn one(trial: &mut Trial, counts: &mut Remembered) -> Result<(), Difference> {
    let mut course = Course::new(&mut trial.rng);
    let slots = course.resets.len();
    let list = List::of(&course.plans);
    let mut joint = Joint::new(trial, &list, slots);
    let mut forgetful = Book::mistaken(list.plans().clone(), slots, Some(SHORT_MEMORY));
    joint.call(trial, &Call::Clear)?;
    for _ in 0..slots as u64 * trial.rng.from(300, 900) {
        let call = course.next(&mut trial.rng);
        let answer = joint.call(trial, &call)?;
        course.hear(&call, &answer);
        let wrong = joint::ask(&mut forgetful, &call) != answer;
        if matches!(answer[0], 0 | 8 | 13) {
            counts.count(answered(&call, answer[0]), wrong);
        }
    }
    for call in course.end() {
        joint.call(trial, &call)?;
    }
    Ok(())
}

/// The calls of a run. Subscribers 1, 2, .. hold the slots, and one more finds none; all come under the plan of one number.
struct Course {
    plans: Vec<Terms>,
    number: u32,
    terms: Terms,
    /// What each holder asks for first.
    first: u32,
    moment: u64,
    /// The longest step of the clock, but for what `resets` allow.
    pace: u64,
    /// The latest moment to which the clock goes by itself.
    until: u64,
    /// The first moment at which each holder owes nothing, as it was told; 0 before it was admitted.
    resets: Vec<u64>,
}

/// In how many milliseconds so many units drain.
fn drain(terms: &Terms, cost: u32) -> u64 {
    let plan = plan_of(terms);
    div_up(plan.period * cost as u128, plan.limit) as u64
}

/// A plan with a large burst; mostly one that drains neither at once nor longer than the clock lasts.
fn terms(rng: &mut Rng) -> Terms {
    let mut draw = || Terms {
        burst: 1000 + rng.of_any_size(999_000) as u32,
        ..choose::good_terms(rng)
    };
    let (terms, another) = (draw(), draw());
    match (1000..LAST).contains(&drain(&terms, terms.burst)) {
        true => terms,
        false => another,
    }
}

impl Course {
    fn new(rng: &mut Rng) -> Course {
        let terms = terms(rng);
        let first = rng.from(1, terms.burst as u64 / 2) as u32;
        let drain_first = drain(&terms, first);
        let drain = drain(&terms, terms.burst);
        let (soon, anywhen) = (rng.below(10_000), rng.of_any_size(LAST));
        // after some 170 admissions more is owed than drains on this clock, and what a short memory knows still does
        let late = LAST.saturating_sub(drain_first + drain / 6);
        // mostly several
        let count = lists::count(rng).max(lists::count(rng));
        let (plans, number) = lists::among(rng, terms, count);
        Course {
            plans,
            number,
            terms,
            first,
            moment: rng.pick(&[soon, anywhen, late, late, late, late]),
            // from a clock that stands to one by which more would drain than is asked for
            pace: rng.pick(&[0, drain / 4000, drain / 1000, drain / 400]),
            until: LAST.saturating_sub(drain / 8),
            resets: vec![0; rng.from(1, 2) as usize],
        }
    }

    fn stranger(&self) -> u32 {
        self.resets.len() as u32 + 1
    }

    /// The next call, at a moment when every holder still owes something; now and then one before what the clock shows.
    fn next(&mut self, rng: &mut Rng) -> Call {
        let burst = self.terms.burst;
        if let Some(new) = self.resets.iter().position(|&reset| reset == 0) {
            return ask(self.moment, new as u32 + 1, self.number, self.first);
        }
        let step = rng.from(0, self.pace);
        let latest = self.resets.iter().fold(self.until + 1, |a, &b| a.min(b)) - 1;
        self.moment = self.moment.max(latest.min(self.moment + step));
        let holder = rng.from(1, self.resets.len() as u64) as u32;
        let cost = rng.from(1, burst as u64 / 500) as u32;
        let moment = match rng.below(16) {
            0 => self.moment.saturating_sub(rng.of_any_size(LAST)),
            _ => self.moment,
        };
        let plan = match rng.below(8) {
            0 => lists::other(rng, self.number, self.plans.len()),
            _ => self.number,
        };
        match rng.below(16) {
            0 => peek(moment, holder, plan),
            1 => ask(moment, self.stranger(), plan, self.of(plan, cost)),
            2 => ask(moment, holder, plan, self.of(plan, burst)),
            _ => ask(moment, holder, plan, self.of(plan, cost)),
        }
    }

    /// A cost that the plan of this number allows.
    fn of(&self, plan: u32, cost: u32) -> u32 {
        cost.min(self.plans[plan as usize].burst)
    }

    fn hear(&mut self, call: &Call, answer: &Answer) {
        if let (Call::Acquire { subscriber, .. }, 0) = (call, answer[0]) {
            self.resets[*subscriber as usize - 1] = answer[3] as u64;
        }
    }

    /// All ask for the whole burst when nobody owes anything any more, first the one without a slot; and at the clock's last
    /// moment twice, so that it is not there on this clock.
    fn end(&self) -> impl Iterator<Item = Call> + '_ {
        let rested = self.resets.iter().fold(0, |a, &b| a.max(b));
        let all = move |moment| {
            let subscribers = (1..=self.stranger()).rev();
            let whole = self.terms.burst;
            subscribers.map(move |subscriber| ask(moment, subscriber, self.number, whole))
        };
        [rested.min(LAST), LAST, LAST].into_iter().flat_map(all)
    }
}
