//! What an HTTP response says of an answer, reckoned by the archive and by the model: of any five numbers, and of the answers
//! to clients, who are admitted if they wait as long as they are told, and with their whole burst after the reset, and not a
//! second earlier. Whole seconds may end beyond the clock: then its last moment admits them, unless what they wait for is not
//! on this clock (document 02, Item 13).

use crate::call::{ask, plan_of, Terms};
use crate::choose::{self, LAST};
use crate::compare::{Difference, Pair};
use crate::counts::Counts;
use crate::engine::Engine;
use crate::list::List;
use crate::out::answered;
use crate::rng::Rng;
use crate::spoil::Spoil;
use model::decision::{Bucket, Paced};
use model::http;
use model::table::Table;
use railcadence::numbers;

const BAD_PLAN: usize = 0;
const ADMITTED: usize = 1;
const THROTTLED: usize = 2;
const REFUSED: usize = 3;
const EARLY: usize = 4;
const OFF_CLOCK: usize = 5;
const WAITED: usize = 6;
const RENEWED: usize = 7;
const AT_THE_END: usize = 8;
const NEVER: usize = 9;
const OTHER_PLAN: usize = 10;
const KINDS: [&str; 11] = [
    "bad plan",
    "admitted",
    "throttled",
    "refused",
    "early",
    "off the clock",
    "waited",
    "renewed",
    "at the end",
    "never",
    "other plan",
];

/// How many answers of each kind were compared, how many clients waited as long as they were told, and how many came for their
/// whole burst at the reset that they were told; how many of those who would come after the clock's end were admitted at its
/// last moment, and how many not.
pub type Fields = Counts<11>;

/// What a client comes again for, and at which moments, with the number that is due at each.
struct Visit {
    kind: usize,
    cost: u32,
    due: Vec<(u64, u128)>,
}

struct Trial {
    rng: Rng,
    spoil: Option<Spoil>,
    counts: Fields,
}

/// Each time any five numbers, and a client of either engine.
pub fn run(seed: u64, times: u64, spoil: Option<Spoil>) -> Result<Fields, Difference> {
    let mut trial = Trial {
        rng: Rng::new(seed),
        spoil,
        counts: Counts::new("http", "fields of answers agree", KINDS),
    };
    for _ in 0..times {
        trial.any_numbers()?;
        trial.client::<Paced>()?;
        trial.client::<Bucket>()?;
    }
    Ok(trial.counts)
}

impl Trial {
    fn any_numbers(&mut self) -> Result<(), Difference> {
        let rng = &mut self.rng;
        let terms = choose::terms(rng);
        let moment = choose::moment(rng);
        let number = match rng.below(8) {
            0..=2 => 0,
            3..=5 => 8,
            6 => rng.below(14),
            _ => rng.next(),
        };
        let (subscriber, left) = (rng.next(), rng.next());
        let reset = near_a_second(rng, moment);
        let wait = near_a_second(rng, 0);
        let answer = [number, subscriber, left, reset, wait];
        self.fields(&terms, moment, &answer).map(|_| ())
    }

    /// Somebody spends the whole burst, and a client asks some time later, or now and then earlier. Then it comes again when
    /// it is told to, or for its whole burst after the reset; or at the clock's end.
    fn client<E: Engine>(&mut self) -> Result<(), Difference> {
        let rng = &mut self.rng;
        let terms = choose::terms(rng);
        let (subscriber, cost) = (choose::subscriber(rng), choose::cost(rng, terms.burst));
        let whole_wait = (terms.period as u64 * cost as u64).div_ceil(terms.limit.max(1) as u64);
        let begin = choose::moment_for(rng, &terms, whole_wait);
        let apart = rng.of_any_size(1 << 32);
        let moment = match rng.once_in(8) {
            true => begin.saturating_sub(apart),
            false => begin.saturating_add(apart),
        };
        let spender = rng.pick(&[1, 1, 1, 2]);
        let mut pair = Pair::new(List::of(&[terms]), Table::<E>::cleared(1), None);
        pair.call(&ask(begin, spender, 0, terms.burst))?;
        let answer = pair
            .call(&ask(moment, subscriber, 0, cost))?
            .map(|n| n as u64);
        let told = self.fields(&terms, moment, &answer)?;
        let Some(visit) = self.visit(&terms, moment, cost, &answer, &told) else {
            return Ok(());
        };
        self.counts.count(visit.kind, true);
        for (later, number) in visit.due {
            let got = pair.call(&ask(later, subscriber, 0, visit.cost))?[0];
            if got != number {
                let (name, why, cost) = (E::NAME, KINDS[visit.kind], visit.cost);
                return Err(format!(
                    "{name}: under {terms:?} subscriber {subscriber} got {answer:?} at {moment} and was told {told:?} ({why}); \
                     cost {cost} gets {got} at {later}, and {number} is due\n"
                ));
            }
        }
        Ok(())
    }

    /// How a client comes again that got this answer and was told these fields: for its cost or its whole burst, when it is
    /// told to and a second earlier, or at the clock's last moment.
    fn visit(
        &mut self,
        terms: &Terms,
        moment: u64,
        cost: u32,
        answer: &[u64; 5],
        told: &[u64; 5],
    ) -> Option<Visit> {
        let (kind, cost, seconds, on_the_clock) = match answer[0] {
            8 if self.rng.once_in(2) => (WAITED, cost, told[4], true),
            0 | 8 => (RENEWED, terms.burst, told[3], answer[3] <= LAST),
            13 => (NEVER, cost, told[4], false),
            _ => return None,
        };
        let later = moment.saturating_add(seconds.saturating_mul(1000));
        let (kind, due) = match (on_the_clock, later <= LAST) {
            (false, _) => (NEVER, vec![(LAST, 13)]),
            (true, false) => (AT_THE_END, vec![(LAST, 0)]),
            (true, true) => (kind, vec![(later.saturating_sub(1000), 8), (later, 0)]),
        };
        Some(Visit { kind, cost, due })
    }

    /// The fields of an answer on which both agree.
    fn fields(
        &mut self,
        terms: &Terms,
        moment: u64,
        answer: &[u64; 5],
    ) -> Result<[u64; 5], Difference> {
        let plan = plan_of(terms);
        let mut expected = http::fields(&plan, moment as u128, &answer.map(u128::from));
        let mut fields = answered(|out| numbers::http_fields(terms, moment, answer, out));
        if let Some(spoil) = self.spoil {
            spoil.fields(terms, answer, &mut fields);
            if let Some(time) = spoil.shortens_both() {
                expected[time] = expected[time].saturating_sub(1);
            }
        }
        let told: [u64; 5] = std::array::from_fn(|i| fields[i]);
        if !fields.intact() || told.map(u128::from) != expected {
            return Err(format!(
                "the fields differ\n  plan      {terms:?}\n  moment    {moment}\n  answer    {answer:?}\n  \
                 fields are quota, window, remaining, reset, retry after\n  \
                 expected  {expected:?}\n  archive   {told:?}, guards intact: {}\n",
                fields.intact()
            ));
        }
        let kind = match answer[0] {
            _ if !plan.within_limits() => BAD_PLAN,
            0 => ADMITTED,
            8 => THROTTLED,
            11 => EARLY,
            12 => OTHER_PLAN,
            13 => OFF_CLOCK,
            _ => REFUSED,
        };
        self.counts.count(kind, true);
        Ok(told)
    }
}

/// Whole seconds after a moment, or a millisecond off; or any number.
fn near_a_second(rng: &mut Rng, moment: u64) -> u64 {
    let seconds = rng.of_any_size(1 << 40) * 1000;
    match rng.below(8) {
        0 => rng.next(),
        1 => rng.pick(&[0, moment, u64::MAX]),
        _ => moment.wrapping_add(seconds + rng.below(3) - 1),
    }
}
