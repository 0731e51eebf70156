//! Document 02, Item 7: which plans have a run that meets the ceiling. A greedy shop asks for its whole burst at moment 0, and at
//! each later moment for the units that have come in since: it has B + floor(N × T / P) at every moment T, unless the bucket runs
//! over on the way. It meets the ceiling exactly if it never does, and if it does, no other run meets it either.

mod three;

use model::ceiling::Notes;
use model::plan::Plan;
use model::plans::Plans;
use three::Three;

const SHOP: u32 = 7;

/// The units that are there up to a moment if none is lost.
fn in_all(plan: &Plan, moment: u64) -> u128 {
    plan.burst + plan.limit * moment as u128 / plan.period
}

/// Whether what comes in until the next moment fits the bucket, with less than a unit in it.
fn fits(plan: &Plan, moment: u64) -> bool {
    plan.limit * moment as u128 % plan.period + plan.limit <= plan.full()
}

fn gcd(a: u128, b: u128) -> u128 {
    match b {
        0 => a,
        _ => gcd(b, a % b),
    }
}

/// The bucket never runs over: less than a unit is at most P − gcd(N, P).
fn never_runs_over(plan: &Plan) -> bool {
    let Plan { limit, period, .. } = *plan;
    limit + period <= plan.full() + gcd(limit, period)
}

/// What both engines and the book admit a greedy shop, and what it notes.
struct Greedy {
    plan: Plan,
    three: Three,
    notes: Notes,
    /// Every ask was admitted.
    all: bool,
    met: u64,
}

impl Greedy {
    fn new(numbers: [u32; 3]) -> Greedy {
        let [limit, period, burst] = numbers;
        Greedy {
            plan: Plan::new(limit, period, burst),
            three: Three::new(&numbers, 1),
            notes: Notes::new(Plans::lent(&numbers)),
            all: true,
            met: 0,
        }
    }

    /// At every moment it has all that is there, as long as every ask is admitted.
    fn play(&mut self, until: u64) {
        let mut before = 0;
        for moment in 0..=until {
            let there = in_all(&self.plan, moment);
            self.ask(moment, (there - before) as u32);
            let noted = self.notes.cost(SHOP, 0, 0, moment) as u128;
            assert_eq!(noted == there, self.all, "{:?} {moment}", self.plan);
            before = there;
        }
    }

    /// For nothing it looks, and less than a unit is left.
    fn ask(&mut self, moment: u64, cost: u32) {
        let answers = match cost {
            0 => self.three.peek(moment, SHOP, 0),
            _ => self.three.acquire(moment, SHOP, 0, cost),
        };
        assert_eq!(answers, [answers[0]; 3], "{:?} {moment}", self.plan);
        match (answers[0], cost) {
            ([0, _, 0, ..], 0) => (),
            ([0, ..], 1..) => self.note(moment, cost),
            _ => self.all = false,
        }
    }

    fn note(&mut self, moment: u64, cost: u32) {
        let looked = self.notes.admitted(moment, SHOP, 0, cost);
        assert_eq!(looked.above, None, "{:?} {moment}", self.plan);
        self.met += looked.met;
        assert_eq!(self.three.newest(), [moment as u128; 3]);
    }

    fn clear(&mut self) {
        assert_eq!(self.three.clear(), [[0; 5]; 3]);
        self.notes.cleared();
    }
}

/// The most that was admitted since moment 0 by any run that leaves so many grains; `None` where no run leaves so many.
type Most = Vec<Option<u128>>;

/// A moment later, before anything is asked for.
fn refilled(plan: &Plan, most: &Most) -> Most {
    let mut after = vec![None; most.len()];
    for (level, &admitted) in most.iter().enumerate() {
        let level = (level as u128 + plan.limit).min(plan.full()) as usize;
        after[level] = admitted.max(after[level]);
    }
    after
}

/// After any ask that is admitted, or none: a unit is taken again and again, from the highest level down.
fn spent(plan: &Plan, most: &Most) -> Most {
    let (mut after, unit) = (most.clone(), plan.period as usize);
    for level in (unit..most.len()).rev() {
        let admitted = after[level].map(|admitted| admitted + 1);
        after[level - unit] = admitted.max(after[level - unit]);
    }
    after
}

/// Whether any run at all, from any level on, has N × L + P × B = P × c for some L above 0 and up to this.
fn some_run_meets(plan: &Plan, longest: u128) -> bool {
    let mut most = spent(plan, &vec![Some(0); plan.full() as usize + 1]);
    let mut meets = |length: u128| {
        most = spent(plan, &refilled(plan, &most));
        let admitted = most.iter().flatten().max();
        let ceiling = plan.limit * length + plan.full();
        assert!(plan.period * admitted.expect("some level") <= ceiling);
        admitted.map(|admitted| plan.period * admitted) == Some(ceiling)
    };
    (1..=longest).any(&mut meets)
}

/// Every plan with numbers up to 8.
fn small_plans() -> impl Iterator<Item = [u32; 3]> {
    let numbers = 0..8 * 8 * 8;
    numbers.map(|number| [number / 64 + 1, number / 8 % 8 + 1, number % 8 + 1])
}

/// A whole number of periods twice over, so that what was lost in the first is missed in the second.
#[test]
fn a_small_plan_meets_the_ceiling_if_its_bucket_never_runs_over() {
    let mut meeting = 0;
    for numbers in small_plans() {
        let mut greedy = Greedy::new(numbers);
        let (plan, longest) = (greedy.plan, 2 * numbers[1] as u64);
        greedy.play(longest);
        let holds = (0..longest).all(|moment| fits(&plan, moment));
        assert_eq!(never_runs_over(&plan), holds, "{numbers:?}");
        assert_eq!(greedy.all, holds, "{numbers:?}");
        assert_eq!(greedy.met > 0, holds, "{numbers:?}");
        assert_eq!(some_run_meets(&plan, longest as u128), holds, "{numbers:?}");
        meeting += u32::from(holds);
    }
    assert!((50..462).contains(&meeting), "of 512: {meeting}");
}

/// A random number from 1 to `most`, by Knuth's generator.
fn up_to(state: &mut u64, most: u64) -> u32 {
    *state = state
        .wrapping_mul(6_364_136_223_846_793_005)
        .wrapping_add(1_442_695_040_888_963_407);
    ((*state >> 33) % most + 1) as u32
}

/// Three hundred plans, at every moment up to 400, which is at least two periods.
#[test]
fn a_greedy_shop_has_all_that_is_there() {
    let (mut random, mut met) = (1, [0; 2]);
    for _ in 0..300 {
        let limit = up_to(&mut random, 1000);
        let numbers = [limit, up_to(&mut random, 200), up_to(&mut random, 20)];
        let mut greedy = Greedy::new(numbers);
        greedy.play(400);
        assert_eq!(greedy.all, never_runs_over(&greedy.plan), "{numbers:?}");
        assert_eq!(greedy.met > 0, greedy.all, "{numbers:?}");
        met[usize::from(greedy.all)] += 1;
    }
    assert!(met.iter().all(|&often| often > 50), "{met:?}");
}

/// Document 01's plan: 5 units from 0 to 1000; and after a clear all over again.
#[test]
fn document_01_s_plan_meets_it_every_second() {
    let mut greedy = Greedy::new([3, 1000, 2]);
    for met in [3, 6] {
        greedy.play(3000);
        assert!(greedy.all && never_runs_over(&greedy.plan));
        let noted = [999, 1000, 2000, 3000].map(|until| greedy.notes.cost(SHOP, 0, 0, until));
        assert_eq!((noted, greedy.met), ([4, 5, 8, 11], met));
        greedy.clear();
    }
}
