//! Document 02, Item 7, 'A ceiling I can put in a contract': in any stretch of L milliseconds, both end moments included, the
//! cost c that one subscriber was admitted under one plan satisfies N × L + P × B ≥ P × c. It is said of any two places in what
//! a host notes of a run: the acquires that were answered 0 since the last clear, a list for each subscriber and plan number.

use crate::plan::Plan;
use crate::plans::Plans;
use std::collections::BTreeMap;

struct Admitted {
    moment: u64,
    cost: u32,
}

pub struct Notes {
    plans: Plans,
    lists: BTreeMap<(u32, u32), Vec<Admitted>>,
    mistake: Option<Mistake>,
}

/// What a host does wrong with its notes, with which the comparisons are tried.
#[derive(Clone, Copy, PartialEq, Eq)]
pub enum Mistake {
    /// It takes the ceiling as one unit lower.
    Lower,
    /// It does not count the first call of a stretch.
    NoFirst,
    /// It does not count the last call of a stretch.
    NoLast,
    /// It adds up what all subscribers were admitted.
    OfAll,
    /// It adds up what a subscriber was admitted under all plans.
    AnyPlan,
    /// It keeps its notes over a clear.
    NeverCleared,
}

/// The cost from one moment to another.
#[derive(Clone, Copy, Debug, PartialEq, Eq)]
pub struct Stretch {
    pub from: u64,
    pub until: u64,
    pub cost: i128,
}

/// What was looked at: how many stretches, how many of them met the ceiling with L above 0, and the shortest that is above it.
#[derive(Clone, Copy, Debug, Default, PartialEq, Eq)]
pub struct Looked {
    pub stretches: u64,
    pub met: u64,
    pub above: Option<Stretch>,
}

impl Notes {
    pub fn new(plans: Plans) -> Notes {
        Notes::mistaken(plans, None)
    }

    pub fn mistaken(plans: Plans, mistake: Option<Mistake>) -> Notes {
        Notes {
            plans,
            lists: BTreeMap::new(),
            mistake,
        }
    }

    /// Notes an acquire that was answered 0, and looks at each stretch that ends with it. So every two places of a list are
    /// looked at once it is complete.
    pub fn admitted(&mut self, moment: u64, subscriber: u32, plan: u32, cost: u32) -> Looked {
        let list = self.lists.entry(key(self.mistake, subscriber, plan));
        let list = list.or_default();
        list.push(Admitted { moment, cost });
        let plan = self.plans.numbered(plan).expect("of an admitted call");
        look(plan, list, self.mistake)
    }

    /// A clear that was answered 0.
    pub fn cleared(&mut self) {
        if self.mistake != Some(Mistake::NeverCleared) {
            self.lists.clear();
        }
    }

    /// What a subscriber was admitted under a plan from one moment to another, both included.
    pub fn cost(&self, subscriber: u32, plan: u32, from: u64, until: u64) -> i128 {
        let list = self.lists.get(&(subscriber, plan)).into_iter().flatten();
        let within = list.filter(|call| (from..=until).contains(&call.moment));
        within.map(|call| i128::from(call.cost)).sum()
    }
}

/// The list in which a call is noted.
fn key(mistake: Option<Mistake>, subscriber: u32, plan: u32) -> (u32, u32) {
    match mistake {
        Some(Mistake::OfAll) => (0, plan),
        Some(Mistake::AnyPlan) => (subscriber, 0),
        _ => (subscriber, plan),
    }
}

/// N × L + P × B − P × c: what the ceiling leaves of a stretch, in grains; below 0 if the cost is above it.
fn left(plan: &Plan, stretch: &Stretch) -> i128 {
    let (n, p, b) = (plan.limit as i128, plan.period as i128, plan.burst as i128);
    let length = i128::from(stretch.until) - i128::from(stretch.from);
    n * length + p * b - p * stretch.cost
}

/// From each place of a list to its last.
fn look(plan: &Plan, list: &[Admitted], mistake: Option<Mistake>) -> Looked {
    let mut looked = Looked::default();
    let mut cost = 0;
    for first in list.iter().rev() {
        cost += i128::from(first.cost);
        let stretch = Stretch {
            from: first.moment,
            until: list[list.len() - 1].moment,
            cost: counted(cost, first, &list[list.len() - 1], mistake),
        };
        let left = left(plan, &stretch) - lowered(plan, mistake);
        looked.stretches += 1;
        looked.met += u64::from(left == 0 && stretch.from < stretch.until);
        if left < 0 && looked.above.is_none() {
            looked.above = Some(stretch);
        }
    }
    looked
}

/// What is counted of a cost that was admitted from one call to another.
fn counted(cost: i128, first: &Admitted, last: &Admitted, mistake: Option<Mistake>) -> i128 {
    match mistake {
        Some(Mistake::NoFirst) => cost - i128::from(first.cost),
        Some(Mistake::NoLast) => cost - i128::from(last.cost),
        _ => cost,
    }
}

fn lowered(plan: &Plan, mistake: Option<Mistake>) -> i128 {
    match mistake {
        Some(Mistake::Lower) => plan.period as i128,
        _ => 0,
    }
}

#[cfg(test)]
mod tests {
    use super::*;

    /// Plan 0 is document 01's, with a burst of 2; plan 1 is slower and has a burst of 4.
    const PLANS: [u32; 6] = [3, 1000, 2, 1, 1000, 4];

    /// Moment, subscriber, plan and cost.
    type Call = (u64, u32, u32, u32);

    /// The burst at once, and a unit whenever it is there: 5 units from 0 to 1000, and 3 × 1000 + 1000 × 2 = 1000 × 5.
    const MEETING: [Call; 4] = [
        (0, 7, 0, 2),
        (334, 7, 0, 1),
        (667, 7, 0, 1),
        (1000, 7, 0, 1),
    ];

    fn add(sum: Looked, more: Looked) -> Looked {
        Looked {
            stretches: sum.stretches + more.stretches,
            met: sum.met + more.met,
            above: sum.above.or(more.above),
        }
    }

    fn note(notes: &mut Notes, calls: &[Call]) -> Looked {
        let looked = calls.iter().map(|&(moment, subscriber, plan, cost)| {
            notes.admitted(moment, subscriber, plan, cost)
        });
        looked.fold(Looked::default(), add)
    }

    fn noted(mistake: Option<Mistake>, calls: &[Call]) -> Looked {
        note(&mut Notes::mistaken(Plans::lent(&PLANS), mistake), calls)
    }

    /// Every two places of four, and the longest stretch meets the ceiling.
    #[test]
    fn a_run_meets_the_ceiling() {
        let met = Looked {
            stretches: 10,
            met: 1,
            above: None,
        };
        assert_eq!(noted(None, &MEETING), met);
    }

    /// A whole burst at one moment meets it too, with L = 0, and is not counted.
    #[test]
    fn one_unit_above_is_noticed() {
        assert_eq!(noted(None, &[(5, 7, 0, 2)]).met, 0);
        for (calls, from) in [
            (vec![(5, 7, 0, 3)], 5),
            (vec![(5, 7, 0, 2), (5, 7, 0, 1)], 5),
            (vec![(0, 7, 0, 1), (400, 7, 0, 2), (733, 7, 0, 1)], 400),
        ] {
            let stretch = Stretch {
                from,
                until: calls[calls.len() - 1].0,
                cost: 3,
            };
            assert_eq!(noted(None, &calls).above, Some(stretch), "{calls:?}");
        }
        assert_eq!(noted(None, &[(5, 7, 0, 2), (339, 7, 0, 1)]).above, None);
    }

    #[test]
    fn both_end_moments_count() {
        let mut notes = Notes::new(Plans::lent(&PLANS));
        note(&mut notes, &MEETING);
        for (from, until, cost) in [(0, 1000, 5), (0, 999, 4), (1, 1000, 3), (335, 666, 0)] {
            assert_eq!(notes.cost(7, 0, from, until), cost, "{from} to {until}");
        }
        for mistake in [Mistake::NoFirst, Mistake::NoLast] {
            assert_eq!(noted(Some(mistake), &MEETING).met, 0);
        }
        let above = [(0, 7, 0, 2), (0, 7, 0, 1)];
        assert_eq!(noted(Some(Mistake::NoFirst), &above).above, None);
        assert_eq!(noted(Some(Mistake::NoLast), &above).above, None);
    }

    #[test]
    fn the_burst_counts_whole() {
        assert_eq!(noted(None, &[(5, 7, 0, 2)]).above, None);
        assert!(noted(Some(Mistake::Lower), &[(5, 7, 0, 2)]).above.is_some());
    }

    #[test]
    fn subscribers_are_not_added_up() {
        let two = [(0, 7, 0, 2), (0, 8, 0, 2)];
        assert_eq!(noted(None, &two).above, None);
        assert!(noted(Some(Mistake::OfAll), &two).above.is_some());
    }

    /// The moments may begin anew, too.
    #[test]
    fn a_clear_starts_anew() {
        for (mistake, kept) in [(None, true), (Some(Mistake::NeverCleared), false)] {
            let mut notes = Notes::mistaken(Plans::lent(&PLANS), mistake);
            note(&mut notes, &MEETING);
            notes.cleared();
            let again = note(&mut notes, &MEETING);
            assert_eq!(again.above.is_none(), kept);
            assert_eq!(notes.cost(7, 0, 0, 1000) == 5, kept);
        }
    }

    /// Who owes nothing at 667 has the whole burst of plan 1: 6 units, where each plan's ceiling is 4.
    #[test]
    fn plans_are_not_added_up() {
        let changing = [(0, 7, 0, 2), (667, 7, 1, 4), (4667, 7, 0, 2)];
        assert_eq!(noted(None, &changing).above, None);
        assert!(noted(Some(Mistake::AnyPlan), &changing).above.is_some());
        let between = [(0, 7, 0, 2), (667, 7, 1, 4), (667, 7, 0, 3)];
        assert!(noted(None, &between).above.is_some());
    }

    /// A random number below `end`, by Knuth's generator.
    fn below(state: &mut u64, end: u64) -> u64 {
        *state = state
            .wrapping_mul(6_364_136_223_846_793_005)
            .wrapping_add(1_442_695_040_888_963_407);
        (*state >> 33) % end
    }

    /// What the ceiling leaves of each stretch within so many milliseconds, whether a call is at its ends or not, and its length.
    fn stretches(notes: &Notes, plan: &Plan, end: u64) -> Vec<(i128, u64)> {
        let pairs = (0..end).flat_map(|from| (from..end).map(move |until| (from, until)));
        let stretch = |(from, until)| {
            let cost = notes.cost(7, 0, from, until);
            let stretch = Stretch { from, until, cost };
            (left(plan, &stretch), until - from)
        };
        pairs.map(stretch).collect()
    }

    /// Any two places say the same as any two moments.
    #[test]
    fn places_say_the_same_as_moments() {
        let (mut random, mut seen) = (1, [0; 3]);
        for _ in 0..3000 {
            let numbers = [5, 5, 4].map(|most| below(&mut random, most) as u32 + 1);
            let mut notes = Notes::new(Plans::lent(&numbers));
            let mut moments = [(); 5].map(|()| below(&mut random, 9));
            moments.sort();
            let calls = moments.map(|moment| (moment, 7, 0, below(&mut random, 2) as u32 + 1));
            let looked = note(&mut notes, &calls);
            let [limit, period, burst] = numbers;
            let all = stretches(&notes, &Plan::new(limit, period, burst), 9);
            let above = all.iter().any(|&(left, _)| left < 0);
            let met = all.iter().any(|&(left, length)| left == 0 && length > 0);
            assert_eq!(looked.above.is_some(), above, "{numbers:?} {calls:?}");
            assert!(above || (looked.met > 0) == met, "{numbers:?} {calls:?}");
            seen[if above { 2 } else { usize::from(met) }] += 1;
        }
        assert!(seen.iter().all(|&often| often > 100), "{seen:?}");
    }

    /// The largest numbers that a plan, a moment and a cost may have.
    #[test]
    fn nothing_overflows() {
        let plans = Plans::lent(&[1_000_000, 2_678_400_000, 1_000_000]);
        let mut notes = Notes::new(plans);
        let calls = [(0, 7, 0, u32::MAX), (u64::MAX, 7, 0, u32::MAX)];
        assert!(note(&mut notes, &calls).above.is_some());
        assert_eq!(notes.cost(7, 0, 0, u64::MAX), 2 * i128::from(u32::MAX));
    }
}
