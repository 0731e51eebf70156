//! Several plans in one table: which are taken, a subscriber that changes its plan, slots that are free by their own plan,
//! and numbers of plans that are not lent.

use railcadence::{numbers, BadPlans, Gcra, Outcome, Plan, Plans, Reason, TokenBucket};

const SHOP: Plan = Plan::new(3, 1000, 2);
const MUSEUM: Plan = Plan::new(10, 1000, 5);
const OTHER_PLAN: Outcome = Outcome::Refused(Reason::OtherPlan);

fn plans() -> Plans {
    Plans::new(&[SHOP, MUSEUM, SHOP]).expect("good plans")
}

/// A table of each engine, of which both must answer alike.
struct Both {
    gcra: Gcra,
    bucket: TokenBucket,
}

impl Both {
    fn with_slots(slots: u16) -> Both {
        Both {
            gcra: Gcra::with_slots(slots),
            bucket: TokenBucket::with_slots(slots),
        }
    }

    fn ask(&mut self, moment: u64, subscriber: u32, plan: u32, cost: u32) -> Outcome {
        let plans = plans();
        let answer = self.gcra.acquire(&plans, moment, subscriber, plan, cost);
        let other = self.bucket.acquire(&plans, moment, subscriber, plan, cost);
        assert_eq!(answer, other);
        assert_eq!(self.gcra.plan_numbers(), self.bucket.plan_numbers());
        answer.outcome
    }

    fn look(&self, moment: u64, subscriber: u32, plan: u32) -> [u64; 5] {
        let report = self.gcra.peek(&plans(), moment, subscriber, plan);
        let other = self.bucket.peek(&plans(), moment, subscriber, plan);
        assert_eq!(report, other);
        report.to_numbers()
    }
}

#[test]
fn who_still_owes_is_not_served_under_another_plan() {
    let mut both = Both::with_slots(2);
    let (left, reset) = (0, 1667);
    assert_eq!(both.ask(1000, 7, 0, 2), Outcome::Admitted { left, reset });
    for moment in [1000, 1666] {
        for (plan, cost) in [(1, 1), (1, 5), (2, 1)] {
            assert_eq!(both.ask(moment, 7, plan, cost), OTHER_PLAN);
            assert_eq!(both.look(moment, 7, plan), [12, 7, 0, 0, 0]);
        }
    }
    let above = Outcome::Refused(Reason::CostAboveBurst);
    assert_eq!(both.ask(1000, 7, 1, 6), above);
    assert_eq!(both.look(1666, 7, 0), [0, 7, 1, 1667, 0]);
    assert_eq!(both.look(1667, 7, 1), [0, 7, 5, 1667, 0]);
    let (left, reset) = (0, 2167);
    assert_eq!(both.ask(1667, 7, 1, 5), Outcome::Admitted { left, reset });
    assert_eq!(both.gcra.ids(), [7, 0]);
    assert_eq!(both.gcra.plan_numbers(), [1, 0]);
    assert_eq!(both.gcra.tats(), [21_670, 0]);
    assert_eq!((both.bucket.levels()[0], both.bucket.lasts()[0]), (0, 1667));
    assert_eq!(both.ask(1667, 7, 0, 1), OTHER_PLAN);
}

/// 8 owes until 2001 by its own plan; by plan 1 its slot would be free at 1667.
#[test]
fn a_slot_is_free_by_its_own_plan() {
    let mut both = Both::with_slots(1);
    assert_eq!(both.look(1667, 8, 0), [0, 8, 2, 1667, 0]);
    let (left, reset) = (1, 2001);
    assert_eq!(both.ask(1667, 8, 0, 1), Outcome::Admitted { left, reset });
    let full = Outcome::Refused(Reason::TableFull);
    assert_eq!(both.ask(2000, 9, 1, 1), full);
    let (left, reset) = (4, 2101);
    assert_eq!(both.ask(2001, 9, 1, 1), Outcome::Admitted { left, reset });
    assert_eq!(both.gcra.plan_numbers(), [1]);
}

/// A number that is not lent: the owner gets 7, and nobody the slot; of an empty slot it does not matter.
#[test]
fn a_stored_number_must_be_lent() {
    for (id, outcome, stranger) in [
        (7, 7, Outcome::Refused(Reason::TableFull)),
        (
            0,
            0,
            Outcome::Admitted {
                left: 1,
                reset: 334,
            },
        ),
    ] {
        let gcra = Gcra::from_columns(vec![id], vec![3], vec![0], 0);
        let bucket = TokenBucket::from_columns(vec![id], vec![3], vec![0], vec![0], 0);
        let mut both = Both { gcra, bucket };
        assert_eq!(both.look(0, 7, 0)[0], outcome);
        assert_eq!(both.ask(0, 8, 0, 1), stranger);
    }
}

#[test]
fn a_plan_that_is_not_lent_is_refused() {
    let mut both = Both::with_slots(1);
    let refused = Outcome::Refused(Reason::BadPlan);
    for plan in [3, 255, 256, u32::MAX] {
        assert_eq!(both.ask(1000, 7, plan, 1), refused);
        assert_eq!(both.look(1000, 7, plan), [1, 7, 0, 0, 0]);
    }
}

#[test]
fn plans_are_checked_once() {
    assert_eq!(Plans::new(&[]), Err(BadPlans::Empty));
    for count in 1..=16 {
        let plans = Plans::new(&vec![SHOP; count]).expect("good plans");
        assert_eq!(plans.values().len(), 3 * count);
        assert_eq!(plans.get(count as u32 - 1), Some(SHOP));
        assert_eq!(plans.get(count as u32), None);
    }
    assert_eq!(Plans::new(&[SHOP; 17]), Err(BadPlans::TooMany(17)));
    let most = Plan::new(1_000_000, 2_678_400_000, 1_000_000);
    assert!(Plans::new(&[Plan::new(1, 1, 1), most]).is_ok());
    for plan in [
        Plan::new(0, 1, 1),
        Plan::new(1_000_001, 1, 1),
        Plan::new(1, 0, 1),
        Plan::new(1, 2_678_400_001, 1),
        Plan::new(1, 1, 0),
        Plan::new(1, 1, 1_000_001),
    ] {
        let wrong = BadPlans::OutsideLimits { number: 1, plan };
        assert_eq!(Plans::new(&[SHOP, plan, plan]), Err(wrong));
        assert!(!plan.is_within_limits());
    }
}

/// What `Plans` refuses, the archive refuses too.
#[test]
fn bad_lists_get_1_from_the_archive() {
    let peeked = |plans: &[u32], plan| {
        let mut out = [u64::MAX; 5];
        numbers::gcra_peek(plans, &[0], &[0], &[0], &0, 0, 7, plan, &mut out);
        out[0]
    };
    for length in 0..=54 {
        let good = length % 3 == 0 && (3..=48).contains(&length);
        assert_eq!(peeked(&vec![1; length], 0), u64::from(!good));
    }
    assert_eq!((peeked(&[1; 48], 15), peeked(&[1; 48], 16)), (0, 1));
    for place in 0..48 {
        let mut plans = [1; 48];
        plans[place] = 0;
        assert_eq!(peeked(&plans, 15), 1);
    }
}
