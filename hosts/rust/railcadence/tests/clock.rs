//! A clock that goes back, and one that ends: both engines refuse a moment before the newest admission, and a request that no
//! later moment admits, and change nothing.

use railcadence::{Answer, Gcra, Outcome, Plan, Plans, Reason, Report, TokenBucket};
use std::fmt::Debug;

const LAST_MOMENT: u64 = (1 << 42) - 1;
const EARLY: Outcome = Outcome::Refused(Reason::EarlyMoment);
const NOT_ON_CLOCK: Outcome = Outcome::Refused(Reason::NotOnClock);

fn plans() -> Plans {
    Plans::new(&[Plan::new(3, 1000, 2)]).expect("good plans")
}

/// A table of two slots, of either engine.
trait Table: Clone + Debug + PartialEq {
    fn stored(newest: u64) -> Self;
    fn newest(&self) -> u64;
    fn acquire(&mut self, moment: u64, subscriber: u32, cost: u32) -> Answer;
    fn peek(&self, moment: u64, subscriber: u32) -> Report;
    fn clear(&mut self) -> Result<(), Reason>;
}

macro_rules! table {
    ($engine:ident, $($column:expr),*) => {
        impl Table for $engine {
            fn stored(newest: u64) -> $engine {
                $engine::from_columns($($column),*, newest)
            }
            fn newest(&self) -> u64 {
                self.newest()
            }
            fn acquire(&mut self, moment: u64, subscriber: u32, cost: u32) -> Answer {
                self.acquire(&plans(), moment, subscriber, 0, cost)
            }
            fn peek(&self, moment: u64, subscriber: u32) -> Report {
                self.peek(&plans(), moment, subscriber, 0)
            }
            fn clear(&mut self) -> Result<(), Reason> {
                self.clear()
            }
        }
    };
}

table!(Gcra, vec![0; 2], vec![0; 2], vec![0; 2]);
table!(TokenBucket, vec![0; 2], vec![0; 2], vec![0; 2], vec![0; 2]);

/// Whoever asks gets 11, and before 4, 5 and 6.
fn early<T: Table>() {
    let mut table = T::stored(0);
    assert!(table.acquire(1000, 7, 1).is_admitted());
    let before = table.clone();
    for (subscriber, cost) in [(7, 1), (8, 1), (0, 1), (7, 0), (7, 3), (0, 0)] {
        let numbers = [11, u64::from(subscriber), 0, 0, 0];
        for moment in [0, 999] {
            let asked = table.acquire(moment, subscriber, cost);
            assert_eq!((asked.outcome, asked.to_numbers()), (EARLY, numbers));
            let seen = table.peek(moment, subscriber);
            assert_eq!(seen.balance, Err(Reason::EarlyMoment));
            assert_eq!(seen.to_numbers(), numbers);
        }
    }
    assert_eq!(table, before);
}

#[test]
fn a_moment_before_the_newest_admission_is_refused() {
    early::<Gcra>();
    early::<TokenBucket>();
}

/// An equal moment passes; a wait and a peek do not move the newest moment, another admission does.
fn moved<T: Table>() {
    let mut table = T::stored(0);
    assert!(table.acquire(1000, 7, 1).is_admitted());
    assert!(table.acquire(1000, 8, 2).is_admitted());
    let waiting = table.acquire(1001, 8, 1).to_numbers();
    assert_eq!(waiting, [8, 8, 0, 1667, 333]);
    assert_eq!(table.peek(1001, 7).to_numbers(), [0, 7, 1, 1334, 0]);
    assert_eq!(table.newest(), 1000);
    assert!(table.acquire(1334, 8, 1).is_admitted());
    assert_eq!(table.newest(), 1334);
    assert_eq!(table.acquire(1333, 7, 1).outcome, EARLY);
}

#[test]
fn only_an_admission_moves_the_newest_moment() {
    moved::<Gcra>();
    moved::<TokenBucket>();
}

/// One that is stored beyond the clock refuses every moment within it; 3 is told before 11.
fn beyond<T: Table>() {
    for newest in [LAST_MOMENT + 1, u64::MAX] {
        let mut table = T::stored(newest);
        assert_eq!(table.acquire(LAST_MOMENT, 7, 1).outcome, EARLY);
        let seen = table.peek(LAST_MOMENT, 7).balance;
        assert_eq!(seen, Err(Reason::EarlyMoment));
        let late = table.acquire(LAST_MOMENT + 1, 7, 1).outcome;
        assert_eq!(late, Outcome::Refused(Reason::LateMoment));
        assert_eq!(table, T::stored(newest));
        assert_eq!(table.clear(), Ok(()));
        assert_eq!(table.newest(), 0);
        assert!(table.acquire(0, 7, 1).is_admitted());
    }
    let mut table = T::stored(LAST_MOMENT);
    assert_eq!(table.acquire(LAST_MOMENT - 1, 7, 1).outcome, EARLY);
    assert!(table.acquire(LAST_MOMENT, 7, 1).is_admitted());
}

#[test]
fn a_stored_newest_moment_is_kept_until_a_clear() {
    beyond::<Gcra>();
    beyond::<TokenBucket>();
}

/// Who spends both units waits 334 ms for the next: 7 until the last moment, and 8, a millisecond later, for ever.
fn ended<T: Table>() {
    let mut table = T::stored(0);
    assert!(table.acquire(LAST_MOMENT - 334, 7, 2).is_admitted());
    assert!(table.acquire(LAST_MOMENT - 333, 8, 2).is_admitted());
    let before = table.clone();
    for moment in [LAST_MOMENT - 333, LAST_MOMENT - 1] {
        let (left, reset, wait) = (0, LAST_MOMENT + 333, LAST_MOMENT - moment);
        let waiting = Outcome::Throttled { left, reset, wait };
        assert_eq!(table.acquire(moment, 7, 1).outcome, waiting);
        assert_eq!(table.acquire(moment, 7, 2).outcome, NOT_ON_CLOCK);
    }
    for moment in [LAST_MOMENT - 333, LAST_MOMENT] {
        let asked = table.acquire(moment, 8, 1);
        let numbers = [13, 8, 0, 0, 0];
        assert_eq!((asked.outcome, asked.to_numbers()), (NOT_ON_CLOCK, numbers));
        let seen = table.peek(moment, 8).to_numbers();
        assert_eq!(seen, [0, 8, 0, LAST_MOMENT + 334, 0]);
    }
    assert_eq!(table, before);
    assert!(table.acquire(LAST_MOMENT, 7, 1).is_admitted());
    assert_eq!(table.clear(), Ok(()));
    assert!(table.acquire(LAST_MOMENT, 8, 1).is_admitted());
}

#[test]
fn a_wait_beyond_the_clock_is_refused() {
    ended::<Gcra>();
    ended::<TokenBucket>();
}

/// A unit in 31 days, and a million of them at once: they take longer than the clock to be earned, 1642 less than that.
#[test]
fn a_plan_may_take_longer_than_the_clock() {
    let plan = Plan::new(1, 2_678_400_000, 1_000_000);
    let plans = Plans::new(&[plan]).expect("a good plan");
    let (mut gcra, mut bucket) = (Gcra::with_slots(1), TokenBucket::with_slots(1));
    let mut ask = |moment, cost| {
        let answer = gcra.acquire(&plans, moment, 7, 0, cost);
        assert_eq!(bucket.acquire(&plans, moment, 7, 0, cost), answer);
        answer
    };
    assert!(ask(0, 1_000_000).is_admitted());
    let numbers = [8, 7, 0, 2_678_400_000_000_000, 4_397_932_800_000];
    assert_eq!(ask(0, 1642).to_numbers(), numbers);
    let off = ask(0, 1643);
    assert_eq!(
        (off.outcome, off.outcome.may_retry()),
        (NOT_ON_CLOCK, false)
    );
    assert_eq!(off.http_fields(&plan, 0).retry_after, 0);
    assert!(ask(4_397_932_800_000, 1642).is_admitted());
}
