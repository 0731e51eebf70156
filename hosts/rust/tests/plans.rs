//! Document 02, Item 3, by numbers reckoned by hand: several plans in one table, of both engines and the book.

mod three;

use model::book::{Book, Mistake};
use model::decision::{Bucket, Paced};
use model::plans::Plans;
use model::table::{Answer, Stored, Table};
use std::fmt::Debug;
use three::Three;

/// Plan 0: 3 units a second, burst 2. Its bucket holds 2000 grains and fills in 667 ms.
/// Plan 1: 6 units a second, burst 8. Its bucket holds 8000 grains and fills in 1334 ms.
/// Plan 2: plan 0 again.
const LIST: [u32; 9] = [3, 1000, 2, 6, 1000, 8, 3, 1000, 2];

const LAST: u64 = 4_398_046_511_103;

fn refused(number: u128) -> [Answer; 3] {
    [[number, 7, 0, 0, 0]; 3]
}

/// The two records of shop 7's only slot, and its plan number in both tables.
fn slot(three: &Three) -> (u64, [u64; 2], [u8; 2]) {
    let (paced, bucket) = (&three.paced, &three.bucket);
    assert_eq!((&paced.ids[..], &bucket.ids[..]), (&[7][..], &[7][..]));
    (
        paced.columns[0][0],
        [bucket.columns[0][0], bucket.columns[1][0]],
        [paced.plan_numbers[0], bucket.plan_numbers[0]],
    )
}

/// Who owes gets 12 under any other number, also where the plan is the same, and nothing is written.
#[test]
fn who_owes_cannot_change_the_plan() {
    let mut three = Three::new(&LIST, 1);
    assert_eq!(three.acquire(1000, 7, 0, 2), [[0, 7, 0, 1667, 0]; 3]);
    for moment in [1000, 1666] {
        for plan in [1, 2] {
            assert_eq!(three.peek(moment, 7, plan), refused(12));
            assert_eq!(three.acquire(moment, 7, plan, 1), refused(12));
        }
    }
    assert_eq!(slot(&three), (5000, [0, 1000], [0, 0]));
    assert_eq!(three.newest(), [1000; 3]);
    assert_eq!(three.peek(1666, 7, 0), [[0, 7, 1, 1667, 0]; 3]);
}

/// From the reset on it is judged as a stranger would be under the plan asked for, and an admission writes number and record anew.
#[test]
fn who_owes_nothing_can() {
    let mut three = Three::new(&LIST, 1);
    assert_eq!(three.acquire(1000, 7, 0, 2)[0][0], 0);
    assert_eq!(three.peek(1667, 7, 1), [[0, 7, 8, 1667, 0]; 3]);
    assert_eq!(three.acquire(1667, 7, 1, 3), [[0, 7, 5, 2167, 0]; 3]);
    assert_eq!(slot(&three), (13_002, [5000, 1667], [1, 1]));
    assert_eq!(three.newest(), [1667; 3]);
    assert_eq!(three.acquire(1667, 7, 0, 1), refused(12));
    assert_eq!(three.acquire(1667, 7, 1, 6), [[8, 7, 5, 2167, 167]; 3]);
    assert_eq!(three.acquire(2166, 7, 0, 2), refused(12));
    assert_eq!(three.acquire(2167, 7, 0, 2), [[0, 7, 0, 2834, 0]; 3]);
    assert_eq!(slot(&three), (8501, [0, 2167], [0, 0]));
}

/// 6 goes by the plan asked for, and before 12; 12 goes before 8 and 13.
#[test]
fn number_12_has_its_place() {
    let mut three = Three::new(&LIST, 1);
    assert_eq!(three.acquire(1000, 7, 0, 2)[0][0], 0);
    assert_eq!(three.acquire(1000, 7, 0, 3), refused(6));
    assert_eq!(three.acquire(1000, 7, 1, 3), refused(12));
    assert_eq!(three.acquire(1000, 7, 1, 8), refused(12));
    assert_eq!(three.acquire(1000, 7, 1, 9), refused(6));
    assert_eq!(three.acquire(999, 7, 1, 1), refused(11));
    assert_eq!(three.acquire(1000, 7, 3, 1), refused(1));
    assert_eq!(three.acquire(LAST, 7, 1, 8)[0][0], 0);
    assert_eq!(three.acquire(LAST, 7, 1, 1), refused(13));
    assert_eq!(three.acquire(LAST, 7, 0, 1), refused(12));
}

/// Plans are told apart by their number, equal values or not.
#[test]
fn the_same_plan_under_two_numbers() {
    let mut three = Three::new(&LIST, 1);
    assert_eq!(three.acquire(1000, 7, 0, 1), [[0, 7, 1, 1334, 0]; 3]);
    assert_eq!(three.acquire(1333, 7, 2, 1), refused(12));
    assert_eq!(three.acquire(1334, 7, 2, 1), [[0, 7, 1, 1668, 0]; 3]);
    assert_eq!(slot(&three), (5002, [1000, 1334], [2, 2]));
    assert_eq!(three.acquire(1334, 7, 0, 1), refused(12));
}

/// Whether 7 still holds the only slot is judged by its own plan: plan 1 is drained after 1334 ms, plan 0 after 667.
#[test]
fn a_slot_is_free_by_its_own_plan() {
    for (plan, whole, end, left) in [(1, 8, 2334, 1), (0, 2, 1667, 7)] {
        let mut three = Three::new(&LIST, 1);
        assert_eq!(three.acquire(1000, 7, plan, whole)[0][3], end);
        let (end, other) = (end as u64, 1 - plan);
        assert_eq!(three.acquire(end - 1, 8, other, 1), [[9, 8, 0, 0, 0]; 3]);
        let answer = three.acquire(end, 8, other, 1);
        assert_eq!(answer, [[0, 8, left, answer[0][3], 0]; 3]);
        assert_eq!(three.paced.ids, [8]);
        assert_eq!(three.bucket.plan_numbers, [other as u8]);
        assert_eq!(three.newest(), [end as u128; 3]);
    }
}

/// By the second plan, the call under the first would still count 8000 − 3 × 1334 = 3998 grains.
#[test]
fn a_book_begins_the_list_anew() {
    for (mistake, seen) in [
        (None, [0, 7, 4, 2668, 0]),
        (Some(Mistake::NeverRestarts), [0, 7, 0, 4000, 0]),
    ] {
        let mut book = Book::mistaken(Plans::lent(&[6, 1000, 8, 3, 1000, 5]), 1, mistake);
        assert_eq!(book.acquire(1000, 7, 0, 8)[0], 0);
        assert_eq!(book.plan_of(7), Some(0));
        assert_eq!(book.acquire(2334, 7, 1, 1), [0, 7, 4, 2668, 0]);
        assert_eq!(book.plan_of(7), Some(1));
        assert_eq!(book.peek(2334, 7, 1), seen);
        assert_eq!(book.newest(), 2334);
    }
}

/// One slot of each: an id, a plan number and a record.
fn table<R: Stored>(rows: &[(u32, u8, &[u64])]) -> Table<R> {
    let ids = rows.iter().map(|row| row.0).collect();
    let numbers = rows.iter().map(|row| row.1).collect();
    let column = |place| rows.iter().map(|row| row.2[place]).collect();
    let columns = (0..R::COLUMNS.len()).map(column).collect();
    Table::new(ids, numbers, columns, 0)
}

/// The answers at 1000 to an acquire of 7 and a peek, which must be refused and write nothing.
fn stopped<R: Stored + Debug + PartialEq>(row: (u32, u8, &[u64]), plan: u32, cost: u32) -> u128 {
    let before = table::<R>(&[row]);
    let mut after = before.clone();
    let asked = after.acquire(&Plans::lent(&LIST), 1000, 7, plan, cost);
    assert_eq!(before, after, "{row:?}");
    let seen = before.peek(&Plans::lent(&LIST), 1000, 7, plan);
    if matches!(asked[0], 7 | 12) {
        assert_eq!(asked, seen, "{row:?}");
        assert_eq!(asked[2..], [0; 3]);
    }
    asked[0]
}

/// An unknown number gives the owner 7 and others no slot, whatever the record; an empty slot is free with any number.
#[test]
fn an_unknown_number() {
    for number in [3, 4, 16, 255] {
        for plan in [0, 1, 2] {
            assert_eq!(stopped::<Paced>((7, number, &[0]), plan, 1), 7);
            assert_eq!(stopped::<Bucket>((7, number, &[2000, 0]), plan, 1), 7);
            assert_eq!(stopped::<Paced>((8, number, &[0]), plan, 1), 9);
            assert_eq!(stopped::<Bucket>((8, number, &[2000, 0]), plan, 1), 9);
        }
        let mut paced = table::<Paced>(&[(0, number, &[u64::MAX])]);
        let answer = paced.acquire(&Plans::lent(&LIST), 1000, 7, 2, 1);
        assert_eq!(answer, [0, 7, 1, 1334, 0]);
        assert_eq!((paced.plan_numbers[0], paced.columns[0][0]), (2, 4000));
    }
}

/// Number 7 goes by the stored plan. At 1000 a TAT may be 5000 under plan 0 and 14000 under plan 1.
#[test]
fn an_impossible_record_by_its_own_plan() {
    for plan in [0, 1, 2] {
        assert_eq!(stopped::<Paced>((7, 0, &[5001]), plan, 1), 7);
        assert_eq!(stopped::<Paced>((7, 1, &[14_001]), plan, 1), 7);
        assert_eq!(stopped::<Bucket>((7, 0, &[2001, 1000]), plan, 1), 7);
        assert_eq!(stopped::<Bucket>((7, 1, &[8000, 1001]), plan, 1), 7);
    }
    assert_eq!(stopped::<Paced>((7, 1, &[14_000]), 0, 1), 12);
    assert_eq!(stopped::<Paced>((7, 1, &[14_000]), 1, 1), 8);
    assert_eq!(stopped::<Bucket>((7, 1, &[7999, 1000]), 0, 1), 12);
}

/// A record that owes nothing by its own plan, and would be something else by the plan asked for, is not looked at; the slot is
/// kept, though a lower one is empty.
#[test]
fn a_change_keeps_the_slot_and_not_the_record() {
    let plans = Plans::lent(&LIST);
    let mut paced = table::<Paced>(&[(0, 0, &[0]), (7, 1, &[6000])]);
    assert_eq!(paced.acquire(&plans, 1000, 7, 0, 1), [0, 7, 1, 1334, 0]);
    assert_eq!(
        (&paced.ids[..], &paced.plan_numbers[..]),
        (&[0, 7][..], &[0, 0][..])
    );
    assert_eq!(paced.columns, [[0, 4000]]);
    let mut bucket = table::<Bucket>(&[(0, 0, &[0, 0]), (7, 1, &[8000, 1000])]);
    assert_eq!(bucket.acquire(&plans, 1000, 7, 0, 2), [0, 7, 0, 1667, 0]);
    assert_eq!(
        (&bucket.ids[..], &bucket.plan_numbers[..]),
        (&[0, 7][..], &[0, 0][..])
    );
    assert_eq!(bucket.columns, [[0, 0], [0, 1000]]);
}

/// All columns are zeros after a clear, and the subscriber may come under any plan.
#[test]
fn a_clear_forgets_the_plans() {
    let mut three = Three::new(&LIST, 2);
    assert_eq!(three.acquire(1000, 7, 1, 8)[0][0], 0);
    assert_eq!(three.acquire(1000, 8, 2, 2)[0][0], 0);
    assert_eq!(three.paced.plan_numbers, [1, 2]);
    assert_eq!(three.clear(), [[0; 5]; 3]);
    assert_eq!(three.paced, Table::cleared(2));
    assert_eq!(three.bucket, Table::cleared(2));
    assert_eq!(three.newest(), [0; 3]);
    assert_eq!(three.acquire(0, 7, 0, 2), [[0, 7, 0, 667, 0]; 3]);
}
