//! The table against the documents' numbers.

use super::*;
use crate::example::{plan, plans, LAST_LINES, LINES};
use std::fmt::Debug;

/// Plays document 01's lines on one slot; `after` has the slot (id and record) after each admission, which is the newest.
fn example<R: Stored>(after: &[(usize, &[u64])]) {
    let mut table = Table::<R>::cleared(1);
    let mut row = (0, vec![0; R::COLUMNS.len()], 0);
    for (line, &(moment, subscriber, cost, expected)) in LINES.iter().enumerate() {
        assert_eq!(
            table.acquire(&plans(), moment, subscriber, 0, cost),
            expected
        );
        if let Some((_, record)) = after.iter().find(|(admitted, _)| *admitted == line + 1) {
            row = (subscriber, record.to_vec(), moment);
        }
        assert_eq!(table.ids, [row.0], "after line {}", line + 1);
        assert_eq!(table.columns.concat(), row.1, "after line {}", line + 1);
        assert_eq!(table.newest, row.2, "after line {}", line + 1);
    }
}

/// Lines 1, 2, 5 and 8 are admitted. A denial that wrote the refilled level (error 4) would show after line 4.
#[test]
fn document_01_example() {
    example::<Paced>(&[(1, &[4000]), (2, &[5000]), (5, &[6000]), (8, &[8000])]);
    example::<Bucket>(&[
        (1, &[1000, 1000]),
        (2, &[0, 1000]),
        (5, &[2, 1334]),
        (8, &[0, 2000]),
    ]);
}

fn number<R: Stored>(slots: usize, plan: Plan, moment: u64, subscriber: u32, cost: u32) -> u128 {
    Table::<R>::cleared(slots).acquire(&Plans::one(plan), moment, subscriber, 0, cost)[0]
}

fn further<R: Stored>() {
    assert_eq!(number::<R>(1, Plan::new(1_000_000, 1000, 2), 0, 7, 1), 0);
    assert_eq!(number::<R>(1, Plan::new(1_000_001, 1000, 2), 0, 7, 1), 1);
    assert_eq!(number::<R>(1, Plan::new(3, 1000, 0), 0, 7, 1), 1);
    assert_eq!(number::<R>(1, plan(), 4_398_046_511_103, 7, 1), 0);
    assert_eq!(number::<R>(1, plan(), 4_398_046_511_104, 7, 1), 3);
    assert_eq!(number::<R>(65_535, plan(), 0, 7, 1), 0);
    assert_eq!(number::<R>(65_536, plan(), 0, 7, 1), 2);
    assert_eq!(number::<R>(0, plan(), 0, 7, 1), 2);
    assert_eq!(number::<R>(1, plan(), 0, 0, 0), 4);
    let whole_burst = Table::<R>::cleared(1).acquire(&plans(), 1000, 7, 0, 2);
    assert_eq!(whole_burst, [0, 7, 0, 1667, 0]);
    let unknown = Table::<R>::cleared(1).peek(&plans(), 1000, 7, 0);
    assert_eq!(unknown, [0, 7, 2, 1000, 0]);
}

#[test]
fn document_01_further() {
    further::<Paced>();
    further::<Bucket>();
}

fn steady<R: Stored>() -> usize {
    let mut table = Table::<R>::cleared(1);
    let plans = Plans::one(Plan::new(10, 1000, 10));
    let answers = (0..=3000).map(|moment| table.acquire(&plans, moment, 7, 0, 1));
    answers.filter(|answer| answer[0] == 0).count()
}

/// Error 2: the tolerance of a whole burst tested before the cost would count 41.
#[test]
fn document_001_counts_40() {
    assert_eq!(steady::<Paced>(), 40);
    assert_eq!(steady::<Bucket>(), 40);
}

/// Error 1, the interval taken as 333 ms, would admit a cost of 1 every 333 ms for ever. By the rule the debt is k
/// grains before ask k (1000 a unit, 999 drained between two), and more than 1000 is too much.
fn every_333_ms<R: Stored>() {
    let mut table = Table::<R>::cleared(1);
    for k in 0..=1000 {
        assert_eq!(table.acquire(&plans(), 333 * k, 7, 0, 1)[0], 0, "ask {k}");
    }
    let denied = table.acquire(&plans(), 333 * 1001, 7, 0, 1);
    assert_eq!(denied, [8, 7, 0, 333 * 1001 + 334, 1]);
}

#[test]
fn the_interval_is_not_rounded() {
    every_333_ms::<Paced>();
    every_333_ms::<Bucket>();
}

/// Error 5, and the bounds of number 7: at moment 1000, m is 3000 and a full bucket 2000.
#[test]
fn an_impossible_record_is_no_wait() {
    for (tat, asked, seen) in [
        (5000, [8, 7, 0, 1667, 334], [0, 7, 0, 1667, 0]),
        (5001, [7, 7, 0, 0, 0], [7, 7, 0, 0, 0]),
        (u64::MAX, [7, 7, 0, 0, 0], [7, 7, 0, 0, 0]),
    ] {
        let before = Table::<Paced>::new(vec![7], vec![0], vec![vec![tat]], 1000);
        let mut table = before.clone();
        assert_eq!(table.peek(&plans(), 1000, 7, 0), seen);
        assert_eq!(table.acquire(&plans(), 1000, 7, 0, 1), asked);
        assert_eq!(table, before);
    }
    for (level, last) in [(2001, 1000), (2000, 1001)] {
        let mut table = Table::<Bucket>::new(vec![7], vec![0], vec![vec![level], vec![last]], 0);
        assert_eq!(table.acquire(&plans(), 1000, 7, 0, 1), [7, 7, 0, 0, 0]);
    }
}

/// Two slots carry 7 and the lower one is its own, though slot 0 is free; 8 gets the lowest free slot, which is the
/// empty one whatever its TAT; and 9 (error 6) the one with a TAT of exactly m.
#[test]
fn slots_are_taken_from_the_lowest() {
    let tats = vec![u64::MAX, 3001, 3000, 3000];
    let mut table = Table::<Paced>::new(vec![0, 7, 7, 5], vec![0; 4], vec![tats], 0);
    assert_eq!(table.acquire(&plans(), 1000, 7, 0, 1), [0, 7, 0, 1334, 0]);
    assert_eq!(table.columns[0], [u64::MAX, 4001, 3000, 3000]);
    assert_eq!(table.acquire(&plans(), 1000, 8, 0, 1), [0, 8, 1, 1334, 0]);
    assert_eq!(table.ids, [8, 7, 7, 5]);
    assert_eq!(table.acquire(&plans(), 1000, 9, 0, 2), [0, 9, 0, 1667, 0]);
    assert_eq!(table.ids, [8, 7, 9, 5]);
    assert_eq!(table.columns[0], [4000, 4001, 5000, 3000]);
}

/// Document 02, Item 6: a millisecond below the newest moment gets 11, whoever asks for whatever, and changes nothing; the
/// newest moment itself passes, and so does everything after a clear.
fn below_the_newest<R: Stored + Debug + PartialEq>() {
    let mut table = Table::<R>::cleared(2);
    assert_eq!(table.acquire(&plans(), 2000, 7, 0, 2)[0], 0);
    let before = table.clone();
    for (subscriber, cost) in [(7, 1), (8, 1), (0, 1), (8, 0), (8, 3)] {
        let early = [11, subscriber as u128, 0, 0, 0];
        assert_eq!(table.acquire(&plans(), 1999, subscriber, 0, cost), early);
        assert_eq!(table.peek(&plans(), 1999, subscriber, 0), early);
    }
    assert_eq!(table.peek(&plans(), 2000, 8, 0), [0, 8, 2, 2000, 0]);
    assert_eq!(table.acquire(&plans(), 2600, 7, 0, 2)[0], 8);
    assert_eq!(table, before); // neither a look nor a denial is an admission
    assert_eq!(table.acquire(&plans(), 2000, 8, 0, 1), [0, 8, 1, 2334, 0]);
    assert_eq!(table.clear(), [0; 5]);
    assert_eq!(table.acquire(&plans(), 0, 7, 0, 1), [0, 7, 1, 334, 0]);
}

#[test]
fn document_02_item_6() {
    below_the_newest::<Paced>();
    below_the_newest::<Bucket>();
}

/// A stored newest moment beyond the clock stops every moment within it, until a clear; 3 goes before.
#[test]
fn a_newest_moment_beyond_the_clock() {
    for newest in [4_398_046_511_104, u64::MAX] {
        let mut table = Table::<Paced>::new(vec![0], vec![0], vec![vec![0]], newest);
        for moment in [0, 4_398_046_511_103] {
            assert_eq!(table.acquire(&plans(), moment, 7, 0, 1), [11, 7, 0, 0, 0]);
            assert_eq!(table.peek(&plans(), moment, 7, 0), [11, 7, 0, 0, 0]);
        }
        assert_eq!(table.acquire(&plans(), 4_398_046_511_104, 7, 0, 1)[0], 3);
        assert_eq!(table.newest, newest);
        assert_eq!(table.clear(), [0; 5]);
        assert_eq!(table.acquire(&plans(), 0, 7, 0, 1)[0], 0);
    }
}

/// Document 02, Item 13: nothing is written under 13, as under 8. A peek, which asks for nothing, knows no 13: it reports
/// a reset beyond the clock.
fn the_end_of_the_clock<R: Stored + Debug + PartialEq>() {
    let mut table = Table::<R>::cleared(2);
    for (moment, subscriber, cost, expected) in LAST_LINES {
        let before = table.clone();
        assert_eq!(
            table.acquire(&plans(), moment, subscriber, 0, cost),
            expected
        );
        assert_eq!(table == before, expected[0] != 0, "{expected:?}");
    }
    let owes = [0, 8, 0, 4_398_046_511_437, 0];
    assert_eq!(table.peek(&plans(), 4_398_046_511_103, 8, 0), owes);
}

/// A wait longer than the clock gets 13 at its first moment too: 2,678,400,000 ms for each unit.
fn longer_than_the_clock<R: Stored>() {
    let plans = Plans::one(Plan::new(1, 2_678_400_000, 1_000_000));
    let mut table = Table::<R>::cleared(1);
    let spent = table.acquire(&plans, 0, 7, 0, 1_000_000);
    assert_eq!(spent, [0, 7, 0, 2_678_400_000_000_000, 0]);
    let units_1642 = [8, 7, 0, 2_678_400_000_000_000, 4_397_932_800_000];
    assert_eq!(table.acquire(&plans, 0, 7, 0, 1642), units_1642);
    assert_eq!(table.acquire(&plans, 0, 7, 0, 1643), [13, 7, 0, 0, 0]);
    assert_eq!(table.acquire(&plans, 0, 7, 0, 1_000_000), [13, 7, 0, 0, 0]);
    assert_eq!(table.acquire(&plans, 4_397_932_800_000, 7, 0, 1642)[0], 0);
}

#[test]
fn document_02_item_13() {
    the_end_of_the_clock::<Paced>();
    the_end_of_the_clock::<Bucket>();
    longer_than_the_clock::<Paced>();
    longer_than_the_clock::<Bucket>();
}

/// Both slots of each column, and one of one column.
#[test]
fn a_clear_zeroes_all_or_touches_nothing() {
    let columns = vec![vec![1, 2], vec![3, 4]];
    let whole = Table::<Bucket>::new(vec![7, 8], vec![1, 255], columns, 5);
    let mut table = whole.clone();
    assert_eq!(table.clear(), [0; 5]);
    assert_eq!(table, Table::cleared(2));
    let cuts: [fn(&mut Table<Bucket>); 4] = [
        |table| table.ids.truncate(1),
        |table| table.plan_numbers.truncate(1),
        |table| table.columns[0].truncate(1),
        |table| table.columns[1].truncate(1),
    ];
    for cut in cuts {
        let mut unequal = whole.clone();
        cut(&mut unequal);
        let mut table = unequal.clone();
        assert_eq!(table.clear(), [2, 0, 0, 0, 0]);
        assert_eq!(table.acquire(&plans(), 1000, 7, 0, 1), [2, 7, 0, 0, 0]);
        assert_eq!(table.peek(&plans(), 1000, 7, 0), [2, 7, 0, 0, 0]);
        assert_eq!(table, unequal);
    }
}
