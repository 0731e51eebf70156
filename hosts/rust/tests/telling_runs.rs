//! The runs that crates/law_history/must-fail names: each shows where a wrong variant of demand 3, or of its companion about number
//! 7, would be false. Here they are played by both engines and the book as they are. The run of demand_3_of_rising_runs is in
//! worked_run.rs.

mod three;

use model::decision::Paced;
use model::plans::Plans;
use model::table::Table;
use three::Three;

/// Plan 0 is document 01's example, 3 units a second with a burst of 2; plan 1 is slower, 1 unit a second with a burst of 4.
const LIST: [u32; 6] = [3, 1000, 2, 1, 1000, 4];

/// An ask: moment, subscriber, plan and cost.
type Ask = (u64, u32, u32, u32);

/// The numbers that GCRA, the token bucket and the book give to asks on one slot; after a clear they give the same again.
fn numbers_under(list: &[u32], asks: &[Ask]) -> Vec<[u128; 3]> {
    let mut three = Three::new(list, 1);
    let first = play(&mut three, asks);
    assert_eq!(three.clear(), [[0; 5]; 3]);
    assert_eq!(play(&mut three, asks), first);
    first
}

fn numbers(asks: &[Ask]) -> Vec<[u128; 3]> {
    numbers_under(&LIST, asks)
}

fn play(three: &mut Three, asks: &[Ask]) -> Vec<[u128; 3]> {
    let mut ask = |&(moment, who, plan, cost): &Ask| {
        let answers = three.acquire(moment, who, plan, cost);
        let newest = three.newest();
        assert_eq!(newest, [newest[0]; 3]);
        answers.map(|answer| answer[0])
    };
    asks.iter().map(&mut ask).collect()
}

/// number_9_counts_the_caller, book_forgets, engines_agree_on_nonsense: line three of document 01.
#[test]
fn a_shop_that_owes_asks_again() {
    let asks = [(1000, 7, 0, 1), (1000, 7, 0, 1), (1000, 7, 0, 1)];
    assert_eq!(numbers(&asks), [[0; 3], [0; 3], [8; 3]]);
}

/// book_debt_of_the_first_call: a long rest leaves no credit.
#[test]
fn a_rest_leaves_no_credit() {
    let asks = [(0, 7, 0, 2), (1_000_000, 7, 0, 2), (1_000_000, 7, 0, 1)];
    assert_eq!(numbers(&asks), [[0; 3], [0; 3], [8; 3]]);
}

/// free_a_millisecond_late_in_one_engine: lines five to eight of document 01.
#[test]
fn a_slot_is_free_at_the_moment_itself() {
    let asks = [
        (1000, 7, 0, 2),
        (1334, 7, 0, 1),
        (1999, 8, 0, 2),
        (2000, 8, 0, 2),
    ];
    assert_eq!(numbers(&asks), [[0; 3], [0; 3], [9; 3], [0; 3]]);
}

/// book_newest_of_the_caller: document 01's last line, by document 02's Item 6. A moment below the newest admission gets 11,
/// whoever it was that was admitted; the same moment again does not.
#[test]
fn the_moments_of_asks_fall() {
    let asks = [
        (2000, 8, 0, 2),
        (1999, 8, 0, 1),
        (1999, 7, 0, 1),
        (2000, 8, 0, 1),
    ];
    assert_eq!(numbers(&asks), [[0; 3], [11; 3], [11; 3], [8; 3]]);
}

/// What is denied is not admitted: after it the moment may fall as far as the newest admission.
#[test]
fn the_moments_fall_after_a_denial() {
    let asks = [
        (1000, 7, 0, 2),
        (1333, 7, 0, 2),
        (1000, 8, 0, 1),
        (999, 8, 0, 1),
    ];
    assert_eq!(numbers(&asks), [[0; 3], [8; 3], [9; 3], [11; 3]]);
}

/// The moment of a look falls, below the newest admission and above it; a look is none itself.
#[test]
fn the_moments_of_looks_fall() {
    let mut three = Three::new(&LIST, 1);
    assert_eq!(three.acquire(2000, 8, 0, 2), [[0, 8, 0, 2667, 0]; 3]);
    for (moment, subscriber, expected) in [
        (9000, 7, [0, 7, 2, 9000, 0]),
        (2000, 8, [0, 8, 0, 2667, 0]),
        (1999, 8, [11, 8, 0, 0, 0]),
        (1999, 7, [11, 7, 0, 0, 0]),
    ] {
        assert_eq!(three.peek(moment, subscriber, 0), [expected; 3]);
    }
}

/// book_12_without_debt: whoever owes nothing may name another plan.
#[test]
fn a_shop_that_owes_nothing_changes_the_plan() {
    let asks = [(1334, 8, 0, 2), (3334, 8, 1, 2)];
    assert_eq!(numbers(&asks), [[0; 3], [0; 3]]);
}

/// book_never_restarts: the calls after a change of plan are a run of their own, under the new plan.
#[test]
fn a_change_of_plan_starts_a_run() {
    let asks = [(1334, 8, 1, 2), (3334, 8, 0, 2), (3334, 8, 0, 1)];
    assert_eq!(numbers(&asks), [[0; 3], [0; 3], [8; 3]]);
}

/// book_keeps_the_debt_of_another_plan: the calls before a change of plan count no more.
#[test]
fn a_change_of_plan_ends_the_run_before() {
    let asks = [(3334, 8, 0, 2), (4001, 8, 1, 3), (4001, 8, 1, 1)];
    assert_eq!(numbers(&asks), [[0; 3], [0; 3], [0; 3]]);
}

/// others_owe_by_the_plan_asked_for: what others owe goes by their own plans.
#[test]
fn a_slot_is_free_by_its_own_plan() {
    let asks = [(1000, 7, 0, 1), (1334, 8, 1, 2)];
    assert_eq!(numbers(&asks), [[0; 3], [0; 3]]);
}

/// book_takes_a_bad_list: a bad plan that nobody asks for gives 1 all the same.
#[test]
fn a_bad_plan_beside_the_one_asked_for() {
    let asks = [(1000, 7, 0, 1)];
    assert_eq!(numbers_under(&[3, 1000, 2, 3, 1000, 0], &asks), [[1; 3]]);
}

/// never_7_on_any_table: a table that no admission has left.
#[test]
fn a_damaged_table_gives_7() {
    let table = Table::<Paced>::new(vec![7], vec![0], vec![vec![1_000_000]], 0);
    assert_eq!(table.peek(&Plans::lent(&LIST), 1000, 7, 0), [7, 7, 0, 0, 0]);
}
