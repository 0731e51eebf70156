//! Which lists of plans, numbers asked for and numbers in slots single calls came upon (document 02, Item 3).

use crate::call::Call;
use crate::counts::Counts;
use crate::list::List;
use model::plan::Plan;
use model::plans::{Plans, MOST_PLANS};
use model::table::Table;

/// After lists of so many plans, from none to one too many.
const MORE: usize = 18;
const NOT_WHOLE: usize = 19;
const BAD_ASKED: usize = 20;
const BAD_BESIDE: usize = 21;
const FIRST_UNLENT: usize = 22;
const FAR_UNLENT: usize = 23;
const EMPTY_UNKNOWN: usize = 24;
const OWN_UNKNOWN: usize = 25;
const OTHERS_UNKNOWN: usize = 26;
const SAME_VALUES: usize = 27;
const KINDS: [&str; 28] = [
    "none",
    "1",
    "2",
    "3",
    "4",
    "5",
    "6",
    "7",
    "8",
    "9",
    "10",
    "11",
    "12",
    "13",
    "14",
    "15",
    "16",
    "17",
    "more",
    "not whole",
    "bad one asked for",
    "bad one beside",
    "number one beyond",
    "number far beyond",
    "unknown number of an empty slot",
    "of the own slot",
    "of another's",
    "12 between equal plans",
];

/// How many lists had so many plans, and how many calls came upon the rest.
pub type Offered = Counts<28>;

pub fn nothing() -> Offered {
    Counts::new("plans", "so many in a list, and what was met", KINDS)
}

/// Counts a call on a table, which got this number; a clear is lent no plans.
pub fn count<R>(counts: &mut Offered, list: &List, table: &Table<R>, call: &Call, number: u128) {
    let Some(asked) = call.plan() else {
        return;
    };
    count_list(counts, list, asked);
    let slots = || table.ids.iter().zip(&table.plan_numbers);
    let known = |number: u8| list.plans().numbered(number as u32).is_some();
    let own = slots().find(|(id, _)| **id == call.subscriber());
    match (own, call, number) {
        (None, Call::Acquire { .. }, 0 | 9) => {
            let unknown = slots().filter(|(_, number)| !known(**number));
            let (empty, others): (Vec<u32>, Vec<u32>) =
                unknown.map(|(id, _)| *id).partition(|id| *id == 0);
            counts.count(EMPTY_UNKNOWN, !empty.is_empty());
            counts.count(OTHERS_UNKNOWN, !others.is_empty());
        }
        (Some((_, &kept)), _, 7) => counts.count(OWN_UNKNOWN, !known(kept)),
        (Some((_, &kept)), _, 12) => {
            let values = |number| list.plans().numbered(number).map(values);
            counts.count(SAME_VALUES, values(kept as u32) == values(asked));
        }
        _ => (),
    }
}

fn values(plan: &Plan) -> [u128; 3] {
    [plan.limit, plan.period, plan.burst]
}

fn count_list(counts: &mut Offered, list: &List, asked: u32) {
    let numbers = list.numbers();
    let plans = numbers.len() / 3;
    if !numbers.len().is_multiple_of(3) {
        return counts.count(NOT_WHOLE, true);
    }
    counts.count(plans.min(MORE), true);
    if !(1..=MOST_PLANS).contains(&plans) {
        return;
    }
    let mut each = numbers
        .chunks(3)
        .map(|plan| Plans::lent(plan).numbered(0).is_some());
    if let Some(bad) = each.position(|good| !good) {
        let kind = if bad == asked as usize {
            BAD_ASKED
        } else {
            BAD_BESIDE
        };
        return counts.count(kind, true);
    }
    counts.count(FIRST_UNLENT, asked as usize == plans);
    counts.count(FAR_UNLENT, asked as usize > plans);
}
