//! The plans of a run: one, or several that drain about as fast, so that whoever comes under any of them finds others that owe.

use super::Size;
use crate::call::Terms;
use crate::choose::{self, MOST};
use crate::list::List;
use crate::lists;
use crate::rng::Rng;
use model::plans::MOST_PLANS;

/// Often one plan; where the slots are many less often, and where the table is filled once never.
pub fn any(rng: &mut Rng, size: Size) -> Vec<Terms> {
    let first = first(rng, size);
    let count = match (size, rng.below(6)) {
        (Size::Exactly(_), _) => rng.from(2, MOST_PLANS as u64) as usize,
        (Size::Few, 0) | (_, 1) => 1,
        (_, 2 | 3) => rng.from(2, 3) as usize,
        (Size::Few, _) => lists::count(rng),
        _ => lists::count(rng).max(2),
    };
    let mut plans = vec![first];
    while plans.len() < count {
        plans.push(match rng.below(8) {
            0 if size == Size::Few => choose::good_terms(rng),
            _ => kin(rng, first),
        });
    }
    plans
}

/// Now and then a bad one, if the slots are few.
pub fn list(rng: &mut Rng, size: Size, plans: &[Terms]) -> List {
    match size == Size::Few && rng.once_in(16) {
        true => List::new(lists::bad(rng, plans)),
        false => List::of(plans),
    }
}

fn first(rng: &mut Rng, size: Size) -> Terms {
    match rng.below(16) {
        0..=5 if !matches!(size, Size::Exactly(_)) => choose::good_terms(rng),
        _ => Terms {
            limit: rng.pick(&[1, 2, 3, 7, 10, 1000]),
            period: rng.pick(&[1, 2, 10, 999, 1000, 86_400_000]),
            burst: rng.pick(&[1, 2, 3, 5, 10, 100]),
        },
    }
}

/// The same plan again, or one with a few times the limit or the burst.
fn kin(rng: &mut Rng, first: Terms) -> Terms {
    let mut times = |number: u32, most| (number * rng.pick(&[1, 1, 2, 3])).min(most);
    Terms {
        limit: times(first.limit, MOST[0]),
        period: first.period,
        burst: times(first.burst, MOST[2]),
    }
}
