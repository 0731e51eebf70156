//! Lists of plans at random: of one plan or of up to 16, the same plan under two numbers, and plans that differ little; bad lists
//! of every sort; and the number of a plan that is asked for.

use crate::call::Terms;
use crate::choose::{bad_terms, good_terms, MOST};
use crate::list::flat;
use crate::rng::Rng;
use model::plans::MOST_PLANS;

/// How many plans: one every third time, and as many as there may be now and then.
pub fn count(rng: &mut Rng) -> usize {
    match rng.below(12) {
        0..=3 => 1,
        4..=6 => 2,
        7..=9 => rng.from(3, 5) as usize,
        10 => rng.from(6, MOST_PLANS as u64) as usize,
        _ => MOST_PLANS,
    }
}

/// So many plans, the first of which is this one.
pub fn beside(rng: &mut Rng, first: Terms, count: usize) -> Vec<Terms> {
    let mut plans = vec![first];
    while plans.len() < count {
        let like = rng.pick(&plans);
        plans.push(another(rng, like));
    }
    plans
}

/// So many plans of which this is one, and its number.
pub fn among(rng: &mut Rng, terms: Terms, count: usize) -> (Vec<Terms>, u32) {
    let mut plans = beside(rng, terms, count);
    let number = rng.below(count as u64) as usize;
    plans.swap(0, number);
    (plans, number as u32)
}

/// The same plan again, one that differs from it in one number, or any.
fn another(rng: &mut Rng, terms: Terms) -> Terms {
    match rng.below(4) {
        0 => terms,
        1 => good_terms(rng),
        _ => varied(rng, terms),
    }
}

/// A plan of which one number is another, within its limits.
fn varied(rng: &mut Rng, terms: Terms) -> Terms {
    let mut numbers = [terms.limit, terms.period, terms.burst];
    let which = rng.below(3) as usize;
    let number = numbers[which];
    let other = match rng.below(4) {
        0 => number - 1,
        1 => number.saturating_add(1),
        2 => number.saturating_mul(rng.from(2, 5) as u32),
        _ => rng.of_any_size(number as u64) as u32,
    };
    numbers[which] = other.clamp(1, MOST[which]);
    let [limit, period, burst] = numbers;
    Terms {
        limit,
        period,
        burst,
    }
}

/// A bad list made of good plans: none of them, more than there may be, one that is not whole, or one that is bad.
pub fn bad(rng: &mut Rng, plans: &[Terms]) -> Vec<u32> {
    let mut numbers = flat(plans);
    match rng.below(8) {
        0 => numbers.clear(),
        1 | 2 => {
            let many = rng.of_any_size(300) as usize;
            let count = rng.pick(&[17, 17, 18, 16 + many]);
            let again = numbers.clone();
            numbers.extend(again.iter().cycle().take(3 * count));
            numbers.truncate(3 * count);
        }
        3 => numbers.truncate(numbers.len() - rng.from(1, 2) as usize),
        4 => numbers.extend_from_within(..rng.from(1, 2) as usize),
        _ => {
            let number = rng.below(plans.len() as u64) as usize;
            let mut plans = plans.to_vec();
            plans[number] = bad_terms(rng);
            numbers = flat(&plans);
        }
    }
    numbers
}

/// A number that is lent.
pub fn number(rng: &mut Rng, count: usize) -> u32 {
    let any = rng.below(count as u64) as u32;
    rng.pick(&[any, any, count as u32 - 1])
}

/// A number that is lent, and another than this one if there is one.
pub fn other(rng: &mut Rng, number: u32, count: usize) -> u32 {
    match count {
        1 => 0,
        _ => (number + rng.from(1, count as u64 - 1) as u32) % count as u32,
    }
}

/// A number that is not lent: the first, any other, or one of which some low bits are a number that is lent.
pub fn unlent(rng: &mut Rng, count: usize) -> u32 {
    let count = count as u32;
    match rng.below(4) {
        0 => count,
        1 => rng
            .pick(&[count + 1, 16, 17, 255, 256, u32::MAX])
            .max(count),
        2 => count + rng.below(256) as u32,
        _ => rng.below(count as u64) as u32 + (1 << rng.from(8, 31)),
    }
}

/// The number of a plan that a slot keeps: mostly this one or another that is lent, and now and then one that is not.
pub fn kept(rng: &mut Rng, asked: u32, count: usize) -> u8 {
    match rng.below(12) {
        0 => rng.pick(&[count as u8, 16, 255]).max(count as u8),
        1 => rng.next() as u8,
        2..=6 => asked as u8,
        _ => number(rng, count) as u8,
    }
}
