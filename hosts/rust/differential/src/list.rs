//! A list of plans as it is lent, good or bad, and as the model reads it.

use crate::call::Terms;
use crate::lent::Guarded;
use model::plans::Plans;

const GUARD: u32 = 0xa5a5_a5a5;

/// How many plans are shown in words.
const MOST_SHOWN: usize = 20;

#[derive(Clone)]
pub struct List {
    numbers: Vec<u32>,
    lent: Guarded<u32>,
    plans: Plans,
}

/// Limit, period and burst of each plan, one after the other.
pub fn flat(plans: &[Terms]) -> Vec<u32> {
    let numbers = |terms: &Terms| [terms.limit, terms.period, terms.burst];
    plans.iter().flat_map(numbers).collect()
}

impl List {
    pub fn new(numbers: Vec<u32>) -> List {
        List {
            lent: Guarded::new(&numbers, GUARD),
            plans: Plans::lent(&numbers),
            numbers,
        }
    }

    pub fn of(plans: &[Terms]) -> List {
        List::new(flat(plans))
    }

    pub fn numbers(&self) -> &[u32] {
        &self.numbers
    }

    /// What the archive gets.
    pub fn lent(&self) -> &[u32] {
        &self.lent
    }

    pub fn plans(&self) -> &Plans {
        &self.plans
    }

    /// Nobody wrote in the list or its guards.
    pub fn intact(&self) -> bool {
        self.lent.intact() && self.lent.inside() == self.numbers
    }

    /// Writes in the list, as a faulty archive might.
    pub fn scribble(&mut self) {
        if let Some(number) = self.lent.first_mut() {
            *number ^= 1;
        }
    }

    pub fn words(&self) -> String {
        let plans = self.numbers.chunks(3).enumerate().take(MOST_SHOWN);
        let words: Vec<String> = plans
            .map(|(number, plan)| format!("{number}: {plan:?}"))
            .collect();
        format!("{} numbers, {}", self.numbers.len(), words.join(", "))
    }
}
