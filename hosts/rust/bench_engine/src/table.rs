//! What every contender works on.

use crate::call::Answer;

/// The ids and the plans' numbers; the columns of the record, GCRA's TATs and nothing, or the token bucket's levels and last
/// moments; and the newest moment at which anything was admitted.
#[derive(Clone, PartialEq, Eq)]
pub struct Table {
    pub ids: Vec<u32>,
    pub plan_numbers: Vec<u8>,
    pub records: Vec<u64>,
    pub lasts: Vec<u64>,
    pub newest: u64,
}

impl Table {
    /// Makes it the same as another of the same lengths.
    pub fn copy_from(&mut self, other: &Table) {
        self.ids.copy_from_slice(&other.ids);
        self.plan_numbers.copy_from_slice(&other.plan_numbers);
        self.records.copy_from_slice(&other.records);
        self.lasts.copy_from_slice(&other.lasts);
        self.newest = other.newest;
    }

    /// Makes everything 0, and answers 0.
    pub fn fill_with_zeros(&mut self) -> Answer {
        self.ids.fill(0);
        self.plan_numbers.fill(0);
        self.records.fill(0);
        self.lasts.fill(0);
        self.newest = 0;
        [0; 5]
    }

    pub fn is_all_zeros(&self) -> bool {
        let mut words = self.records.iter().chain(&self.lasts);
        self.ids.iter().all(|&id| id == 0)
            && self.plan_numbers.iter().all(|&number| number == 0)
            && words.all(|&word| word == 0)
            && self.newest == 0
    }
}
