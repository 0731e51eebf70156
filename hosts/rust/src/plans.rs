//! Document 02, Item 3: up to 16 plans, lent together as one list of numbers: limit, period and burst of plan 0, then of plan 1,
//! and so on.

use crate::plan::Plan;

pub const MOST_PLANS: usize = 16;

/// The plans of a good list; none of a bad one, which has none, more than 16, or any that is outside its limits or not whole.
#[derive(Clone, Debug)]
pub struct Plans(Vec<Plan>);

impl Plans {
    pub fn lent(list: &[u32]) -> Plans {
        let plans: Vec<Plan> = list.chunks(3).map_while(whole).collect();
        let all = 3 * plans.len() == list.len();
        let good = all && plans.len() <= MOST_PLANS && plans.iter().all(Plan::within_limits);
        Plans(if good { plans } else { Vec::new() })
    }

    /// A list of one plan, which has number 0.
    pub fn one(plan: Plan) -> Plans {
        Plans(Vec::from_iter(plan.within_limits().then_some(plan)))
    }

    /// The plan that has this number, if the list is good and goes so far.
    pub fn numbered(&self, number: u32) -> Option<&Plan> {
        self.0.get(number as usize)
    }
}

fn whole(numbers: &[u32]) -> Option<Plan> {
    match *numbers {
        [limit, period, burst] => Some(Plan::new(limit, period, burst)),
        _ => None,
    }
}

#[cfg(test)]
mod tests {
    use super::*;

    /// How many numbers of a list, from 0, have a plan.
    fn lent(list: &[u32]) -> usize {
        let plans = Plans::lent(list);
        let known = (0..=u32::from(u8::MAX)).filter(|&number| plans.numbered(number).is_some());
        known.count()
    }

    #[test]
    fn one_to_sixteen_plans() {
        for count in 0..=40 {
            let expected = if count <= 16 { count } else { 0 };
            assert_eq!(lent(&[3, 1000, 2].repeat(count)), expected, "{count}");
        }
    }

    #[test]
    fn a_list_is_made_of_threes() {
        let list = [3, 1000, 2].repeat(17);
        for length in (0..=51).filter(|length| length % 3 != 0) {
            assert_eq!(lent(&list[..length]), 0, "{length}");
        }
    }

    #[test]
    fn one_bad_plan_spoils_the_list() {
        for place in 0..48 {
            let mut list = [3, 1000, 2].repeat(16);
            list[place] = 0;
            assert_eq!(lent(&list), 0, "{place}");
        }
    }

    #[test]
    fn plans_are_numbered_from_0() {
        let plans = Plans::lent(&[3, 1000, 2, 10, 999, 4]);
        let numbers = |number| {
            let plan: &Plan = plans.numbered(number)?;
            Some((plan.limit, plan.period, plan.burst))
        };
        assert_eq!(numbers(0), Some((3, 1000, 2)));
        assert_eq!(numbers(1), Some((10, 999, 4)));
        for number in [2, 16, 255, 256, 257, 65_536, 1 << 31, u32::MAX] {
            assert_eq!(numbers(number), None, "{number}");
        }
    }
}
