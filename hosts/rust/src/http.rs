//! What an HTTP response says of an answer: the RateLimit fields and Retry-After, in whole seconds, rounded up.

use crate::plan::Plan;
use crate::table::Answer;

/// Quota, window, remaining, reset and retry after.
pub type Fields = [u128; 5];

const SECOND: u128 = 1000;

/// The whole seconds that cover so many milliseconds.
fn seconds(millis: u128) -> u128 {
    let begun = !millis.is_multiple_of(SECOND);
    millis / SECOND + u128::from(begun)
}

/// The quota is the burst, which is earned in P×B/N milliseconds. What is left and the seconds until the reset are told under
/// 0 and 8, the seconds to wait under 8; and nothing of a plan outside its limits.
pub fn fields(plan: &Plan, moment: u128, answer: &Answer) -> Fields {
    if !plan.within_limits() {
        return [0; 5];
    }
    let quota = plan.burst;
    let window = plan.full().div_ceil(plan.limit * SECOND);
    let [number, _, left, reset, wait] = *answer;
    let until_reset = if reset > moment {
        seconds(reset - moment)
    } else {
        0
    };
    match number {
        0 => [quota, window, left, until_reset, 0],
        8 => [quota, window, left, until_reset, seconds(wait)],
        _ => [quota, window, 0, 0, 0],
    }
}

#[cfg(test)]
mod tests {
    use super::*;

    /// Document 01's lines of 3 units a second with a burst of 2, which is earned in 667 ms.
    #[test]
    fn of_the_worked_example() {
        let plan = Plan::new(3, 1000, 2);
        let told = |moment, answer| fields(&plan, moment, &answer);
        assert_eq!(told(1000, [0, 7, 1, 1334, 0]), [2, 1, 1, 1, 0]);
        assert_eq!(told(1000, [8, 7, 0, 1667, 334]), [2, 1, 0, 1, 1]);
        assert_eq!(told(1334, [6, 7, 0, 0, 0]), [2, 1, 0, 0, 0]);
        assert_eq!(told(1334, [9, 8, 0, 0, 0]), [2, 1, 0, 0, 0]);
        assert_eq!(told(1999, [11, 8, 0, 0, 0]), [2, 1, 0, 0, 0]);
    }

    /// A wait that is not on this clock is no wait: there is nothing to come again for.
    #[test]
    fn of_number_13() {
        let plan = Plan::new(3, 1000, 2);
        let told = |moment, answer| fields(&plan, moment, &answer);
        let last_8 = [8, 7, 0, 4_398_046_511_436, 334];
        assert_eq!(told(4_398_046_510_769, last_8), [2, 1, 0, 1, 1]);
        assert_eq!(told(4_398_046_510_770, [13, 8, 0, 0, 0]), [2, 1, 0, 0, 0]);
        assert_eq!(told(1000, [13, 8, 1, 1667, 334]), [2, 1, 0, 0, 0]);
    }

    /// A unit a minute with a burst of 12: whole seconds stay, and a millisecond more is a second more.
    #[test]
    fn rounded_up() {
        let plan = Plan::new(60, 3_600_000, 12);
        let told = |moment, answer| fields(&plan, moment, &answer);
        assert_eq!(told(0, [8, 7, 0, 720_000, 60_000]), [12, 720, 0, 720, 60]);
        assert_eq!(told(0, [8, 7, 0, 720_001, 60_001]), [12, 720, 0, 721, 61]);
        assert_eq!(told(0, [8, 7, 0, 719_999, 59_999]), [12, 720, 0, 720, 60]);
    }

    #[test]
    fn of_any_numbers() {
        let most = u128::from(u64::MAX);
        let (good, bad) = (Plan::new(1, 1, 1), Plan::new(0, 1, 1));
        assert_eq!(fields(&bad, 0, &[8, 7, 1, 2, 3]), [0; 5]);
        assert_eq!(fields(&good, 5, &[0, 7, most, 4, 9]), [1, 1, most, 0, 0]);
        let seconds = most / 1000 + 1;
        assert_eq!(
            fields(&good, 0, &[8, 0, 0, most, most]),
            [1, 1, 0, seconds, seconds]
        );
        assert_eq!(fields(&good, 0, &[most, 0, 1, most, most]), [1, 1, 0, 0, 0]);
    }
}
