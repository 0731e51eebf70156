//! What an HTTP response says of an answer.

use crate::answer::{written, Answer};
use crate::numbers;
use crate::plan::Plan;
use crate::report::Report;

/// The RateLimit fields and Retry-After. Times are whole seconds, rounded up, so what is told may end up to 999 ms after the
/// wait or the reset, and then above the moment's limit.
///
/// As text they are `RateLimit-Policy: "shop";q=QUOTA;w=WINDOW`, `RateLimit: "shop";r=REMAINING;t=RESET` and, beside status
/// 429, `Retry-After: RETRY_AFTER`. Under [`Reason::NotOnClock`](crate::Reason::NotOnClock) there is no time to come back at:
/// the status is the host's choice, such as 503, and goes without Retry-After.
#[derive(Clone, Copy, Debug, PartialEq, Eq, Hash)]
pub struct HttpFields {
    /// The burst; 0 for a plan outside its limits.
    pub quota: u64,
    /// In which a whole burst is earned.
    pub window: u64,
    /// Units left; 0 beside a refusal.
    pub remaining: u64,
    /// From the moment to the reset. A client that has a slot and waits so long gets its whole burst, if nothing else is
    /// admitted meanwhile and that moment is within its limit; a second less is not enough. 0 beside a refusal.
    pub reset: u64,
    /// A client that waits so long is admitted, if nothing else is admitted meanwhile and that moment is within its limit;
    /// a second less is not enough. 0 unless throttled.
    pub retry_after: u64,
}

impl HttpFields {
    fn of(plan: &Plan, moment: u64, answer: [u64; 5]) -> HttpFields {
        let [quota, window, remaining, reset, retry_after] =
            written(|out| numbers::http_fields(plan, moment, &answer, out));
        HttpFields {
            quota,
            window,
            remaining,
            reset,
            retry_after,
        }
    }
}

impl Answer {
    /// What to tell a client of this answer, which an acquire under the plan gave at the moment.
    ///
    /// ```
    /// use railcadence::{Gcra, HttpFields, Plan, Plans};
    ///
    /// let plan = Plan::new(60, 3_600_000, 12);
    /// let plans = Plans::new(&[plan])?;
    /// let mut table = Gcra::with_slots(300);
    /// table.acquire(&plans, 0, 7, 0, 12);
    /// let told = table.acquire(&plans, 500, 7, 0, 1).http_fields(&plan, 500); // 59,500 ms to wait
    /// assert_eq!(told, HttpFields { quota: 12, window: 720, remaining: 0, reset: 720, retry_after: 60 });
    /// # Ok::<(), railcadence::BadPlans>(())
    /// ```
    pub fn http_fields(&self, plan: &Plan, moment: u64) -> HttpFields {
        HttpFields::of(plan, moment, self.to_numbers())
    }
}

impl Report {
    /// What to tell a client of this report, which a peek under the plan gave at the moment.
    ///
    /// ```
    /// use railcadence::{Gcra, HttpFields, Plan, Plans};
    ///
    /// let plan = Plan::new(60, 3_600_000, 12);
    /// let plans = Plans::new(&[plan])?;
    /// let mut table = Gcra::with_slots(300);
    /// table.acquire(&plans, 0, 7, 0, 2);
    /// let told = table.peek(&plans, 500, 7, 0).http_fields(&plan, 500); // 119,500 ms to the reset
    /// assert_eq!(told, HttpFields { quota: 12, window: 720, remaining: 10, reset: 120, retry_after: 0 });
    /// # Ok::<(), railcadence::BadPlans>(())
    /// ```
    pub fn http_fields(&self, plan: &Plan, moment: u64) -> HttpFields {
        HttpFields::of(plan, moment, self.to_numbers())
    }
}
