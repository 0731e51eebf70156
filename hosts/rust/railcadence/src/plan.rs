//! What may be spent.

/// A plan: `limit` units per `period` milliseconds, and up to `burst` units at once.
///
/// Any numbers make a plan; [`Plans::new`](crate::Plans::new) takes those that are within their limits.
///
/// ```
/// use railcadence::Plan;
///
/// let hourly = Plan::new(60, 3_600_000, 12);
/// assert_eq!(hourly, Plan { limit: 60, period: 3_600_000, burst: 12 });
/// assert!(hourly.is_within_limits());
/// assert!(!Plan::new(0, 1000, 1).is_within_limits());
/// ```
#[derive(Clone, Copy, Debug, PartialEq, Eq, Hash)]
pub struct Plan {
    /// Units per period, 1 to 1,000,000.
    pub limit: u32,
    /// Milliseconds, 1 to 2,678,400,000 (31 days).
    pub period: u32,
    /// Units that may be spent at once, 1 to 1,000,000.
    pub burst: u32,
}

impl Plan {
    /// A plan of these numbers.
    pub const fn new(limit: u32, period: u32, burst: u32) -> Plan {
        Plan {
            limit,
            period,
            burst,
        }
    }

    /// Whether each of its numbers is within its limits.
    pub const fn is_within_limits(&self) -> bool {
        const fn within(number: u32, most: u32) -> bool {
            1 <= number && number <= most
        }
        within(self.limit, 1_000_000)
            && within(self.period, 2_678_400_000)
            && within(self.burst, 1_000_000)
    }
}
