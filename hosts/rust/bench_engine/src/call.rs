//! What is asked and answered.

/// Limit, period and burst. All plans that are lent together are a slice of these.
pub type Plan = [u32; 3];

#[derive(Clone, Copy)]
pub struct Ask {
    pub moment: u64,
    pub subscriber: u32,
    /// The number of a plan among those lent.
    pub plan: u32,
    pub cost: u32,
}

/// Number, subscriber, left, reset, wait.
pub type Answer = [u64; 5];
