//! The calls on lent slices, with their answers as plain numbers: `out` receives what the C header says. All of the unsafe
//! code is here.
//!
//! The plans are numbers too, limit, period and burst of each in turn, and any of them may be lent: [`Plans::values`] has
//! those of good ones.
//!
//! ```
//! use railcadence::numbers;
//!
//! let plans = [3, 1000, 2];
//! let (mut ids, mut plan_numbers, mut tats) = ([0; 300], [0; 300], [0; 300]);
//! let (mut newest, mut out) = (0, [0; 5]);
//! numbers::gcra_acquire(
//!     &plans, &mut ids, &mut plan_numbers, &mut tats, &mut newest, 1000, 7, 0, 1, &mut out,
//! );
//! assert_eq!(out, [0, 7, 1, 1334, 0]);
//! assert_eq!(newest, 1000);
//! ```
//!
//! [`Plans::values`]: crate::Plans::values

#![allow(clippy::too_many_arguments)]

use crate::plan::Plan;
use crate::sys;

// SAFETY of the calls below: each pointer goes with the length of its own slice or array, or is one number's; what is written is
// distinct from all else, and what is only read is lent as a constant.

/// An acquire of the GCRA engine.
#[inline]
pub fn gcra_acquire(
    plans: &[u32],
    ids: &mut [u32],
    plan_numbers: &mut [u8],
    tats: &mut [u64],
    newest: &mut u64,
    moment: u64,
    subscriber: u32,
    plan: u32,
    cost: u32,
    out: &mut [u64; 5],
) {
    unsafe {
        sys::railcadence_gcra_acquire(
            plans.as_ptr(),
            plans.len(),
            ids.as_mut_ptr(),
            ids.len(),
            plan_numbers.as_mut_ptr(),
            plan_numbers.len(),
            tats.as_mut_ptr(),
            tats.len(),
            newest,
            moment,
            subscriber,
            plan,
            cost,
            out.as_mut_ptr(),
        )
    }
}

/// A peek of the GCRA engine.
pub fn gcra_peek(
    plans: &[u32],
    ids: &[u32],
    plan_numbers: &[u8],
    tats: &[u64],
    newest: &u64,
    moment: u64,
    subscriber: u32,
    plan: u32,
    out: &mut [u64; 5],
) {
    unsafe {
        sys::railcadence_gcra_peek(
            plans.as_ptr(),
            plans.len(),
            ids.as_ptr(),
            ids.len(),
            plan_numbers.as_ptr(),
            plan_numbers.len(),
            tats.as_ptr(),
            tats.len(),
            newest,
            moment,
            subscriber,
            plan,
            out.as_mut_ptr(),
        )
    }
}

/// A clear of the GCRA engine.
pub fn gcra_clear(
    ids: &mut [u32],
    plan_numbers: &mut [u8],
    tats: &mut [u64],
    newest: &mut u64,
    out: &mut [u64; 5],
) {
    unsafe {
        sys::railcadence_gcra_clear(
            ids.as_mut_ptr(),
            ids.len(),
            plan_numbers.as_mut_ptr(),
            plan_numbers.len(),
            tats.as_mut_ptr(),
            tats.len(),
            newest,
            out.as_mut_ptr(),
        )
    }
}

/// An acquire of the token bucket engine.
#[inline]
pub fn token_bucket_acquire(
    plans: &[u32],
    ids: &mut [u32],
    plan_numbers: &mut [u8],
    levels: &mut [u64],
    lasts: &mut [u64],
    newest: &mut u64,
    moment: u64,
    subscriber: u32,
    plan: u32,
    cost: u32,
    out: &mut [u64; 5],
) {
    unsafe {
        sys::railcadence_token_bucket_acquire(
            plans.as_ptr(),
            plans.len(),
            ids.as_mut_ptr(),
            ids.len(),
            plan_numbers.as_mut_ptr(),
            plan_numbers.len(),
            levels.as_mut_ptr(),
            levels.len(),
            lasts.as_mut_ptr(),
            lasts.len(),
            newest,
            moment,
            subscriber,
            plan,
            cost,
            out.as_mut_ptr(),
        )
    }
}

/// A peek of the token bucket engine.
pub fn token_bucket_peek(
    plans: &[u32],
    ids: &[u32],
    plan_numbers: &[u8],
    levels: &[u64],
    lasts: &[u64],
    newest: &u64,
    moment: u64,
    subscriber: u32,
    plan: u32,
    out: &mut [u64; 5],
) {
    unsafe {
        sys::railcadence_token_bucket_peek(
            plans.as_ptr(),
            plans.len(),
            ids.as_ptr(),
            ids.len(),
            plan_numbers.as_ptr(),
            plan_numbers.len(),
            levels.as_ptr(),
            levels.len(),
            lasts.as_ptr(),
            lasts.len(),
            newest,
            moment,
            subscriber,
            plan,
            out.as_mut_ptr(),
        )
    }
}

/// A clear of the token bucket engine.
pub fn token_bucket_clear(
    ids: &mut [u32],
    plan_numbers: &mut [u8],
    levels: &mut [u64],
    lasts: &mut [u64],
    newest: &mut u64,
    out: &mut [u64; 5],
) {
    unsafe {
        sys::railcadence_token_bucket_clear(
            ids.as_mut_ptr(),
            ids.len(),
            plan_numbers.as_mut_ptr(),
            plan_numbers.len(),
            levels.as_mut_ptr(),
            levels.len(),
            lasts.as_mut_ptr(),
            lasts.len(),
            newest,
            out.as_mut_ptr(),
        )
    }
}

/// What an HTTP response says of the five numbers of an answer.
pub fn http_fields(plan: &Plan, moment: u64, answer: &[u64; 5], out: &mut [u64; 5]) {
    unsafe {
        sys::railcadence_http_fields(
            plan.limit,
            plan.period,
            plan.burst,
            moment,
            answer.as_ptr(),
            out.as_mut_ptr(),
        )
    }
}

/// The whole output text for a whole input text; `result` receives the result and how many bytes were written.
pub fn transcribe(
    text: &[u8],
    ids: &mut [u32],
    plan_numbers: &mut [u8],
    tats: &mut [u64],
    newest: &mut u64,
    out: &mut [u8],
    result: &mut [u64; 2],
) {
    unsafe {
        sys::railcadence_transcribe(
            text.as_ptr(),
            text.len(),
            ids.as_mut_ptr(),
            ids.len(),
            plan_numbers.as_mut_ptr(),
            plan_numbers.len(),
            tats.as_mut_ptr(),
            tats.len(),
            newest,
            out.as_mut_ptr(),
            out.len(),
            result.as_mut_ptr(),
        )
    }
}
