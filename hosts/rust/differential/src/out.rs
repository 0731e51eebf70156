//! The archive's calls, which write their five numbers between guards.

use crate::lent::Guarded;

/// Five numbers as the archive writes them: of an answer number, subscriber, left, reset and wait.
pub type Out = Guarded<u64>;

/// What `out` and its guards hold before a call, so that a number that the archive leaves unwritten shows.
const UNWRITTEN: u64 = 0xa5a5_a5a5_a5a5_a5a5;

/// What a call writes to `out`.
pub fn answered(call: impl FnOnce(&mut [u64; 5])) -> Out {
    let mut out = Out::new(&[UNWRITTEN; 5], UNWRITTEN);
    call(out.inside_mut().try_into().expect("five numbers"));
    out
}
