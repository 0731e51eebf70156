//! Texts: in the making, and in lines.

use crate::rng::Rng;
use model::text::transcript;

/// Each with its LF; the last may have none.
pub fn lines(text: &[u8]) -> impl Iterator<Item = &[u8]> + Clone {
    text.split_inclusive(|&byte| byte == b'\n')
}

/// The clock's last moment.
pub const LAST: u64 = (1 << 42) - 1;

/// Whether the first line is a good plan, which gets no answer.
pub fn begins_a_run(input: &[u8]) -> bool {
    let first = lines(input).next();
    first.is_some_and(|first| lines(&transcript(first)).count() == 1)
}

/// A plan line's numbers.
#[derive(Clone, Copy)]
pub struct Terms {
    pub slots: u64,
    pub limit: u64,
    pub period: u64,
    pub burst: u64,
}

/// Document 01's example, but for the slots.
pub const PLAIN: Terms = Terms {
    slots: 3,
    limit: 3,
    period: 1000,
    burst: 2,
};

pub fn plan(terms: &Terms) -> Vec<u8> {
    let Terms {
        slots,
        limit,
        period,
        burst,
    } = terms;
    format!("plan\t{slots}\t{limit}\t{period}\t{burst}\n").into_bytes()
}

pub fn ask(moment: u64, subscriber: u64, cost: u64) -> Vec<u8> {
    format!("ask\t{moment}\t{subscriber}\t{cost}\n").into_bytes()
}

/// What `ask_of_length` can make: 3 letters, 3 tabs, an LF, a moment of 8 digits, and a subscriber and a cost of up to 9.
const SHORTEST_ASK: usize = 17;
const LONGEST_ASK: usize = 33;

/// A readable ask of this many bytes with its LF, which begins at this place of a text. The later the place, the later the
/// moment.
fn ask_of_length(rng: &mut Rng, place: usize, length: usize) -> Vec<u8> {
    let pace = 50;
    let step = rng.below(pace * SHORTEST_ASK as u64);
    let moment = 10_000_000 + pace * place as u64 + step;
    let more = length - SHORTEST_ASK;
    let subscriber = with_digits(rng, 1 + more.min(8));
    let cost = match more {
        0..=8 => rng.from(1, 2),
        _ => with_digits(rng, more - 7),
    };
    ask(moment, subscriber, cost)
}

fn with_digits(rng: &mut Rng, digits: usize) -> u64 {
    let least = 10u64.pow(digits as u32 - 1);
    rng.from(least, 10 * least - 1)
}

/// Adds readable asks, whose moments never fall, until the text is so many bytes long, which is at least 17 more than it is.
pub fn fill(rng: &mut Rng, text: &mut Vec<u8>, length: usize) {
    while length - text.len() > LONGEST_ASK {
        let most = length - text.len() - SHORTEST_ASK;
        let size = rng.from(SHORTEST_ASK as u64, most.min(20) as u64);
        text.extend(ask_of_length(rng, text.len(), size as usize));
    }
    let rest = length - text.len();
    text.extend(ask_of_length(rng, text.len(), rest));
}
