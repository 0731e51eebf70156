//! Where the waits of a text end: at the clock's last moment, or not on this clock any more (document 02, Item 13).

use crate::text::LAST;

/// A line of the input, and the line of the output that answers it.
pub type Answered<'a> = (&'a [u8], &'a [u8]);

/// The numbers in the fields of a line.
pub fn numbers(line: &[u8]) -> Vec<u64> {
    let text = String::from_utf8_lossy(line);
    let fields = text.trim_end().split('\t');
    fields.filter_map(|field| field.parse().ok()).collect()
}

/// Whether an ask must wait until the clock's last moment.
pub fn last_8((ask, answer): Answered) -> bool {
    match (&numbers(ask)[..], &numbers(answer)[..]) {
        (&[moment, ..], &[8, _, _, _, wait]) => moment + wait == LAST,
        _ => false,
    }
}

/// Whether the last of four lines gets 13 where a millisecond earlier the answer is 8: somebody spends something, and must then
/// wait for a cost until the clock's last moment; a millisecond later another spends as much, and asks for the same cost.
pub fn first_13([spends, asks, spends_later, asks_later]: [Answered; 4]) -> bool {
    let (Some((moment, owes, cost)), Some(later)) = (
        spends_and_asks(spends, asks),
        spends_and_asks(spends_later, asks_later),
    ) else {
        return false;
    };
    last_8(asks) && asks_later.1.starts_with(b"13\t") && later == (moment + 1, owes, cost)
}

/// The moment at which somebody is admitted and asks again, how long it owes something then, and the cost that it asks for.
fn spends_and_asks((spends, spent): Answered, (asks, _): Answered) -> Option<(u64, u64, u64)> {
    match (
        &numbers(spends)[..],
        &numbers(spent)[..],
        &numbers(asks)[..],
    ) {
        (&[moment, who, _], &[0, _, _, reset, _], &[again, same, cost])
            if (again, same) == (moment, who) =>
        {
            Some((moment, reset - moment, cost))
        }
        _ => None,
    }
}
