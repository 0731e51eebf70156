//! Mistakes of the archive, as changes of what it left in what was lent to it.

use super::{Fault, Spoil};
use crate::lending::{Lending, SHORT_OUTPUT, SHORT_TABLE, WRITTEN};
use crate::text::begins_a_run;

pub const FAULTS: [Fault; 22] = [
    (
        "count-short",
        "a written text is one byte too short by its count",
        Spoil::Lends(count_short),
    ),
    (
        "count-left",
        "a text that is not written has a count",
        Spoil::Lends(count_left),
    ),
    (
        "results-swapped",
        "1 and 2 are swapped",
        Spoil::Lends(results_swapped),
    ),
    (
        "short-taken",
        "an output that is too short is reported as written",
        Spoil::Lends(short_taken),
    ),
    (
        "short-begun",
        "a byte is written to an output that is too short",
        Spoil::Lends(short_begun),
    ),
    (
        "byte-lost",
        "the last byte of the text is not written",
        Spoil::Lends(byte_lost),
    ),
    (
        "tail-zero",
        "a zero follows the text",
        Spoil::Lends(tail_zero),
    ),
    (
        "tat-late",
        "the TAT of the first slot is one too late",
        Spoil::Lends(tat_late),
    ),
    (
        "newest-late",
        "the newest moment is one too late",
        Spoil::Lends(newest_late),
    ),
    (
        "beyond-cleared",
        "slot 1023 is cleared, though the plan has fewer slots",
        Spoil::Lends(beyond_cleared),
    ),
    (
        "numbers-beyond",
        "plan number 1023 is cleared, though the plan has fewer slots",
        Spoil::Lends(numbers_beyond),
    ),
    (
        "numbers-left",
        "the plan numbers of the run are not cleared",
        Spoil::Lends(numbers_left),
    ),
    (
        "numbers-short",
        "too few plan numbers are reported as written",
        Spoil::Lends(numbers_short),
    ),
    (
        "refused-clears",
        "a refused first line makes the newest moment 0",
        Spoil::Lends(refused_clears),
    ),
    (
        "short-clears",
        "the newest moment is made 0 though the columns are too short",
        Spoil::Lends(short_clears),
    ),
    (
        "outside-ids",
        "the word after the ids is written",
        Spoil::Lends(|l, _| l.table.ids.overrun(0)),
    ),
    (
        "outside-numbers",
        "the byte after the plan numbers is written",
        Spoil::Lends(|l, _| l.table.plan_numbers.overrun(0)),
    ),
    (
        "outside-tats",
        "the word after the TATs is written",
        Spoil::Lends(|l, _| l.table.columns[0].overrun(0)),
    ),
    (
        "outside-newest",
        "the word after the newest moment is written",
        Spoil::Lends(|l, _| l.table.newest.overrun(0)),
    ),
    (
        "outside-out",
        "the byte after the output is written",
        Spoil::Lends(|l, _| l.out.overrun(0)),
    ),
    (
        "before-out",
        "the bytes before the output are written",
        Spoil::Lends(|l, _| l.out.underrun(0)),
    ),
    (
        "outside-result",
        "a third number is written",
        Spoil::Lends(|l, _| l.result.overrun(0)),
    ),
];

/// The result and how many bytes were written.
fn result(lending: &mut Lending) -> &mut [u64] {
    lending.result.inside_mut()
}

fn is(lending: &Lending, number: u64) -> bool {
    lending.result.inside()[0] == number
}

fn count_short(lending: &mut Lending, _: &[u8]) {
    if is(lending, WRITTEN) {
        result(lending)[1] -= 1;
    }
}

fn count_left(lending: &mut Lending, _: &[u8]) {
    if !is(lending, WRITTEN) {
        result(lending)[1] = 1;
    }
}

fn results_swapped(lending: &mut Lending, _: &[u8]) {
    if !is(lending, WRITTEN) {
        result(lending)[0] = SHORT_TABLE + SHORT_OUTPUT - result(lending)[0];
    }
}

fn short_taken(lending: &mut Lending, _: &[u8]) {
    if is(lending, SHORT_OUTPUT) {
        result(lending)[0] = WRITTEN;
    }
}

fn short_begun(lending: &mut Lending, _: &[u8]) {
    if is(lending, SHORT_OUTPUT) {
        if let Some(byte) = lending.out.inside_mut().first_mut() {
            *byte = b'o';
        }
    }
}

fn byte_lost(lending: &mut Lending, _: &[u8]) {
    if is(lending, WRITTEN) {
        let last = result(lending)[1] as usize - 1;
        lending.out.inside_mut()[last] = last as u8 | 0x80;
    }
}

fn tail_zero(lending: &mut Lending, _: &[u8]) {
    if is(lending, WRITTEN) {
        let end = result(lending)[1] as usize;
        if let Some(byte) = lending.out.inside_mut().get_mut(end) {
            *byte = 0;
        }
    }
}

fn tat_late(lending: &mut Lending, text: &[u8]) {
    if is(lending, WRITTEN) && begins_a_run(text) {
        lending.table.columns[0].inside_mut()[0] += 1;
    }
}

fn newest_late(lending: &mut Lending, text: &[u8]) {
    if is(lending, WRITTEN) && begins_a_run(text) {
        lending.table.newest[0] += 1;
    }
}

fn beyond_cleared(lending: &mut Lending, text: &[u8]) {
    if is(lending, WRITTEN) && begins_a_run(text) {
        lending.table.ids.inside_mut()[1023] = 0;
    }
}

fn numbers_beyond(lending: &mut Lending, text: &[u8]) {
    if is(lending, WRITTEN) && begins_a_run(text) {
        lending.table.plan_numbers[1023] = 0;
    }
}

fn numbers_left(lending: &mut Lending, text: &[u8]) {
    if is(lending, WRITTEN) && begins_a_run(text) {
        lending.table.plan_numbers[0] = 1;
    }
}

fn numbers_short(lending: &mut Lending, _: &[u8]) {
    if is(lending, SHORT_TABLE) && lending.table.plan_numbers.len() < 1024 {
        result(lending)[0] = WRITTEN;
    }
}

fn refused_clears(lending: &mut Lending, text: &[u8]) {
    if is(lending, WRITTEN) && !begins_a_run(text) {
        lending.table.newest[0] = 0;
    }
}

fn short_clears(lending: &mut Lending, _: &[u8]) {
    if is(lending, SHORT_TABLE) {
        lending.table.newest[0] = 0;
    }
}
