//! The faults of the program.

use super::{reading, writing, Fault, Spoil};

pub const FAULTS: [Fault; 33] = [
    (
        "wait-short",
        "the wait under 8 is one too short",
        Spoil::Writes(writing::wait_short),
    ),
    (
        "swapped",
        "left and reset are swapped",
        Spoil::Writes(writing::swapped),
    ),
    (
        "nobody",
        "a refusal names subscriber 0",
        Spoil::Writes(writing::nobody),
    ),
    (
        "late-unread",
        "a moment above its limit gets 10",
        Spoil::Writes(writing::late_unread),
    ),
    (
        "equal-early",
        "an ask at the newest moment itself gets 11",
        Spoil::Writes(writing::equal_early),
    ),
    (
        "early-last",
        "11 after 4",
        Spoil::Writes(writing::early_last),
    ),
    (
        "corrupt-for-early",
        "7 in place of 11, by the second implementation too",
        Spoil::BothWrite(writing::corrupt_for_early),
    ),
    (
        "owing-for-off-clock",
        "12 in place of 13, by the second implementation too",
        Spoil::BothWrite(writing::owing_for_off_clock),
    ),
    (
        "clock-short",
        "13 where the wait ends at the clock's last moment",
        Spoil::Writes(writing::clock_short),
    ),
    (
        "off-clock-late",
        "3 in place of 13",
        Spoil::Writes(writing::off_clock_late),
    ),
    (
        "ten-dropped",
        "an unreadable line gets no answer",
        Spoil::Writes(writing::ten_dropped),
    ),
    (
        "ten-twice",
        "an unreadable line is answered twice",
        Spoil::Writes(writing::ten_twice),
    ),
    (
        "ten-named",
        "an unreadable line is answered with a subscriber",
        Spoil::Writes(writing::ten_named),
    ),
    (
        "header-missing",
        "the header is not written",
        Spoil::Writes(writing::header_missing),
    ),
    (
        "last-lf-missing",
        "the last line has no LF",
        Spoil::Writes(writing::last_lf_missing),
    ),
    (
        "last-lost",
        "the last answer is not written",
        Spoil::Writes(writing::last_lost),
    ),
    (
        "going-on",
        "lines after a refused first line are answered",
        Spoil::Writes(writing::going_on),
    ),
    (
        "first-silent",
        "a refused first line gets no answer",
        Spoil::Writes(writing::first_silent),
    ),
    (
        "plan-answered",
        "a good plan is answered",
        Spoil::Writes(writing::plan_answered),
    ),
    (
        "zero-taken",
        "leading zeros are taken",
        Spoil::Reads(reading::zero_taken),
    ),
    (
        "sign-taken",
        "a plus sign is taken",
        Spoil::Reads(reading::sign_taken),
    ),
    (
        "cr-taken",
        "CR before LF is taken",
        Spoil::Reads(reading::cr_taken),
    ),
    (
        "bom-taken",
        "a byte-order mark at the start is taken",
        Spoil::Reads(reading::bom_taken),
    ),
    (
        "end-taken",
        "a last line without LF is taken",
        Spoil::Reads(reading::end_taken),
    ),
    (
        "empty-skipped",
        "an empty line gets no answer",
        Spoil::Reads(reading::empty_skipped),
    ),
    (
        "long-cut",
        "a long line is answered every 128 bytes",
        Spoil::Reads(reading::long_cut),
    ),
    (
        "plan-ignored",
        "a second plan line gets no answer",
        Spoil::Reads(reading::plan_ignored),
    ),
    (
        "wrap-64",
        "a number wraps at 64 bits",
        Spoil::Reads(reading::wrap_64),
    ),
    (
        "wrap-32",
        "a subscriber wraps at 32 bits",
        Spoil::Reads(reading::wrap_32),
    ),
    (
        "ends-badly",
        "the output is right and the status is not 0",
        Spoil::EndsBadly,
    ),
    (
        "write-unchecked",
        "a failed write goes unnoticed",
        Spoil::WriteUnchecked,
    ),
    (
        "read-unchecked",
        "a failed read is taken as the end",
        Spoil::ReadUnchecked,
    ),
    (
        "misnamed",
        "the other stream is said to have failed",
        Spoil::Misnames,
    ),
];
