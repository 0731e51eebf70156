//! Document 01's example with the resets of document 02 (Item 2) and its number 11 (Item 6), for the tests: one seat, 3 units
//! per 1000 ms, burst 2. And what document 02 (Item 13) makes of the same plan at the end of the clock.

use crate::decision::{Bucket, Paced};
use crate::plan::Plan;
use crate::plans::Plans;
use crate::table::{Answer, Stored, Table};

pub fn plan() -> Plan {
    Plan::new(3, 1000, 2)
}

/// That plan alone, with number 0.
pub fn plans() -> Plans {
    Plans::one(plan())
}

/// Moment, subscriber, cost; and the line of output.
pub type Line = (u64, u32, u32, Answer);

pub const LINES: [Line; 10] = [
    (1000, 7, 1, [0, 7, 1, 1334, 0]),
    (1000, 7, 1, [0, 7, 0, 1667, 0]),
    (1000, 7, 1, [8, 7, 0, 1667, 334]),
    (1333, 7, 1, [8, 7, 0, 1667, 1]),
    (1334, 7, 1, [0, 7, 0, 2000, 0]),
    (1334, 7, 3, [6, 7, 0, 0, 0]),
    (1334, 8, 2, [9, 8, 0, 0, 0]),
    (2000, 8, 2, [0, 8, 0, 2667, 0]),
    (2000, 7, 1, [9, 7, 0, 0, 0]),
    (1999, 8, 1, [11, 8, 0, 0, 0]),
];

/// On two seats. A unit is there 334 ms after the whole burst: of 7, which spends it 334 ms before the last moment, at that
/// moment; of 8, which spends it a millisecond later, not on this clock.
pub const LAST_LINES: [Line; 13] = [
    (4_398_046_510_769, 7, 2, [0, 7, 0, 4_398_046_511_436, 0]),
    (4_398_046_510_769, 7, 1, [8, 7, 0, 4_398_046_511_436, 334]),
    (4_398_046_510_769, 7, 2, [13, 7, 0, 0, 0]),
    (4_398_046_510_770, 8, 2, [0, 8, 0, 4_398_046_511_437, 0]),
    (4_398_046_510_770, 8, 1, [13, 8, 0, 0, 0]),
    (4_398_046_510_770, 8, 3, [6, 8, 0, 0, 0]),
    (4_398_046_511_102, 7, 1, [8, 7, 0, 4_398_046_511_436, 1]),
    (4_398_046_511_102, 8, 1, [13, 8, 0, 0, 0]),
    (4_398_046_511_103, 8, 1, [13, 8, 0, 0, 0]),
    (4_398_046_511_103, 9, 1, [9, 9, 0, 0, 0]),
    (4_398_046_511_103, 7, 1, [0, 7, 0, 4_398_046_511_769, 0]),
    (4_398_046_511_103, 7, 1, [13, 7, 0, 0, 0]),
    (4_398_046_511_104, 7, 1, [3, 7, 0, 0, 0]),
];

/// What hosts/c/example.c must print: a call, GCRA's answer and the token bucket's.
const IN_C: &str = include_str!("../../c/example.expected");

fn words(answer: Answer) -> String {
    answer.map(|number| number.to_string()).join(" ")
}

/// A call in words, on a table of one slot.
fn play<R: Stored>(table: &mut Table<R>, call: &str) -> String {
    let mut parts = call.split(' ');
    let name = parts.next();
    let numbers = parts.map(|word| word.parse().expect("a number of 32 bits"));
    let numbers: Vec<u32> = numbers.collect();
    words(match (name, numbers.as_slice()) {
        (Some("acquire"), &[moment, who, cost]) => {
            table.acquire(&plans(), moment as u64, who, 0, cost)
        }
        (Some("peek"), &[moment, who]) => table.peek(&plans(), moment as u64, who, 0),
        (Some("clear"), []) => table.clear(),
        _ => panic!("no call: {call}"),
    })
}

/// Its asks are the document's, with the document's answers from both engines.
#[test]
fn the_example_in_c_is_the_document_s() {
    let asks = IN_C.lines().filter(|line| line.starts_with("acquire"));
    let lines = LINES.map(|(moment, subscriber, cost, answer)| {
        let answer = words(answer);
        format!("acquire {moment} {subscriber} {cost} -> {answer} | {answer}")
    });
    assert!(asks.eq(lines.iter()), "{IN_C}");
}

/// Both tables give all its answers, of peeks and clears too.
#[test]
fn the_example_in_c_is_reckoned_again() {
    let (mut paced, mut bucket) = (Table::<Paced>::cleared(1), Table::<Bucket>::cleared(1));
    for line in IN_C.lines() {
        let (call, _) = line.split_once(" -> ").expect("a call and its answers");
        let answers = [play(&mut paced, call), play(&mut bucket, call)].join(" | ");
        assert_eq!(line, format!("{call} -> {answers}"));
    }
}
