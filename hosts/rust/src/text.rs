//! Document 01, 'The tabbed text': the second program, from its whole input to its whole output. The input is cut into
//! lines and a line into fields before anything is read of them.

use crate::decision::Paced;
use crate::plan::Plan;
use crate::plans::Plans;
use crate::table::{Answer, Table};

const HEADER: &[u8] = b"outcome\tsubscriber\tleft\treset\twait\n";
/// In bytes, with its LF.
const LONGEST_LINE: usize = 128;
/// Of the program; a table that a host lends can have more.
const MOST_SLOTS: u128 = 1024;
/// A number of 64 bits has at most so many digits.
const MOST_DIGITS: usize = 20;
const UNREADABLE: u128 = 10;

enum Line {
    Plan {
        slots: u128,
        plan: Plan,
    },
    Ask {
        moment: u64,
        subscriber: u32,
        cost: u32,
    },
}

/// What a good first line begins, under the one plan that it names, which has number 0.
struct Run {
    plans: Plans,
    table: Table<Paced>,
}

/// What a whole input comes to: the whole output, and the table as the last line left it where a run began.
pub struct Played {
    pub output: Vec<u8>,
    pub table: Option<Table<Paced>>,
}

/// The whole output for the whole input.
pub fn transcript(input: &[u8]) -> Vec<u8> {
    play(input).output
}

/// What stands after the last LF is a line without LF, unless it is empty.
pub fn play(input: &[u8]) -> Played {
    let mut output = HEADER.to_vec();
    let mut lines = input.split_inclusive(|&byte| byte == b'\n');
    let begun = lines.next().map(begin);
    let table = match begun {
        None => None,
        Some(Err(number)) => {
            write_line(&mut output, [number, 0, 0, 0, 0]);
            None
        }
        Some(Ok(mut run)) => {
            lines.for_each(|line| write_line(&mut output, run.answer(line)));
            Some(run.table)
        }
    };
    Played { output, table }
}

/// The run that the first line begins, or the number that ends it there.
fn begin(first: &[u8]) -> Result<Run, u128> {
    let Some(Line::Plan { slots, plan }) = read(first) else {
        return Err(UNREADABLE);
    };
    if !plan.within_limits() {
        return Err(1);
    }
    if !(1..=MOST_SLOTS).contains(&slots) {
        return Err(2);
    }
    Ok(Run {
        plans: Plans::one(plan),
        table: Table::cleared(slots as usize),
    })
}

impl Run {
    /// The answer to a line after the first; a second `plan` line is answered like one that cannot be read.
    fn answer(&mut self, line: &[u8]) -> Answer {
        match read(line) {
            Some(Line::Ask {
                moment,
                subscriber,
                cost,
            }) => self.table.acquire(&self.plans, moment, subscriber, 0, cost),
            Some(Line::Plan { .. }) | None => [UNREADABLE, 0, 0, 0, 0],
        }
    }
}

/// A line with its LF, or nothing if it cannot be read.
fn read(line: &[u8]) -> Option<Line> {
    if line.len() > LONGEST_LINE {
        return None;
    }
    let text = line.strip_suffix(b"\n")?;
    let fields: Vec<&[u8]> = text.split(|&byte| byte == b'\t').collect();
    match fields[..] {
        [b"plan", slots, limit, period, burst] => Some(Line::Plan {
            slots: number_of(slots, 32)?,
            plan: Plan {
                limit: number_of(limit, 32)?,
                period: number_of(period, 32)?,
                burst: number_of(burst, 32)?,
            },
        }),
        [b"ask", moment, subscriber, cost] => Some(Line::Ask {
            moment: number_of(moment, 64)? as u64,
            subscriber: number_of(subscriber, 32)? as u32,
            cost: number_of(cost, 32)? as u32,
        }),
        _ => None,
    }
}

/// A decimal number without sign or leading zero that fits so many bits.
fn number_of(field: &[u8], bits: u32) -> Option<u128> {
    let digits = !field.is_empty() && field.iter().all(u8::is_ascii_digit);
    let zero_first = field.len() > 1 && field[0] == b'0';
    if !digits || zero_first || field.len() > MOST_DIGITS {
        return None;
    }
    let ten_times = |number, &digit: &u8| number * 10 + (digit - b'0') as u128;
    let number = field.iter().fold(0, ten_times);
    (number < 1 << bits).then_some(number)
}

fn write_line(output: &mut Vec<u8>, answer: Answer) {
    let fields = answer.map(|number| number.to_string());
    output.extend_from_slice(fields.join("\t").as_bytes());
    output.push(b'\n');
}

#[cfg(test)]
mod tests {
    use super::*;
    use crate::example::{Line, LAST_LINES, LINES};

    /// Tabs shown as spaces, as in document 01.
    fn tabbed(text: &str) -> Vec<u8> {
        text.replace(' ', "\t").into_bytes()
    }

    /// The answers to lines of input, without the header; all tabs shown as spaces.
    fn answers(input: &str) -> String {
        raw_answers(&tabbed(input))
    }

    fn raw_answers(input: &[u8]) -> String {
        let output = String::from_utf8(transcript(input)).expect("text");
        let answers = output.strip_prefix("outcome\tsubscriber\tleft\treset\twait\n");
        answers.expect("the header").replace('\t', " ")
    }

    /// The answer to one line after a plan of 3 units per 1000 ms with burst 2.
    fn answer(line: &[u8]) -> String {
        let mut input = tabbed("plan 1 3 1000 2\n");
        input.extend_from_slice(line);
        raw_answers(&input)
    }

    const TEN: &str = "10 0 0 0 0\n";

    #[test]
    fn document_01_example() {
        let input = "plan 1 3 1000 2\n\
            ask 1000 7 1\nask 1000 7 1\nask 1000 7 1\nask 1333 7 1\nask 1334 7 1\n\
            ask 1334 7 3\nask 1334 8 2\nask 2000 8 2\nask 2000 7 1\nask 1999 8 1\n";
        let output = "outcome subscriber left reset wait\n\
            0 7 1 1334 0\n0 7 0 1667 0\n8 7 0 1667 334\n8 7 0 1667 1\n0 7 0 2000 0\n\
            6 7 0 0 0\n9 8 0 0 0\n0 8 0 2667 0\n9 7 0 0 0\n11 8 0 0 0\n";
        assert_eq!(transcript(&tabbed(input)), tabbed(output));
        assert_eq!(answers(input), LINES.map(answer_of).concat());
    }

    fn ask_of((moment, subscriber, cost, _): Line) -> String {
        format!("ask {moment} {subscriber} {cost}\n")
    }

    fn answer_of((_, _, _, answer): Line) -> String {
        answer.map(|number| number.to_string()).join(" ") + "\n"
    }

    #[test]
    fn document_02_item_13() {
        let input = "plan 2 3 1000 2\n".to_string() + &LAST_LINES.map(ask_of).concat();
        assert_eq!(answers(&input), LAST_LINES.map(answer_of).concat());
    }

    #[test]
    fn document_01_further() {
        assert_eq!(answers("plan 1 1000000 1000 2\n"), "");
        assert_eq!(answers("plan 1 1000001 1000 2\n"), "1 0 0 0 0\n");
        assert_eq!(answers("plan 1 3 1000 0\n"), "1 0 0 0 0\n");
        let last = "ask\t4398046511103\t7\t1\n";
        assert_eq!(answer(last.as_bytes()), "0 7 1 4398046511437 0\n");
        assert_eq!(answer(b"ask\t4398046511104\t7\t1\n"), "3 7 0 0 0\n");
        assert_eq!(answers("plan 65536 3 1000 2\n"), "2 0 0 0 0\n");
        assert_eq!(answers("plan 65535 3 1000 2\n"), "2 0 0 0 0\n");
        assert_eq!(answers("plan 1025 3 1000 2\n"), "2 0 0 0 0\n");
        assert_eq!(answers("plan 1024 3 1000 2\n"), "");
        assert_eq!(answer(b"ask\t0\t0\t0\n"), "4 0 0 0 0\n");
        assert_eq!(answer(b"ask\t0\t7\t2\n"), "0 7 0 667 0\n");
        assert_eq!(answers(""), "");
    }

    /// 8 takes over the slot of 7, which owes nothing any more; a refused first line begins no run.
    #[test]
    fn the_table_that_is_left() {
        let lines = "plan 2 3 1000 2\nask 1000 7 1\nask 2000 8 2\nask 2000 9 1\n";
        let left = play(&tabbed(lines)).table.expect("a run");
        let (ids, tats) = (vec![8, 9], vec![8000, 7000]);
        assert_eq!(left, Table::new(ids, vec![0; 2], vec![tats], 2000));
        for refused in ["", "plan 0 3 1000 2\n", "plan 2 3 1000 2", "ask 1000 7 1\n"] {
            assert!(play(&tabbed(refused)).table.is_none(), "{refused:?}");
        }
    }

    /// However long it is; and nothing after the last LF is no line.
    #[test]
    fn one_answer_for_each_line() {
        for length in [127, 128, 129, 256, 257, 100_000] {
            let mut line = vec![b'1'; length - 1];
            assert_eq!(answer(&line), TEN, "{length} without LF");
            line.push(b'\n');
            assert_eq!(answer(&line), TEN, "{length}");
            line.extend_from_slice(b"ask\t0\t7\t2\n");
            assert_eq!(answer(&line), format!("{TEN}0 7 0 667 0\n"), "{length}");
        }
        assert_eq!(answer(b"ask\t0\t7\t2"), TEN);
    }

    const UNREADABLE_LINES: [&str; 30] = [
        "\n",
        "\r\n",
        "ask\n",
        "ask\t\n",
        "ask\t1\t7\n",
        "ask\t1\t7\t1\t\n",
        "ask\t1\t7\t1\t1\n",
        "ask\t1\t7\t1\r\n",
        "ask\t1\t7\t1\0\n",
        "\u{feff}ask\t1\t7\t1\n",
        " ask\t1\t7\t1\n",
        "ask\t1\t7\t1 \n",
        "ask\t 1\t7\t1\n",
        "ask 1 7 1\n",
        "ask\t+1\t7\t1\n",
        "ask\t-1\t7\t1\n",
        "ask\t01\t7\t1\n",
        "ask\t1\t07\t1\n",
        "ask\t1\t7\t00\n",
        "ask\t\t1\t7\t1\n",
        "\task\t1\t7\t1\n",
        "ask\t1\t\t7\t1\n",
        "ask\t1\t7\t\n",
        "Ask\t1\t7\t1\n",
        "asks\t1\t7\t1\n",
        "ask\t1.0\t7\t1\n",
        "ask\t0x1\t7\t1\n",
        "ask\t1e0\t7\t1\n",
        "ask\t1\t7\t٣\n",
        "look\t1\t7\t1\n",
    ];

    #[test]
    fn whatever_is_not_written_so_is_unreadable() {
        for line in UNREADABLE_LINES {
            assert_eq!(answer(line.as_bytes()), TEN, "{line:?}");
        }
        assert_eq!(answer(b"ask\t1\t7\t\xff\n"), TEN);
        assert_eq!(answer(b"ask\t0\t7\t1\n"), "0 7 1 334 0\n");
    }

    /// A number that is wider cannot be read; one that is only too large gets its check's number.
    #[test]
    fn numbers_are_bounded_by_their_width() {
        assert_eq!(answer(b"ask\t18446744073709551615\t7\t1\n"), "3 7 0 0 0\n");
        assert_eq!(answer(b"ask\t18446744073709551616\t7\t1\n"), TEN);
        assert_eq!(
            answer(b"ask\t340282366920938463463374607431768211457\t7\t1\n"),
            TEN
        );
        assert_eq!(answer(b"ask\t1\t4294967295\t1\n"), "0 4294967295 1 335 0\n");
        assert_eq!(answer(b"ask\t1\t4294967296\t1\n"), TEN);
        assert_eq!(answer(b"ask\t1\t7\t4294967295\n"), "6 7 0 0 0\n");
        assert_eq!(answer(b"ask\t1\t7\t4294967296\n"), TEN);
        assert_eq!(answers("plan 1 4294967295 1000 2\n"), "1 0 0 0 0\n");
        assert_eq!(answers("plan 1 4294967296 1000 2\n"), TEN);
        assert_eq!(answers("plan 4294967296 3 1000 2\n"), TEN);
    }

    #[test]
    fn the_first_line_decides() {
        for first in [
            "ask 1 7 1\n",
            "\n",
            "plan 1 3 1000\n",
            "plan 1 3 1000 2 2\n",
            "plan 01 3 1000 2\n",
        ] {
            assert_eq!(
                answers(&format!("{first}plan 1 3 1000 2\nask 1 7 1\n")),
                TEN,
                "{first:?}"
            );
        }
        assert_eq!(answers("plan 1 3 1000 2"), TEN);
        assert_eq!(answers("plan 1 0 1000 2\nask 1 7 1\n"), "1 0 0 0 0\n");
        assert_eq!(answers("plan 0 3 1000 2\nask 1 7 1\n"), "2 0 0 0 0\n");
        assert_eq!(answers("plan 0 3 1000 0\nask 1 7 1\n"), "1 0 0 0 0\n");
        assert_eq!(answers("plan 1 3 1000 2\n"), "");
    }

    /// The state stays, and the run goes on.
    #[test]
    fn a_second_plan_is_unreadable() {
        for again in [
            "plan 1 3 1000 2\n",
            "plan 9 1 1 9\n",
            "plan 1 0 1000 2\n",
            "plan 1\n",
        ] {
            let input = format!("plan 1 3 1000 2\nask 0 7 2\n{again}ask 0 7 1\n");
            assert_eq!(
                answers(&input),
                format!("0 7 0 667 0\n{TEN}8 7 0 667 334\n")
            );
        }
    }
}
