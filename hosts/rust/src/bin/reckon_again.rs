//! Reads lines of the test program `rate_test`, keeps their input, reckons their output again, and writes them.
//! Titles, which begin with '#', are kept.

use model::plan::{div_up, Plan, LAST_MOMENT};
use std::io::{self, BufRead, Write};

fn plan_of(input: &[u128]) -> Plan {
    Plan {
        limit: input[0],
        period: input[1],
        burst: input[2],
    }
}

/// How many of a line's numbers are its input, and its output from them.
fn reckon(word: &str, numbers: &[u128]) -> (usize, Vec<u128>) {
    match word {
        "plan" => (3, vec![plan_of(numbers).within_limits() as u128]),
        "moment" => (1, vec![(numbers[0] <= LAST_MOMENT) as u128]),
        // the documents' numbers in the order of the checks, 12 just after 7 and 13 in the place of 8; zeros beside each
        "refused" => {
            let number = [1, 2, 3, 11, 4, 5, 6, 7, 12, 13, 9][numbers[0] as usize];
            (2, vec![number, numbers[1], 0, 0, 0])
        }
        "cleared" => (1, vec![[0, 2][numbers[0] as usize], 0, 0, 0, 0]),
        // of subscriber 7, with 1 left and reset at 2 if the wait ends within the clock
        "wait" if numbers[0] + numbers[1] <= LAST_MOMENT => (2, vec![8, 7, 1, 2, numbers[1]]),
        "wait" => (2, vec![13, 7, 0, 0, 0]),
        "div_up" => (2, vec![div_up(numbers[0], numbers[1])]),
        _ => panic!("a line begins with {word:?}, which nothing here reckons"),
    }
}

fn main() -> io::Result<()> {
    let mut out = io::BufWriter::new(io::stdout().lock());
    for line in io::stdin().lock().lines() {
        let line = line?;
        if line.starts_with('#') {
            writeln!(out, "{line}")?;
            continue;
        }
        let mut fields = line.split('\t');
        let word = fields.next().unwrap_or_default();
        let numbers: Vec<u128> = fields.map(|f| f.parse().expect("a number")).collect();
        let (inputs, output) = reckon(word, &numbers);
        let whole: Vec<String> = numbers[..inputs]
            .iter()
            .chain(&output)
            .map(u128::to_string)
            .collect();
        writeln!(out, "{word}\t{}", whole.join("\t"))?;
    }
    out.flush()
}
