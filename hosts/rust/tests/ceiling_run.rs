//! The runs of crates/law_ceiling/specs/Worked.antt, played on two slots by both engines and the book, and what a host counts in
//! them (document 02, Item 7); and hosts/c/ceiling.expected, whose lines are the first of them.

mod three;
mod worked;

use model::ceiling::{Looked, Notes};
use model::plans::Plans;
use model::table::Answer;
use three::Three;
use worked::{numbers, Worked};

/// A run as it was played: each call in words with the answer that all three gave, and what a host noted.
struct Played {
    answers: Vec<(String, Answer)>,
    notes: Notes,
    met: u64,
}

fn played(name: &str) -> Played {
    let worked = Worked::of("law_ceiling");
    let (plans, run) = (worked.plans("plans"), worked.list(name));
    let mut three = Three::new(&plans, 2);
    let mut played = Played {
        answers: Vec::new(),
        notes: Notes::new(Plans::lent(&plans)),
        met: 0,
    };
    for call in run {
        let answers = worked::play(&mut three, &call);
        assert_eq!(answers, [answers[0]; 3], "{call:?}");
        let looked = note(&mut played.notes, &call, answers[0][0]);
        assert_eq!(looked.above, None, "{call:?}");
        played.met += looked.met;
        played.answers.push((call.join(" "), answers[0]));
    }
    played
}

/// What a host does after a call that got this number.
fn note(notes: &mut Notes, call: &[String], number: u128) -> Looked {
    match (call[0].as_str(), &numbers(call)[..], number) {
        ("acquire", &[moment, who, plan, cost], 0) => {
            notes.admitted(moment, who as u32, plan as u32, cost as u32)
        }
        ("clear", [], 0) => {
            notes.cleared();
            Looked::default()
        }
        _ => Looked::default(),
    }
}

impl Played {
    fn numbers(&self) -> Vec<u128> {
        self.answers.iter().map(|(_, answer)| answer[0]).collect()
    }

    /// The admitted cost in a stretch.
    fn cost(&self, subscriber: u32, plan: u32, from: u64, until: u64) -> i128 {
        self.notes.cost(subscriber, plan, from, until)
    }
}

/// The ceiling of 5 units in the first second: 3 × 1000 + 1000 × 2 = 1000 × 5.
#[test]
fn a_run_meets_the_ceiling() {
    let run = played("meeting");
    assert_eq!(run.numbers(), [0, 0, 8, 0, 0, 0, 0, 8, 0]);
    for (from, until, cost) in [(0, 1000, 5), (0, 999, 4), (1, 1000, 3)] {
        assert_eq!(run.cost(7, 0, from, until), cost, "{from} to {until}");
    }
    assert_eq!(run.cost(8, 0, 0, 1000), 4);
    assert_eq!(run.met, 1);
}

/// 2 units since the clear, where 4 were admitted at one moment.
#[test]
fn a_clear_gives_a_whole_burst_anew() {
    let run = played("clearing");
    assert_eq!(run.numbers(), [0, 8, 0, 0]);
    assert_eq!((run.cost(7, 0, 0, 1000), run.met), (2, 0));
}

/// From 0 to 667 the ceiling is 4 under plan 0, 3 × 667 + 1000 × 2 = 4001, and under plan 1, 667 + 1000 × 4 = 4667; both
/// together are 6.
#[test]
fn a_change_of_plan_gives_the_whole_burst_of_another() {
    let run = played("changing");
    assert_eq!(run.numbers(), [0, 12, 0, 12, 0]);
    let costs = |until| [0, 1].map(|plan| run.cost(7, plan, 0, until));
    assert_eq!((costs(667), costs(4667)), ([2, 4], [4, 4]));
    assert_eq!(run.met, 0);
}

/// What hosts/c/ceiling.c must print: each call of the run with GCRA's answer and the token bucket's, and then the sum and the
/// ceiling.
const IN_C: &str = include_str!("../../c/ceiling.expected");

#[test]
fn the_run_in_c_is_this_one() {
    let run = played("meeting");
    let lines = run.answers.iter().map(|(call, answer)| {
        let answer = answer.map(|number| number.to_string()).join(" ");
        format!("{call} -> {answer} | {answer}")
    });
    let sum = run.cost(7, 0, 0, 1000);
    let found = format!("shop 7 from 0 to 1000: {sum} units | {sum} units, and the ceiling is 5");
    assert!(lines.chain([found]).eq(IN_C.lines()), "{IN_C}");
}
