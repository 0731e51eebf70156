//! The runs of crates/law_history/specs/Worked.antt, played by both engines and the book: their expected answers are what the
//! second implementation gives.

mod three;
mod worked;

use three::Three;
use worked::{numbers, Worked};

/// Plays a run on one slot under these plans; all three must answer each call as `expected` says of its place and its words.
fn play(plans: &[u32], run: &[Vec<String>], expected: impl Fn(usize, &[String]) -> Vec<u64>) {
    let mut three = Three::new(plans, 1);
    for (place, call) in run.iter().enumerate() {
        let answers = worked::play(&mut three, call);
        let line: Vec<u128> = expected(place, call).into_iter().map(u128::from).collect();
        assert_eq!(
            answers.map(Vec::from),
            [(); 3].map(|_| line.clone()),
            "{call:?}"
        );
    }
}

#[test]
fn the_expected_answers_are_right() {
    let worked = Worked::of("law_history");
    for (name, calls) in [
        ("falling", 22),
        ("ending", 11),
        ("owing", 18),
        ("changing", 14),
    ] {
        let (run, answers) = (worked.list(name), worked.list(&format!("{name}_answers")));
        assert_eq!((run.len(), answers.len()), (calls, calls), "{name}");
        play(&worked.plans("plans"), &run, |place, _| {
            numbers(&answers[place])
        });
    }
}

/// Number 1 to every ask and look under a list with a bad plan that no call asks for, under none and under 17; 0 to a clear.
#[test]
fn bad_plans_are_refused() {
    let worked = Worked::of("law_history");
    let seventeen = worked.plans("plans")[..3].repeat(17);
    for bad in [worked.plans("spoilt"), Vec::new(), seventeen] {
        let run = worked.list("changing");
        play(&bad, &run, |_, call| match call[0].as_str() {
            "clear" => vec![0; 5],
            _ => vec![1, numbers(call)[1], 0, 0, 0],
        });
    }
}
