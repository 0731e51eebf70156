//! One text given to the archive, by `railcadence_transcribe`, with columns and outputs of several lengths; the two numbers,
//! the output, the columns and the newest moment are compared with the second implementation's.

use crate::compare::Difference;
use crate::lending::{self, Held, Lending, Lengths, WRITTEN};
use crate::rng::Rng;
use crate::spoil::{self, Spoil};
use model::text::{play, Played};

/// What is due of a call.
struct Due {
    result: [u64; 2],
    held: Held,
}

/// Nothing is written unless the text is.
fn due(before: &Held, result: u64, played: &Played) -> Due {
    if result != WRITTEN {
        return Due {
            result: [result, 0],
            held: before.clone(),
        };
    }
    Due {
        result: [WRITTEN, played.output.len() as u64],
        held: before.after(played),
    }
}

/// The first place in which two columns or outputs of one length differ, in words.
fn place<T: PartialEq + Copy + Into<u64>>(what: &str, due: &[T], got: &[T]) -> Option<String> {
    let place = due.iter().zip(got).position(|(due, got)| due != got)?;
    let (due, got): (u64, u64) = (due[place].into(), got[place].into());
    Some(format!("{what} {place} is {got}, and {due} is due"))
}

/// What is wrong, in words.
fn wrong(due: &Due, got: &Lending) -> Vec<String> {
    let mut words = Vec::new();
    let result = got.result.inside();
    if result != due.result {
        words.push(format!(
            "the result is {result:?}, and {:?} is due",
            due.result
        ));
    }
    let (table, lent) = (&due.held.table, &got.table);
    words.extend(place("byte", &due.held.out, got.out.inside()));
    if !lent.holds(table) {
        words.extend(place("id", &table.ids, &lent.ids));
        words.extend(place(
            "plan number",
            &table.plan_numbers,
            &lent.plan_numbers,
        ));
        words.extend(place("TAT", &table.columns[0], lent.columns[0].inside()));
        let (newest, left) = (table.newest, lent.newest[0]);
        if left != newest {
            words.push(format!("the newest moment is {left}, and {newest} is due"));
        }
    }
    if !got.intact() {
        words.push("a guard was written".to_string());
    }
    words
}

fn call(
    text: &[u8],
    before: &Held,
    lengths: Lengths,
    due: Due,
    spoil: Option<Spoil>,
) -> Result<(), Difference> {
    let mut got = Lending::new(before);
    got.transcribe(text);
    spoil::lending(spoil, text, &mut got);
    let words = wrong(&due, &got);
    if words.is_empty() {
        return Ok(());
    }
    let words = words.join("\n    ");
    Err(Difference {
        words: format!("railcadence_transcribe with {lengths:?}:\n    {words}"),
        expected: due.held.out,
        got: got.out.inside().to_vec(),
    })
}

/// The results of the calls on which both agree, or a difference.
pub fn compare(text: &[u8], rng: &mut Rng, spoil: Option<Spoil>) -> Result<Vec<u64>, Difference> {
    let played = play(text);
    let mut results = Vec::new();
    for (lengths, result) in lending::all(rng, text) {
        let before = Held::some(rng, lengths);
        let due = due(&before, result, &played);
        call(text, &before, lengths, due, spoil)?;
        results.push(result);
    }
    Ok(results)
}
