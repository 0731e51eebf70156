//! Deliberate faults, to try the comparison itself: the program under test is given another input, or its output or what the
//! archive left is changed, as one mistake of its own would have it.

mod lending;
mod program;
mod reading;
mod writing;

use crate::lending::Lending;
use crate::text::lines;

/// The lines of an output, each with its LF.
pub type Lines = Vec<Vec<u8>>;

#[derive(Clone, Copy)]
pub enum Spoil {
    /// It reads an input as if it were this one.
    Reads(fn(&[u8]) -> Vec<u8>),
    /// It writes other lines to an input.
    Writes(fn(&mut Lines, &[u8])),
    /// It does, and so does the second implementation.
    BothWrite(fn(&mut Lines, &[u8])),
    /// It ends with a status that is not 0.
    EndsBadly,
    /// It does not notice that its output is not written.
    WriteUnchecked,
    /// It does not notice that its input cannot be read.
    ReadUnchecked,
    /// It says that the other stream has failed.
    Misnames,
    /// The archive leaves something else for a text.
    Lends(fn(&mut Lending, &[u8])),
}

/// A fault: its name on the command line, what it is in words, and the mistake.
type Fault = (&'static str, &'static str, Spoil);

fn faults() -> impl Iterator<Item = &'static Fault> {
    program::FAULTS.iter().chain(&lending::FAULTS)
}

pub fn list() -> String {
    let lines = faults().map(|(name, words, _)| format!("{name:16} {words}\n"));
    lines.collect()
}

pub fn named(name: &str) -> Result<Spoil, String> {
    let fault = faults().find(|fault| fault.0 == name);
    fault
        .map(|fault| fault.2)
        .ok_or(format!("no fault is named '{name}'"))
}

/// What the program is given in place of the input.
pub fn input(spoil: Option<Spoil>, input: &[u8]) -> Vec<u8> {
    match spoil {
        Some(Spoil::Reads(change)) => change(input),
        _ => input.to_vec(),
    }
}

/// What it is taken to have written.
pub fn output(spoil: Option<Spoil>, input: &[u8], output: Vec<u8>) -> Vec<u8> {
    match spoil {
        Some(Spoil::Writes(change) | Spoil::BothWrite(change)) => changed(change, input, output),
        _ => output,
    }
}

/// What the second implementation is taken to have written.
pub fn expected(spoil: Option<Spoil>, input: &[u8], output: Vec<u8>) -> Vec<u8> {
    match spoil {
        Some(Spoil::BothWrite(change)) => changed(change, input, output),
        _ => output,
    }
}

fn changed(change: fn(&mut Lines, &[u8]), input: &[u8], output: Vec<u8>) -> Vec<u8> {
    let mut lines = split(&output);
    change(&mut lines, input);
    lines.concat()
}

/// Changes what the archive left of what was lent to it.
pub fn lending(spoil: Option<Spoil>, text: &[u8], lending: &mut Lending) {
    if let Some(Spoil::Lends(change)) = spoil {
        change(lending, text);
    }
}

fn split(text: &[u8]) -> Lines {
    lines(text).map(<[u8]>::to_vec).collect()
}
