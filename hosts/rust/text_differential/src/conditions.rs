//! What the program must do where its input cannot be read or its output not be written: name the stream on standard error,
//! and end. Nothing is asked of its status, since a Rattle program has none: it always ends with 0.

use crate::program::{ended, stopped, wait, Program};
use crate::spoil::Spoil;
use std::fs::{File, OpenOptions};
use std::io;
use std::os::unix::process::ExitStatusExt;
use std::process::{Command, Stdio};

enum Condition {
    FullOutput,
    FullOutputLong,
    DirectoryInput,
    ClosedInput,
}

use Condition::*;

impl Condition {
    /// The stream that fails.
    fn stream(&self) -> &'static str {
        match self {
            FullOutput | FullOutputLong => "standard output",
            DirectoryInput | ClosedInput => "standard input",
        }
    }
}

const CONDITIONS: [(&str, &str, Condition); 4] = [
    (
        "full-output",
        "no byte of the output can be written, and the input is empty",
        FullOutput,
    ),
    (
        "full-output-long",
        "no byte of the output can be written, and the input is long",
        FullOutputLong,
    ),
    (
        "directory-input",
        "standard input is a folder",
        DirectoryInput,
    ),
    (
        "closed-input",
        "standard input is closed (Rust's standard library finds an empty input there)",
        ClosedInput,
    ),
];

pub fn list() -> String {
    let line = |(name, words, _): &(&str, &str, Condition)| format!("{name:16} {words}\n");
    CONDITIONS.iter().map(line).collect()
}

pub fn named(name: &str) -> Result<String, String> {
    match CONDITIONS.iter().any(|condition| condition.0 == name) {
        true => Ok(name.to_string()),
        false => Err(format!("no condition is named '{name}'")),
    }
}

/// A text whose answers fill any buffer.
fn long_input() -> Vec<u8> {
    let text = "plan\t1\t3\t1000\t2\n".to_string() + &"ask\t1000\t7\t1\n".repeat(50_000);
    text.into_bytes()
}

fn command(program: &Program, condition: &Condition, spoil: Option<Spoil>) -> io::Result<Command> {
    let write_seen = !matches!(spoil, Some(Spoil::WriteUnchecked));
    let read_seen = !matches!(spoil, Some(Spoil::ReadUnchecked));
    let mut command = Command::new(program.path());
    command.stdin(Stdio::null()).stdout(Stdio::null());
    match condition {
        FullOutput | FullOutputLong if write_seen => {
            command.stdout(OpenOptions::new().write(true).open("/dev/full")?);
        }
        DirectoryInput if read_seen => {
            command.stdin(File::open("/")?);
        }
        ClosedInput if read_seen => {
            command = Command::new("sh");
            command.args(["-c", "exec \"$0\" <&-"]).arg(program.path());
            command.stdout(Stdio::null());
        }
        _ => (),
    }
    if matches!(condition, FullOutputLong) {
        command.stdin(program.file(&long_input())?);
    }
    command.stderr(Stdio::piped());
    Ok(command)
}

/// What the program does wrong where a stream fails, in words.
fn wrong(
    program: &Program,
    command: &mut Command,
    stream: &str,
    spoil: Option<Spoil>,
) -> io::Result<Option<String>> {
    let spawned = command.spawn();
    let mut child = spawned.map_err(|error| program.cannot_start(error))?;
    let end = wait(&mut child).and_then(|status| ended(&mut child, status));
    let (status, errors) = match end {
        Err(words) => return Ok(Some(stopped(&mut child, words))),
        Ok((status, errors)) if matches!(spoil, Some(Spoil::Misnames)) => {
            (status, errors.replace(stream, "the other stream"))
        }
        Ok(end) => end,
    };
    let wrong = if status.signal().is_some() {
        format!("it ended with {status}")
    } else if !errors.contains(stream) {
        format!("it did not name {stream} on standard error, where it said {errors:?}")
    } else {
        return Ok(None);
    };
    Ok(Some(wrong))
}

/// Tries every condition but those left out. The first that the program does not meet is described.
pub fn try_all(
    program: &Program,
    without: &[String],
    spoil: Option<Spoil>,
) -> io::Result<Option<String>> {
    for (name, words, condition) in CONDITIONS {
        if without.iter().any(|left_out| left_out == name) {
            println!("condition {name}: left out");
            continue;
        }
        let mut command = command(program, &condition, spoil)?;
        if let Some(wrong) = wrong(program, &mut command, condition.stream(), spoil)? {
            return Ok(Some(format!("condition {name} ({words}): {wrong}")));
        }
        println!("condition {name}: met");
    }
    Ok(None)
}
