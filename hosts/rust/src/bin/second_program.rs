//! The second program: the whole of standard input to standard output, by `model::text`.

use model::text::transcript;
use std::io::{self, Read, Write};
use std::process::ExitCode;

fn run() -> Result<(), String> {
    let mut input = Vec::new();
    let read = io::stdin().lock().read_to_end(&mut input);
    read.map_err(|error| format!("standard input cannot be read: {error}"))?;
    let mut out = io::stdout().lock();
    let written = out
        .write_all(&transcript(&input))
        .and_then(|()| out.flush());
    written.map_err(|error| format!("standard output cannot be written: {error}"))
}

fn main() -> ExitCode {
    match run() {
        Ok(()) => ExitCode::SUCCESS,
        Err(words) => {
            // nothing is left to be done if this cannot be written either
            let _ = writeln!(io::stderr(), "second_program: {words}");
            ExitCode::FAILURE
        }
    }
}
