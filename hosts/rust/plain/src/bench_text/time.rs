//! Times of whole processes.

use std::fs::{self, File};
use std::io;
use std::path::Path;
use std::process::{Command, Stdio};
use std::time::{Duration, Instant};

/// Runs a program from a file to `out`, and gives the time from its start to its end.
fn run(program: &Path, input: &Path, out: Stdio) -> io::Result<Duration> {
    let mut command = Command::new(program);
    command.stdin(File::open(input)?).stdout(out);
    let begun = Instant::now();
    let status = command.status()?;
    let time = begun.elapsed();
    if status.success() {
        Ok(time)
    } else {
        let words = format!("{} ended with {status}", program.display());
        Err(io::Error::other(words))
    }
}

pub fn output(program: &Path, input: &Path, file: &Path) -> io::Result<Vec<u8>> {
    run(program, input, File::create(file)?.into())?;
    fs::read(file)
}

/// The times of some programs, which take turns; their output goes nowhere.
pub fn alternately<const N: usize>(
    programs: [&Path; N],
    input: &Path,
    runs: usize,
) -> io::Result<[Times; N]> {
    let mut times = [(); N].map(|()| Vec::new());
    for _ in 0..runs {
        for (program, times) in programs.iter().zip(&mut times) {
            times.push(run(program, input, Stdio::null())?);
        }
    }
    Ok(times.map(Times::new))
}

/// In order, the shortest first.
pub struct Times(Vec<Duration>);

impl Times {
    fn new(mut times: Vec<Duration>) -> Times {
        times.sort();
        Times(times)
    }

    pub fn median(&self) -> Duration {
        self.0[self.0.len() / 2]
    }

    pub fn least(&self) -> Duration {
        self.0[0]
    }

    pub fn most(&self) -> Duration {
        self.0[self.0.len() - 1]
    }
}
