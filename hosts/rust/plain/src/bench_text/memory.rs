//! The peak resident memory of a process, from /proc while it waits for more input.

use std::fs;
use std::io::{self, Write};
use std::path::Path;
use std::process::{Command, Stdio};
use std::thread;
use std::time::{Duration, Instant};

const PAUSE: Duration = Duration::from_millis(20);
/// How often in a row it must be found waiting, and for how long that is tried.
const TIMES: usize = 5;
const PATIENCE: Duration = Duration::from_secs(120);

/// In KiB, after the program has read the text through a pipe that stays open.
pub fn peak(program: &Path, text: &[u8]) -> io::Result<u64> {
    let mut child = Command::new(program)
        .stdin(Stdio::piped())
        .stdout(Stdio::null())
        .spawn()?;
    let mut to = child.stdin.take().expect("a pipe");
    to.write_all(text)?;
    to.flush()?;
    let peak = wait_and_read(child.id());
    drop(to);
    child.wait()?;
    peak
}

fn wait_and_read(process: u32) -> io::Result<u64> {
    let begun = Instant::now();
    let mut waiting = 0;
    while begun.elapsed() < PATIENCE {
        thread::sleep(PAUSE);
        let status = fs::read_to_string(format!("/proc/{process}/status"))?;
        let asleep = field(&status, "State:").is_some_and(|state| state.starts_with('S'));
        waiting = if asleep { waiting + 1 } else { 0 };
        if waiting == TIMES {
            let peak =
                field(&status, "VmHWM:").and_then(|text| text.split(' ').next()?.parse().ok());
            return peak.ok_or(io::Error::other("/proc shows no peak of memory"));
        }
    }
    Err(io::Error::other(
        "the program does not come to wait for input",
    ))
}

fn field<'a>(status: &'a str, name: &str) -> Option<&'a str> {
    let line = status.lines().find(|line| line.starts_with(name))?;
    Some(line[name.len()..].trim())
}
