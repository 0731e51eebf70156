//! The program under test: one process for each case, which is fed, read to its end, and not waited for without limit.

use std::env;
use std::fs::{self, File};
use std::io::{self, Read, Write};
use std::path::{Path, PathBuf};
use std::process::{self, Child, Command, ExitStatus, Stdio};
use std::sync::mpsc::{self, RecvTimeoutError, Sender};
use std::thread;
use std::time::{Duration, Instant};

/// How long a program may write nothing, or outlive its output.
pub const PATIENCE: Duration = Duration::from_secs(30);
/// Between two pieces, so that they are read one by one.
const PAUSE: Duration = Duration::from_micros(50);
const BUFFER: usize = 1 << 16;

/// How the input reaches the program.
pub enum Feed {
    /// Through a pipe, in one write.
    Whole,
    /// Through a pipe, in pieces of these sizes; the rest is the last piece.
    Pieces(Vec<usize>),
    /// From a file.
    File,
}

/// A program that ended by itself.
pub struct Ended {
    pub output: Vec<u8>,
    pub status: ExitStatus,
    pub errors: String,
}

/// What came of a process: its end, or the output of one that had to be stopped and why it had to be.
pub enum Outcome {
    Ended(Ended),
    Stopped(Vec<u8>, String),
}

pub struct Program {
    path: PathBuf,
    /// For inputs from a file.
    scratch: PathBuf,
}

impl Drop for Program {
    fn drop(&mut self) {
        let _ = fs::remove_file(&self.scratch);
    }
}

impl Program {
    pub fn new(path: &Path) -> Program {
        let name = format!("text-differential-{}", process::id());
        Program {
            path: path.to_path_buf(),
            scratch: env::temp_dir().join(name),
        }
    }

    pub fn path(&self) -> &Path {
        &self.path
    }

    /// Runs it on an input. An error means that it could not be started.
    pub fn run(&self, input: &[u8], feed: &Feed, most_output: usize) -> io::Result<Outcome> {
        let stdin = match feed {
            Feed::File => self.file(input)?.into(),
            _ => Stdio::piped(),
        };
        let mut child = Command::new(&self.path)
            .stdin(stdin)
            .stdout(Stdio::piped())
            .stderr(Stdio::piped())
            .spawn()
            .map_err(|error| self.cannot_start(error))?;
        let to = child.stdin.take();
        let from = child.stdout.take().expect("a pipe");
        let (sender, chunks) = mpsc::channel();
        thread::scope(|scope| {
            scope.spawn(move || to.map(|to| write(to, input, feed)));
            scope.spawn(move || read(from, sender));
            let mut output = Vec::new();
            let outcome = match collect(&chunks, &mut output, most_output) {
                Ok(()) => wait(&mut child).and_then(|status| ended(&mut child, status)),
                Err(words) => Err(words),
            };
            Ok(match outcome {
                Ok((status, errors)) => Outcome::Ended(Ended {
                    output,
                    status,
                    errors,
                }),
                Err(words) => Outcome::Stopped(output, stopped(&mut child, words)),
            })
        })
    }

    pub fn cannot_start(&self, error: io::Error) -> io::Error {
        let path = self.path.display();
        io::Error::other(format!("the program {path} does not start: {error}"))
    }

    /// The input as an open file.
    pub fn file(&self, input: &[u8]) -> io::Result<File> {
        fs::write(&self.scratch, input)?;
        File::open(&self.scratch)
    }
}

/// A program may end before it has read everything, so a broken pipe is no error.
fn write(mut to: impl Write, input: &[u8], feed: &Feed) {
    let mut rest = input;
    if let Feed::Pieces(sizes) = feed {
        for &size in sizes {
            let (piece, after) = rest.split_at(size.min(rest.len()));
            if to.write_all(piece).is_err() {
                return;
            }
            rest = after;
            thread::sleep(PAUSE);
        }
    }
    let _ = to.write_all(rest);
}

fn read(mut from: impl Read, chunks: Sender<Vec<u8>>) {
    let mut buffer = vec![0; BUFFER];
    while let Ok(size @ 1..) = from.read(&mut buffer) {
        if chunks.send(buffer[..size].to_vec()).is_err() {
            return;
        }
    }
}

/// The output to its end, or in words why that was not waited for.
fn collect(
    chunks: &mpsc::Receiver<Vec<u8>>,
    output: &mut Vec<u8>,
    most: usize,
) -> Result<(), String> {
    loop {
        match chunks.recv_timeout(PATIENCE) {
            Ok(chunk) => output.extend(chunk),
            Err(RecvTimeoutError::Disconnected) => return Ok(()),
            Err(RecvTimeoutError::Timeout) => {
                return Err(format!("it wrote nothing for {} s", PATIENCE.as_secs()))
            }
        }
        if output.len() > most {
            return Err(format!("it wrote more than {most} bytes"));
        }
    }
}

/// The status of a process that is about to end.
pub fn wait(child: &mut Child) -> Result<ExitStatus, String> {
    let begun = Instant::now();
    let mut pause = Duration::from_micros(20);
    while begun.elapsed() < PATIENCE {
        match child.try_wait() {
            Ok(Some(status)) => return Ok(status),
            Ok(None) => thread::sleep(pause),
            Err(error) => return Err(format!("it cannot be waited for: {error}")),
        }
        pause = (pause * 2).min(Duration::from_millis(20));
    }
    Err(format!("it did not end within {} s", PATIENCE.as_secs()))
}

/// What it said on standard error, beside its status.
pub fn ended(child: &mut Child, status: ExitStatus) -> Result<(ExitStatus, String), String> {
    let mut errors = Vec::new();
    if let Some(mut from) = child.stderr.take() {
        from.read_to_end(&mut errors)
            .map_err(|error| format!("its standard error cannot be read: {error}"))?;
    }
    Ok((status, String::from_utf8_lossy(&errors).into_owned()))
}

/// Ends the process.
pub fn stopped(child: &mut Child, words: String) -> String {
    let _ = child.kill();
    let _ = child.wait();
    words
}
