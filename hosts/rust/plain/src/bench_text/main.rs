//! Times the text program beside the plain one, on the same texts, and measures its memory. `USAGE` says how to run it.

#[path = "../draws.rs"]
mod draws;
mod load;
mod memory;
mod time;

use load::{Load, LOADS};
use std::path::{Path, PathBuf};
use std::process::ExitCode;
use std::{env, fs, io, process};
use time::Times;

const USAGE: &str = "\
bench_text PROGRAM PLAIN [--lines N] [--runs N]
  Runs both programs on the same asks, in turns, and compares their outputs byte for byte.
  --lines N  how many asks (default 1000000)
  --runs N   how often each program is timed on each text (default 15, at least 5)
Ends with 0, with 1 if the outputs differ or a program fails, and with 2 if not called as above.";

struct Options {
    program: PathBuf,
    plain: PathBuf,
    lines: u64,
    runs: usize,
}

fn read(mut words: impl Iterator<Item = String>) -> Option<Options> {
    let (program, plain) = (words.next()?.into(), words.next()?.into());
    let mut options = Options {
        program,
        plain,
        lines: 1_000_000,
        runs: 15,
    };
    while let Some(word) = words.next() {
        let number = words.next()?.parse().ok()?;
        match word.as_str() {
            "--lines" => options.lines = number,
            "--runs" => options.runs = number as usize,
            _ => return None,
        }
    }
    (options.runs >= 5 && options.lines > 0).then_some(options)
}

/// How many answers have each number.
fn numbers(output: &[u8]) -> String {
    let mut counts = [0; 14];
    for line in output.split(|&byte| byte == b'\n') {
        let number = line.split(|&byte| byte == b'\t').next();
        let number =
            number.and_then(|field| std::str::from_utf8(field).ok()?.parse::<usize>().ok());
        if let Some(count) = number.and_then(|number| counts.get_mut(number)) {
            *count += 1;
        }
    }
    let seen = counts.iter().enumerate().filter(|(_, &count)| count > 0);
    let words: Vec<String> = seen.map(|(n, count)| format!("{count} x {n}")).collect();
    words.join(", ")
}

fn print_times(name: &str, times: &Times, lines: u64) {
    let ms = |time: std::time::Duration| time.as_secs_f64() * 1e3;
    println!(
        "  {name:8} median {:8.1} ms   from {:8.1} to {:8.1} ms   {:7.1} ns a line",
        ms(times.median()),
        ms(times.least()),
        ms(times.most()),
        times.median().as_secs_f64() * 1e9 / lines as f64
    );
}

fn one_load(options: &Options, load: &Load, folder: &Path) -> io::Result<()> {
    let input = folder.join("input");
    fs::write(&input, load.text(options.lines))?;
    let programs = [options.program.as_path(), options.plain.as_path()];
    let file = folder.join("output");
    let output = time::output(programs[0], &input, &file)?;
    if output != time::output(programs[1], &input, &file)? {
        let words = format!("the outputs differ on the text '{}'", load.name);
        return Err(io::Error::other(words));
    }
    println!(
        "{}: {} asks, answered {}",
        load.name,
        options.lines,
        numbers(&output)
    );
    let [program, plain] = time::alternately(programs, &input, options.runs)?;
    print_times("program", &program, options.lines);
    print_times("plain", &plain, options.lines);
    let ratio = program.median().as_secs_f64() / plain.median().as_secs_f64();
    println!("  the program takes {ratio:.2} times as long as the plain one");
    Ok(())
}

fn all(options: &Options, folder: &Path) -> io::Result<()> {
    fs::create_dir_all(folder)?;
    for load in &LOADS {
        one_load(options, load, folder)?;
    }
    println!("peak resident memory of the program:");
    for lines in [options.lines / 10, options.lines] {
        let peak = memory::peak(&options.program, &LOADS[0].text(lines))?;
        println!("  {lines:8} asks  {peak:8} KiB");
    }
    Ok(())
}

fn main() -> ExitCode {
    let Some(options) = read(env::args().skip(1)) else {
        eprintln!("{USAGE}");
        return ExitCode::from(2);
    };
    let folder = env::temp_dir().join(format!("bench-text-{}", process::id()));
    let done = all(&options, &folder);
    let _ = fs::remove_dir_all(&folder);
    match done {
        Ok(()) => ExitCode::SUCCESS,
        Err(error) => {
            eprintln!("bench_text: {error}");
            ExitCode::from(1)
        }
    }
}
