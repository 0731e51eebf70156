//! Compares the text program, as a process of its own for every case, and the archive's `railcadence_transcribe` with the second
//! implementation's text. `options::USAGE` says how to run it.

mod archive;
mod cases;
mod compare;
mod conditions;
mod ending;
mod lending;
#[path = "../../differential/src/lent.rs"]
mod lent;
mod options;
mod program;
#[path = "../../differential/src/rng.rs"]
mod rng;
mod spoil;
mod tally;
mod text;

use cases::{Case, Kind, Source, KINDS};
use compare::{compare, Difference};
use options::{Options, Wish};
use program::Program;
use rng::Rng;
use std::env;
use std::fs;
use std::io;
use std::process::ExitCode;
use std::time::{Duration, Instant};
use tally::Tally;

const EVERY: Duration = Duration::from_secs(10);

/// Why a comparison ends early.
enum Trouble {
    /// A difference, in words.
    Differs(String),
    /// The program does not start, or a file cannot be written.
    Fails(io::Error),
}

impl From<io::Error> for Trouble {
    fn from(error: io::Error) -> Trouble {
        Trouble::Fails(error)
    }
}

struct Comparison {
    program: Program,
    options: Options,
    tally: Tally,
    /// For what is lent to the archive.
    rng: Rng,
    spoken: Instant,
}

impl Comparison {
    fn new(options: Options) -> Comparison {
        Comparison {
            program: Program::new(&options.program),
            rng: Rng::new(options.seed),
            options,
            tally: Tally::new(),
            spoken: Instant::now(),
        }
    }

    /// The conditions, then every kind of case. With a deliberate fault the examples, which show most of them, are left
    /// out, so that the other cases must.
    fn all(&mut self) -> Result<(), Trouble> {
        let spoil = self.options.spoil();
        let wrong = conditions::try_all(&self.program, &self.options.without, spoil)?;
        if let Some(words) = wrong {
            return Err(Trouble::Differs(words));
        }
        let left_out = usize::from(spoil.is_some());
        let mut kinds = KINDS.iter().skip(left_out);
        kinds.try_for_each(|kind| self.kind(kind))
    }

    fn kind(&mut self, kind: &Kind) -> Result<(), Trouble> {
        self.tally.begin(kind);
        let mut rng = Rng::new(self.options.seed);
        match kind.source {
            Source::Listed(all) => {
                let cases = all(&mut rng);
                let total = cases.len() as u64;
                let mut cases = cases.into_iter().zip(1..);
                cases.try_for_each(|(case, place)| self.case(kind, &case, place, total))
            }
            Source::Drawn(percent, one) => {
                let total = (self.options.cases * percent).div_ceil(100);
                (1..=total).try_for_each(|place| self.case(kind, &one(&mut rng), place, total))
            }
        }
    }

    fn case(&mut self, kind: &Kind, case: &Case, place: u64, total: u64) -> Result<(), Trouble> {
        let spoil = self.options.spoil();
        match compare(&self.program, case, spoil)? {
            Ok(output) => self.tally.count(&case.input, &output),
            Err(difference) => return Err(self.located(kind, place, case, difference)?),
        }
        match archive::compare(&case.input, &mut self.rng, spoil) {
            Ok(results) => self.tally.count_results(&results),
            Err(difference) => return Err(self.located(kind, place, case, difference)?),
        }
        if self.spoken.elapsed() > EVERY {
            eprintln!("{}: case {place} of {total}", kind.name);
            self.spoken = Instant::now();
        }
        Ok(())
    }

    /// A difference with its place; its input and both outputs are written to files.
    fn located(&self, kind: &Kind, place: u64, case: &Case, d: Difference) -> io::Result<Trouble> {
        let folder = env::temp_dir().join("differences");
        fs::create_dir_all(&folder)?;
        let name = format!("{}-{place}-seed-{}", kind.name, self.options.seed);
        let file = |end| folder.join(format!("{name}.{end}"));
        fs::write(file("input"), &case.input)?;
        fs::write(file("expected"), &d.expected)?;
        fs::write(file("got"), &d.got)?;
        Ok(Trouble::Differs(format!(
            "kind {}, case {place}:\n  {}\n  the input and both outputs: {}",
            kind.name,
            d.words,
            file("{input,expected,got}").display()
        )))
    }
}

fn run(options: Options) -> Result<ExitCode, Trouble> {
    let mut comparison = Comparison::new(options);
    comparison.all()?;
    let tally = &comparison.tally;
    println!(
        "{} cases agree; how often each number was answered:\n{}",
        tally.cases,
        tally.table().trim_end()
    );
    let impossible = tally.impossible();
    if !impossible.is_empty() {
        let words = format!(
            "These cannot occur in a text, and did: {}.",
            impossible.join(", ")
        );
        return Err(Trouble::Differs(words));
    }
    let missing = tally.missing();
    if missing.is_empty() {
        return Ok(ExitCode::SUCCESS);
    }
    eprintln!(
        "These never occurred, so nothing was compared there: {}. More cases may reach them (--cases).",
        missing.join(", ")
    );
    Ok(ExitCode::from(3))
}

fn main() -> ExitCode {
    let options = match options::read(env::args().skip(1)) {
        Ok(Wish::Run(options)) => options,
        Ok(Wish::Print(text)) => {
            print!("{text}");
            return ExitCode::SUCCESS;
        }
        Err(words) => {
            eprintln!("{words}\n{}", options::USAGE);
            return ExitCode::from(2);
        }
    };
    let again = options.again();
    println!("{again}");
    match run(options) {
        Ok(code) => code,
        Err(Trouble::Differs(words)) => {
            eprintln!("{words}\nThe same again: {again}");
            ExitCode::from(1)
        }
        Err(Trouble::Fails(error)) => {
            eprintln!("{error}");
            ExitCode::from(2)
        }
    }
}
