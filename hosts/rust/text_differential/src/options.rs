//! The command line.

use crate::conditions;
use crate::spoil::{self, Spoil};
use std::env;
use std::path::PathBuf;
use std::time::{SystemTime, UNIX_EPOCH};

pub const USAGE: &str = "\
text_differential [PROGRAM] [--seed N] [--cases N] [--without CONDITION] [--spoil KIND]
  Runs the text program on many inputs, and compares its output with the second implementation's; each input is also given to
  the archive's railcadence_transcribe, and what that writes is compared.
  PROGRAM              the program's path; without it, the environment variable RAILCADENCE_PROGRAM
  --seed N             the same cases again; without it the seed is taken from the time, and printed
  --cases N            how many cases are drawn at random, beside the listed ones (default 4000)
  --without CONDITION  leaves out a condition; '--without list' lists them
  --spoil KIND         tries the comparison itself with one deliberate fault; '--spoil list' lists the kinds
Ends with 0 if all agree, 1 at the first difference or if an outcome occurred that cannot, 2 if not called as above or the
program does not start, and 3 if an outcome or a kind of line never occurred.";

pub struct Options {
    pub program: PathBuf,
    pub seed: u64,
    pub cases: u64,
    pub without: Vec<String>,
    pub spoil: Option<(String, Spoil)>,
}

impl Options {
    /// The command that runs the same again.
    pub fn again(&self) -> String {
        let mut words = format!(
            "text_differential {} --seed {} --cases {}",
            self.program.display(),
            self.seed,
            self.cases
        );
        for name in &self.without {
            words += &format!(" --without {name}");
        }
        if let Some((name, _)) = &self.spoil {
            words += &format!(" --spoil {name}");
        }
        words
    }

    pub fn spoil(&self) -> Option<Spoil> {
        self.spoil.as_ref().map(|(_, spoil)| *spoil)
    }
}

pub enum Wish {
    Run(Options),
    Print(String),
}

pub fn read(mut words: impl Iterator<Item = String>) -> Result<Wish, String> {
    let now = SystemTime::now().duration_since(UNIX_EPOCH);
    let mut options = Options {
        program: env::var_os("RAILCADENCE_PROGRAM")
            .unwrap_or_default()
            .into(),
        seed: now.map_or(0, |since| since.as_nanos() as u64),
        cases: 4000,
        without: Vec::new(),
        spoil: None,
    };
    while let Some(word) = words.next() {
        if !word.starts_with("--") {
            options.program = word.into();
            continue;
        }
        let value = words.next().ok_or(format!("'{word}' without a value"))?;
        match (word.as_str(), value.as_str()) {
            ("--seed", _) => options.seed = number(&value)?,
            ("--cases", _) => options.cases = number(&value)?,
            ("--without", "list") => return Ok(Wish::Print(conditions::list())),
            ("--without", name) => options.without.push(conditions::named(name)?),
            ("--spoil", "list") => return Ok(Wish::Print(spoil::list())),
            ("--spoil", name) => options.spoil = Some((name.to_string(), spoil::named(name)?)),
            _ => return Err(format!("there is no option '{word}'")),
        }
    }
    if options.program.as_os_str().is_empty() {
        return Err("no program is named, and RAILCADENCE_PROGRAM is not set".to_string());
    }
    Ok(Wish::Run(options))
}

fn number(word: &str) -> Result<u64, String> {
    word.parse()
        .map_err(|_| format!("'{word}' is not a number"))
}
