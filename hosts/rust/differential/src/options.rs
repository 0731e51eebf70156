//! The command line.

use crate::spoil::Spoil;
use std::time::{SystemTime, UNIX_EPOCH};

pub const USAGE: &str = "\
differential [--seed N] [--calls N] [--spoil FAULT]
  Compares the archive with the second implementation, call by call, through the C interface; over a run the two
  engines with each other and with the book, also where subscribers change their plans, where the clock falls and where
  what is owed depends on calls far back, and what each engine admits with the ceiling; lists of plans of every length,
  good and bad; tables of 65,535 slots and of 65,536; waits that end at the clock's last moment and beyond it; a shop
  that asks for its whole burst at the reset; and the fields for HTTP.
  --seed N       the same calls again; without it the seed is taken from the time, and printed
  --calls N      how many calls, of both engines together (default 4000000); fewer fill a smaller table in the wide run
  --spoil FAULT  tries the comparison itself with one deliberate fault; '--spoil list' lists them
Ends with 0 if all agree, 1 at the first difference or if an outcome occurred that cannot, 2 if not called as above or if
standard output cannot be written, and 3 if an outcome never occurred.";

pub struct Options {
    pub seed: u64,
    pub calls: u64,
    pub spoil: Option<(String, Spoil)>,
}

impl Options {
    /// The command that runs the same again.
    pub fn again(&self) -> String {
        let spoil = self.spoil.as_ref();
        let spoil = spoil.map_or(String::new(), |(name, _)| format!(" --spoil {name}"));
        format!(
            "differential --seed {} --calls {}{spoil}",
            self.seed, self.calls
        )
    }
}

pub enum Wish {
    Run(Options),
    List,
}

pub fn read(mut words: impl Iterator<Item = String>) -> Result<Wish, String> {
    let now = SystemTime::now().duration_since(UNIX_EPOCH);
    let mut options = Options {
        seed: now.map_or(0, |since| since.as_nanos() as u64),
        calls: 4_000_000,
        spoil: None,
    };
    while let Some(word) = words.next() {
        let value = words.next().ok_or(format!("'{word}' without a value"))?;
        match word.as_str() {
            "--seed" => options.seed = number(&value)?,
            "--calls" => options.calls = number(&value)?,
            "--spoil" if value == "list" => return Ok(Wish::List),
            "--spoil" => {
                let spoil = Spoil::by_name(&value).ok_or(format!("no fault is named '{value}'"))?;
                options.spoil = Some((value, spoil));
            }
            _ => return Err(format!("there is no option '{word}'")),
        }
    }
    Ok(Wish::Run(options))
}

fn number(word: &str) -> Result<u64, String> {
    word.parse()
        .map_err(|_| format!("'{word}' is not a number"))
}
