//! The runs in a crate's specs/Worked.antt, read from that file, and their calls, played by both engines and the book.

use crate::three::Three;
use model::table::Answer;

pub struct Worked(String);

impl Worked {
    /// The definitions of this crate.
    pub fn of(name: &str) -> Worked {
        let root = concat!(env!("CARGO_MANIFEST_DIR"), "/../..");
        let path = format!("{root}/crates/{name}/specs/Worked.antt");
        Worked(std::fs::read_to_string(path).expect("the definitions are there"))
    }

    /// The words of each item of a list, up to its end `[]`, without comments.
    pub fn list(&self, name: &str) -> Vec<Vec<String>> {
        self.0
            .lines()
            .skip_while(|line| *line != format!("{name} ="))
            .skip(1)
            .map(|line| line.trim().trim_start_matches("∷ "))
            .filter(|line| !line.starts_with("--"))
            .take_while(|line| *line != "[]")
            .map(|line| line.split(' ').map(String::from).collect())
            .collect()
    }

    /// A list of plans, as it is lent.
    pub fn plans(&self, name: &str) -> Vec<u32> {
        let narrow = |number: u64| u32::try_from(number).expect("32 bits");
        let items = self.list(name);
        items
            .iter()
            .flat_map(|item| numbers(item))
            .map(narrow)
            .collect()
    }
}

/// The numbers after the first word of an item.
pub fn numbers(item: &[String]) -> Vec<u64> {
    let number = |word: &String| word.parse().expect("a number");
    item[1..].iter().map(number).collect()
}

/// The three answers to a call in words; all three must have the same newest moment afterwards.
pub fn play(three: &mut Three, call: &[String]) -> [Answer; 3] {
    let answers = match (call[0].as_str(), &numbers(call)[..]) {
        ("acquire", &[moment, who, plan, cost]) => {
            three.acquire(moment, who as u32, plan as u32, cost as u32)
        }
        ("peek", &[moment, who, plan]) => three.peek(moment, who as u32, plan as u32),
        ("clear", []) => three.clear(),
        other => panic!("a call that nothing here makes: {other:?}"),
    };
    let newest = three.newest();
    assert_eq!(newest, [newest[0]; 3], "{call:?}");
    answers
}
