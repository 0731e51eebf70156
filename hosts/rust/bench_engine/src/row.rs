//! One load with one engine, as one build reports it to the build that puts the rows of all together.

use std::fmt;

pub struct Row {
    pub load: String,
    pub engine: String,
    /// How many asks got each number, in words.
    pub answered: String,
    /// The median nanoseconds per acquire: proved, index loop, position.
    pub medians: [f64; 3],
}

impl fmt::Display for Row {
    fn fmt(&self, f: &mut fmt::Formatter) -> fmt::Result {
        let [proved, index, position] = self.medians;
        let (load, engine, answered) = (&self.load, &self.engine, &self.answered);
        write!(
            f,
            "{load}\t{engine}\t{answered}\t{proved}\t{index}\t{position}"
        )
    }
}

impl Row {
    pub fn read(line: &str) -> Option<Row> {
        let fields: Vec<&str> = line.split('\t').collect();
        let &[load, engine, answered, proved, index, position] = fields.as_slice() else {
            return None;
        };
        Some(Row {
            load: load.to_string(),
            engine: engine.to_string(),
            answered: answered.to_string(),
            medians: [
                proved.parse().ok()?,
                index.parse().ok()?,
                position.parse().ok()?,
            ],
        })
    }
}
