//! One call, made both to the archive and to the model on equal tables, and compared whole: the answer, every column, the
//! newest moment, the plans that were lent, and the guards around them.

use crate::call::Call;
use crate::choose::LAST;
use crate::engine::Engine;
use crate::lent::Lent;
use crate::list::List;
use crate::offered::{self, Offered};
use crate::out::Out;
use crate::spoil::{self, Done, Fault, Spoil};
use model::table::{Answer, Table};
use std::array;

/// How many slots a difference shows, and which it shows in any case.
const MOST_SHOWN: usize = 64;
const ALWAYS_SHOWN: usize = 16;

/// A difference, in words.
pub type Difference = String;

/// What the last call wrote in the columns.
enum Written {
    Nothing,
    Slot(usize),
    All,
}

pub struct Pair<E> {
    list: List,
    model: Table<E>,
    real: Lent,
    /// The model's table before the last call.
    before: Table<E>,
    written: Written,
    fault: Option<Fault>,
    /// The latest moment on the clock since the last clear, and whether that of the last call was an earlier one.
    latest: u64,
    fell: bool,
}

impl<E: Engine> Pair<E> {
    pub fn new(list: List, table: Table<E>, spoil: Option<Spoil>) -> Pair<E> {
        Pair {
            list,
            real: Lent::new(&table),
            before: table.clone(),
            model: table,
            written: Written::Nothing,
            fault: spoil.and_then(|spoil| spoil.of_engine(E::NAME)),
            latest: 0,
            fell: false,
        }
    }

    /// The answer on which both agree.
    pub fn call(&mut self, call: &Call) -> Result<Answer, Difference> {
        self.catch_up();
        self.follow_the_clock(call);
        let expected = self.ask_model(call);
        let out = self.ask_archive(call);
        let answer: Answer = array::from_fn(|i| u128::from(out[i]));
        if answer != expected {
            return Err(self.difference(call, "the answers differ", expected, answer));
        }
        if !self.real.holds(&self.model) {
            return Err(self.difference(call, "the tables differ afterwards", expected, answer));
        }
        if !self.real.intact() || !self.list.intact() {
            let what =
                "the archive wrote outside the columns or the newest moment, or in the plans";
            return Err(self.difference(call, what, expected, answer));
        }
        if !out.intact() {
            let what = "the archive wrote outside the five numbers";
            return Err(self.difference(call, what, expected, answer));
        }
        self.written = self.written(call, &answer);
        Ok(answer)
    }

    fn written(&self, call: &Call, answer: &Answer) -> Written {
        match (call, answer[0]) {
            (Call::Acquire { subscriber, .. }, 0) => {
                let own = self.model.ids.iter().position(|id| id == subscriber);
                own.map_or(Written::Nothing, Written::Slot)
            }
            (Call::Clear, 0) => Written::All,
            _ => Written::Nothing,
        }
    }

    /// Makes the table before the next call what the last one left; to copy the whole of a large table every time takes its time.
    fn catch_up(&mut self) {
        let (model, before) = (&self.model, &mut self.before);
        match self.written {
            Written::Nothing => (),
            Written::Slot(slot) => {
                before.ids[slot] = model.ids[slot];
                before.plan_numbers[slot] = model.plan_numbers[slot];
                E::load(&model.columns, slot).store(&mut before.columns, slot);
            }
            Written::All => before.clone_from(model),
        }
        before.newest = model.newest;
    }

    /// How many slots every column has.
    pub fn slots(&self) -> usize {
        let numbers = self.model.plan_numbers.len();
        let lengths = self.model.columns.iter().map(Vec::len);
        lengths.fold(self.model.ids.len().min(numbers), usize::min)
    }

    /// The number of the plan that the subscriber's slot keeps, and what its record owes by it at a moment; nothing without a slot.
    pub fn owed(&self, subscriber: u32, moment: u64) -> Option<(u32, u128)> {
        let own = self.model.ids.iter().position(|&id| id == subscriber)?;
        let number = self.model.plan_numbers[own] as u32;
        let plan = self.list.plans().numbered(number)?;
        let record = E::load(&self.model.columns, own);
        Some((number, record.debt(plan, moment as u128)))
    }

    /// Whether the last call, if it was admitted, gave its subscriber the slot of another.
    pub fn took_over(&self, subscriber: u32) -> bool {
        match self.written {
            Written::Slot(own) => ![0, subscriber].contains(&self.before.ids[own]),
            _ => false,
        }
    }

    /// Whether the last call, which got 0, came under another plan than that of the subscriber's slot.
    pub fn changed(&self, call: &Call) -> bool {
        let Some(plan) = call.plan() else {
            return false;
        };
        let mut ids = self.before.ids.iter();
        let own = match self.written {
            Written::Slot(own) => Some(own),
            _ => ids.position(|&id| id == call.subscriber()),
        };
        own.is_some_and(|own| {
            self.before.ids[own] == call.subscriber()
                && self.before.plan_numbers[own] as u32 != plan
        })
    }

    /// Counts what the last call came upon.
    pub fn count_offer(&self, counts: &mut Offered, call: &Call, answer: &Answer) {
        offered::count(counts, &self.list, &self.before, call, answer[0]);
    }

    /// Whether the last call's moment lay before that of an earlier one.
    pub fn fell(&self) -> bool {
        self.fell
    }

    fn follow_the_clock(&mut self, call: &Call) {
        match call.moment() {
            Some(moment) if moment > LAST => self.fell = false,
            Some(moment) => {
                self.fell = moment < self.latest;
                self.latest = self.latest.max(moment);
            }
            None => (self.latest, self.fell) = (0, false),
        }
    }

    fn ask_model(&mut self, call: &Call) -> Answer {
        let mut answer = call.on(self.list.plans(), &mut self.model);
        if let Some(fault) = self.fault {
            spoil::model_answer(fault, call, &mut answer);
            spoil::model_newest(fault, call, &answer, &mut self.model.newest);
        }
        answer
    }

    fn ask_archive(&mut self, call: &Call) -> Out {
        let mut out = E::call(self.list.lent(), &mut self.real, call);
        if let Some(fault) = self.fault {
            let mut done = Done {
                list: &mut self.list,
                call,
                before: &self.before,
                after: &mut self.real,
                out: &mut out,
            };
            done.spoil(fault);
        }
        out
    }

    fn difference(&self, call: &Call, what: &str, expected: Answer, answer: Answer) -> String {
        let mut text = format!("{}: {what}\n{}", E::NAME, circumstances(&self.list, call));
        text += &format!("  expected  {expected:?}\n  archive   {answer:?}\n");
        text + &self.rows(call)
    }

    /// The newest moment and the columns before the call, after it as expected, and after it in the archive's table; of the
    /// slots the first, those of the subscriber, and those that differ.
    pub fn rows(&self, call: &Call) -> String {
        let ids = self.before.ids.len();
        let lengths: Vec<usize> = self.before.columns.iter().map(Vec::len).collect();
        let slots = lengths.iter().fold(ids, |a, &b| a.max(b));
        let numbers = self.before.plan_numbers.len();
        let slots = slots.max(numbers);
        let mut text =
            format!("  lengths   ids {ids}, plan numbers {numbers}, others {lengths:?}\n");
        text += &format!(
            "  newest    before {}  expected {}  archive {}\n",
            self.before.newest, self.model.newest, self.real.newest[0]
        );
        text += &format!(
            "  a slot is (id, plan number, {}) before and after; '-' is beyond a column\n",
            E::COLUMNS.join(", ")
        );
        let mut shown = 0;
        for slot in 0..slots {
            let before = self.before.columns.iter();
            let before = row(slot, &self.before.ids, &self.before.plan_numbers, before);
            let expected = self.model.columns.iter();
            let expected = row(slot, &self.model.ids, &self.model.plan_numbers, expected);
            let real = self.real.columns.iter().map(|column| column.inside());
            let real = row(slot, &self.real.ids, &self.real.plan_numbers, real);
            let own = self.before.ids.get(slot) == Some(&call.subscriber());
            if shown < MOST_SHOWN && (slot < ALWAYS_SHOWN || own || expected != real) {
                shown += 1;
                text += &format!(
                    "  slot {slot:<4} before {before}  expected {expected}  archive {real}\n"
                );
            }
        }
        text + &format!("  {shown} of {slots} slots are shown\n")
    }
}

/// What was called under which plans, and how an answer is to be read.
pub fn circumstances(list: &List, call: &Call) -> String {
    format!(
        "  plans     {}\n  call      {call}\n  an answer is number, subscriber, left, reset, wait\n",
        list.words()
    )
}

/// One slot of a table in words.
fn row<C: AsRef<[u64]>>(
    slot: usize,
    ids: &[u32],
    plan_numbers: &[u8],
    columns: impl Iterator<Item = C>,
) -> String {
    let cell = |number: Option<u64>| number.map_or("-".to_string(), |n| n.to_string());
    let mut cells = vec![
        cell(ids.get(slot).map(|&id| id as u64)),
        cell(plan_numbers.get(slot).map(|&number| number as u64)),
    ];
    cells.extend(columns.map(|column| cell(column.as_ref().get(slot).copied())));
    format!("({})", cells.join(" "))
}
