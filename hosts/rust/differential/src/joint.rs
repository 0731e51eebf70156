//! One list of calls through both engines, each with a table of its own, and through the book: document 01's 'The run', with one
//! list of plans lent in every call (document 02, Item 3). The three answers must be equal, whether the moments rise or fall
//! (Item 6), and what each engine admits is within the ceiling (Item 7).

use crate::call::Call;
use crate::ceiling::Ceiling;
use crate::compare::{circumstances, Difference, Pair};
use crate::engine::Engine;
use crate::list::List;
use crate::spoil::{self, Spoil};
use crate::tally::Seen;
use crate::trial::Trial;
use model::book::Book;
use model::decision::{Bucket, Paced};
use model::table::{Answer, Table};

pub struct Joint {
    list: List,
    slots: usize,
    gcra: Pair<Paced>,
    token_bucket: Pair<Bucket>,
    book: Book,
    ceiling: Ceiling,
}

impl Joint {
    /// Tables with anything in them, for the clear that a run begins with.
    pub fn new(trial: &mut Trial, list: &List, slots: usize) -> Joint {
        let (gcra, token_bucket) = (leftovers(trial, slots), leftovers(trial, slots));
        let mistake = trial.spoil.and_then(Spoil::of_the_lists);
        Joint {
            list: list.clone(),
            slots,
            gcra: Pair::new(list.clone(), gcra, trial.spoil),
            token_bucket: Pair::new(list.clone(), token_bucket, trial.spoil),
            book: Book::mistaken(list.plans().clone(), slots, mistake),
            ceiling: Ceiling::new(list, trial.spoil),
        }
    }

    /// The answer of GCRA, the token bucket and the book. Archive and model agree on each engine's.
    pub fn call(&mut self, trial: &mut Trial, call: &Call) -> Result<Answer, Difference> {
        let engines = [self.gcra.call(call)?, self.token_bucket.call(call)?];
        let plan = self.book.plan_of(call.subscriber());
        let history = match trial.spoil {
            Some(spoil) if spoil.keeps_from_the_book(call) => engines[0],
            spoil => self.ask_book(call, spoil),
        };
        if engines != [history; 2] {
            return Err(self.difference(call, engines, history));
        }
        self.ceiling.note(call, &engines, &mut trial.stretches)?;
        trial.count(&self.gcra, call, &history);
        trial.count(&self.token_bucket, call, &history);
        let seen = Seen {
            took_over: false,
            changed: history[0] == 0 && plan.is_some() && plan != call.plan(),
            fell: self.gcra.fell(),
            slots: self.slots,
        };
        trial.count_book(call, &history, seen);
        Ok(history)
    }

    fn ask_book(&mut self, call: &Call, spoil: Option<Spoil>) -> Answer {
        let mut answer = ask(&mut self.book, call);
        if let Some(fault) = spoil.and_then(Spoil::of_all) {
            spoil::model_answer(fault, call, &mut answer);
        }
        let asked = call
            .plan()
            .and_then(|plan| self.list.plans().numbered(plan));
        if let (Some(fault), Some(moment), Some(plan)) =
            (spoil.and_then(Spoil::of_book), call.moment(), asked)
        {
            let debt = self.book.debt(call.subscriber(), moment as u128);
            spoil::move_the_end(fault, plan, call, debt, &mut answer);
        }
        answer
    }

    fn difference(&self, call: &Call, engines: [Answer; 2], book: Answer) -> Difference {
        let mut text = format!(
            "the engines and the book differ\n{}",
            circumstances(&self.list, call)
        );
        for (name, answer) in [
            (Paced::NAME, engines[0]),
            (Bucket::NAME, engines[1]),
            ("book", book),
        ] {
            text += &format!("  {name:13} {answer:?}\n");
        }
        text += &format!("{}\n{}", Paced::NAME, self.gcra.rows(call));
        text + &format!("{}\n{}", Bucket::NAME, self.token_bucket.rows(call))
    }
}

/// What a book answers.
pub fn ask(book: &mut Book, call: &Call) -> Answer {
    match *call {
        Call::Acquire {
            moment,
            subscriber,
            plan,
            cost,
        } => book.acquire(moment, subscriber, plan, cost),
        Call::Peek {
            moment,
            subscriber,
            plan,
        } => book.peek(moment, subscriber, plan),
        Call::Clear => book.clear(),
    }
}

fn leftovers<E: Engine>(trial: &mut Trial, slots: usize) -> Table<E> {
    let ids = (0..slots).map(|_| trial.rng.next() as u32).collect();
    let numbers = (0..slots).map(|_| trial.rng.next() as u8).collect();
    let column = |_| (0..slots).map(|_| trial.rng.next()).collect();
    let columns = E::COLUMNS.iter().map(column).collect();
    Table::new(ids, numbers, columns, trial.rng.next())
}
