//! A call with its arguments, but for the plans that are lent.

use model::plan::Plan;
use model::plans::Plans;
use model::table::{Answer, Stored, Table};
use std::fmt;

/// The numbers of a plan as the archive takes them.
pub use railcadence::Plan as Terms;

/// The model's plan of these numbers.
pub fn plan_of(terms: &Terms) -> Plan {
    Plan::new(terms.limit, terms.period, terms.burst)
}

/// The plan of an acquire or a peek is the number asked for.
#[derive(Clone, Copy, Debug)]
pub enum Call {
    Acquire {
        moment: u64,
        subscriber: u32,
        plan: u32,
        cost: u32,
    },
    Peek {
        moment: u64,
        subscriber: u32,
        plan: u32,
    },
    Clear,
}

impl Call {
    /// The model's answer on a table.
    pub fn on<R: Stored>(&self, plans: &Plans, table: &mut Table<R>) -> Answer {
        match *self {
            Call::Acquire {
                moment,
                subscriber,
                plan,
                cost,
            } => table.acquire(plans, moment, subscriber, plan, cost),
            Call::Peek {
                moment,
                subscriber,
                plan,
            } => table.peek(plans, moment, subscriber, plan),
            Call::Clear => table.clear(),
        }
    }

    /// The moment of an acquire or a peek.
    pub fn moment(&self) -> Option<u64> {
        match *self {
            Call::Acquire { moment, .. } | Call::Peek { moment, .. } => Some(moment),
            Call::Clear => None,
        }
    }

    pub fn subscriber(&self) -> u32 {
        match *self {
            Call::Acquire { subscriber, .. } | Call::Peek { subscriber, .. } => subscriber,
            Call::Clear => 0,
        }
    }

    /// The number of the plan that an acquire or a peek asks for.
    pub fn plan(&self) -> Option<u32> {
        match *self {
            Call::Acquire { plan, .. } | Call::Peek { plan, .. } => Some(plan),
            Call::Clear => None,
        }
    }

    /// The same call under the plan of another number.
    pub fn under(mut self, number: u32) -> Call {
        if let Call::Acquire { plan, .. } | Call::Peek { plan, .. } = &mut self {
            *plan = number;
        }
        self
    }

    /// The same call at another moment.
    pub fn at(mut self, later: u64) -> Call {
        if let Call::Acquire { moment, .. } | Call::Peek { moment, .. } = &mut self {
            *moment = later;
        }
        self
    }
}

pub fn ask(moment: u64, subscriber: u32, plan: u32, cost: u32) -> Call {
    Call::Acquire {
        moment,
        subscriber,
        plan,
        cost,
    }
}

pub fn peek(moment: u64, subscriber: u32, plan: u32) -> Call {
    Call::Peek {
        moment,
        subscriber,
        plan,
    }
}

impl fmt::Display for Call {
    fn fmt(&self, f: &mut fmt::Formatter) -> fmt::Result {
        match *self {
            Call::Acquire {
                moment,
                subscriber,
                plan,
                cost,
            } => write!(
                f,
                "acquire moment {moment} subscriber {subscriber} plan {plan} cost {cost}"
            ),
            Call::Peek {
                moment,
                subscriber,
                plan,
            } => write!(
                f,
                "peek moment {moment} subscriber {subscriber} plan {plan}"
            ),
            Call::Clear => write!(f, "clear"),
        }
    }
}
