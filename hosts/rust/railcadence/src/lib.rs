//! Railcadence: a rate limiter in which every answer and every stored number is proved.
//!
//! A [`Plan`] allows `limit` units per `period` milliseconds, and up to `burst` units at once. A table remembers who owes
//! what. Whoever wants to spend units asks it with [`Gcra::acquire`] under one of up to 16 [`Plans`], and is admitted, told
//! how long to wait, or refused.
//!
//! ```
//! use railcadence::{Gcra, Outcome, Plan, Plans};
//!
//! let plans = Plans::new(&[Plan::new(3, 1000, 2)])?;
//! let mut table = Gcra::with_slots(300);
//! let mut ask = |moment| table.acquire(&plans, moment, 7, 0, 1).outcome; // subscriber 7, plan 0, 1 unit
//!
//! assert_eq!(ask(1000), Outcome::Admitted { left: 1, reset: 1334 });
//! assert_eq!(ask(1000), Outcome::Admitted { left: 0, reset: 1667 });
//! assert_eq!(ask(1000), Outcome::Throttled { left: 0, reset: 1667, wait: 334 });
//! assert_eq!(ask(1334), Outcome::Admitted { left: 0, reset: 2000 });
//! # Ok::<(), railcadence::BadPlans>(())
//! ```
//!
//! # Which engine
//!
//! [`Gcra`] stores one number a subscriber, [`TokenBucket`] two. On cleared tables with equally many slots, the same calls
//! get the same answers from both, if the same plans are lent in all of them. If unsure, take `Gcra`.
//!
//! # Moments
//!
//! Nothing here reads a clock: a moment is a number of milliseconds from any fixed zero, up to 2^42 − 1. Take all moments of a
//! table from one clock: one before the newest at which the table admitted anything is refused with
//! [`Reason::EarlyMoment`]. A clock that never goes back, such as [`std::time::Instant`], suits best. A request that no moment
//! up to 2^42 − 1 will admit is not told to wait, but refused with [`Reason::NotOnClock`].
//!
//! # Any values may be passed
//!
//! No call panics. Whatever is outside its limits gets a [`Reason`], and then nothing of the table is written. Further rules
//! will bring further reasons and outcomes, so a `match` on either needs an arm for the rest.
//!
//! # Threads
//!
//! A table serves one caller at a time, which `&mut self` sees to: share it in a [`std::sync::Mutex`]. Read the clock while
//! you hold it, since a moment that was read before may be earlier than another thread's admission meanwhile.
//!
//! ```
//! use railcadence::{Gcra, Plan, Plans};
//! use std::sync::Mutex;
//! use std::time::Instant;
//!
//! let plans = Plans::new(&[Plan::new(3, 1000, 2)])?;
//! let (shared, start) = (Mutex::new(Gcra::with_slots(300)), Instant::now());
//!
//! let mut table = shared.lock().unwrap(); // first the table,
//! let moment = start.elapsed().as_millis() as u64; // then the clock
//! assert!(table.acquire(&plans, moment, 7, 0, 1).is_admitted());
//! # Ok::<(), railcadence::BadPlans>(())
//! ```
//!
//! # Linking
//!
//! The build script links the proved archive, `librailcadence_c.a`. It finds it in the folder that the environment variable
//! `RAILCADENCE_LIB` names.

#![deny(missing_docs)]

mod answer;
pub mod gcra;
mod http;
pub mod numbers;
mod plan;
mod plans;
mod reason;
mod report;
pub mod sys;
pub mod token_bucket;

pub use answer::{Answer, Outcome};
pub use gcra::Gcra;
pub use http::HttpFields;
pub use plan::Plan;
pub use plans::{BadPlans, Plans};
pub use reason::Reason;
pub use report::{Balance, Report};
pub use token_bucket::TokenBucket;
