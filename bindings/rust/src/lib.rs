//! A duty-rota core whose every function is proved: it splits coverage into slots, works out who is available, forms units, sets fair
//! targets and plays changes to a rota. The search, the weights, the configuration and the calendar stay with the caller.
//!
//! Two layers. [`lent`] has one function for each that the library exports, over slices that the caller owns. The types here stand on it,
//! in the terms of the Rust that the library carries over: a [`Problem`] is built once, and an [`Assignment`] is changed by
//! [`assign`](Assignment::assign) and by [`play`](Assignment::play); a [`Job`] is all of that in one call. Nothing here panics on what a
//! caller passes: what the library doesn't take is a [`Refusal`], and it changes nothing.
//!
//! Times are whole minutes from 1970-01-01 00:00 (a Thursday) to 100,000,000; there are 1 to 32 people and at most 1,024 slots, ranges and
//! draws. The count has no zone, and which one it stands for decides who holds which minute: docs/TIME.md of the repository. What settings,
//! draws and refusals mean is docs/REFERENCE.md there.
//!
//! ```
//! use boltraven::{Answer, Assignment, Draw, Person, Problem, Range, Settings, Slot};
//!
//! // Two hours to cover. Person 0 can do both, person 1 the second.
//! let base = [Slot { start: 0, end: 120 }];
//! let people = [Person { capacity: 1.0, prior: 0 }; 2];
//! let ranges = [Range { person: 0, start: 0, end: 120 }, Range { person: 1, start: 60, end: 180 }];
//! let problem = Problem::build(Settings::default(), &base, &people, &ranges)?;
//! assert_eq!(problem.slot_count(), 2);
//! assert_eq!(problem.targets(), [80, 40]);
//!
//! let mut rota = Assignment::from_slots(&problem, &[Some(0), Some(0)])?;
//! let answers = rota.play(&problem, &[Draw { draw: 0, first: 1, second: 1 }])?;
//! assert_eq!(answers, [Answer::Acted]);
//! assert_eq!(rota.get(1)?, Some(1));
//! assert_eq!(rota.assigned_minutes(1)?, 60);
//! # Ok::<(), boltraven::Refusal>(())
//! ```
#![warn(missing_docs)]

mod assignment;
mod availability;
mod columns;
mod draw;
mod exports;
mod job;
mod job_text;
pub mod lent;
mod mend;
mod problem;
mod recording;
mod refusal;
mod retiring;
mod set;
mod settings;
mod slots;
mod store;
mod targets;
mod units;
mod verdict;
mod weekdays;

pub use assignment::{Answer, Assignment, Replay, WayBack};
pub use availability::Availability;
pub use columns::{publish, Columns, Stretch, Stretches};
pub use draw::Draw;
pub use job::{run_job, Job, LISTING_MOST};
pub use job_text::JobTextError;
pub use mend::{Cause, Repair, Repairs};
pub use problem::Problem;
pub use recording::{Blocks, Recording};
pub use refusal::{Fault, NoRefusal, Refusal};
pub use retiring::{retire_column, Retiring};
pub use set::{Members, Run, Runs, SlotSet};
pub use settings::{Boundary, Edition, Fairness, Settings};
pub use slots::{merged_ranges, Range, Slot, Slots};
pub use store::{Entries, Entry, Store};
pub use targets::{compute_targets, Person};
pub use units::Units;
pub use verdict::{Rule, Verdict};
pub use weekdays::{NoWeekday, Weekday, Weekdays};

/// The version of this package. The library's own is [`lent::version`], which is to be the same.
///
/// ```
/// let numbers: Vec<u32> = boltraven::VERSION.split('.').map(str::parse).collect::<Result<_, _>>()?;
/// assert_eq!(boltraven::lent::version(), numbers[0] * 10_000 + numbers[1] * 100 + numbers[2]);
/// # Ok::<(), std::num::ParseIntError>(())
/// ```
pub const VERSION: &str = env!("CARGO_PKG_VERSION");

/// The date of a minute, in days from 1970-01-01 on.
///
/// ```
/// assert_eq!((boltraven::date_of(1439), boltraven::date_of(1440)), (0, 1));
/// ```
pub fn date_of(minute: u32) -> u32 {
    lent::date_of(minute)
}

/// The weekday of a date.
///
/// ```
/// assert_eq!(boltraven::weekday_of(4), boltraven::Weekday::Monday);
/// ```
pub fn weekday_of(date: u32) -> Weekday {
    Weekday::of_number(lent::weekday_of(date))
}
