//! The library's functions over lent slices, one an export: nothing is copied, nothing is made, and every slice may have any length, since
//! the library checks all of it and refuses by number. A refused call changes nothing that was lent. What lies past the end of a list that
//! comes out or past a needed length, and bits at or past a set's length, always stay as they were.
//!
//! A set is 16 words of u64; sets of several people stand one after the other ([`SET_WORDS`]). An owner is a person's number or [`NOBODY`].
//! Numbers that come out beside a result are written through `&mut u64`, and stay as they were where the call is refused or finds nothing.
//!
//! A call needs at most 256 KiB of stack, [`run_job`] the most; docs/STACK.md has the figure of each.
//!
//! Sets: a person's row of words.
//!
//! ```
//! use boltraven::{lent, Refusal};
//!
//! let mut words = [0; lent::SET_WORDS];
//! lent::put_stretch(1, 64, &mut words, 0, 0, 4, true)?;
//! lent::remove(1, 64, &mut words, 0, 0)?;
//! lent::insert(1, 64, &mut words, 0, 9)?;
//! assert_eq!(words[0], 0b10_0000_1110);
//! assert_eq!((lent::contains(1, 64, &words, 0, 9)?, lent::is_empty(1, 64, &words, 0)?, lent::count(1, 64, &words, 0)?), (true, false, 4));
//! assert_eq!((lent::next_set(1, 64, &words, 0, 4)?, lent::prev_set(1, 64, &words, 0, 4)?), (Some(9), Some(3)));
//! assert_eq!((lent::next_unset_after(1, 64, &words, 0, 1)?, lent::prev_unset_before(1, 64, &words, 0, 3)?), (Some(4), Some(0)));
//!
//! let (mut first, mut last, mut next) = (0, 0, 0);
//! assert_eq!(lent::run_bounds(1, 64, &words, 0, 2, &mut first, &mut last)?, lent::Held::Run);
//! assert_eq!((first, last), (1, 3));
//! assert_eq!(lent::run_bounds(1, 64, &words, 0, 5, &mut first, &mut last)?, lent::Held::Hole);
//! assert_eq!((first, last), (4, 8));
//! assert_eq!(lent::run_bounds(1, 64, &words, 0, 64, &mut first, &mut last)?, lent::Held::Outside);
//! assert!(lent::next_run(1, 64, &words, 0, 4, &mut first, &mut last, &mut next)?);
//! assert_eq!((first, last, next), (9, 9, 10));
//! assert!(!lent::next_member(1, 64, &words, 0, 10, &mut first, &mut next)?);
//!
//! // One set, without people and a person; and runs in lists.
//! assert_eq!((lent::set_contains(64, &words, 9)?, lent::set_is_empty(64, &words)?, lent::set_count(64, &words)?), (true, false, 4));
//! assert_eq!((lent::set_next_set(64, &words, 4)?, lent::set_prev_set(64, &words, 4)?), (Some(9), Some(3)));
//! assert_eq!((lent::set_next_unset_after(64, &words, 1)?, lent::set_prev_unset_before(64, &words, 3)?), (Some(4), Some(0)));
//! assert_eq!((lent::set_run_bounds(64, &words, 2, &mut first, &mut last)?, first, last), (lent::Held::Run, 1, 3));
//! assert!(!lent::set_next_member(64, &words, 10, &mut first, &mut next)?);
//! let (mut counts, mut firsts, mut lasts) = ([0; 1], [0; 64], [0; 64]);
//! assert_eq!(lent::all_runs(1, 64, &words, &mut firsts, &mut lasts, 0)?, 2);
//! assert_eq!((&firsts[..2], &lasts[..2]), (&[1, 9][..], &[3, 9][..]));
//! assert_eq!((lent::every_run(1, 64, &words, &mut counts, &mut firsts, &mut lasts)?, counts), (2, [2]));
//! assert_eq!(lent::set_count(64, &words[..15]), Err(Refusal::ShortBuffer));
//! assert_eq!(lent::count(lent::PEOPLE_MOST + 1, 64, &words, 0), Err(Refusal::Count));
//! assert_eq!(lent::count(1, 64, &words[..15], 0), Err(Refusal::ShortBuffer));
//! # Ok::<(), Refusal>(())
//! ```
//!
//! Slots: two hours of which person 1 can do the second.
//!
//! ```
//! use boltraven::lent;
//!
//! let (mut whose, mut froms, mut tos) = ([0; 2], [0; lent::SLOTS_MOST], [0; lent::SLOTS_MOST]);
//! assert_eq!(lent::merged_ranges(2, 2, &[1, 1], &[60, 90], &[90, 180], &mut whose, &mut froms, &mut tos)?, 1);
//! assert_eq!((whose[0], froms[0], tos[0]), (1, 60, 180));
//! let slots = lent::atomise(2, 1, 2, &[0], &[120], &[0, 1], &[0, 60], &[120, 180], &mut froms, &mut tos)?;
//! assert_eq!((slots, &froms[..2], &tos[..2]), (2, &[0, 60][..], &[60, 120][..]));
//!
//! let (mut avail, mut frozen, mut list, mut out) = ([0; 32], [0; 16], [0; 2], 0);
//! lent::availability(2, slots, 2, &froms, &tos, &[0, 1], &[0, 60], &[120, 180], &mut avail)?;
//! assert_eq!((avail[0], avail[16]), (0b11, 0b10));
//! assert!(!lent::is_available(2, slots, &avail, 1, 0)?);
//! assert_eq!((lent::slot_domain(2, slots, &avail, &mut list, 1)?, list), (2, [0, 1]));
//! assert_eq!((lent::freeze_before(slots, &froms, &tos, &mut frozen, 60)?, frozen[0]), (1, 0b1));
//! lent::demand(slots, &froms, &tos, &mut out)?;
//! assert_eq!(out, 120);
//! lent::slot_minutes(slots, &froms, &tos, 1, &mut out)?;
//! assert_eq!(out, 60);
//!
//! let mut targets = [0; 2];
//! lent::compute_targets(2, slots, 0, 0, &froms, &tos, &avail, &[1.0, 1.0], &[0, 0], &mut targets)?;
//! assert_eq!(targets, [80, 40]);
//! # Ok::<(), boltraven::Refusal>(())
//! ```
//!
//! Units: a Sunday and a Monday, in weeks from Monday on (boundary 1, mask 1), held whole (lock 1).
//!
//! ```
//! use boltraven::lent;
//!
//! let (starts, ends) = ([4320, 5760], [4380, 5820]);
//! assert_eq!(lent::weekday_of(lent::date_of(starts[1])), 0);
//! let mut unit_starts = [0; 2];
//! assert_eq!(lent::rotation_starts(2, 0, 1, 1, 0, 1, 7, &starts, &ends, &mut unit_starts)?, 2);
//! let units = lent::unit_starts(2, 0, 1, 1, 0, 1, 7, &starts, &ends, &mut unit_starts)?;
//! assert_eq!((units, unit_starts), (2, [0, 1]));
//! assert_eq!(lent::unit_of_slot(2, units, &unit_starts, 1)?, 1);
//! let (mut from, mut to) = (0, 0);
//! lent::unit_slots(2, units, &unit_starts, 1, &mut from, &mut to)?;
//! assert_eq!((from, to), (1, 2));
//!
//! // Person 0 is there for both, person 1 for the first; the first is frozen.
//! let (mut avail, mut frozen) = ([0; 32], [0; 16]);
//! (avail[0], avail[16], frozen[0]) = (0b11, 0b01, 0b1);
//! let (mut list, mut masks) = ([0; 2], [0; 2]);
//! assert_eq!((lent::unit_domain(2, 2, units, &avail, &unit_starts, &mut list, 1)?, list[0]), (1, 0));
//! lent::unit_domains(2, 2, units, &avail, &unit_starts, &mut masks)?;
//! assert_eq!(masks, [0b11, 0b01]);
//! assert!(lent::unit_frozen(2, units, &unit_starts, &frozen, 0)?);
//!
//! let mut out = 0;
//! lent::covered_days(2, &starts, &ends, &mut out)?;
//! assert_eq!(out, 2);
//! lent::minutes_per_day(2, &starts, &ends, &mut out)?;
//! assert_eq!(out, 60);
//! lent::target_run(2, 0, 1, 1, 0, 1, 7, &starts, &ends, &mut out)?;
//! assert_eq!(out, 420);
//! lent::achievable_run(2, 2, 0, 1, 1, 0, 1, 7, &starts, &ends, &avail, 1, &mut out)?;
//! assert_eq!(out, 60);
//! let mut runs = [9; 3];
//! lent::achievable_runs(2, 2, 0, 1, 1, 0, 1, 7, &starts, &ends, &avail, &mut runs)?;
//! assert_eq!(runs[1..], [60, 9]);
//! # Ok::<(), boltraven::Refusal>(())
//! ```
//!
//! A rota: its owners, sets, minutes and totals; and a whole job.
//!
//! ```
//! use boltraven::{lent, Draw, Fault, Refusal, Rule, LISTING_MOST};
//!
//! let (starts, ends, unit_starts, frozen) = ([0, 60], [60, 120], [0, 1], [0; 16]);
//! let (mut avail, mut owners, mut sets, mut minutes, mut totals) = ([0; 32], [0; 2], [0; 32], [0; 2], [0; lent::TOTALS]);
//! (avail[0], avail[16]) = (0b11, 0b10);
//! lent::empty(2, 2, &starts, &ends, &mut owners, &mut sets, &mut minutes, &mut totals)?;
//! assert_eq!((owners, totals, lent::unassigned_count(2, 2, &owners)?), ([lent::NOBODY; 2], [120, 2], 2));
//! lent::assign(2, 2, &starts, &ends, &avail, &mut owners, &mut sets, &mut minutes, &mut totals, 0, 0)?;
//! let mut out = 0;
//! lent::uncovered_minutes(2, 2, &starts, &ends, &owners, &mut out)?;
//! assert_eq!((out, totals[lent::UNCOVERED_MINUTES], totals[lent::UNASSIGNED_SLOTS]), (60, 60, 1));
//!
//! owners = [0, 0];
//! lent::from_slots(2, 2, &starts, &ends, &avail, &owners, &mut sets, &mut minutes, &mut totals)?;
//! assert_eq!(totals, [0, 0]);
//! let mut answers = [9; 1];
//! lent::play(
//!     2, 2, 2, 1, &starts, &ends, &avail, &unit_starts, &frozen, &[0], &[1], &[1], &mut owners, &mut sets, &mut minutes, &mut totals,
//!     &mut answers
//! )?;
//! assert_eq!((answers, owners, lent::owner_of_slot(2, 2, &owners, 1)?), ([0], [0, 1], 1));
//! let draws = [Draw { draw: 0, first: 1, second: 0 }];
//! lent::play_draws(
//!     2, 2, 2, 1, &starts, &ends, &avail, &unit_starts, &frozen, &draws, &mut owners, &mut sets, &mut minutes, &mut totals, &mut answers
//! )?;
//! assert_eq!((answers, owners), ([0], [0, 0]));
//! let (mut kinds, mut firsts, mut seconds) = ([9; 2], [9; 2], [9; 2]);
//! assert!(lent::way_back(
//!     2, 2, 2, &starts, &ends, &avail, &unit_starts, &frozen, &[0, 1], &owners, &sets, &minutes, &totals, &mut kinds, &mut firsts,
//!     &mut seconds, &mut out
//! )?);
//! assert_eq!((out, kinds, firsts, seconds), (1, [0, 9], [1, 9], [1, 9]));
//! assert!(lent::replay_block(
//!     2, 2, 2, 1, &starts, &ends, &avail, &unit_starts, &frozen, &[0], &[1], &[1], &[0], &mut owners, &mut sets, &mut minutes, &mut totals,
//!     &mut out
//! )?);
//! assert!(!lent::replay_block(
//!     2, 2, 2, 3, &starts, &ends, &avail, &unit_starts, &frozen, &[0; 3], &[0, 1, 1], &[1, 0, 1], &[2, 1, 0], &mut owners, &mut sets,
//!     &mut minutes, &mut totals, &mut out
//! )?);
//! assert_eq!((out, owners), (1, [0, 0]));
//! lent::minutes_of(2, &minutes, 0, &mut out)?;
//! assert_eq!(out, 120);
//!
//! let mut slot = 9;
//! let published = [1, 1];
//! assert_eq!(
//!     lent::may_be_used(2, 2, 2, 120, 0, &starts, &ends, &avail, &unit_starts, &frozen, &published, &owners, &mut slot)?, None
//! );
//! assert_eq!(
//!     lent::may_be_used(2, 2, 2, 119, 0, &starts, &ends, &avail, &unit_starts, &frozen, &published, &owners, &mut slot)?,
//!     Some(Rule::Cap)
//! );
//! assert_eq!(slot, 0);
//!
//! totals[1] = 7;
//! let units = lent::recount(2, 2, 2, &starts, &ends, &avail, &unit_starts, &owners, &sets, &minutes, &totals);
//! assert_eq!(units, Err(Refusal::Recount(Fault::WrongTotal { total: 1 })));
//! minutes[0] = 7;
//! let units = lent::recount(2, 2, 2, &starts, &ends, &avail, &unit_starts, &owners, &sets, &minutes, &totals);
//! let slots = lent::recount_slots(2, 2, &starts, &ends, &avail, &owners, &sets, &minutes, &totals);
//! let wrong = Refusal::Recount(Fault::WrongMinutes { person: 0 });
//! assert_eq!((units, slots), (Err(wrong), Err(wrong)));
//!
//! // Wrong minutes and a wrong total are two repairs, for which the list needs ten numbers.
//! let mut list = [9; 10];
//! let short = lent::mend(
//!     2, 2, 2, &starts, &ends, &avail, &unit_starts, &frozen, &mut owners, &mut sets, &mut minutes, &mut totals, &mut list[..9]
//! );
//! assert_eq!((short, minutes[0], list), (Err(Refusal::ShortBuffer), 7, [9; 10]));
//! let repairs = lent::mend(
//!     2, 2, 2, &starts, &ends, &avail, &unit_starts, &frozen, &mut owners, &mut sets, &mut minutes, &mut totals, &mut list
//! );
//! assert_eq!((repairs, minutes, totals), (Ok(2), [120, 0], [0, 0]));
//! assert_eq!(list, [2, 0, 7, 120, 0, 3, 1, 7, 0, 0]);
//!
//! // Slot 0 is frozen, so it is read as published, and publishing leaves it.
//! let (mut published, mut shown) = ([1, 1], [0; 2]);
//! assert!(lent::stretch(2, &published, &owners, &[1; 16], 0, &mut out)?);
//! assert_eq!(out, 1);
//! lent::show(2, &published, &owners, &[1; 16], &mut shown)?;
//! lent::publish(2, &owners, &[1; 16], &mut published)?;
//! assert_eq!((shown, published), ([1, 0], [1, 0]));
//!
//! let mut listing = vec![0; LISTING_MOST];
//! assert_eq!(lent::run_job(b"no job", &mut listing, &mut out), Err(Refusal::JobFile));
//! assert!(lent::version() >= 100);
//! # Ok::<(), Refusal>(())
//! ```
//!
//! A recording: the job above, prepared, and a block of one draw.
//!
//! ```
//! use boltraven::{lent, Job, Person, Range, Refusal, Slot};
//!
//! let job = Job {
//!     base: vec![Slot { start: 0, end: 120 }],
//!     people: vec![Person { capacity: 1.0, prior: 0 }; 2],
//!     ranges: vec![Range { person: 0, start: 0, end: 120 }, Range { person: 1, start: 60, end: 180 }],
//!     owners: vec![(0, Some(0)), (1, Some(0))],
//!     ..Job::default()
//! };
//! let recording = [&job.file()[..], &[8, 0, 8, 0, 0, 0, 1, 0, 1, 0, 0, 0], &[0, 0, 9, 0]].concat();
//! let end = lent::job_end(&recording);
//! assert_eq!(end, job.file().len());
//!
//! let (mut starts, mut ends, mut unit_starts) = ([0; lent::SLOTS_MOST], [0; lent::SLOTS_MOST], [0; lent::SLOTS_MOST]);
//! let (mut avail, mut frozen, mut targets) = ([0; 512], [0; lent::SET_WORDS], [0; lent::PEOPLE_MOST]);
//! let (mut owners, mut sets, mut minutes, mut totals) = ([9; lent::SLOTS_MOST], [0; 512], [0; lent::PEOPLE_MOST], [0; lent::TOTALS]);
//! let (mut people, mut slots, mut units) = (0, 0, 0);
//! let mut begin = |job: &[u8], totals: &mut [u64]| {
//!     lent::begin_recording(
//!         job, &mut starts, &mut ends, &mut avail, &mut unit_starts, &mut frozen, &mut targets, &mut owners, &mut sets, &mut minutes,
//!         totals, &mut people, &mut slots, &mut units
//!     )
//! };
//! assert_eq!(begin(&recording[..end], &mut totals[..1]), Err(Refusal::ShortBuffer));
//! begin(&recording[..end], &mut totals)?;
//! assert_eq!((people, slots, units, &targets[..3], &owners[..3]), (2, 2, 2, &[80, 40, 0][..], &[0, 0, 255][..]));
//! assert_eq!((&minutes[..2], totals), (&[120, 0][..], [0, 0]));
//!
//! let [mut draws, mut firsts, mut seconds, mut recorded] = [[9; lent::DRAWS_MOST]; 4];
//! let (mut count, mut next) = (0, 0);
//! let mut read = |bytes: &[u8]| lent::read_block(bytes, 0, &mut draws, &mut firsts, &mut seconds, &mut recorded, &mut count, &mut next);
//! assert_eq!((read(&recording[end..])?, read(&[])?, read(&[9])), (true, false, Err(Refusal::JobFile)));
//! assert_eq!((count, next, draws[0], firsts[0], seconds[0], recorded[0], draws[1]), (1, 16, 0, 1, 1, 0, 9));
//! # Ok::<(), Refusal>(())
//! ```
//!
//! Past weeks retired: six shifts, two a unit, of which five are frozen, so that four go; two new base slots, the first split, come behind.
//!
//! ```
//! use boltraven::{lent, Refusal};
//!
//! let (mut starts, mut ends, mut unit_starts) = ([0; lent::SLOTS_MOST], [0; lent::SLOTS_MOST], [0; lent::SLOTS_MOST]);
//! for day in 0..6 {
//!     (starts[day], ends[day]) = (1440 * day as u32 + 480, 1440 * day as u32 + 960);
//! }
//! (unit_starts[1], unit_starts[2]) = (2, 4);
//! let (mut avail, mut frozen, mut owners) = ([0; 32], [0; 16], [lent::NOBODY; lent::SLOTS_MOST]);
//! (avail[0], avail[16], frozen[0]) = (0b11_1111, 0b11_1111, 0b1_1111);
//! owners[..6].copy_from_slice(&[0, 0, 255, 255, 1, 1]);
//! let (mut sets, mut minutes, mut totals) = ([0; 32], [0; 2], [0; lent::TOTALS]);
//! lent::from_slots(2, 6, &starts, &ends, &avail, &owners, &mut sets, &mut minutes, &mut totals)?;
//!
//! let (mut priors, mut retired, mut told) = ([100, 0], [7], 0);
//! let mut retire = |frozen: &mut [u64], priors: &mut [u32]| {
//!     lent::retire(
//!         2, 6, 3, 2, 2, 0, 1, 0, 0, 2, 1, &[8160, 9600], &[8640, 10080], &[0, 1], &[8160, 0], &[8400, 100_000], &mut starts, &mut ends,
//!         &mut avail, &mut unit_starts, frozen, &mut owners, &mut sets, &mut minutes, &mut totals, priors, &mut retired, &mut told
//!     )
//! };
//! assert_eq!(retire(&mut [0b11_1110; 16], &mut priors)?, lent::Retiring::Nothing);
//! assert_eq!(retire(&mut [0b11_1111; 16], &mut priors)?, lent::Retiring::Everything);
//! assert_eq!(retire(&mut frozen, &mut [99_999_041, 0]), Err(Refusal::Figures));
//! assert_eq!(retire(&mut frozen, &mut priors)?, lent::Retiring::Retired);
//! assert_eq!((told & 65_535, told >> 16 & 65_535, told >> 32), (4, 5, 3));
//! assert_eq!((starts[..5].to_vec(), unit_starts[..3].to_vec()), (vec![6240, 7680, 8160, 8400, 9600], vec![0, 2, 4]));
//! assert_eq!((owners[..5].to_vec(), minutes, totals, priors, retired), (vec![1, 1, 255, 255, 255], [0, 960], [960, 3], [1060, 0], [967]));
//!
//! let mut published = [0, 0, 1, 1, 1, 1];
//! lent::retire_column(6, 4, 5, &mut published)?;
//! assert_eq!(published, [1, 1, 255, 255, 255, 1]);
//! # Ok::<(), Refusal>(())
//! ```
//!
//! A store of settings: an area of bytes, and how many of them are used.
//!
//! ```
//! use boltraven::{lent, Refusal};
//!
//! let (mut area, mut number, mut used) = ([0; 20], 0, 0);
//! lent::save_settings(&mut area, 0, 0, 1, 1, 1, 31, 2, &mut number, &mut used)?;
//! assert_eq!((number, used, lent::count_settings(&area, 12)?), (1, 12, 1));
//! assert_eq!(area[..12], [8, 0, 33, 0, 0, 1, 1, 1, 31, 0, 2, 0]);
//!
//! let (mut fairness, mut lock, mut boundary, mut edition, mut value, mut days) = (9, 9, 9, 9, 9, 9);
//! let mut ask = |area: &[u8], used, number| {
//!     lent::ask_settings(area, used, number, &mut fairness, &mut lock, &mut boundary, &mut edition, &mut value, &mut days)
//! };
//! assert_eq!((ask(&area, 12, 1)?, ask(&area, 12, 2)), (lent::Kept::Figures, Err(Refusal::Unknown)));
//! area[12..18].copy_from_slice(&[2, 0, 40, 0, 7, 7]); // a record of kind 40
//! assert_eq!((ask(&area, 18, 2)?, ask(&area, 17, 1)), (lent::Kept::Newer, Err(Refusal::JobFile)));
//! assert_eq!((fairness, lock, boundary, edition, value, days), (0, 1, 1, 1, 31, 2));
//! assert_eq!(lent::save_settings(&mut area, 18, 0, 1, 1, 1, 31, 2, &mut number, &mut used), Err(Refusal::TooManySlots));
//! # Ok::<(), Refusal>(())
//! ```
#![allow(clippy::too_many_arguments)]

use crate::draw::Draw;
use crate::exports::{export, exports};
use crate::refusal::Refusal;
use crate::verdict::Rule;

/// Words in a set.
pub const SET_WORDS: usize = 16;

/// The most people.
pub const PEOPLE_MOST: usize = 32;

/// The most slots that a set or a list of atomic slots has.
pub const SLOTS_MOST: usize = 1024;

/// The most draws of a play and of a recorded block.
pub const DRAWS_MOST: usize = 1024;

/// The owner of a slot that nobody holds.
pub const NOBODY: u8 = 255;

/// The totals kept with a rota, and where each stands.
pub const TOTALS: usize = 2;

/// The place of the minutes of the slots that nobody owns.
pub const UNCOVERED_MINUTES: usize = 0;

/// The place of the number of slots that nobody owns.
pub const UNASSIGNED_SLOTS: usize = 1;

/// What holds a slot of a set: [`run_bounds`] answers it.
#[derive(Debug, Clone, Copy, PartialEq, Eq, Hash)]
pub enum Held {
    /// A run: the longest stretch of members around the slot.
    Run,
    /// A hole: the longest stretch of slots below the length around it that are no members.
    Hole,
    /// Neither: the slot is at or past the length.
    Outside,
}

/// What a record of a store holds: [`ask_settings`] answers it.
#[derive(Debug, Clone, Copy, PartialEq, Eq, Hash)]
pub enum Kept {
    /// Settings: their six numbers were written.
    Figures,
    /// Something of a kind that is newer than this library; nothing was written.
    Newer,
}

/// What retiring comes to: [`retire`] answers it.
#[derive(Debug, Clone, Copy, PartialEq, Eq, Hash)]
pub enum Retiring {
    /// Some units went and some stay; the three counts are written.
    Retired,
    /// No unit would go; nothing is changed.
    Nothing,
    /// Every unit would go; nothing is changed.
    Everything,
}

// ---- answers that came as one number

/// What is answered where there is nothing; a refusal adds its number.
const NOTHING: u64 = 65_536;

/// What retiring answers where everything would go.
const EVERYTHING: u64 = 131_072;

/// The refusal of a number that the library gave.
#[cold]
fn refused(number: u64) -> Refusal {
    match Refusal::try_from(number) {
        Ok(refusal) => refusal,
        Err(_) => unreachable!("the archive is not that of these declarations: it answered {number}"),
    }
}

/// 0, or a refusal.
#[inline]
fn done(answer: u8) -> Result<(), Refusal> {
    match answer {
        0 => Ok(()),
        n => Err(refused(u64::from(n))),
    }
}

/// 0, or a refusal with its part, its place and its second number.
#[inline]
fn placed(answer: u64) -> Result<(), Refusal> {
    match answer {
        0 => Ok(()),
        n => Err(refused(n)),
    }
}

/// A count or an index, or a refusal.
#[inline]
fn number(answer: u64) -> Result<usize, Refusal> {
    match answer {
        k if k < NOTHING => Ok(k as usize),
        n => Err(refused(n - NOTHING)),
    }
}

/// A slot, nothing, or a refusal.
#[inline]
fn found(answer: u64) -> Result<Option<usize>, Refusal> {
    match answer {
        NOTHING => Ok(None),
        n => number(n).map(Some),
    }
}

/// Yes is 1, no is 0, or a refusal.
#[inline]
fn yes_no(answer: u64) -> Result<bool, Refusal> {
    match answer {
        0 => Ok(false),
        1 => Ok(true),
        n => Err(refused(n.wrapping_sub(NOTHING))),
    }
}

/// 0 where the numbers beside it were written, nothing, or a refusal.
#[inline]
fn wrote(answer: u64) -> Result<bool, Refusal> {
    match answer {
        0 => Ok(true),
        NOTHING => Ok(false),
        n => Err(refused(n.wrapping_sub(NOTHING))),
    }
}

/// What holds a slot, the numbers beside it being written but outside; or a refusal.
#[inline]
fn held(answer: u64) -> Result<Held, Refusal> {
    match answer {
        0 => Ok(Held::Run),
        1 => Ok(Held::Hole),
        NOTHING => Ok(Held::Outside),
        n => Err(refused(n.wrapping_sub(NOTHING))),
    }
}

/// What a record holds, its figures being written where it has them; or a refusal.
#[inline]
fn kept(answer: u64) -> Result<Kept, Refusal> {
    match answer {
        0 => Ok(Kept::Figures),
        1 => Ok(Kept::Newer),
        n => Err(refused(n.wrapping_sub(NOTHING))),
    }
}

/// No broken rule, the first broken one, its slot being written, or a refusal.
#[inline]
fn judged(answer: u64) -> Result<Option<Rule>, Refusal> {
    match answer {
        0 => Ok(None),
        n => match Rule::ALL.into_iter().find(|rule| u64::from(rule.number()) == n) {
            Some(rule) => Ok(Some(rule)),
            None => Err(refused(n.wrapping_sub(NOTHING))),
        },
    }
}

/// Whether there is a way back, or all draws agree, or there is a block, the numbers beside it being written: 0 yes, nothing no; or a refusal
/// with its place.
#[inline]
fn led(answer: u64) -> Result<bool, Refusal> {
    match answer {
        0 => Ok(true),
        NOTHING => Ok(false),
        n => Err(refused(n)),
    }
}

/// What retiring came to; or a refusal with its place.
#[inline]
fn retiring(answer: u64) -> Result<Retiring, Refusal> {
    match answer {
        0 => Ok(Retiring::Retired),
        NOTHING => Ok(Retiring::Nothing),
        EVERYTHING => Ok(Retiring::Everything),
        n => Err(refused(n)),
    }
}

/// A number that is the answer itself.
fn plain(answer: u32) -> u32 {
    answer
}

/// A number of bytes.
fn length(answer: u64) -> usize {
    answer as usize
}

/// The number that a call writes through an address.
pub(crate) fn written(call: impl FnOnce(&mut u64) -> Result<(), Refusal>) -> Result<u64, Refusal> {
    let mut number = 0;
    call(&mut number)?;
    Ok(number)
}

exports! {
    // ---- slot sets, as rows of words: `words` holds 16 words for each of `people`, and `person`'s are meant. A call is short: it is
    // inlined.

    /// Whether slot i is a member. Refusals: 1, 2, 11.
    #[inline]
    pub fn contains(people: usize, len: usize, words: &[u64], person: usize, i: usize) -> Result<bool, Refusal> = yes_no(u64);

    /// Whether the row has no member. Refusals: 1, 2, 11.
    #[inline]
    pub fn is_empty(people: usize, len: usize, words: &[u64], person: usize) -> Result<bool, Refusal> = yes_no(u64);

    /// How many members the row has. Refusals: 1, 2, 11.
    #[inline]
    pub fn count(people: usize, len: usize, words: &[u64], person: usize) -> Result<usize, Refusal> = number(u64);

    /// The first member at or after `from`. Refusals: 1, 2, 11.
    #[inline]
    pub fn next_set(people: usize, len: usize, words: &[u64], person: usize, from: usize) -> Result<Option<usize>, Refusal> = found(u64);

    /// The last member at or before `from`. Refusals: 1, 2, 11.
    #[inline]
    pub fn prev_set(people: usize, len: usize, words: &[u64], person: usize, from: usize) -> Result<Option<usize>, Refusal> = found(u64);

    /// The first slot after `from`, below the length, that is no member. Refusals: 1, 2, 11.
    #[inline]
    pub fn next_unset_after(
        people: usize, len: usize, words: &[u64], person: usize, from: usize
    ) -> Result<Option<usize>, Refusal> = found(u64);

    /// The last slot before `from`, below the length, that is no member. Refusals: 1, 2, 11.
    #[inline]
    pub fn prev_unset_before(
        people: usize, len: usize, words: &[u64], person: usize, from: usize
    ) -> Result<Option<usize>, Refusal> = found(u64);

    /// What holds slot i, with both its ends written: a run or a hole; outside, nothing is. Refusals: 1, 2, 11.
    #[inline]
    pub fn run_bounds(
        people: usize, len: usize, words: &[u64], person: usize, i: usize, first: &mut u64, last: &mut u64
    ) -> Result<Held, Refusal> = held(u64);

    /// The next run from the cursor on: true, with both its ends and the next cursor written; false at the end. Refusals: 1, 2, 11.
    #[inline]
    pub fn next_run(
        people: usize, len: usize, words: &[u64], person: usize, cursor: usize, first: &mut u64, last: &mut u64, next: &mut u64
    ) -> Result<bool, Refusal> = wrote(u64);

    /// The next member from the cursor on: true, with its index and the next cursor written; false at the end. Refusals: 1, 2, 11.
    #[inline]
    pub fn next_member(
        people: usize, len: usize, words: &[u64], person: usize, cursor: usize, at: &mut u64, next: &mut u64
    ) -> Result<bool, Refusal> = wrote(u64);

    /// Puts slot i into the row. Refusals: 1, 2, 11.
    #[inline]
    pub fn insert(people: usize, len: usize, words: &mut [u64], person: usize, i: usize) -> Result<(), Refusal> = done(u8);

    /// Takes slot i out of the row. Refusals: 1, 2, 11.
    #[inline]
    pub fn remove(people: usize, len: usize, words: &mut [u64], person: usize, i: usize) -> Result<(), Refusal> = done(u8);

    /// Makes every slot of the row from `from` up to `to`, without `to`, as wanted. Refusals: 1, 2, 11.
    pub fn put_stretch(
        people: usize, len: usize, words: &mut [u64], person: usize, from: usize, to: usize, want: bool
    ) -> Result<(), Refusal> = done(u8);

    // ---- runs in lists

    /// All runs of a person, ascending: the first slot of each in one column, the last in the other, each with room for `len` entries; and
    /// how many there are. Refusals: 1, 2, 11.
    pub fn all_runs(
        people: usize, len: usize, words: &[u64], firsts: &mut [u16], lasts: &mut [u16], person: usize
    ) -> Result<usize, Refusal> = number(u64);

    /// Everybody's runs, person by person and ascending: how many each has, the first slot and the last slot of each run, and how many there
    /// are. The last two columns have room for as many entries as slots for each of `people`. Refusals: 1, 2.
    pub fn every_run(
        people: usize, len: usize, words: &[u64], counts: &mut [u16], firsts: &mut [u16], lasts: &mut [u16]
    ) -> Result<usize, Refusal> = number(u64);

    // ---- one set: its 16 words and its length, without people and a person. A question asks two tests, and is inlined.

    /// Whether slot i is a member. Refusals: 1, 2.
    #[inline]
    pub fn set_contains(len: usize, words: &[u64], i: usize) -> Result<bool, Refusal> = yes_no(u64);

    /// Whether the set has no member. Refusals: 1, 2.
    #[inline]
    pub fn set_is_empty(len: usize, words: &[u64]) -> Result<bool, Refusal> = yes_no(u64);

    /// How many members the set has. Refusals: 1, 2.
    #[inline]
    pub fn set_count(len: usize, words: &[u64]) -> Result<usize, Refusal> = number(u64);

    /// The first member at or after `from`. Refusals: 1, 2.
    #[inline]
    pub fn set_next_set(len: usize, words: &[u64], from: usize) -> Result<Option<usize>, Refusal> = found(u64);

    /// The last member at or before `from`. Refusals: 1, 2.
    #[inline]
    pub fn set_prev_set(len: usize, words: &[u64], from: usize) -> Result<Option<usize>, Refusal> = found(u64);

    /// The first slot after `from`, below the length, that is no member. Refusals: 1, 2.
    #[inline]
    pub fn set_next_unset_after(len: usize, words: &[u64], from: usize) -> Result<Option<usize>, Refusal> = found(u64);

    /// The last slot before `from`, below the length, that is no member. Refusals: 1, 2.
    #[inline]
    pub fn set_prev_unset_before(len: usize, words: &[u64], from: usize) -> Result<Option<usize>, Refusal> = found(u64);

    /// What holds slot i, with both its ends written: a run or a hole; outside, nothing is. Refusals: 1, 2.
    #[inline]
    pub fn set_run_bounds(len: usize, words: &[u64], i: usize, first: &mut u64, last: &mut u64) -> Result<Held, Refusal> = held(u64);

    /// The next member from the cursor on: true, with its index and the next cursor written; false at the end. Refusals: 1, 2.
    #[inline]
    pub fn set_next_member(len: usize, words: &[u64], cursor: usize, at: &mut u64, next: &mut u64) -> Result<bool, Refusal> = wrote(u64);

    // ---- ranges merged, base slots split, availability; ranges come as three columns

    /// Each person's ranges, sorted and merged, in three columns, and how many. Refusals: 1, 2, 4.
    pub fn merged_ranges(
        people: usize, count: usize, persons: &[u16], opens: &[u32], shuts: &[u32], whose: &mut [u16], froms: &mut [u32], tos: &mut [u32]
    ) -> Result<usize, Refusal> = number(u64);

    /// The atomic slots, in two columns, and how many. Refusals: 1 to 5.
    pub fn atomise(
        people: usize, slots: usize, count: usize, starts: &[u32], ends: &[u32], persons: &[u16], opens: &[u32], shuts: &[u32],
        froms: &mut [u32], tos: &mut [u32]
    ) -> Result<usize, Refusal> = number(u64);

    /// Who is available for which of the lent slots, as a set a person. Refusals: 1, 2, 4, 9.
    pub fn availability(
        people: usize, slots: usize, count: usize, starts: &[u32], ends: &[u32], persons: &[u16], opens: &[u32], shuts: &[u32],
        words: &mut [u64]
    ) -> Result<(), Refusal> = done(u8);

    // ---- freezing, and the single question of availability

    /// Marks each slot that ends by the instant, clears no mark, and answers how many end by then. Refusals: 1, 2, 9.
    pub fn freeze_before(
        slots: usize, starts: &[u32], ends: &[u32], frozen: &mut [u64], instant: u32
    ) -> Result<usize, Refusal> = number(u64);

    /// Whether a person is available for a slot. Refusals: 1, 2, 11.
    pub fn is_available(people: usize, slots: usize, avail: &[u64], person: usize, slot: usize) -> Result<bool, Refusal> = yes_no(u64);

    // ---- where rotations and units begin; settings come as their six numbers

    /// The starts of the rotations, and how many. Refusals: 1, 2, 7, 9.
    pub fn rotation_starts(
        slots: usize, fairness: u8, lock: u8, boundary: u8, edition: u8, value: u16, days: u16, starts: &[u32], ends: &[u32],
        unit_starts: &mut [u16]
    ) -> Result<usize, Refusal> = number(u64);

    /// The starts of the units, and how many. Refusals: 1, 2, 7, 9.
    pub fn unit_starts(
        slots: usize, fairness: u8, lock: u8, boundary: u8, edition: u8, value: u16, days: u16, starts: &[u32], ends: &[u32],
        unit_starts: &mut [u16]
    ) -> Result<usize, Refusal> = number(u64);

    /// The slots of a unit, or of a rotation: `from` up to `to`, without `to`. Refusals: 1, 2, 9, 11.
    pub fn unit_slots(
        slots: usize, units: usize, unit_starts: &[u16], unit: usize, from: &mut u64, to: &mut u64
    ) -> Result<(), Refusal> = done(u8);

    /// The unit, or the rotation, of a slot. Refusals: 1, 2, 9, 11.
    pub fn unit_of_slot(slots: usize, units: usize, unit_starts: &[u16], slot: usize) -> Result<usize, Refusal> = number(u64);

    // ---- days, and how long runs are to be

    /// The distinct dates on which a minute of a slot falls. Refusals: 1, 2, 9.
    pub fn covered_days(slots: usize, starts: &[u32], ends: &[u32], out: &mut u64) -> Result<(), Refusal> = done(u8);

    /// The minutes of all slots. Refusals: 1, 2, 9.
    pub fn demand(slots: usize, starts: &[u32], ends: &[u32], out: &mut u64) -> Result<(), Refusal> = done(u8);

    /// The minutes of one slot. Refusals: 1, 2, 9, 11.
    pub fn slot_minutes(slots: usize, starts: &[u32], ends: &[u32], slot: usize, out: &mut u64) -> Result<(), Refusal> = done(u8);

    /// Minutes a day. Refusals: 1, 2, 9.
    pub fn minutes_per_day(slots: usize, starts: &[u32], ends: &[u32], out: &mut u64) -> Result<(), Refusal> = done(u8);

    /// The target run, in minutes. Refusals: 1, 2, 7, 9.
    pub fn target_run(
        slots: usize, fairness: u8, lock: u8, boundary: u8, edition: u8, value: u16, days: u16, starts: &[u32], ends: &[u32],
        out: &mut u64
    ) -> Result<(), Refusal> = done(u8);

    /// A person's achievable run, in minutes. Refusals: 1, 2, 7, 9, 11.
    pub fn achievable_run(
        people: usize, slots: usize, fairness: u8, lock: u8, boundary: u8, edition: u8, value: u16, days: u16, starts: &[u32],
        ends: &[u32], avail: &[u64], person: usize, out: &mut u64
    ) -> Result<(), Refusal> = done(u8);

    /// Everybody's achievable run, in minutes, one entry a person. Refusals: 1, 2, 7, 9.
    pub fn achievable_runs(
        people: usize, slots: usize, fairness: u8, lock: u8, boundary: u8, edition: u8, value: u16, days: u16, starts: &[u32],
        ends: &[u32], avail: &[u64], runs: &mut [u64]
    ) -> Result<(), Refusal> = done(u8);

    // ---- who can cover a unit, and whether it is frozen

    /// The people available for all slots of a unit, ascending, and how many. Refusals: 1, 2, 9, 11.
    pub fn unit_domain(
        people: usize, slots: usize, units: usize, avail: &[u64], unit_starts: &[u16], list: &mut [u8], unit: usize
    ) -> Result<usize, Refusal> = number(u64);

    /// The people available for all slots of each unit, as a mask a unit: bit p is person p. Refusals: 1, 2, 9.
    pub fn unit_domains(
        people: usize, slots: usize, units: usize, avail: &[u64], unit_starts: &[u16], masks: &mut [u32]
    ) -> Result<(), Refusal> = done(u8);

    /// The people available for a slot, ascending, and how many. Refusals: 1, 2, 11.
    pub fn slot_domain(people: usize, slots: usize, avail: &[u64], list: &mut [u8], slot: usize) -> Result<usize, Refusal> = number(u64);

    /// Whether any slot of a unit is frozen. Refusals: 1, 2, 9, 11.
    pub fn unit_frozen(slots: usize, units: usize, unit_starts: &[u16], frozen: &[u64], unit: usize) -> Result<bool, Refusal> = yes_no(u64);

    // ---- the calendar: minute 0 is Thursday 1970-01-01 00:00

    /// The date of a minute, in days from 1970-01-01 on.
    pub fn date_of(minute: u32) -> u32 = plain(u32);

    /// The weekday of a date, 0 for Monday.
    pub fn weekday_of(date: u32) -> u32 = plain(u32);

    // ---- targets

    /// Each person's target, in `out`. Refusals: 1, 2, 6 to 9.
    pub fn compute_targets(
        people: usize, slots: usize, fairness: u8, edition: u8, starts: &[u32], ends: &[u32], avail: &[u64], capacities: &[f64],
        priors: &[u32], out: &mut [i64]
    ) -> Result<(), Refusal> = done(u8);

    // ---- a rota: its owners, everybody's set of slots and minutes, and what nobody owns, in minutes and in slots

    /// Sets, minutes and totals from owners. Refusals: 1, 2, 9, 11, 12.
    pub fn from_slots(
        people: usize, slots: usize, starts: &[u32], ends: &[u32], avail: &[u64], owners: &[u8], sets: &mut [u64], minutes: &mut [u64],
        totals: &mut [u64]
    ) -> Result<(), Refusal> = done(u8);

    /// An empty rota: nobody owns a slot, sets and minutes are cleared, and all is uncovered. Refusals: 1, 2, 9.
    pub fn empty(
        people: usize, slots: usize, starts: &[u32], ends: &[u32], owners: &mut [u8], sets: &mut [u64], minutes: &mut [u64],
        totals: &mut [u64]
    ) -> Result<(), Refusal> = done(u8);

    /// A slot assigned to a person, or cleared by 255. It asks nothing of units, so 10.3 never comes. Refusals: 1, 2, 9 to 12.
    pub fn assign(
        people: usize, slots: usize, starts: &[u32], ends: &[u32], avail: &[u64], owners: &mut [u8], sets: &mut [u64], minutes: &mut [u64],
        totals: &mut [u64], slot: usize, owner: u8
    ) -> Result<(), Refusal> = placed(u64);

    /// Plays draws, given as three columns: an answer byte each, 0 acted, 1 no move, 2 a choice outside. Refusals: 1, 2, 9, 10.
    pub fn play(
        people: usize, slots: usize, units: usize, count: usize, starts: &[u32], ends: &[u32], avail: &[u64], unit_starts: &[u16],
        frozen: &[u64], draws: &[u16], firsts: &[u16], seconds: &[u16], owners: &mut [u8], sets: &mut [u64], minutes: &mut [u64],
        totals: &mut [u64], answers: &mut [u8]
    ) -> Result<(), Refusal> = placed(u64);

    /// Plays draws as they stand: an answer byte each, 0 acted, 1 no move, 2 a choice outside. Refusals: 1, 2, 9, 10.
    pub fn play_draws(
        people: usize, slots: usize, units: usize, count: usize, starts: &[u32], ends: &[u32], avail: &[u64], unit_starts: &[u16],
        frozen: &[u64], draws: &[Draw], owners: &mut [u8], sets: &mut [u64], minutes: &mut [u64], totals: &mut [u64], answers: &mut [u8]
    ) -> Result<(), Refusal> = placed(u64);

    /// Replays a recorded block: its draws in three columns beside their recorded answers, played in order, up to and with the first whose
    /// answer isn't the recorded one. Yes, all agree. No, and `place` is the first that differs, from 0: it and the draws before it are played,
    /// those after it aren't. A recorded answer above 2 is 13, before all. Refusals: 1, 2, 9, 10, 13.
    pub fn replay_block(
        people: usize, slots: usize, units: usize, count: usize, starts: &[u32], ends: &[u32], avail: &[u64], unit_starts: &[u16],
        frozen: &[u64], draws: &[u16], firsts: &[u16], seconds: &[u16], recorded: &[u16], owners: &mut [u8], sets: &mut [u64],
        minutes: &mut [u64], totals: &mut [u64], place: &mut u64
    ) -> Result<bool, Refusal> = led(u64);

    /// How many bytes of a recording are its job's: all up to the first record of a recorded draw or of a close. The blocks are what follows.
    pub fn job_end(bytes: &[u8]) -> usize = length(u64);

    /// Prepares a recording's job: all that a replay goes by, and the targets, each from the front of its list, with the three counts. Starts,
    /// ends, unit starts and owners need room for 1,024 entries, availability and sets for 512 words, targets and minutes for 32, whatever the
    /// job is, and are written so far. A draw of a job's file is 13, and of 10 only 10.3 comes. Refusals: 1 to 7, 10 to 13.
    pub fn begin_recording(
        bytes: &[u8], starts: &mut [u32], ends: &mut [u32], avail: &mut [u64], unit_starts: &mut [u16], frozen: &mut [u64],
        targets: &mut [i64], owners: &mut [u8], sets: &mut [u64], minutes: &mut [u64], totals: &mut [u64], people: &mut u64,
        slots: &mut u64, units: &mut u64
    ) -> Result<(), Refusal> = placed(u64);

    /// Reads the block at the front of the bytes that follow a job or a block, where `blocks` were read before it, into four columns. Yes, with
    /// how many draws it has, and how many bytes, after which the next begins. No, no bytes are left. 13 and 1 are by the first faulty record, 2
    /// is a list without room for the draws. Refusals: 1, 2, 13.
    pub fn read_block(
        bytes: &[u8], blocks: usize, draws: &mut [u16], firsts: &mut [u16], seconds: &mut [u16], recorded: &mut [u16], count: &mut u64,
        next: &mut u64
    ) -> Result<bool, Refusal> = led(u64);

    /// The way back to remembered owners, one byte a slot: for each unit whose owner differs a draw 0 to its remembered owner, ascending, in
    /// three columns with room for as many entries as slots. Yes, and `told` is how many draws were written: played, each acts, and the
    /// remembered owners are back. No, and `told` is the first unit that no draw gives back: its owner differs, and nobody owned it or it
    /// is frozen. What stands against the rota, up to 10, comes before 10.3, 11 and 12 of the remembered owners. Refusals: 1, 2, 9 to 12.
    pub fn way_back(
        people: usize, slots: usize, units: usize, starts: &[u32], ends: &[u32], avail: &[u64], unit_starts: &[u16], frozen: &[u64],
        remembered: &[u8], owners: &[u8], sets: &[u64], minutes: &[u64], totals: &[u64], draws: &mut [u16], firsts: &mut [u16],
        seconds: &mut [u16], told: &mut u64
    ) -> Result<bool, Refusal> = led(u64);

    /// Mends a damaged rota: an owner who is unknown or not available is cleared; then a unit whose slots are not left with one owner is
    /// cleared whole; then sets, minutes and totals are worked out anew. How many repairs that took, each five numbers of the list: part (0
    /// owners, 1 words of the sets, 2 minutes, 3 totals), place, old, new, and 1 for a frozen slot. A list without room for what comes out
    /// is refused by 2, and nothing is written. Refusals: 1, 2, 9.
    pub fn mend(
        people: usize, slots: usize, units: usize, starts: &[u32], ends: &[u32], avail: &[u64], unit_starts: &[u16], frozen: &[u64],
        owners: &mut [u8], sets: &mut [u64], minutes: &mut [u64], totals: &mut [u64], list: &mut [u64]
    ) -> Result<usize, Refusal> = number(u64);

    /// Retires past weeks: the leading units of which every slot is frozen go, and the rest comes to the front; what each person owned of them is
    /// added to their `priors`, what nobody owned to `retired`; `base` new slots, from `froms` up to `tos`, split over the `count` ranges, come
    /// behind. Retired, and `told` is how many slots went (bits 0 to 15), how many there are (16 to 31) and how many units (32 to 47). Starts, ends,
    /// unit starts and owners need room for 1,024 entries. Refusals: 1 to 7, 9, 10.
    pub fn retire(
        people: usize, slots: usize, units: usize, base: usize, count: usize, fairness: u8, lock: u8, boundary: u8, edition: u8, value: u16,
        days: u16, froms: &[u32], tos: &[u32], persons: &[u16], opens: &[u32], shuts: &[u32], starts: &mut [u32], ends: &mut [u32],
        avail: &mut [u64], unit_starts: &mut [u16], frozen: &mut [u64], owners: &mut [u8], sets: &mut [u64], minutes: &mut [u64],
        totals: &mut [u64], priors: &mut [u32], retired: &mut [u64], told: &mut u64
    ) -> Result<Retiring, Refusal> = retiring(u64);

    /// A published column after it, by the slots before, how many went and how many there are: nobody has what is new. Refusals: 1, 2.
    pub fn retire_column(before: usize, gone: usize, count: usize, column: &mut [u8]) -> Result<(), Refusal> = done(u8);

    /// Whether owners, units, sets, minutes and totals fit together, as a play asks it first; where not, the first part that fails and its lowest
    /// place. Refusals: 1, 2, 9, 10.
    pub fn recount(
        people: usize, slots: usize, units: usize, starts: &[u32], ends: &[u32], avail: &[u64], unit_starts: &[u16], owners: &[u8], sets: &[u64],
        minutes: &[u64], totals: &[u64]
    ) -> Result<(), Refusal> = placed(u64);

    /// The same without units, as a single assign asks it: 10.3 never comes. Refusals: 1, 2, 9, 10.
    pub fn recount_slots(
        people: usize, slots: usize, starts: &[u32], ends: &[u32], avail: &[u64], owners: &[u8], sets: &[u64], minutes: &[u64], totals: &[u64]
    ) -> Result<(), Refusal> = placed(u64);

    /// The owner of a slot: a person's number, or 255 for nobody. Refusals: 1, 2, 11.
    pub fn owner_of_slot(people: usize, slots: usize, owners: &[u8], slot: usize) -> Result<usize, Refusal> = number(u64);

    /// A person's minutes. Refusals: 1, 2, 11.
    pub fn minutes_of(people: usize, minutes: &[u64], person: usize, out: &mut u64) -> Result<(), Refusal> = done(u8);

    /// The slots that nobody owns, counted by the owners. Refusals: 1, 2, 11.
    pub fn unassigned_count(people: usize, slots: usize, owners: &[u8]) -> Result<usize, Refusal> = number(u64);

    /// The minutes of the slots that nobody owns, added up by the owners. Refusals: 1, 2, 9, 11.
    pub fn uncovered_minutes(
        people: usize, slots: usize, starts: &[u32], ends: &[u32], owners: &[u8], out: &mut u64
    ) -> Result<(), Refusal> = done(u8);

    // ---- published and draft: two owner columns of one length over the same slots, of which draws are played on the draft

    /// A slot's part, from it up to the next change between frozen and not frozen: true, of the published column, false, of the draft, with
    /// its length written; it starts at that column's entry `slot`. [`Columns`](crate::Columns) hands the part itself. Refusals: 1, 2, 11.
    pub fn stretch(
        slots: usize, published: &[u8], draft: &[u8], frozen: &[u64], slot: usize, length: &mut u64
    ) -> Result<bool, Refusal> = yes_no(u64);

    /// The draft's owners of slots that aren't frozen go into the published column; no frozen slot is touched. Refusals: 1, 2.
    pub fn publish(slots: usize, draft: &[u8], frozen: &[u64], published: &mut [u8]) -> Result<(), Refusal> = done(u8);

    /// The list screen: each slot's owner, frozen ones as published and others as in the draft. Refusals: 1, 2.
    pub fn show(slots: usize, published: &[u8], draft: &[u8], frozen: &[u64], shown: &mut [u8]) -> Result<(), Refusal> = done(u8);

    // ---- a rota made elsewhere

    /// The first rule that a rota made elsewhere breaks, with the lowest slot at which it shows written; none where it may be used.
    /// Refusals: 1, 2, 7, 9.
    pub fn may_be_used(
        people: usize, slots: usize, units: usize, cap: u32, rest: u32, starts: &[u32], ends: &[u32], avail: &[u64], unit_starts: &[u16],
        frozen: &[u64], published: &[u8], owners: &[u8], slot: &mut u64
    ) -> Result<Option<Rule>, Refusal> = judged(u64);

    // ---- the library itself

    /// The library's version: ten thousand times the major number, a hundred times the minor one, and the patch.
    pub fn version() -> u32 = plain(u32);

    // ---- a whole job

    /// A whole job: the listing at the front of `out`, and its length. Of 10 only 10.3 comes. Refusals: 1 to 7, 10 to 13.
    pub fn run_job(file: &[u8], out: &mut [u8], length: &mut u64) -> Result<(), Refusal> = placed(u64);

    // ---- a store of settings

    /// How many records a store has in the first `used` bytes of its area. Refusals: 2, 13.
    pub fn count_settings(area: &[u8], used: usize) -> Result<usize, Refusal> = number(u64);

    /// Settings as one record more, in the twelve bytes after the used ones: its number, and the used length with it. Refusals: 2, 5, 7, 13.
    pub fn save_settings(
        area: &mut [u8], used: usize, fairness: u8, lock: u8, boundary: u8, edition: u8, value: u16, days: u16, number: &mut u64,
        new_used: &mut u64
    ) -> Result<(), Refusal> = done(u8);

    /// The settings saved under a number, which are written; or a newer record. Refusals: 2, 7, 11, 13.
    pub fn ask_settings(
        area: &[u8], used: usize, number: usize, fairness: &mut u8, lock: &mut u8, boundary: &mut u8, edition: &mut u8, value: &mut u16,
        days: &mut u16
    ) -> Result<Kept, Refusal> = kept(u64);
}
