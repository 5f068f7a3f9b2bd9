//! A recording: a job, then blocks of draws with the answers that a live search gave.

use std::iter::FusedIterator;

use crate::assignment::{Answer, Assignment};
use crate::availability::Availability;
use crate::draw::Draw;
use crate::lent::{self, DRAWS_MOST, PEOPLE_MOST, SET_WORDS, SLOTS_MOST, TOTALS};
use crate::problem::Problem;
use crate::refusal::Refusal;
use crate::set::SlotSet;
use crate::settings::Numbers;
use crate::slots::Slots;
use crate::units::Units;

/// A recording, opened: its job prepared, and its blocks, which are to be replayed in order.
///
/// ```
/// use boltraven::{Blocks, Job, Person, Range, Recording, Refusal, Replay, Slot};
///
/// let job = Job {
///     base: vec![Slot { start: 0, end: 120 }],
///     people: vec![Person { capacity: 1.0, prior: 0 }; 2],
///     ranges: vec![Range { person: 0, start: 0, end: 120 }, Range { person: 1, start: 60, end: 180 }],
///     owners: vec![(0, Some(0)), (1, Some(0))],
///     ..Job::default()
/// };
/// let mut file = job.file();
/// file.extend([8, 0, 8, 0, 0, 0, 1, 0, 1, 0, 0, 0]); // draw 0 of unit 1 and choice 1, which acted
/// file.extend([0, 0, 9, 0]); // the end of the block
///
/// let Recording { problem, mut assignment, blocks } = Recording::open(&file)?;
/// assert_eq!((problem.targets(), assignment.owners()), (&[80, 40][..], &[0, 0][..]));
/// for block in blocks {
///     assert_eq!(assignment.replay(&problem, &block?)?, Replay::Agrees);
/// }
/// assert_eq!(assignment.owners(), [0, 1]);
///
/// // Without its last record the block isn't closed.
/// let blocks: Blocks<'_> = Recording::open(&file[..file.len() - 4])?.blocks;
/// assert_eq!(blocks.last(), Some(Err(Refusal::JobFile)));
/// # Ok::<(), Refusal>(())
/// ```
#[derive(Debug, Clone, PartialEq, Eq)]
pub struct Recording<'a> {
    /// What the rota is made of, with the slots that the job freezes.
    pub problem: Problem,
    /// The rota before the first block.
    pub assignment: Assignment,
    /// The blocks.
    pub blocks: Blocks<'a>,
}

impl<'a> Recording<'a> {
    /// Prepares the job. Refusals 1, 3 to 7, 10 to 13, of the job alone: blocks are judged as they are read.
    pub fn open(bytes: &'a [u8]) -> Result<Self, Refusal> {
        let (job, rest) = bytes.split_at(lent::job_end(bytes));
        let (mut starts, mut ends, mut unit_starts) = (vec![0; SLOTS_MOST], vec![0; SLOTS_MOST], vec![0; SLOTS_MOST]);
        let (mut avail, mut frozen) = (vec![0; SET_WORDS * PEOPLE_MOST], [0; SET_WORDS]);
        let (mut targets, mut minutes) = (vec![0; PEOPLE_MOST], vec![0; PEOPLE_MOST]);
        let (mut owners, mut sets, mut totals) = (vec![0; SLOTS_MOST], vec![0; SET_WORDS * PEOPLE_MOST], [0; TOTALS]);
        let (mut people, mut slots, mut units) = (0, 0, 0);
        lent::begin_recording(
            job,
            &mut starts,
            &mut ends,
            &mut avail,
            &mut unit_starts,
            &mut frozen,
            &mut targets,
            &mut owners,
            &mut sets,
            &mut minutes,
            &mut totals,
            &mut people,
            &mut slots,
            &mut units,
        )?;
        let (people, count) = (people as usize, slots as usize);
        starts.truncate(count);
        ends.truncate(count);
        avail.truncate(SET_WORDS * people);
        unit_starts.truncate(units as usize);
        targets.truncate(people);
        let settings = settings_of(job).settings();
        let slots = Slots { starts, ends };
        let mut flags = SlotSet::new(count)?;
        flags.set_to(frozen, count);
        Ok(Self {
            problem: Problem {
                settings,
                rotations: Units::rotations(settings, &slots)?,
                units: Units::of_starts(unit_starts, count),
                target_run: slots.target_run_minutes(settings)?,
                availability: Availability::of_words(people, count, avail),
                frozen: flags,
                slots,
                targets,
            },
            assignment: Assignment::of_columns(owners, sets, minutes, totals, count, people),
            blocks: Blocks { rest, read: 0 },
        })
    }
}

/// The settings of a job that was taken: its first record is theirs, and their numbers begin after its head.
fn settings_of(job: &[u8]) -> Numbers {
    Numbers {
        fairness: job[4],
        lock: job[5],
        boundary: job[6],
        edition: job[7],
        value: u16::from_le_bytes([job[8], job[9]]),
        days: u16::from_le_bytes([job[10], job[11]]),
    }
}

/// The blocks of a recording, in order, each the draws with their recorded answers. A block that is refused, by 13 or 1, is the last.
#[derive(Debug, Clone, PartialEq, Eq)]
pub struct Blocks<'a> {
    rest: &'a [u8],
    read: usize,
}

impl Iterator for Blocks<'_> {
    type Item = Result<Vec<(Draw, Answer)>, Refusal>;

    fn next(&mut self) -> Option<Self::Item> {
        let mut columns = [[0; DRAWS_MOST]; 4];
        let [draws, firsts, seconds, recorded] = &mut columns;
        let (mut count, mut next) = (0, 0);
        match lent::read_block(self.rest, self.read, draws, firsts, seconds, recorded, &mut count, &mut next) {
            Ok(true) => {
                self.rest = &self.rest[next as usize..];
                self.read += 1;
                let [draws, firsts, seconds, recorded] = columns;
                let recorded_draw = |k: usize| {
                    let draw = Draw {
                        draw: draws[k],
                        first: firsts[k],
                        second: seconds[k],
                    };
                    (draw, Answer::of(recorded[k] as u8))
                };
                Some(Ok((0..count as usize).map(recorded_draw).collect()))
            }
            Ok(false) => None,
            Err(refusal) => {
                self.rest = &[];
                Some(Err(refusal))
            }
        }
    }
}

impl FusedIterator for Blocks<'_> {}
