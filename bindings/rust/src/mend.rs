//! A damaged rota mended, and the repairs that it took.

use std::fmt;

use crate::assignment::Assignment;
use crate::lent::{self, SET_WORDS, TOTALS, UNCOVERED_MINUTES};
use crate::problem::Problem;
use crate::refusal::Refusal;

/// Numbers of a repair, as the library lists it.
const REPAIR: usize = 5;

/// Why a slot was cleared.
#[derive(Debug, Clone, Copy, PartialEq, Eq, Hash)]
pub enum Cause {
    /// The owner is nobody that the problem knows.
    Unknown,
    /// The owner is not available for the slot.
    Unavailable,
    /// The slots of its unit were not left with one owner.
    Unit {
        /// The unit.
        unit: usize,
    },
}

/// One repair. It reads as a sentence.
#[derive(Debug, Clone, Copy, PartialEq, Eq, Hash)]
pub enum Repair {
    /// A slot was cleared.
    Slot {
        /// The slot.
        slot: usize,
        /// The owner that it had, as a byte.
        owner: u8,
        /// Why.
        cause: Cause,
        /// Whether the slot is frozen.
        frozen: bool,
    },
    /// A word of a person's set was made anew: word k has slots 64 k to 64 k + 63.
    Set {
        /// The person.
        person: usize,
        /// The word, 0 to 15.
        word: usize,
        /// What it was.
        old: u64,
        /// What it is now.
        new: u64,
    },
    /// A person's minutes were worked out anew.
    Minutes {
        /// The person.
        person: usize,
        /// What they were.
        old: u64,
        /// What they are now.
        new: u64,
    },
    /// A total of what nobody owns was worked out anew.
    Total {
        /// 0 minutes, 1 slots.
        total: usize,
        /// What it was.
        old: u64,
        /// What it is now.
        new: u64,
    },
}

impl fmt::Display for Repair {
    fn fmt(&self, f: &mut fmt::Formatter<'_>) -> fmt::Result {
        match *self {
            Repair::Slot {
                slot,
                owner,
                cause,
                frozen,
            } => {
                write!(f, "slot {slot}: ")?;
                match cause {
                    Cause::Unknown => write!(f, "person {owner} isn't known, cleared")?,
                    Cause::Unavailable => write!(f, "person {owner} isn't available, cleared")?,
                    Cause::Unit { unit } => write!(f, "unit {unit} was not left with one owner, cleared")?,
                }
                f.write_str(if frozen { " although frozen" } else { "" })
            }
            Repair::Set { person, word, old, new } => write!(f, "person {person}'s set, word {word}: {old:#x} was wrong, now {new:#x}"),
            Repair::Minutes { person, old, new } => write!(f, "person {person}'s minutes: {old} was wrong, now {new}"),
            Repair::Total {
                total: UNCOVERED_MINUTES,
                old,
                new,
            } => write!(f, "uncovered minutes: {old} was wrong, now {new}"),
            Repair::Total { old, new, .. } => write!(f, "slots that nobody owns: {old} was wrong, now {new}"),
        }
    }
}

/// The repairs that a rota took, in the library's order: owners, sets, minutes, totals, each by its place.
#[derive(Debug, Clone)]
pub struct Repairs(std::vec::IntoIter<Repair>);

impl Iterator for Repairs {
    type Item = Repair;

    fn next(&mut self) -> Option<Repair> {
        self.0.next()
    }

    fn size_hint(&self) -> (usize, Option<usize>) {
        self.0.size_hint()
    }
}

impl ExactSizeIterator for Repairs {}

/// A repair of five numbers.
fn read(problem: &Problem, numbers: &[u64]) -> Repair {
    let (place, old, new) = (numbers[1] as usize, numbers[2], numbers[3]);
    match numbers[0] {
        0 => Repair::Slot {
            slot: place,
            owner: old as u8,
            cause: cause(problem, place, old as usize),
            frozen: numbers[4] == 1,
        },
        1 => Repair::Set {
            person: place / SET_WORDS,
            word: place % SET_WORDS,
            old,
            new,
        },
        2 => Repair::Minutes { person: place, old, new },
        _ => Repair::Total { total: place, old, new },
    }
}

/// Why a slot of this owner was cleared.
fn cause(problem: &Problem, slot: usize, owner: usize) -> Cause {
    if owner >= problem.human_count() {
        return Cause::Unknown;
    }
    match problem.is_available(owner, slot) {
        Ok(true) => Cause::Unit {
            unit: problem.units().of_slot(slot).unwrap_or(0),
        },
        _ => Cause::Unavailable,
    }
}

impl Assignment {
    /// A rota mended from columns as they were found: owners (255 for nobody), sets, minutes and totals, which may hold anything. An owner who
    /// is unknown or not available for the slot is cleared; then a unit whose slots are not left with one owner; then the rest is worked out
    /// anew. With it come the repairs: none where the rota was right. Refusal 2 (a column shorter than the problem needs).
    ///
    /// ```
    /// use boltraven::{Assignment, Boundary, Cause, Person, Problem, Range, Refusal, Repair, Repairs, Settings, Slot};
    ///
    /// // Five hours, locked in pairs; person 0 can do all of them, person 1 the third and the fourth. The first slot is frozen.
    /// let base = [0, 60, 120, 180, 240].map(|start| Slot { start, end: start + 60 });
    /// let people = [Person { capacity: 1.0, prior: 0 }; 2];
    /// let ranges = [Range { person: 0, start: 0, end: 300 }, Range { person: 1, start: 120, end: 240 }];
    /// let settings = Settings { lock: true, boundary: Boundary::EverySlots(2), ..Settings::default() };
    /// let mut problem = Problem::build(settings, &base, &people, &ranges)?;
    /// problem.freeze(0)?;
    ///
    /// // Right for owners 0 0 1 1 0; found with 7 0 1 1 1.
    /// let mut sets = [0; 32];
    /// (sets[0], sets[16]) = (0b10011, 0b01100);
    /// let (rota, repairs) = Assignment::mended(&problem, &[7, 0, 1, 1, 1], &sets, &[180, 120], &[0, 0])?;
    /// assert_eq!(rota.owners(), [255, 255, 1, 1, 255]);
    /// assert_eq!(rota.recount(&problem), Ok(()));
    /// let mut left: Repairs = repairs.clone();
    /// assert_eq!(left.next(), Some(Repair::Slot { slot: 0, owner: 7, cause: Cause::Unknown, frozen: true }));
    /// let sentences: Vec<String> = repairs.map(|repair| repair.to_string()).collect();
    /// assert_eq!(
    ///     sentences,
    ///     [
    ///         "slot 0: person 7 isn't known, cleared although frozen",
    ///         "slot 1: unit 0 was not left with one owner, cleared",
    ///         "slot 4: person 1 isn't available, cleared",
    ///         "person 0's set, word 0: 0x13 was wrong, now 0x0",
    ///         "person 0's minutes: 180 was wrong, now 0",
    ///         "uncovered minutes: 0 was wrong, now 180",
    ///         "slots that nobody owns: 0 was wrong, now 3",
    ///     ]
    /// );
    /// assert_eq!(Assignment::mended(&problem, &[7; 4], &sets, &[180, 120], &[0, 0]).err(), Some(Refusal::ShortBuffer));
    /// # Ok::<(), Refusal>(())
    /// ```
    pub fn mended(
        problem: &Problem,
        owners: &[u8],
        sets: &[u64],
        minutes: &[u64],
        totals: &[u64; TOTALS],
    ) -> Result<(Self, Repairs), Refusal> {
        let (people, slots) = (problem.human_count(), problem.slot_count());
        let (mut owners, mut sets, mut minutes, mut totals) = (owners.to_vec(), sets.to_vec(), minutes.to_vec(), *totals);
        let mut list = vec![0; REPAIR * (slots + SET_WORDS * people + people + TOTALS)];
        let count = lent::mend(
            people,
            slots,
            problem.unit_count(),
            problem.slots().starts(),
            problem.slots().ends(),
            problem.availability().words(),
            problem.units().unit_starts(),
            problem.frozen().words(),
            &mut owners,
            &mut sets,
            &mut minutes,
            &mut totals,
            &mut list,
        )?;
        let repairs: Vec<Repair> = list.chunks(REPAIR).take(count).map(|numbers| read(problem, numbers)).collect();
        let rota = Self::of_columns(owners, sets, minutes, totals, slots, people);
        Ok((rota, Repairs(repairs.into_iter())))
    }
}
