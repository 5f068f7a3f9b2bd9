//! Who is available for which slot.

use crate::lent::{self, written, PEOPLE_MOST, SET_WORDS};
use crate::refusal::Refusal;
use crate::set::SlotSet;
use crate::settings::{with_settings, Settings};
use crate::slots::{Columns, Range, Slots};

/// A set of slots for each person: those for which they are available, every minute of the slot in one of their ranges.
///
/// ```
/// use boltraven::{Availability, Range, Refusal, Settings, Slot, Slots};
///
/// let slots = Slots::new(&[Slot { start: 0, end: 60 }, Slot { start: 60, end: 120 }])?;
/// let who = Availability::new(2, &slots, &[Range { person: 1, start: 30, end: 120 }])?;
/// assert!(!who.is_available(1, 0)?);
/// assert!(who.is_available(1, 1)?);
/// assert_eq!((who.domain(0)?, who.domain(1)?), (vec![], vec![1]));
/// assert_eq!(who.is_available(2, 0), Err(Refusal::Unknown));
/// assert_eq!((who.people(), who.slots(), who.words().len()), (2, 2, 32));
/// assert_eq!(who.of(1)?.iter().collect::<Vec<_>>(), [1]);
/// assert_eq!(who.achievable_run_minutes(Settings::default(), &slots, 1)?, 60);
/// assert_eq!(who.achievable_runs(Settings::default(), &slots)?, [1, 60]);
/// # Ok::<(), Refusal>(())
/// ```
#[derive(Debug, Clone, PartialEq, Eq, Hash)]
pub struct Availability {
    people: usize,
    slots: usize,
    words: Vec<u64>,
}

impl Availability {
    /// From everybody's ranges. Refusals 1, 4.
    pub fn new(people: usize, slots: &Slots, ranges: &[Range]) -> Result<Self, Refusal> {
        let given = Columns::of(ranges);
        // No more words than the most people need: a larger count is refused before its words are looked for.
        let mut words = vec![0; SET_WORDS * people.min(PEOPLE_MOST)];
        lent::availability(
            people,
            slots.len(),
            ranges.len(),
            slots.starts(),
            slots.ends(),
            &given.persons,
            &given.starts,
            &given.ends,
            &mut words,
        )?;
        Ok(Self {
            people,
            slots: slots.len(),
            words,
        })
    }

    /// With these words, which the library wrote.
    pub(crate) fn of_words(people: usize, slots: usize, words: Vec<u64>) -> Self {
        Self { people, slots, words }
    }

    /// How many people there are.
    pub fn people(&self) -> usize {
        self.people
    }

    /// How many slots there are.
    pub fn slots(&self) -> usize {
        self.slots
    }

    /// Everybody's sets, 16 words each, in the order of people.
    pub fn words(&self) -> &[u64] {
        &self.words
    }

    /// Whether a person is available for a slot. Refusal 11.
    pub fn is_available(&self, person: usize, slot: usize) -> Result<bool, Refusal> {
        lent::is_available(self.people, self.slots, &self.words, person, slot)
    }

    /// The people who are available for a slot, ascending. Refusal 11.
    pub fn domain(&self, slot: usize) -> Result<Vec<usize>, Refusal> {
        let mut list = vec![0; self.people];
        let count = lent::slot_domain(self.people, self.slots, &self.words, &mut list, slot)?;
        Ok(list.iter().take(count).map(|&person| usize::from(person)).collect())
    }

    /// The slots for which a person is available. Refusal 11.
    pub fn of(&self, person: usize) -> Result<SlotSet, Refusal> {
        SlotSet::from_row(&self.words, self.people, person, self.slots)
    }

    /// The longest stretch of neighbouring slots that a person can cover, in minutes: at least 1, at most the target run.
    /// Refusals 1, 2, 7, 11.
    pub fn achievable_run_minutes(&self, settings: Settings, slots: &Slots, person: usize) -> Result<u64, Refusal> {
        written(|out| {
            with_settings!(
                lent::achievable_run,
                [self.people, slots.len()],
                settings,
                slots.starts(),
                slots.ends(),
                &self.words,
                person,
                out
            )
        })
    }

    /// The same of everybody, one entry a person. Refusals 1, 2, 7.
    pub fn achievable_runs(&self, settings: Settings, slots: &Slots) -> Result<Vec<u64>, Refusal> {
        let mut runs = vec![0; self.people];
        with_settings!(
            lent::achievable_runs,
            [self.people, slots.len()],
            settings,
            slots.starts(),
            slots.ends(),
            &self.words,
            &mut runs
        )?;
        Ok(runs)
    }
}
