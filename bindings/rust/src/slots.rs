//! Slots and ranges: ranges merged, base slots split into atomic ones, days, and freezing.

use crate::lent::{self, written, SLOTS_MOST};
use crate::refusal::{checked, Refusal};
use crate::set::SlotSet;
use crate::settings::{with_settings, Settings};

/// A stretch of minutes to be covered, without its end.
#[derive(Debug, Clone, Copy, PartialEq, Eq, Hash)]
pub struct Slot {
    /// Its first minute.
    pub start: u32,
    /// The minute after its last.
    pub end: u32,
}

/// A stretch of minutes for which a person is available, without its end.
#[derive(Debug, Clone, Copy, PartialEq, Eq, Hash)]
pub struct Range {
    /// The person's number.
    pub person: usize,
    /// Its first minute.
    pub start: u32,
    /// The minute after its last.
    pub end: u32,
}

/// Ranges as three columns.
pub(crate) struct Columns {
    pub persons: Vec<u16>,
    pub starts: Vec<u32>,
    pub ends: Vec<u32>,
}

impl Columns {
    pub(crate) fn of(ranges: &[Range]) -> Self {
        Self {
            // A number past u16 is as unknown as the last one.
            persons: ranges.iter().map(|range| u16::try_from(range.person).unwrap_or(u16::MAX)).collect(),
            starts: ranges.iter().map(|range| range.start).collect(),
            ends: ranges.iter().map(|range| range.end).collect(),
        }
    }
}

/// Each person's ranges, sorted, empty ones dropped, touching and overlapping ones merged. Refusals 1, 4.
///
/// ```
/// use boltraven::{merged_ranges, Range};
///
/// let ranges = [Range { person: 0, start: 60, end: 120 }, Range { person: 0, start: 0, end: 60 }];
/// assert_eq!(merged_ranges(1, &ranges)?, [Range { person: 0, start: 0, end: 120 }]);
/// # Ok::<(), boltraven::Refusal>(())
/// ```
pub fn merged_ranges(people: usize, ranges: &[Range]) -> Result<Vec<Range>, Refusal> {
    let given = Columns::of(ranges);
    let mut whose = vec![0; ranges.len()];
    let (mut froms, mut tos) = (vec![0; ranges.len()], vec![0; ranges.len()]);
    let count = lent::merged_ranges(
        people,
        ranges.len(),
        &given.persons,
        &given.starts,
        &given.ends,
        &mut whose,
        &mut froms,
        &mut tos,
    )?;
    let rows = whose.iter().zip(froms.iter().zip(&tos)).take(count);
    Ok(rows
        .map(|(&person, (&start, &end))| Range {
            person: usize::from(person),
            start,
            end,
        })
        .collect())
}

/// Slots that keep the rule of slots: none empty or reversed, none after minute 100,000,000, none before the previous one's end.
///
/// ```
/// use boltraven::{Refusal, Settings, Slot, Slots};
///
/// let slots = Slots::new(&[Slot { start: 0, end: 60 }, Slot { start: 1440, end: 1500 }])?;
/// assert_eq!((slots.demand(), slots.minutes(1)), (120, Ok(60)));
/// assert_eq!((slots.len(), slots.get(1)), (2, Some(Slot { start: 1440, end: 1500 })));
/// assert_eq!((slots.starts(), slots.ends()), (&[0, 1440][..], &[60, 1500][..]));
/// assert_eq!((slots.covered_days(), slots.minutes_per_day()), (2, 60));
/// assert_eq!(slots.target_run_minutes(Settings { days: 7, ..Settings::default() })?, 420);
/// assert_eq!(Slots::new(&[Slot { start: 5, end: 5 }]).err(), Some(Refusal::Slots));
/// # Ok::<(), Refusal>(())
/// ```
#[derive(Debug, Clone, PartialEq, Eq, Hash)]
pub struct Slots {
    pub(crate) starts: Vec<u32>,
    pub(crate) ends: Vec<u32>,
}

/// Slots as two columns, their starts and their ends.
pub(crate) fn columns(slots: &[Slot]) -> (Vec<u32>, Vec<u32>) {
    slots.iter().map(|slot| (slot.start, slot.end)).unzip()
}

impl Slots {
    /// These slots as they are. Refusals 1, 9.
    pub fn new(slots: &[Slot]) -> Result<Self, Refusal> {
        let (starts, ends) = columns(slots);
        lent::covered_days(starts.len(), &starts, &ends, &mut 0)?;
        Ok(Self { starts, ends })
    }

    /// Base slots split wherever a merged range of somebody starts or ends inside one. Refusals 1, 3, 4, 5.
    ///
    /// ```
    /// use boltraven::{Range, Slot, Slots};
    ///
    /// let slots = Slots::atomise(&[Slot { start: 0, end: 120 }], 1, &[Range { person: 0, start: 60, end: 180 }])?;
    /// assert_eq!(slots.iter().collect::<Vec<_>>(), [Slot { start: 0, end: 60 }, Slot { start: 60, end: 120 }]);
    /// # Ok::<(), boltraven::Refusal>(())
    /// ```
    pub fn atomise(base: &[Slot], people: usize, ranges: &[Range]) -> Result<Self, Refusal> {
        let (starts, ends) = columns(base);
        let given = Columns::of(ranges);
        let (mut froms, mut tos) = (vec![0; SLOTS_MOST], vec![0; SLOTS_MOST]);
        let count = lent::atomise(
            people,
            base.len(),
            ranges.len(),
            &starts,
            &ends,
            &given.persons,
            &given.starts,
            &given.ends,
            &mut froms,
            &mut tos,
        )?;
        froms.truncate(count);
        tos.truncate(count);
        Ok(Self { starts: froms, ends: tos })
    }

    /// How many slots there are.
    #[allow(clippy::len_without_is_empty)]
    pub fn len(&self) -> usize {
        self.starts.len()
    }

    /// A slot by its index.
    pub fn get(&self, slot: usize) -> Option<Slot> {
        self.iter().nth(slot)
    }

    /// The slots in order.
    pub fn iter(&self) -> impl Iterator<Item = Slot> + '_ {
        self.starts.iter().zip(&self.ends).map(|(&start, &end)| Slot { start, end })
    }

    /// The starts of the slots.
    pub fn starts(&self) -> &[u32] {
        &self.starts
    }

    /// The ends of the slots.
    pub fn ends(&self) -> &[u32] {
        &self.ends
    }

    /// The minutes of all slots.
    pub fn demand(&self) -> u64 {
        checked(written(|out| lent::demand(self.len(), &self.starts, &self.ends, out)))
    }

    /// The minutes of one slot. Refusal 11.
    pub fn minutes(&self, slot: usize) -> Result<u64, Refusal> {
        written(|out| lent::slot_minutes(self.len(), &self.starts, &self.ends, slot, out))
    }

    /// The distinct dates on which a minute of a slot falls. A slot that ends at midnight doesn't cover the next day.
    ///
    /// ```
    /// use boltraven::{Slot, Slots};
    ///
    /// let month = Slots::new(&[Slot { start: 0, end: 30 * 1440 }])?;
    /// assert_eq!((month.covered_days(), month.minutes_per_day()), (30, 1440));
    /// # Ok::<(), boltraven::Refusal>(())
    /// ```
    pub fn covered_days(&self) -> usize {
        checked(written(|out| lent::covered_days(self.len(), &self.starts, &self.ends, out))) as usize
    }

    /// The demand divided by the covered days, at least 1.
    pub fn minutes_per_day(&self) -> u64 {
        checked(written(|out| lent::minutes_per_day(self.len(), &self.starts, &self.ends, out)))
    }

    /// How long a run is to be: minutes a day times the days of a shift. Refusal 7.
    pub fn target_run_minutes(&self, settings: Settings) -> Result<u64, Refusal> {
        written(|out| with_settings!(lent::target_run, [self.len()], settings, &self.starts, &self.ends, out))
    }

    /// Marks each slot that ends at or before an instant, and answers how many do. Marks that are there stay. Refusal 2: the set is shorter
    /// than the list of slots.
    ///
    /// ```
    /// use boltraven::{Slot, SlotSet, Slots};
    ///
    /// let slots = Slots::new(&[Slot { start: 0, end: 60 }, Slot { start: 60, end: 120 }])?;
    /// let mut frozen = SlotSet::new(slots.len())?;
    /// assert_eq!(slots.freeze_before(&mut frozen, 60)?, 1);
    /// assert!(frozen.contains(0) && !frozen.contains(1));
    /// # Ok::<(), boltraven::Refusal>(())
    /// ```
    pub fn freeze_before(&self, frozen: &mut SlotSet, instant: u32) -> Result<usize, Refusal> {
        if frozen.len() < self.len() {
            return Err(Refusal::ShortBuffer);
        }
        lent::freeze_before(self.len(), &self.starts, &self.ends, frozen.words_mut(), instant)
    }
}
