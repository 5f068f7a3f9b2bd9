//! Rotations, and the units that a play moves.

use std::ops::Range;

use crate::availability::Availability;
use crate::lent;
use crate::refusal::Refusal;
use crate::set::SlotSet;
use crate::settings::{with_settings, Settings};
use crate::slots::Slots;

/// What `lent` has for the starts of units and of rotations.
type StartsOf = fn(usize, u8, u8, u8, u8, u16, u16, &[u32], &[u32], &mut [u16]) -> Result<usize, Refusal>;

/// Slots in neighbouring stretches: rotations, or the units that a play moves whole.
///
/// ```
/// use boltraven::{Boundary, Settings, Slot, SlotSet, Slots, Units, Weekday};
///
/// // Two shifts of Sunday and two of Monday, in weeks from Monday on.
/// let shifts = [4320, 5040, 5760, 6480].map(|start| Slot { start, end: start + 720 });
/// let weeks = Settings { lock: true, boundary: Boundary::DayOfWeek(Weekday::Monday.into()), ..Settings::default() };
/// let units = Units::new(weeks, &Slots::new(&shifts)?)?;
/// assert_eq!(units.iter().collect::<Vec<_>>(), [0..2, 2..4]);
/// assert_eq!((units.len(), units.unit_starts()), (2, &[0, 2][..]));
/// assert_eq!((units.slots(1)?, units.of_slot(3)?), (2..4, 1));
/// assert_eq!(Units::rotations(weeks, &Slots::new(&shifts)?)?, units);
///
/// let frozen = SlotSet::from_members(4, [0])?;
/// assert!(units.is_frozen(&frozen, 0)? && !units.is_frozen(&frozen, 1)?);
/// # Ok::<(), boltraven::Refusal>(())
/// ```
#[derive(Debug, Clone, PartialEq, Eq, Hash)]
pub struct Units {
    unit_starts: Vec<u16>,
    slots: usize,
}

impl Units {
    /// The units: locked, each rotation is one; otherwise each slot. Refusal 7.
    pub fn new(settings: Settings, slots: &Slots) -> Result<Self, Refusal> {
        Self::begun(lent::unit_starts, settings, slots)
    }

    /// The rotations. Refusal 7.
    pub fn rotations(settings: Settings, slots: &Slots) -> Result<Self, Refusal> {
        Self::begun(lent::rotation_starts, settings, slots)
    }

    /// Those that begin where `starts_of` says.
    fn begun(starts_of: StartsOf, settings: Settings, slots: &Slots) -> Result<Self, Refusal> {
        let mut unit_starts = vec![0; slots.len()];
        let count = with_settings!(starts_of, [slots.len()], settings, slots.starts(), slots.ends(), &mut unit_starts)?;
        unit_starts.truncate(count);
        Ok(Self {
            unit_starts,
            slots: slots.len(),
        })
    }

    /// Those with these first slots, which the library wrote.
    pub(crate) fn of_starts(unit_starts: Vec<u16>, slots: usize) -> Self {
        Self { unit_starts, slots }
    }

    /// How many there are.
    #[allow(clippy::len_without_is_empty)]
    pub fn len(&self) -> usize {
        self.unit_starts.len()
    }

    /// The first slot of each.
    pub fn unit_starts(&self) -> &[u16] {
        &self.unit_starts
    }

    /// The slots of one. Refusal 11.
    pub fn slots(&self, unit: usize) -> Result<Range<usize>, Refusal> {
        let (mut from, mut to) = (0, 0);
        lent::unit_slots(self.slots, self.len(), &self.unit_starts, unit, &mut from, &mut to)?;
        Ok(from as usize..to as usize)
    }

    /// The one that holds a slot. Refusal 11.
    pub fn of_slot(&self, slot: usize) -> Result<usize, Refusal> {
        lent::unit_of_slot(self.slots, self.len(), &self.unit_starts, slot)
    }

    /// The slots of each, in order. One ends where the next starts, the last with the slots.
    pub fn iter(&self) -> impl Iterator<Item = Range<usize>> + '_ {
        let starts = self.unit_starts.iter().map(|&first| usize::from(first));
        let ends = starts.clone().skip(1).chain([self.slots]);
        starts.zip(ends).map(|(start, end)| start..end)
    }

    /// The people who are available for all slots of one, ascending. Refusals 2, 9, 11.
    ///
    /// ```
    /// use boltraven::{Availability, Range, Settings, Slot, Slots, Units};
    ///
    /// let slots = Slots::new(&[Slot { start: 0, end: 60 }])?;
    /// let who = Availability::new(3, &slots, &[0, 2].map(|person| Range { person, start: 0, end: 60 }))?;
    /// assert_eq!(Units::new(Settings::default(), &slots)?.domain(&who, 0)?, [0, 2]);
    /// # Ok::<(), boltraven::Refusal>(())
    /// ```
    pub fn domain(&self, availability: &Availability, unit: usize) -> Result<Vec<usize>, Refusal> {
        let people = availability.people();
        let mut list = vec![0; people];
        let count = lent::unit_domain(
            people,
            self.slots,
            self.len(),
            availability.words(),
            &self.unit_starts,
            &mut list,
            unit,
        )?;
        Ok(list.iter().take(count).map(|&person| usize::from(person)).collect())
    }

    /// The people who are available for all slots of each, ascending: one call for all of them. Refusals 2, 9.
    ///
    /// ```
    /// use boltraven::{Availability, Range, Settings, Slot, Slots, Units};
    ///
    /// let slots = Slots::new(&[Slot { start: 0, end: 60 }, Slot { start: 60, end: 120 }])?;
    /// let who = Availability::new(3, &slots, &[0, 2].map(|person| Range { person, start: 0, end: 60 }))?;
    /// let none: [usize; 0] = [];
    /// assert_eq!(Units::new(Settings::default(), &slots)?.domains(&who)?, [&[0, 2][..], &none]);
    /// # Ok::<(), boltraven::Refusal>(())
    /// ```
    pub fn domains(&self, availability: &Availability) -> Result<Vec<Vec<usize>>, Refusal> {
        let people = availability.people();
        let mut masks = vec![0; self.slots];
        lent::unit_domains(people, self.slots, self.len(), availability.words(), &self.unit_starts, &mut masks)?;
        let domain = |mask: u32| (0..people).filter(|person| mask >> person & 1 == 1).collect();
        Ok(masks.into_iter().take(self.len()).map(domain).collect())
    }

    /// Whether any slot of one is frozen. Refusal 11.
    pub fn is_frozen(&self, frozen: &SlotSet, unit: usize) -> Result<bool, Refusal> {
        lent::unit_frozen(self.slots, self.len(), &self.unit_starts, frozen.words(), unit)
    }
}
