//! The settings of a problem.

use crate::weekdays::Weekdays;

/// What a person's fair share is measured by.
#[derive(Debug, Clone, Copy, PartialEq, Eq, Hash, Default)]
pub enum Fairness {
    /// Capacity times the minutes for which the person is available.
    #[default]
    Capacity,
    /// Capacity times the whole demand, whatever the availability.
    Equal,
}

impl Fairness {
    pub(crate) fn number(self) -> u8 {
        match self {
            Fairness::Capacity => 0,
            Fairness::Equal => 1,
        }
    }
}

/// Which edition of the rule on the remainder of the targets.
///
/// ```
/// use boltraven::{compute_targets, Availability, Edition, Fairness, Person, Slot, Slots};
///
/// // Two minutes for four with equal shares, whatever they are available for.
/// let slots = Slots::new(&[Slot { start: 0, end: 2 }])?;
/// let people = [Person { capacity: 1.0, prior: 0 }; 4];
/// let nobody_can = Availability::new(4, &slots, &[])?;
/// assert_eq!(compute_targets(&slots, &nobody_can, &people, Fairness::Equal, Edition::First)?, [1, 1, 1, -1]);
/// assert_eq!(compute_targets(&slots, &nobody_can, &people, Fairness::Equal, Edition::Second)?, [0, 0, 1, 1]);
/// # Ok::<(), boltraven::Refusal>(())
/// ```
#[derive(Debug, Clone, Copy, PartialEq, Eq, Hash, Default)]
pub enum Edition {
    /// The remainder goes to one person, whose target may come to be negative.
    #[default]
    First,
    /// It is handed out minute by minute: a missing one to the smallest target, an extra one from the largest. No target is negative.
    Second,
}

impl Edition {
    pub(crate) fn number(self) -> u8 {
        match self {
            Edition::First => 0,
            Edition::Second => 1,
        }
    }
}

/// Where a new rotation begins.
#[derive(Debug, Clone, Copy, PartialEq, Eq, Hash)]
pub enum Boundary {
    /// Every so many slots, at most 1,024; 0 counts as 1.
    EverySlots(u16),
    /// At a slot that starts on another date than the one before it, on one of these weekdays.
    DayOfWeek(Weekdays),
}

/// Fairness, units and rotations, the edition of targets, and the length of a shift.
///
/// ```
/// use boltraven::{Boundary, Fairness, Settings, Weekday};
///
/// // Whole weeks from Monday on, each held by one person.
/// let weeks = Settings { lock: true, boundary: Boundary::DayOfWeek(Weekday::Monday.into()), days: 7, ..Settings::default() };
/// assert_eq!(weeks.fairness, Fairness::Capacity);
/// assert_eq!(Settings::default().boundary, Boundary::EverySlots(1));
/// ```
#[derive(Debug, Clone, Copy, PartialEq, Eq, Hash)]
pub struct Settings {
    /// What a fair share is measured by.
    pub fairness: Fairness,
    /// Whether a whole rotation is a unit; otherwise each slot is.
    pub lock: bool,
    /// Where rotations begin.
    pub boundary: Boundary,
    /// The edition of the rule on the remainder of the targets.
    pub edition: Edition,
    /// The days of a shift, at most 366; 0 counts as 1.
    pub days: u16,
}

impl Default for Settings {
    /// Shares by capacity, edition 1 of targets, each slot a unit and a rotation, shifts of one day.
    fn default() -> Self {
        Self {
            fairness: Fairness::Capacity,
            lock: false,
            boundary: Boundary::EverySlots(1),
            edition: Edition::First,
            days: 1,
        }
    }
}

/// The six numbers that the library takes.
#[derive(Default)]
pub(crate) struct Numbers {
    pub fairness: u8,
    pub lock: u8,
    pub boundary: u8,
    pub edition: u8,
    pub value: u16,
    pub days: u16,
}

/// Calls a function of `lent` that takes the settings, as their six numbers, after its counts.
macro_rules! with_settings {
    ($function:path, [$($count:expr),*], $settings:expr, $($rest:expr),*) => {{
        let n = $settings.numbers();
        $function($($count,)* n.fairness, n.lock, n.boundary, n.edition, n.value, n.days, $($rest),*)
    }};
}

pub(crate) use with_settings;

impl Settings {
    pub(crate) fn numbers(self) -> Numbers {
        let (boundary, value) = match self.boundary {
            Boundary::EverySlots(count) => (0, count),
            Boundary::DayOfWeek(days) => (1, days.mask()),
        };
        Numbers {
            fairness: self.fairness.number(),
            lock: u8::from(self.lock),
            boundary,
            edition: self.edition.number(),
            value,
            days: self.days,
        }
    }
}

impl Numbers {
    /// The settings of figures that passed rule 7.
    pub(crate) fn settings(&self) -> Settings {
        let boundary = match Weekdays::from_mask(self.value) {
            Some(days) if self.boundary == 1 => Boundary::DayOfWeek(days),
            _ => Boundary::EverySlots(self.value),
        };
        Settings {
            fairness: if self.fairness == 0 { Fairness::Capacity } else { Fairness::Equal },
            lock: self.lock == 1,
            boundary,
            edition: if self.edition == 0 { Edition::First } else { Edition::Second },
            days: self.days,
        }
    }
}
