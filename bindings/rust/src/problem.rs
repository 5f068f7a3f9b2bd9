//! A problem: everything that stays as it is while a rota changes.

use std::ops::Range as SlotRange;

use crate::availability::Availability;
use crate::refusal::{checked, Refusal};
use crate::set::SlotSet;
use crate::settings::Settings;
use crate::slots::{Range, Slot, Slots};
use crate::targets::{compute_targets, Person};
use crate::units::Units;

/// Atomic slots, who is available for them, rotations, units, targets, and which slots are frozen.
///
/// ```
/// use boltraven::{Person, Problem, Range, Refusal, Settings, Slot};
///
/// let base = [Slot { start: 0, end: 120 }];
/// let people = [Person { capacity: 1.0, prior: 0 }; 2];
/// let ranges = [Range { person: 0, start: 0, end: 120 }, Range { person: 1, start: 60, end: 180 }];
/// let mut problem = Problem::build(Settings::default(), &base, &people, &ranges)?;
/// assert_eq!((problem.slot_count(), problem.human_count(), problem.settings()), (2, 2, Settings::default()));
/// assert_eq!((problem.slots().get(1), problem.slot_minutes(1)?), (Some(Slot { start: 60, end: 120 }), 60));
/// assert_eq!((problem.total_demand(), problem.targets()), (120, &[80, 40][..]));
/// assert_eq!((problem.is_available(1, 0)?, problem.availability().people()), (false, 2));
/// assert_eq!((problem.domain(0)?, problem.unit_domain(1)?), (vec![0], vec![0, 1]));
/// assert_eq!(problem.unit_domains(), [vec![0], vec![0, 1]]);
///
/// // Unlocked, each slot is a unit; every slot begins a rotation.
/// assert_eq!((problem.unit_count(), problem.units().len(), problem.unit_of_slot(1)?), (2, 2, 1));
/// assert_eq!((problem.rotation_count(), problem.rotations().len(), problem.rotation_slots(1)?), (2, 2, 1..2));
/// assert_eq!((problem.target_run_minutes(), problem.achievable_run_minutes(1)?), (120, 60));
/// assert_eq!(problem.achievable_runs(), [120, 60]);
///
/// assert_eq!(problem.freeze_before(60), 1);
/// assert!(problem.is_unit_frozen(0)? && !problem.is_frozen(1));
/// problem.freeze(1)?;
/// assert_eq!(problem.frozen().count(), 2);
///
/// let unknown = [Range { person: 2, start: 0, end: 1 }];
/// assert_eq!(Problem::build(Settings::default(), &base, &people, &unknown).err(), Some(Refusal::Range));
/// # Ok::<(), Refusal>(())
/// ```
#[derive(Debug, Clone, PartialEq, Eq, Hash)]
pub struct Problem {
    pub(crate) settings: Settings,
    pub(crate) slots: Slots,
    pub(crate) availability: Availability,
    pub(crate) rotations: Units,
    pub(crate) units: Units,
    pub(crate) targets: Vec<i64>,
    pub(crate) target_run: u64,
    pub(crate) frozen: SlotSet,
}

impl Problem {
    /// Splits the base slots, works out availability, targets, rotations and units. Refusals 1, 3 to 8.
    pub fn build(settings: Settings, base: &[Slot], people: &[Person], ranges: &[Range]) -> Result<Self, Refusal> {
        let slots = Slots::atomise(base, people.len(), ranges)?;
        let availability = Availability::new(people.len(), &slots, ranges)?;
        let targets = compute_targets(&slots, &availability, people, settings.fairness, settings.edition)?;
        Ok(Self {
            settings,
            rotations: Units::rotations(settings, &slots)?,
            units: Units::new(settings, &slots)?,
            target_run: slots.target_run_minutes(settings)?,
            frozen: SlotSet::new(slots.len())?,
            slots,
            availability,
            targets,
        })
    }

    /// The settings that it was built with.
    pub fn settings(&self) -> Settings {
        self.settings
    }

    /// The atomic slots.
    pub fn slots(&self) -> &Slots {
        &self.slots
    }

    /// How many slots there are.
    pub fn slot_count(&self) -> usize {
        self.slots.len()
    }

    /// How many people there are.
    pub fn human_count(&self) -> usize {
        self.availability.people()
    }

    /// The minutes of one slot. Refusal 11.
    pub fn slot_minutes(&self, slot: usize) -> Result<u64, Refusal> {
        self.slots.minutes(slot)
    }

    /// The sum of all slots' minutes.
    pub fn total_demand(&self) -> u64 {
        self.slots.demand()
    }

    /// Who is available for which slot.
    pub fn availability(&self) -> &Availability {
        &self.availability
    }

    /// Whether a person is available for a slot. Refusal 11.
    pub fn is_available(&self, person: usize, slot: usize) -> Result<bool, Refusal> {
        self.availability.is_available(person, slot)
    }

    /// The rotations.
    pub fn rotations(&self) -> &Units {
        &self.rotations
    }

    /// How many rotations there are.
    pub fn rotation_count(&self) -> usize {
        self.rotations.len()
    }

    /// The slots of a rotation. Refusal 11.
    pub fn rotation_slots(&self, rotation: usize) -> Result<SlotRange<usize>, Refusal> {
        self.rotations.slots(rotation)
    }

    /// The units, which a play moves whole.
    pub fn units(&self) -> &Units {
        &self.units
    }

    /// How many units there are.
    pub fn unit_count(&self) -> usize {
        self.units.len()
    }

    /// The unit that holds a slot. Refusal 11.
    pub fn unit_of_slot(&self, slot: usize) -> Result<usize, Refusal> {
        self.units.of_slot(slot)
    }

    /// The people who can cover a slot, ascending. Refusal 11.
    pub fn domain(&self, slot: usize) -> Result<Vec<usize>, Refusal> {
        self.availability.domain(slot)
    }

    /// The people who can cover a whole unit, ascending. Refusal 11.
    pub fn unit_domain(&self, unit: usize) -> Result<Vec<usize>, Refusal> {
        self.units.domain(&self.availability, unit)
    }

    /// The people who can cover each unit, ascending.
    pub fn unit_domains(&self) -> Vec<Vec<usize>> {
        checked(self.units.domains(&self.availability))
    }

    /// Each person's target in minutes.
    pub fn targets(&self) -> &[i64] {
        &self.targets
    }

    /// How long a run is to be, in minutes.
    pub fn target_run_minutes(&self) -> u64 {
        self.target_run
    }

    /// How long a person's runs can be, in minutes: at least 1, at most the target run. Refusal 11.
    pub fn achievable_run_minutes(&self, person: usize) -> Result<u64, Refusal> {
        self.availability.achievable_run_minutes(self.settings, &self.slots, person)
    }

    /// The same of everybody, one entry a person.
    pub fn achievable_runs(&self) -> Vec<u64> {
        checked(self.availability.achievable_runs(self.settings, &self.slots))
    }

    /// Freezes every slot that ends at or before an instant, and answers how many do.
    pub fn freeze_before(&mut self, instant: u32) -> usize {
        checked(self.slots.freeze_before(&mut self.frozen, instant))
    }

    /// Freezes one slot. Refusal 11.
    pub fn freeze(&mut self, slot: usize) -> Result<(), Refusal> {
        self.frozen.insert(slot)
    }

    /// The frozen slots.
    pub fn frozen(&self) -> &SlotSet {
        &self.frozen
    }

    /// Whether a slot is frozen; past the last none is.
    pub fn is_frozen(&self, slot: usize) -> bool {
        self.frozen.contains(slot)
    }

    /// Whether any slot of a unit is frozen. Refusal 11.
    pub fn is_unit_frozen(&self, unit: usize) -> Result<bool, Refusal> {
        self.units.is_frozen(&self.frozen, unit)
    }
}
