//! Fair targets.

use crate::availability::Availability;
use crate::lent;
use crate::refusal::Refusal;
use crate::settings::{Edition, Fairness};
use crate::slots::Slots;

/// A person's figures.
#[derive(Debug, Clone, Copy, PartialEq)]
pub struct Person {
    /// How much of a share they carry, 0 to 1,000; 1 is a whole one.
    pub capacity: f64,
    /// Minutes that they did before, at most 100,000,000.
    pub prior: u32,
}

/// Each person's target in minutes: together they are the demand, and in edition 1 one may be negative. Refusals 1, 2, 6, 8.
///
/// ```
/// use boltraven::{compute_targets, Availability, Edition, Fairness, Person, Slot, Slots};
///
/// let slots = Slots::new(&[Slot { start: 0, end: 100 }])?;
/// let who = Availability::new(3, &slots, &[])?;
/// let people = [Person { capacity: 1.0, prior: 0 }; 3];
/// assert_eq!(compute_targets(&slots, &who, &people, Fairness::Equal, Edition::First)?, [33, 33, 34]);
/// assert_eq!(compute_targets(&slots, &who, &people, Fairness::Equal, Edition::Second)?, [34, 33, 33]);
/// # Ok::<(), boltraven::Refusal>(())
/// ```
pub fn compute_targets(
    slots: &Slots,
    availability: &Availability,
    people: &[Person],
    fairness: Fairness,
    edition: Edition,
) -> Result<Vec<i64>, Refusal> {
    let capacities: Vec<f64> = people.iter().map(|person| person.capacity).collect();
    let priors: Vec<u32> = people.iter().map(|person| person.prior).collect();
    let mut targets = vec![0; people.len()];
    lent::compute_targets(
        people.len(),
        slots.len(),
        fairness.number(),
        edition.number(),
        slots.starts(),
        slots.ends(),
        availability.words(),
        &capacities,
        &priors,
        &mut targets,
    )?;
    Ok(targets)
}
