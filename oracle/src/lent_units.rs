//! What the functions on units are lent, whole or damaged, and what is due of each: the Rust's answer, or the paper's number.

use on_call::model::problem::Problem;

use crate::bits::put_bit;
use crate::covered::{figures, Figures};
use crate::limits::{SET_WORDS, SLOTS_MOST};
use crate::problems::{availability_into, unit_masks_of, unit_starts_of, ProblemCase, Settings};
use crate::seed::Seed;
use crate::table::{damage_settings, lowest, people_ok, settings_ok, words_ok, Slots, Units};

/// What is lent and asked. Availability and frozen slots have any bits past the last slot.
pub struct LentUnits {
    pub settings: Settings,
    pub people: usize,
    pub slots: Slots,
    pub units: Units,
    pub avail: Vec<u64>,
    pub frozen: Vec<u64>,
    pub person: usize,
    pub slot: usize,
    pub unit: usize,
    /// Room for starts, for a list of people, and for a mask a unit.
    pub starts_room: usize,
    pub list_room: usize,
    pub masks_room: usize,
}

/// The answers to what is asked: the Rust's, but where the figures that follow from covered days are the generator's own.
pub struct DueUnits {
    pub rotations: Vec<u16>,
    pub units: Vec<u16>,
    pub span: std::ops::Range<usize>,
    pub unit_of_slot: usize,
    pub is_frozen: bool,
    pub slot_domain: Vec<u8>,
    pub unit_domain: Vec<u8>,
    /// Everybody who can cover a unit as a mask, for each.
    pub unit_masks: Vec<u32>,
    /// The person asked for, before any damage; everybody's figures by the generator's own count of covered days, and the Rust's where it
    /// counts as many.
    pub person: usize,
    pub own: Figures,
    pub rust: Option<Figures>,
}

/// A problem with some slots frozen, as it is lent, and the Rust's answers.
pub fn lent(seed: &mut Seed, case: &ProblemCase, mut problem: Problem) -> (LentUnits, DueUnits) {
    let slots = Slots::of(&problem);
    let (people, count) = (problem.human_count(), slots.count);
    let mut avail: Vec<u64> = (0..SET_WORDS * people).map(|_| seed.word()).collect();
    availability_into(&problem, &mut avail);
    let mut frozen: Vec<u64> = (0..SET_WORDS).map(|_| seed.word()).collect();
    let often = seed.pick(&[2, 5, 1000]);
    for slot in 0..count {
        problem.frozen[slot] = seed.one_in(often);
        put_bit(&mut frozen, 0, slot, problem.frozen[slot]);
    }
    let unit_starts = unit_starts_of(&problem);
    let lent = LentUnits {
        settings: case.settings,
        people,
        units: Units {
            count: unit_starts.len(),
            unit_starts,
        },
        avail,
        frozen,
        person: seed.below(people as u64) as usize,
        slot: seed.below(count as u64) as usize,
        unit: seed.below(problem.unit_count() as u64) as usize,
        starts_room: count + seed.below(2) as usize,
        list_room: people + seed.below(2) as usize,
        masks_room: count + seed.below(2) as usize,
        slots,
    };
    let due = due(case, &problem, &lent);
    (lent, due)
}

fn due(case: &ProblemCase, problem: &Problem, lent: &LentUnits) -> DueUnits {
    let list = |domain: &[usize]| domain.iter().map(|&person| person as u8).collect::<Vec<u8>>();
    let (own, rust) = figures(case, problem);
    DueUnits {
        rotations: problem.rotation_starts.iter().map(|&start| start as u16).collect(),
        units: unit_starts_of(problem),
        span: problem.units[lent.unit].clone(),
        unit_of_slot: problem.unit_of_slot[lent.slot],
        is_frozen: problem.is_unit_frozen(lent.unit),
        slot_domain: list(&problem.domains[lent.slot]),
        unit_domain: list(&problem.unit_domains[lent.unit]),
        unit_masks: unit_masks_of(problem),
        person: lent.person,
        own,
        rust,
    }
}

impl LentUnits {
    /// Breaks one rule.
    pub fn damage(&mut self, seed: &mut Seed) {
        match seed.below(13) {
            0 => self.people = seed.pick(&[0, 33, usize::MAX]),
            1 => self.avail.truncate(seed.pick(&[0, self.avail.len().max(1) - 1])),
            2 => self.frozen.truncate(seed.pick(&[0, SET_WORDS - 1])),
            3 => self.person = seed.pick(&[self.people, usize::MAX]),
            4 => self.slot = seed.pick(&[self.slots.count, usize::MAX]),
            5 => self.unit = seed.pick(&[self.units.count, usize::MAX]),
            6 => self.starts_room = seed.pick(&[0, self.slots.starts.len().max(1) - 1]),
            7 => self.list_room = seed.pick(&[0, self.people.clamp(1, 32) - 1]),
            8 => self.masks_room = seed.pick(&[0, self.units.unit_starts.len().min(self.slots.starts.len().max(1) - 1)]),
            9 => damage_settings(seed, &mut self.settings),
            // by the count, which other damage leaves or makes 1: a start at a shortened column's length would be right
            10 => self.units.damage(seed, self.slots.count.min(SLOTS_MOST)),
            _ => self.slots.damage(seed),
        }
    }

    /// Rotation and unit starts: 1, 2, 7, 9.
    pub fn starts_number(&self) -> u64 {
        let slots = &self.slots;
        lowest(&[
            (1, slots.count_ok()),
            (2, slots.room_ok() && slots.count <= self.starts_room),
            (7, settings_ok(self.settings)),
            (9, slots.ok()),
        ])
    }

    /// The number of units: 1, 2, 9; and with a unit or slot asked for, 11.
    pub fn units_number(&self, known: bool) -> u64 {
        lowest(&[
            (1, self.slots.count_ok()),
            (2, self.units.room_ok()),
            (9, self.units.ok(self.slots.count)),
            (11, known),
        ])
    }

    /// Whether a unit is frozen: 1, 2, 9, 11.
    pub fn frozen_number(&self) -> u64 {
        lowest(&[
            (1, self.slots.count_ok()),
            (2, self.units.room_ok() && SET_WORDS <= self.frozen.len()),
            (9, self.units.ok(self.slots.count)),
            (11, self.unit < self.units.count),
        ])
    }

    /// The domain of a slot: 1, 2, 11.
    pub fn slot_domain_number(&self) -> u64 {
        lowest(&[
            (1, people_ok(self.people) && self.slots.count_ok()),
            (2, words_ok(self.people, self.avail.len()) && self.people <= self.list_room),
            (11, self.slot < self.slots.count),
        ])
    }

    /// The domain of a unit: 1, 2, 9, 11.
    pub fn unit_domain_number(&self) -> u64 {
        let room = words_ok(self.people, self.avail.len()) && self.people <= self.list_room;
        lowest(&[
            (1, people_ok(self.people) && self.slots.count_ok()),
            (2, room && self.units.room_ok()),
            (9, self.units.ok(self.slots.count)),
            (11, self.unit < self.units.count),
        ])
    }

    /// The domains of all units: 1, 2, 9.
    pub fn unit_domains_number(&self) -> u64 {
        let room = words_ok(self.people, self.avail.len()) && self.slots.count <= self.masks_room;
        lowest(&[
            (1, people_ok(self.people) && self.slots.count_ok()),
            (2, room && self.units.room_ok()),
            (9, self.units.ok(self.slots.count)),
        ])
    }

    /// Covered days and minutes a day: 1, 2, 9.
    pub fn days_number(&self) -> u64 {
        let slots = &self.slots;
        lowest(&[(1, slots.count_ok()), (2, slots.room_ok()), (9, slots.ok())])
    }

    /// The target run: 1, 2, 7, 9.
    pub fn target_number(&self) -> u64 {
        lowest(&[
            (1, self.slots.count_ok()),
            (2, self.slots.room_ok()),
            (7, settings_ok(self.settings)),
            (9, self.slots.ok()),
        ])
    }

    /// The achievable run: 1, 2, 7, 9, 11.
    pub fn achievable_number(&self) -> u64 {
        lowest(&[
            (1, people_ok(self.people) && self.slots.count_ok()),
            (2, self.slots.room_ok() && words_ok(self.people, self.avail.len())),
            (7, settings_ok(self.settings)),
            (9, self.slots.ok()),
            (11, self.person < self.people),
        ])
    }

    /// Everybody's: 1, 2, 7, 9. The list of people is as long as their runs' column.
    pub fn achievable_runs_number(&self) -> u64 {
        let room = words_ok(self.people, self.avail.len()) && self.people <= self.list_room;
        lowest(&[
            (1, people_ok(self.people) && self.slots.count_ok()),
            (2, self.slots.room_ok() && room),
            (7, settings_ok(self.settings)),
            (9, self.slots.ok()),
        ])
    }
}
