//! Targets through the library: people's figures, availability and slots, and the Rust's targets.

use crate::bits::put_bit;
use crate::call::{bytes32, bytes64, bytes_i64, Arg, Outcome, Question};
use crate::figures::{second_edition, FigureCase, Spread};
use crate::limits::{MINUTES_MOST, PEOPLE_MOST, SET_WORDS, SLOTS_MOST};
use crate::problems::Person;
use crate::seed::Seed;
use crate::table::{figures_ok, lowest, people_ok, words_ok, Slots};

/// What is lent to work out targets.
struct LentTargets {
    people: usize,
    slots: Slots,
    avail: Vec<u64>,
    capacities: Vec<u64>,
    priors: Vec<u32>,
    fairness: u8,
    edition: u8,
    out: Vec<i64>,
}

impl LentTargets {
    /// A case as it is lent: longer buffers than needed now and then, and any bits past the last slot.
    fn new(seed: &mut Seed, case: &FigureCase) -> Self {
        let people = case.people.len();
        let spare = seed.below(2) as usize;
        let mut avail: Vec<u64> = (0..SET_WORDS * people + spare).map(|_| seed.word()).collect();
        for (person, row) in case.able.iter().enumerate() {
            for (slot, &can) in row.iter().enumerate() {
                put_bit(&mut avail, person, slot, can);
            }
        }
        Self {
            people,
            slots: Slots::new(&case.slots()),
            avail,
            capacities: case.people.iter().map(|person| person.capacity.to_bits()).collect(),
            priors: case.people.iter().map(|person| person.prior).collect(),
            fairness: case.fairness,
            edition: 0,
            out: (0..people + spare).map(|_| seed.word() as i64).collect(),
        }
    }

    fn question(&self, number: u64, targets: &[i64]) -> Question {
        let mut after = self.out.clone();
        after[..targets.len()].copy_from_slice(targets);
        Question {
            function: "boltraven_compute_targets",
            args: vec![
                Arg::Number(self.people as u64),
                Arg::Number(self.slots.count as u64),
                Arg::Number(u64::from(self.fairness)),
                Arg::Number(u64::from(self.edition)),
                Arg::Lent(4, bytes32(&self.slots.starts)),
                Arg::Lent(4, bytes32(&self.slots.ends)),
                Arg::Lent(8, bytes64(&self.avail)),
                Arg::Lent(8, bytes64(&self.capacities)),
                Arg::Lent(4, bytes32(&self.priors)),
                Arg::LentMut(8, bytes_i64(&self.out)),
            ],
            due: Outcome {
                result: number,
                written: vec![bytes_i64(&after)],
            },
        }
    }

    /// Targets: 1, 2, 6, 7, 9.
    fn number(&self) -> u64 {
        let room = self.capacities.len().min(self.priors.len()).min(self.out.len());
        let figures = self.capacities.iter().zip(&self.priors).take(self.people);
        let mut people = figures.map(|(&capacity, &prior)| Person {
            capacity: f64::from_bits(capacity),
            prior,
        });
        lowest(&[
            (1, people_ok(self.people) && self.slots.count_ok()),
            (
                2,
                self.slots.room_ok() && words_ok(self.people, self.avail.len()) && self.people <= room,
            ),
            (6, people.all(figures_ok)),
            (7, self.fairness <= 1 && self.edition <= 1),
            (9, self.slots.ok()),
        ])
    }
}

/// The targets of a case: edition 1 by the Rust, edition 2 by the generator's own minutes over the Rust's rounded targets.
pub fn questions(case_seed: u64) -> Vec<Question> {
    let mut seed = Seed::new(case_seed);
    let case = if seed.one_in(40) {
        FigureCase::largest(&mut seed)
    } else {
        FigureCase::new(&mut seed)
    };
    let mut lent = LentTargets::new(&mut seed, &case);
    let first = case.rust();
    let edition_1 = lent.question(0, &first);
    lent.edition = 1;
    let edition_2 = lent.question(0, &second_edition(Spread::MinuteByMinute, &case, &first));
    vec![edition_1, edition_2]
}

/// Damaged copies, in one or several ways.
pub fn damaged(case_seed: u64) -> Vec<Question> {
    let mut seed = Seed::new(case_seed);
    let case = FigureCase::new(&mut seed);
    let mut lent = LentTargets::new(&mut seed, &case);
    lent.edition = seed.below(2) as u8;
    let person = seed.below(lent.people as u64) as usize;
    let slot = seed.below(lent.slots.count as u64) as usize;
    for _ in 0..seed.within(1, 2) {
        match seed.below(13) {
            0 => lent.people = seed.pick(&[0, 33, usize::MAX]),
            1 => lent.slots.count = seed.pick(&[0, SLOTS_MOST + 1, usize::MAX]),
            2 => drop(lent.slots.starts.pop()),
            3 => lent.avail.truncate((SET_WORDS * lent.people.min(PEOPLE_MOST)).saturating_sub(1)),
            4 => drop(lent.priors.pop()),
            5 => lent.out.truncate(case.people.len() - 1),
            6 if person < lent.capacities.len() => {
                let above = f64::from_bits(1000f64.to_bits() + 1);
                let wrong = [f64::NAN, f64::INFINITY, f64::NEG_INFINITY, -1.0, -f64::from_bits(1), above];
                let nan = f64::from_bits(0xfff8_0000_0000_0000 | seed.below(1 << 40));
                lent.capacities[person] = if seed.one_in(3) { nan } else { seed.pick(&wrong) }.to_bits();
            }
            7 if person < lent.priors.len() => lent.priors[person] = MINUTES_MOST as u32 + 1 + seed.below(1000) as u32,
            8 => lent.fairness = seed.within(2, 255) as u8,
            11 => lent.edition = seed.within(2, 255) as u8,
            9 if slot < lent.slots.starts.len() => lent.slots.starts[slot] = lent.slots.ends[slot],
            10 if slot > 0 && slot < lent.slots.starts.len() => lent.slots.starts[slot] = lent.slots.ends[slot - 1] - 1,
            _ => lent.slots.ends[slot] = MINUTES_MOST as u32 + 1,
        }
    }
    match lent.number() {
        0 => vec![],
        number => vec![lent.question(number, &[])],
    }
}
