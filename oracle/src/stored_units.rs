//! Records of units: rotations, units, domains, days and run lengths, as the Rust has them; every third over slots around the ends of
//! leap years and of centuries; every second one damaged, some twice, and what is due of those is the paper's number. Records in which the
//! Rust counts fewer days than are covered stand apart: the figures that follow from the days are the generator's own there.

use chrono::NaiveDate;

use crate::covered::examples;
use crate::days::minute_of;
use crate::lent_units::{lent, DueUnits, LentUnits};
use crate::problems::{problem_case, ProblemCase};
use crate::seed::Seed;
use crate::stored::{filled16, filled32, half, records, words, Stored};
use crate::stored_slots::{answer, firsts, FILL16, FILL32};

/// Entries of a record's columns: slots, of which one stays free; rows of people; a list of people.
const SLOTS: usize = 16;
const PEOPLE: usize = 4;
const LIST: usize = 8;

/// What a lent list of people holds before the call.
const FILL8: u8 = 171;

/// A refusal n, among days and minutes, is this plus n.
const REFUSED_FIGURE: u64 = 1_000_000_000_000_000_000;

/// Answers that a record holds.
const ANSWERS: u64 = 18;

/// Two sections of records, where the Rust counts the days that are covered and where it counts fewer, each after its number of records as u16; the
/// examples of covered days come first in theirs. A record is, low byte first: people, slots, units, a person, a slot and a unit as u64; fairness, lock, boundary and
/// edition as bytes; value and days as u16; u16 of how long each lent column is: starts, ends, unit starts, words of availability, words of
/// frozen flags, the columns for starts, the lists of people, the column for masks; the columns themselves, of 16, 16 and 16; first words
/// of four rows, and of the flags; then the answers: rotations, unit starts, units, a unit's first slot and the one past its last, the
/// slot's unit, whether the unit is frozen, people of the slot's and of the unit's domain, and 0 for the domains of all units as u16; covered
/// days, minutes a day, target and achievable run as u64; the two columns of starts of 16, the two lists of 8 people and the column of 16
/// masks as u32 that come out.
pub fn units(n: u64, run: u64) -> Stored {
    let mut sections = Sections::default();
    for case in examples() {
        let (asked, due) = lent(&mut Seed::new(run), &case, case.rust());
        sections.add(&asked, &due);
    }
    records(n, run, "stored-units", |seed, made| {
        let case = if made % 3 == 0 {
            around_a_years_end(seed)
        } else {
            problem_case(seed)
        };
        if case.base.len() >= SLOTS || case.people.len() > PEOPLE {
            return false;
        }
        let problem = case.rust();
        if problem.slot_count() >= SLOTS {
            return false;
        }
        let (mut asked, due) = lent(seed, &case, problem);
        if made % 2 == 1 {
            for _ in 0..seed.within(1, 2) {
                asked.damage(seed);
            }
        }
        sections.add(&asked, &due);
        true
    });
    sections.stored()
}

/// The records of each section, and how many.
#[derive(Default)]
struct Sections {
    agreeing: (Vec<u8>, u64),
    others: (Vec<u8>, u64),
}

impl Sections {
    /// One record more. Where the Rust counts as many days as the generator, it must have the same figures.
    fn add(&mut self, asked: &LentUnits, due: &DueUnits) {
        if let Some(rust) = &due.rust {
            assert_eq!(&due.own, rust);
        }
        let (bytes, count) = if due.rust.is_some() { &mut self.agreeing } else { &mut self.others };
        record(bytes, asked, due);
        *count += 1;
    }

    fn stored(self) -> Stored {
        let mut bytes = Vec::new();
        for (records, count) in [&self.agreeing, &self.others] {
            half(&mut bytes, *count as usize);
            bytes.extend(records);
        }
        let lines = vec![
            (ANSWERS * self.agreeing.1, ""),
            (ANSWERS * self.others.1, " where the Rust counts fewer days"),
        ];
        Stored { bytes, lines }
    }
}

/// Dates near which weekdays are easily got wrong: ends of February in years that are leap years, or not although four divides them, and
/// ends of years and of centuries.
const DATES: [(i32, u32, u32); 8] = [
    (1972, 2, 27),
    (1999, 12, 29),
    (2000, 2, 27),
    (2000, 12, 30),
    (2096, 2, 27),
    (2099, 12, 29),
    (2100, 2, 26),
    (2104, 2, 27),
];

/// A problem whose slots are days, or halves of days, around such a date, with rotations on weekdays.
fn around_a_years_end(seed: &mut Seed) -> ProblemCase {
    let mut case = problem_case(seed);
    while case.people.len() > PEOPLE {
        case = problem_case(seed);
    }
    let (year, month, day) = seed.pick(&DATES);
    let date = NaiveDate::from_ymd_opt(year, month, day).and_then(|date| date.and_hms_opt(0, 0, 0));
    let first = minute_of(date.expect("it is a date")) as u32;
    let length = seed.pick(&[720, 1440]);
    let count = seed.within(5, 12) as u32;
    case.base = (0..count).map(|k| (first + k * length, first + (k + 1) * length)).collect();
    case.ranges.retain(|range| range.start % 2 == 0);
    case.ranges.truncate(2);
    case.settings.boundary = 1;
    case.settings.value = seed.within(1, 127) as u16;
    case
}

/// Days or minutes, or a refusal.
fn figure_answer(number: u64, figure: u64) -> u64 {
    if number == 0 {
        figure
    } else {
        REFUSED_FIGURE + number
    }
}

fn record(bytes: &mut Vec<u8>, asked: &LentUnits, due: &DueUnits) {
    lent_bytes(bytes, asked);
    let of_unit = asked.units_number(asked.unit < asked.units.count);
    half(bytes, answer(asked.starts_number(), due.rotations.len()));
    half(bytes, answer(asked.starts_number(), due.units.len()));
    half(bytes, answer(asked.units_number(true), due.units.len()));
    half(bytes, answer(of_unit, due.span.start));
    half(bytes, answer(of_unit, due.span.end));
    half(bytes, answer(asked.units_number(asked.slot < asked.slots.count), due.unit_of_slot));
    half(bytes, answer(asked.frozen_number(), usize::from(due.is_frozen)));
    half(bytes, answer(asked.slot_domain_number(), due.slot_domain.len()));
    half(bytes, answer(asked.unit_domain_number(), due.unit_domain.len()));
    half(bytes, answer(asked.unit_domains_number(), 0));
    words(
        bytes,
        &[
            figure_answer(asked.days_number(), due.own.days),
            figure_answer(asked.days_number(), due.own.per_day),
            figure_answer(asked.target_number(), due.own.target),
            figure_answer(asked.achievable_number(), due.own.achievable[due.person]),
        ],
    );
    for starts in [&due.rotations, &due.units] {
        let written = if asked.starts_number() == 0 { &starts[..] } else { &[] };
        filled16(bytes, SLOTS, written, FILL16);
    }
    for (number, list) in [
        (asked.slot_domain_number(), &due.slot_domain),
        (asked.unit_domain_number(), &due.unit_domain),
    ] {
        let written = if number == 0 { &list[..] } else { &[] };
        bytes.extend(written.iter().copied().chain(std::iter::repeat(FILL8)).take(LIST));
    }
    let masks = if asked.unit_domains_number() == 0 {
        &due.unit_masks[..]
    } else {
        &[]
    };
    filled32(bytes, SLOTS, masks, FILL32);
}

/// What is lent and asked, in the record's order.
fn lent_bytes(bytes: &mut Vec<u8>, asked: &LentUnits) {
    let counts = [
        asked.people,
        asked.slots.count,
        asked.units.count,
        asked.person,
        asked.slot,
        asked.unit,
    ];
    words(bytes, &counts.map(|count| count as u64));
    let settings = asked.settings;
    bytes.extend([settings.fairness, settings.lock, settings.boundary, settings.edition]);
    half(bytes, usize::from(settings.value));
    half(bytes, usize::from(settings.days));
    let (slots, starts) = (&asked.slots, &asked.units.unit_starts);
    let lengths = [
        slots.starts.len(),
        slots.ends.len(),
        starts.len(),
        asked.avail.len(),
        asked.frozen.len(),
    ];
    for length in lengths.into_iter().chain([asked.starts_room, asked.list_room, asked.masks_room]) {
        half(bytes, length);
    }
    filled32(bytes, SLOTS, &slots.starts, 0);
    filled32(bytes, SLOTS, &slots.ends, 0);
    filled16(bytes, SLOTS, starts, 0);
    let mut rows = firsts(&asked.avail);
    rows.resize(PEOPLE, 0);
    words(bytes, &rows);
    words(bytes, &[asked.frozen.first().copied().unwrap_or(0)]);
}

#[cfg(test)]
mod tests {
    #[test]
    fn records_have_one_size() {
        let stored = super::units(9, 1);
        let records = stored.lines.iter().map(|line| line.0 / super::ANSWERS).sum::<u64>();
        assert_eq!((records, stored.bytes.len()), (15, 2 * 2 + 15 * 468));
    }
}
