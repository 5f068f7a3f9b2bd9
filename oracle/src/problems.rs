//! Whole problems: base slots, ranges, people and settings by a seed, and what the Rust makes of them.

use chrono::{Duration, Weekday};
use on_call::config::{Config, FairnessMode, Human, Rotation, RotationBoundary, Rules, Weights};
use on_call::constraints::Constraint;
use on_call::model::problem::Problem;
use on_call::timerange::TimeRange;

use crate::bits::put_bit;
use crate::days::{instant, minute_of};
use crate::limits::{MINUTES_MOST, PEOPLE_MOST, RANGES_MOST, SLOTS_MOST};
use crate::seed::Seed;

/// A range of one person.
#[derive(Debug, Clone, Copy, PartialEq, Eq)]
pub struct Range {
    pub person: usize,
    pub start: u32,
    pub end: u32,
}

/// A person's figures.
#[derive(Debug, Clone, Copy)]
pub struct Person {
    pub capacity: f64,
    pub prior: u32,
}

/// The settings, in the paper's numbers.
#[derive(Debug, Clone, Copy)]
pub struct Settings {
    /// 1: everyone's base is the demand; 0: it is the minutes for which they are available.
    pub fairness: u8,
    pub lock: u8,
    /// 0: every `value` slots; 1: on the weekdays of the mask `value`.
    pub boundary: u8,
    /// 0: edition 1 of the rule on the remainder of targets; 1: edition 2. The Rust knows edition 1 alone.
    pub edition: u8,
    pub value: u16,
    pub days: u16,
}

impl Person {
    /// Of whom nothing is to be told apart.
    pub const PLAIN: Self = Self { capacity: 1.0, prior: 0 };
}

impl Settings {
    /// Each slot a unit and a rotation, shifts of one day.
    pub const PLAIN: Self = Self {
        fairness: 0,
        lock: 0,
        boundary: 0,
        edition: 0,
        value: 1,
        days: 1,
    };
}

/// What a problem is built from.
#[derive(Debug, Clone)]
pub struct ProblemCase {
    pub base: Vec<(u32, u32)>,
    pub ranges: Vec<Range>,
    pub people: Vec<Person>,
    pub settings: Settings,
}

const WEEKDAYS: [Weekday; 7] = [
    Weekday::Mon,
    Weekday::Tue,
    Weekday::Wed,
    Weekday::Thu,
    Weekday::Fri,
    Weekday::Sat,
    Weekday::Sun,
];

impl ProblemCase {
    /// The Rust's problem.
    pub fn rust(&self) -> Problem {
        build(&self.config())
    }

    /// The Rust's problem, unless it has more slots than there may be.
    pub fn rust_within(&self) -> Option<Problem> {
        Some(self.rust()).filter(|problem| problem.slot_count() <= SLOTS_MOST)
    }

    /// What the Rust builds it from.
    pub fn config(&self) -> Config {
        let humans = (0..self.people.len()).map(|person| (name(person), self.human(person))).collect();
        let boundary = if self.settings.boundary == 0 {
            RotationBoundary::EverySlots(usize::from(self.settings.value))
        } else {
            let listed = |day: &usize| self.settings.value >> day & 1 == 1;
            RotationBoundary::DayOfWeek((0..7).filter(listed).map(|day| WEEKDAYS[day]).collect())
        };
        Config {
            constraints: vec![Constraint {
                ranges: self.base.iter().map(|&(start, end)| time_range(start, end)).collect(),
            }],
            humans,
            shift_length: Duration::days(i64::from(self.settings.days)),
            fairness: if self.settings.fairness == 1 {
                FairnessMode::Equal
            } else {
                FairnessMode::Capacity
            },
            rotation: Rotation {
                lock: self.settings.lock == 1,
                boundary: Some(boundary),
            },
            rules: Rules::default(),
            weights: Weights::default(),
        }
    }

    fn human(&self, person: usize) -> Human {
        let ranges = self.ranges.iter().filter(|range| range.person == person);
        Human {
            constraints: vec![Constraint {
                ranges: ranges.map(|range| time_range(range.start, range.end)).collect(),
            }],
            prior_workload: Duration::minutes(i64::from(self.people[person].prior)),
            capacity: Some(self.people[person].capacity),
            preferences: vec![],
        }
    }
}

/// The Rust's problem over the whole range of times.
pub fn build(config: &Config) -> Problem {
    Problem::build(config, instant(0), instant(MINUTES_MOST)).expect("there are base slots")
}

/// A person's name: the Rust puts people in the order of their names.
fn name(person: usize) -> String {
    format!("{person:02}")
}

/// A range of times as the Rust has it.
pub fn time_range(start: u32, end: u32) -> TimeRange {
    TimeRange::new(instant(i64::from(start)), instant(i64::from(end)))
}

// ---- what the Rust made, in the library's forms

/// The starts and the ends of the atomic slots.
pub fn slots_of(problem: &Problem) -> (Vec<u32>, Vec<u32>) {
    let minute = |time| u32::try_from(minute_of(time)).expect("a minute of the range");
    (
        problem.slots.iter().map(|slot| minute(slot.start)).collect(),
        problem.slots.iter().map(|slot| minute(slot.end)).collect(),
    )
}

/// Availability as sets, 16 words a person, written into words that are lent: bits past the last slot stay.
pub fn availability_into(problem: &Problem, words: &mut [u64]) {
    for person in 0..problem.human_count() {
        for slot in 0..problem.slot_count().min(SLOTS_MOST) {
            put_bit(words, person, slot, problem.is_available(person, slot));
        }
    }
}

/// The first slot of each unit.
pub fn unit_starts_of(problem: &Problem) -> Vec<u16> {
    problem.units.iter().map(|unit| unit.start as u16).collect()
}

/// Everybody who can cover a unit as a mask, bit p for person p, for each unit.
pub fn unit_masks_of(problem: &Problem) -> Vec<u32> {
    let mask = |domain: &Vec<usize>| domain.iter().fold(0, |mask, person| mask | 1 << person);
    problem.unit_domains.iter().map(mask).collect()
}

// ---- cases

/// Minutes of a day.
const DAY: u64 = 1440;

/// Base slots that keep the paper's rule, in one of several layouts. At most `most` of them.
pub fn base_slots(seed: &mut Seed, most: u64) -> Vec<(u32, u32)> {
    let count = if seed.one_in(30) { most } else { seed.within(1, most.min(12)) };
    let limit = MINUTES_MOST as u64;
    match seed.below(5) {
        // on a small grid, so that starts, ends and cuts often meet
        0 => layout(seed, count, 0, |seed| (seed.below(3) * 10, seed.within(1, 4) * 10)),
        // whole days, from anywhere
        1 => {
            let room = limit / DAY - 3 * count;
            let first = seed.below(room) * DAY;
            layout(seed, count, first, |seed| (seed.below(2) * DAY, DAY))
        }
        // nights across midnight
        2 => {
            let first = seed.below(limit / DAY - 2 * count) * DAY + 18 * 60;
            layout(seed, count, first, |_| (10 * 60, 14 * 60))
        }
        // across years, up to the last minute
        3 => {
            let step = limit / (2 * count);
            let first = limit - 2 * count * step;
            layout(seed, count, first, |seed| (seed.below(step), seed.within(1, step)))
        }
        // short slots around days' ends
        _ => {
            let first = seed.below(limit / 2);
            layout(seed, count, first, |seed| (seed.below(400), seed.within(1, 1000)))
        }
    }
}

/// Slots one after the other: each by the gap before it and its length.
fn layout(seed: &mut Seed, count: u64, first: u64, mut next: impl FnMut(&mut Seed) -> (u64, u64)) -> Vec<(u32, u32)> {
    let mut at = first;
    let mut slots = Vec::new();
    for _ in 0..count {
        let (gap, length) = next(seed);
        let (start, end) = (at + gap, at + gap + length);
        if end > MINUTES_MOST as u64 {
            break;
        }
        slots.push((start as u32, end as u32));
        at = end;
    }
    if slots.is_empty() {
        slots.push((0, 60));
    }
    slots
}

/// A time that matters: an end of some base slot or of a range so far, or near one, or any.
fn time(seed: &mut Seed, base: &[(u32, u32)], ranges: &[Range]) -> u32 {
    let slot = seed.pick(base);
    let chosen = match seed.below(6) {
        0 => slot.0,
        1 => slot.1,
        2 if !ranges.is_empty() => {
            let range = seed.pick(ranges);
            if seed.one_in(2) {
                range.start
            } else {
                range.end
            }
        }
        3 => seed.within(u64::from(base[0].0), u64::from(base[base.len() - 1].1)) as u32,
        4 => seed.below(MINUTES_MOST as u64 + 1) as u32,
        _ => seed.within(u64::from(slot.0), u64::from(slot.1)) as u32,
    };
    let nudged = if seed.one_in(4) { chosen.saturating_add(1) } else { chosen };
    nudged.min(MINUTES_MOST as u32)
}

/// Ranges: touching, overlapping, empty, unsorted; some people with none, some with one that covers everything.
pub fn ranges(seed: &mut Seed, base: &[(u32, u32)], people: usize, most: u64) -> Vec<Range> {
    let count = if seed.one_in(30) {
        most
    } else {
        seed.within(0, most.min(4 * people as u64))
    };
    let mut ranges = Vec::new();
    while (ranges.len() as u64) < count {
        let person = seed.below(people as u64) as usize;
        let a = time(seed, base, &ranges);
        let b = match seed.below(8) {
            0 => a,
            1 => MINUTES_MOST as u32,
            _ => time(seed, base, &ranges),
        };
        let (start, end) = (a.min(b), a.max(b));
        ranges.push(Range { person, start, end });
        // a second range that meets this one
        if seed.one_in(4) && (ranges.len() as u64) < count {
            let end_too = time(seed, base, &ranges).max(end);
            ranges.push(Range {
                person,
                start: end,
                end: end_too,
            });
        }
    }
    ranges
}

/// A capacity: 0, -0.0, subnormal, 1,000, simple fractions, or any in the range.
pub fn capacity(seed: &mut Seed) -> f64 {
    match seed.below(12) {
        0 => 0.0,
        1 => -0.0,
        2 => f64::from_bits(seed.within(1, 40)),
        3 => 1000.0,
        4 => seed.pick(&[0.1, 0.2, 0.3, 0.5, 0.6, 0.7, 1.1, 1.5, 3.0]),
        5 => f64::from_bits(1000f64.to_bits() - seed.below(100)),
        6 => (seed.below(1 << 53) as f64) / (1u64 << 53) as f64,
        7 => 1000.0 * (seed.below(1 << 53) as f64) / (1u64 << 53) as f64,
        8 => f64::from_bits(seed.below(1000f64.to_bits() + 1)),
        _ => 1.0,
    }
}

/// Prior minutes: none, equal ones, small, or up to the limit.
pub fn prior(seed: &mut Seed) -> u32 {
    let most = MINUTES_MOST as u64;
    (match seed.below(6) {
        0 => seed.below(1000),
        1 => 300,
        2 => most - seed.below(3),
        3 => seed.below(most + 1),
        _ => 0,
    }) as u32
}

/// People with their figures; in some cases all alike.
pub fn people(seed: &mut Seed, most: u64) -> Vec<Person> {
    let count = if seed.one_in(8) { most } else { seed.within(1, most.min(6)) };
    let alike = Person {
        capacity: capacity(seed),
        prior: prior(seed),
    };
    let equal = seed.one_in(4);
    (0..count)
        .map(|_| {
            if equal {
                alike
            } else {
                Person {
                    capacity: capacity(seed),
                    prior: prior(seed),
                }
            }
        })
        .collect()
}

/// Settings that keep the paper's rule.
pub fn settings(seed: &mut Seed) -> Settings {
    let boundary = seed.below(2) as u8;
    let value = if boundary == 0 {
        if seed.one_in(3) {
            seed.pick(&[0, 1, 2, 3, 7, 1023, 1024])
        } else {
            seed.within(1, 12)
        }
    } else {
        seed.below(128)
    };
    Settings {
        fairness: seed.below(2) as u8,
        lock: seed.below(2) as u8,
        boundary,
        value: value as u16,
        days: seed.pick(&[0, 1, 1, 2, 3, 7, 14, 366]),
        // a bit of a copy: what comes after the settings is the same in both editions
        edition: (seed.clone().word() >> 17 & 1) as u8,
    }
}

/// A whole problem. It may have more than 1,024 atomic slots, which the library refuses.
pub fn problem_case(seed: &mut Seed) -> ProblemCase {
    let base = base_slots(seed, SLOTS_MOST as u64);
    let people = people(seed, PEOPLE_MOST as u64);
    let ranges = ranges(seed, &base, people.len(), RANGES_MOST as u64);
    ProblemCase {
        base,
        ranges,
        people,
        settings: settings(seed),
    }
}

/// A whole problem with what the Rust makes of it, unless that has more slots than there may be.
pub fn problem_within(seed: &mut Seed) -> Option<(ProblemCase, Problem)> {
    let case = problem_case(seed);
    let problem = case.rust_within()?;
    Some((case, problem))
}

#[cfg(test)]
mod tests {
    use super::problem_case;
    use crate::limits::SLOTS_MOST;
    use crate::seed::Seed;

    /// The generators make problems that the Rust builds, most of them within the library's limits.
    #[test]
    fn problems_are_built() {
        let built = (0..300).map(|k| problem_case(&mut Seed::new(k)).rust());
        let within = built.filter(|problem| problem.slot_count() <= SLOTS_MOST).count();
        assert!((200..300).contains(&within), "{within}");
    }
}
