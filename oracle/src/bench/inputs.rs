//! What is measured on: problems, rotas, draws and sets, made by a seed.

use on_call::model::assignment::SlotSet;
use on_call::model::problem::Problem;

use crate::bits::put_bit;
use crate::days::instant;
use crate::limits::{DRAWS_MOST, NOBODY, PEOPLE_MOST, RANGES_MOST, SET_WORDS, SLOTS_MOST};
use crate::problems::{slots_of, Person, ProblemCase, Range, Settings};
use crate::rotas::{Draw, LentRota, RotaCase};
use crate::seed::Seed;

/// Minutes of a base slot.
const BASE: u32 = 720;

/// Base slots one after the other, from a Monday on.
fn base(count: usize) -> Vec<(u32, u32)> {
    let first = 4 * 1440;
    (0..count as u32).map(|k| (first + k * BASE, first + (k + 1) * BASE)).collect()
}

/// Everybody, with different capacities and earlier minutes.
fn people(seed: &mut Seed) -> Vec<Person> {
    let person = |seed: &mut Seed| Person {
        capacity: seed.pick(&[0.5, 0.8, 1.0, 1.0, 1.0]),
        prior: seed.below(2000) as u32,
    };
    (0..PEOPLE_MOST).map(|_| person(seed)).collect()
}

/// Fair by availability, a handoff every `every` slots, shifts of a week.
fn settings(lock: u8, every: u16) -> Settings {
    Settings {
        fairness: 0,
        lock,
        boundary: 0,
        edition: 0,
        value: every,
        days: 7,
    }
}

/// Everybody can cover everything: one range each, which cuts nothing.
pub fn all_able(seed: &mut Seed, slots: usize, lock: u8, every: u16) -> ProblemCase {
    let base = base(slots);
    let whole = |person| Range {
        person,
        start: base[0].0,
        end: base[slots - 1].1,
    };
    ProblemCase {
        ranges: (0..PEOPLE_MOST).map(whole).collect(),
        people: people(seed),
        settings: settings(lock, every),
        base,
    }
}

/// As many ranges as slots, each person's in order, and half as many base slots: in every window of 16 base slots a person has one range,
/// which begins or ends in the middle of one of them, so that each base slot is cut in two and about half of the people can cover a slot.
pub fn partly_able(seed: &mut Seed, slots: usize) -> ProblemCase {
    const WINDOW: u32 = 16;
    let base = base(slots / 2);
    let mut ranges = Vec::new();
    for person in 0..PEOPLE_MOST {
        for window in 0..base.len() as u32 / WINDOW {
            let first = base[0].0 + window * WINDOW * BASE;
            let cut = person as u32 % WINDOW;
            let middle = first + cut * BASE + BASE / 2;
            let (start, end) = if (person as u32) < WINDOW {
                (middle, first + seed.within(u64::from(cut) + 1, u64::from(WINDOW)) as u32 * BASE)
            } else {
                (first + seed.within(0, u64::from(cut)) as u32 * BASE, middle)
            };
            ranges.push(Range { person, start, end });
        }
    }
    ProblemCase {
        base,
        ranges,
        people: people(seed),
        settings: settings(0, 1),
    }
}

/// As many ranges as there may be, by person, then start: of those after a person's first a third overlaps the one before it, a third
/// touches it, and a third begins later.
pub fn ranges_in_order(seed: &mut Seed) -> ProblemCase {
    let mut ranges = Vec::new();
    for person in 0..PEOPLE_MOST {
        let mut at = BASE;
        for _ in 0..RANGES_MOST / PEOPLE_MOST {
            let start = match seed.below(3) {
                0 => at - 30,
                1 => at,
                _ => at + seed.within(1, 600) as u32,
            };
            at = start + seed.within(60, 600) as u32;
            ranges.push(Range { person, start, end: at });
        }
    }
    ProblemCase {
        base: base(1),
        ranges,
        people: people(seed),
        settings: settings(0, 1),
    }
}

/// The same ranges, the first of them at the end: all others are in order.
pub fn first_at_end(mut case: ProblemCase) -> ProblemCase {
    case.ranges.rotate_left(1);
    case
}

/// The same ranges, the last first.
pub fn falling(mut case: ProblemCase) -> ProblemCase {
    case.ranges.reverse();
    case
}

/// The same ranges in any order.
pub fn shuffled(seed: &mut Seed, mut case: ProblemCase) -> ProblemCase {
    for k in (1..case.ranges.len()).rev() {
        case.ranges.swap(k, seed.below(k as u64 + 1) as usize);
    }
    case
}

// ---- rotas

/// A rota as both sides hold it, with draws to play.
pub struct Rota {
    pub case: RotaCase,
    pub lent: LentRota,
    /// The draws, as three columns and as structs.
    pub columns: [Vec<u16>; 3],
    pub structs: Vec<boltraven::Draw>,
}

impl Rota {
    fn new(seed: &mut Seed, case: RotaCase) -> Self {
        let lent = LentRota::new(seed, &case);
        let as_struct = |&(draw, first, second): &Draw| boltraven::Draw { draw, first, second };
        Self {
            columns: lent.columns(),
            structs: lent.draws.iter().map(as_struct).collect(),
            lent,
            case,
        }
    }

    /// Shifts of 3 to 14 units for whoever is able, one slot in 16, from the first on, frozen, and draws of all five moves as a search
    /// makes them: every choice is one that there is.
    pub fn typical(seed: &mut Seed, case: &ProblemCase) -> Self {
        let mut problem = case.rust();
        let (_, ends) = slots_of(&problem);
        problem.freeze_before(instant(i64::from(ends[ends.len() / 16 - 1])));
        let owners = shifts(seed, &problem);
        let draws = (0..DRAWS_MOST).map(|_| typical_draw(seed, &problem)).collect();
        Self::new(seed, RotaCase { problem, owners, draws })
    }

    /// One person holds every slot, and the whole run goes to somebody else, again and again.
    pub fn one_run(seed: &mut Seed, case: &ProblemCase) -> Self {
        let problem = case.rust();
        let (units, others) = (problem.unit_count() as u64, problem.human_count() as u64 - 1);
        let draw = |_| (60, seed.below(units) as u16, seed.below(others) as u16);
        let draws = (0..DRAWS_MOST).map(draw).collect();
        let owners = vec![0; problem.slot_count()];
        Self::new(seed, RotaCase { problem, owners, draws })
    }
}

/// Owners in shifts of 3 to 14 units, each of somebody who can cover them.
fn shifts(seed: &mut Seed, problem: &Problem) -> Vec<u8> {
    let mut owners = vec![NOBODY; problem.slot_count()];
    let mut left = 0;
    let mut owner = None;
    for (unit, domain) in problem.units.iter().zip(&problem.unit_domains) {
        if left == 0 || !owner.is_some_and(|person| domain.contains(&person)) {
            owner = (!domain.is_empty()).then(|| seed.pick(domain));
            left = seed.within(3, 14);
        }
        left -= 1;
        if let Some(person) = owner {
            owners[unit.clone()].fill(person as u8);
        }
    }
    owners
}

fn typical_draw(seed: &mut Seed, problem: &Problem) -> Draw {
    let units = problem.unit_count() as u64;
    let draw = seed.below(100);
    let first = seed.below(units);
    let second = match draw {
        0..=34 => seed.below(problem.unit_domains[first as usize].len().max(1) as u64),
        35..=59 | 75..=89 => seed.below(units),
        60..=74 => seed.below(problem.human_count() as u64 - 1),
        _ => seed.below(2),
    };
    (draw as u16, first as u16, second as u16)
}

// ---- sets

/// A set as both sides hold it.
pub struct Set {
    pub words: Vec<u64>,
    pub rust: SlotSet,
}

impl Set {
    /// The longest set, with every member that is wanted.
    pub fn of(wanted: impl Fn(usize) -> bool) -> Self {
        let mut set = Self {
            words: vec![0; SET_WORDS],
            rust: SlotSet::new(SLOTS_MOST),
        };
        for slot in (0..SLOTS_MOST).filter(|&slot| wanted(slot)) {
            put_bit(&mut set.words, 0, slot, true);
            set.rust.insert(slot);
        }
        set
    }
}
