//! The paper's table of refusals over what is lent, written from the paper and not from the library.

use on_call::model::problem::Problem;

use crate::call::{bytes32, Arg};
use crate::limits::{MINUTES_MOST, PEOPLE_MOST, RANGES_MOST, SET_WORDS, SLOTS_MOST};
use crate::problems::{slots_of, Person, Range, Settings};
use crate::seed::Seed;

/// The lowest number of the rules that are broken, or 0 where all are kept.
pub fn lowest(rules: &[(u64, bool)]) -> u64 {
    let broken = rules.iter().filter(|rule| !rule.1);
    broken.map(|rule| rule.0).min().unwrap_or(0)
}

/// 10 as one number: the part of the recount that failed, its place, and the slot of a wrong set, which is 0 elsewhere.
pub fn failed(part: usize, place: usize, second: usize) -> u64 {
    10 + 256 * part as u64 + 65_536 * place as u64 + 4_294_967_296 * second as u64
}

/// 1: a count of people.
pub fn people_ok(people: usize) -> bool {
    (1..=PEOPLE_MOST).contains(&people)
}

/// 2: words for the sets of so many people. A count that is refused itself asks for none.
pub fn words_ok(people: usize, words: usize) -> bool {
    !people_ok(people) || SET_WORDS * people <= words
}

/// 3 or 9: slots, none empty or reversed, none after the last minute, none before the previous one ends.
pub fn slots_ok(slots: &[(u32, u32)]) -> bool {
    let each = slots.iter().all(|slot| slot.0 < slot.1 && i64::from(slot.1) <= MINUTES_MOST);
    each && slots.windows(2).all(|two| two[0].1 <= two[1].0)
}

/// 4: a range, not reversed, not after the last minute, not of an unknown person.
pub fn range_ok(range: Range, people: usize) -> bool {
    range.start <= range.end && i64::from(range.end) <= MINUTES_MOST && range.person < people
}

/// 6: a person's figures.
pub fn figures_ok(person: Person) -> bool {
    (0.0..=1000.0).contains(&person.capacity) && i64::from(person.prior) <= MINUTES_MOST
}

/// 7: the settings.
pub fn settings_ok(s: Settings) -> bool {
    let value_most = match s.boundary {
        0 => 1024,
        1 => 127,
        _ => return false,
    };
    s.fairness <= 1 && s.lock <= 1 && s.edition <= 1 && s.value <= value_most && s.days <= 366
}

/// Slots as they are lent.
#[derive(Debug, Clone)]
pub struct Slots {
    pub count: usize,
    pub starts: Vec<u32>,
    pub ends: Vec<u32>,
}

impl Slots {
    pub fn new(slots: &[(u32, u32)]) -> Self {
        let (starts, ends) = slots.iter().copied().unzip();
        let count = slots.len();
        Self { count, starts, ends }
    }

    /// The atomic slots of a problem.
    pub fn of(problem: &Problem) -> Self {
        let (starts, ends) = slots_of(problem);
        let count = starts.len();
        Self { count, starts, ends }
    }

    /// 1: their count.
    pub fn count_ok(&self) -> bool {
        (1..=SLOTS_MOST).contains(&self.count)
    }

    /// 2: as many starts and ends as the count says.
    pub fn room_ok(&self) -> bool {
        self.count <= self.starts.len() && self.count <= self.ends.len()
    }

    /// 3 or 9: the slots themselves. Asked only where there is room.
    pub fn ok(&self) -> bool {
        if !self.count_ok() || !self.room_ok() {
            return true;
        }
        let slots: Vec<(u32, u32)> = (0..self.count).map(|k| (self.starts[k], self.ends[k])).collect();
        slots_ok(&slots)
    }

    /// As the library's functions take them.
    pub fn args(&self) -> Vec<Arg> {
        vec![
            Arg::Number(self.count as u64),
            Arg::Lent(4, bytes32(&self.starts)),
            Arg::Lent(4, bytes32(&self.ends)),
        ]
    }

    /// Breaks one of their rules.
    pub fn damage(&mut self, seed: &mut Seed) {
        let k = seed.below(self.ends.len().min(self.starts.len()).max(1) as u64) as usize;
        match seed.below(6) {
            0 => self.count = seed.pick(&[0, SLOTS_MOST + 1, usize::MAX]),
            1 => drop(self.starts.pop()),
            2 => drop(self.ends.pop()),
            _ if k >= self.starts.len() || k >= self.ends.len() => {}
            3 => self.ends[k] = self.starts[k],
            4 if k > 0 => self.starts[k] = self.ends[k - 1].saturating_sub(1),
            _ => self.ends[k] = MINUTES_MOST as u32 + 1 + seed.below(1000) as u32,
        }
    }
}

/// Everybody's ranges as they are lent, in three columns.
#[derive(Debug, Clone)]
pub struct Ranges {
    pub people: usize,
    pub count: usize,
    pub persons: Vec<u16>,
    pub opens: Vec<u32>,
    pub shuts: Vec<u32>,
}

impl Ranges {
    /// 1: the count of people, and of ranges.
    pub fn count_ok(&self) -> bool {
        people_ok(self.people) && self.count <= RANGES_MOST
    }

    /// 2: as many entries in each column as the count says.
    pub fn room_ok(&self) -> bool {
        self.count <= self.persons.len().min(self.opens.len()).min(self.shuts.len())
    }

    /// 4: each range. Asked only where there is room.
    pub fn ok(&self) -> bool {
        if !self.count_ok() || !self.room_ok() {
            return true;
        }
        let range = |k: usize| Range {
            person: usize::from(self.persons[k]),
            start: self.opens[k],
            end: self.shuts[k],
        };
        (0..self.count).all(|k| range_ok(range(k), self.people))
    }
}

/// Where units begin, as it is lent.
#[derive(Debug, Clone)]
pub struct Units {
    pub count: usize,
    pub unit_starts: Vec<u16>,
}

impl Units {
    /// 2: as many starts as the count says.
    pub fn room_ok(&self) -> bool {
        self.count <= self.unit_starts.len()
    }

    /// 9: they begin at 0, rise, and stay below the slot count. Asked only where there is room.
    pub fn ok(&self, slots: usize) -> bool {
        if !self.room_ok() {
            return true;
        }
        let unit_starts = &self.unit_starts[..self.count];
        let rise = unit_starts.windows(2).all(|two| two[0] < two[1]);
        unit_starts.first() == Some(&0) && rise && unit_starts.iter().all(|&first| usize::from(first) < slots)
    }

    /// Breaks one of their rules.
    pub fn damage(&mut self, seed: &mut Seed, slots: usize) {
        let k = seed.below(self.unit_starts.len().max(1) as u64) as usize;
        match seed.below(5) {
            0 => self.count = 0,
            1 => self.count = self.unit_starts.len() + 1,
            2 => drop(self.unit_starts.pop()),
            _ if k >= self.unit_starts.len() => {}
            3 if k > 0 => self.unit_starts[k] = self.unit_starts[k - 1],
            // wrapping, since the slot count may have been damaged before
            4 => self.unit_starts[k] = (slots as u16).wrapping_add(seed.below(3) as u16),
            _ => self.unit_starts[0] = 1,
        }
    }
}

/// Settings with one that breaks rule 7.
pub fn damage_settings(seed: &mut Seed, s: &mut Settings) {
    match seed.below(6) {
        0 => s.fairness = seed.within(2, 255) as u8,
        1 => s.lock = seed.within(2, 255) as u8,
        2 => s.boundary = seed.within(2, 255) as u8,
        3 => s.edition = seed.within(2, 255) as u8,
        4 => s.value = if s.boundary == 0 { 1025 } else { 128 } + seed.below(64_000) as u16,
        _ => s.days = seed.within(367, 65_535) as u16,
    }
}
