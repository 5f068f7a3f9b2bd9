//! Records of slots: ranges merged, base slots split, availability, freezing and lengths, as the Rust has them; half of the records are
//! damaged, some twice, and what is due of them is the paper's number, with every lent buffer as it was.

use on_call::model::problem::Problem;

use crate::bits::put_bit;
use crate::days::instant;
use crate::limits::{MINUTES_MOST, RANGES_MOST, SET_WORDS, SLOTS_MOST};
use crate::problems::{availability_into, problem_case, slots_of, ProblemCase, Range};
use crate::seed::Seed;
use crate::splitting::{merged_of, LentProblem};
use crate::stored::{filled16, filled32, half, records, words, Stored};
use crate::table::{lowest, people_ok, words_ok, Ranges, Slots};

/// Entries of a record's columns: base slots, ranges (of which one stays free), atomic slots, people.
const BASE: usize = 8;
const RANGES: usize = 8;
const ATOMS: usize = 16;
const PEOPLE: usize = 4;

/// What a lent output holds before the call.
pub const FILL16: u16 = 43_981;
pub const FILL32: u32 = 3_735_928_559;

/// A refusal n is this plus n, among counts and among minutes.
pub const REFUSED: usize = 65_000;
pub const REFUSED_MINUTES: u32 = 4_000_000_000;

/// Answers that a record holds.
const ANSWERS: u64 = 14;

/// Records, every second one damaged. A record is, low byte first: people, base slots, ranges, lent slots, a person and a slot as u64; an
/// instant as u32; u16 of how long each lent column is: base starts and ends, persons, starts and ends of ranges, lent starts and ends,
/// words of availability, words of frozen flags, the three columns for merged ranges, the two for atomic slots; the columns themselves, of
/// 8, 8, 8, 8, 8, 16 and 16; first words of four rows before and as the Rust's availability has them; the first word of frozen flags before
/// and after; then the answers: merged ranges, atomic slots, availability, frozen slots, is_available as u16, demand and the slot's minutes
/// as u32; and the three columns of 8 and two of 16 that come out.
pub fn slots(n: u64, run: u64) -> Stored {
    let mut bytes = Vec::new();
    records(n, run, "stored-slots", |seed, made| {
        let case = problem_case(seed);
        if case.base.len() > BASE || case.ranges.len() >= RANGES || case.people.len() > PEOPLE {
            return false;
        }
        let problem = case.rust();
        let is_small = problem.slot_count() <= ATOMS;
        if is_small {
            record(&mut bytes, seed, &case, problem, made % 2 == 1);
        }
        is_small
    });
    Stored::new(bytes, ANSWERS * n)
}

/// What is lent and asked.
struct Asked {
    base: Slots,
    ranges: Ranges,
    atoms: Slots,
    person: usize,
    slot: usize,
    words: usize,
    flags: usize,
    merged_room: [usize; 3],
    atom_room: [usize; 2],
}

impl Asked {
    fn new(seed: &mut Seed, case: &ProblemCase, problem: &Problem) -> Self {
        let LentProblem { base, ranges } = LentProblem::new(case);
        let atoms = Slots::of(problem);
        Self {
            base,
            person: seed.below(ranges.people as u64) as usize,
            slot: seed.below(atoms.count as u64) as usize,
            words: SET_WORDS * ranges.people + seed.below(2) as usize,
            flags: SET_WORDS + seed.below(2) as usize,
            merged_room: [ranges.count, ranges.count + seed.below(2) as usize, RANGES],
            atom_room: [SLOTS_MOST; 2],
            atoms,
            ranges,
        }
    }

    /// Breaks one rule.
    fn damage(&mut self, seed: &mut Seed) {
        let ranges = &mut self.ranges;
        let k = seed.below(ranges.shuts.len().max(1) as u64) as usize;
        match seed.below(14) {
            0 => ranges.people = seed.pick(&[0, 33, usize::MAX]),
            1 => ranges.count = seed.pick(&[RANGES_MOST + 1, usize::MAX]),
            2 => drop(ranges.persons.pop()),
            3 => drop(ranges.shuts.pop()),
            4 => self.words = seed.pick(&[0, SET_WORDS * ranges.people.min(PEOPLE)]).max(1) - 1,
            5 => self.flags = seed.pick(&[0, SET_WORDS - 1]),
            6 => self.merged_room[seed.below(3) as usize] = ranges.count.saturating_sub(1).min(RANGES),
            7 => self.atom_room[seed.below(2) as usize] = seed.pick(&[0, SLOTS_MOST - 1]),
            8 => self.person = seed.pick(&[ranges.people, usize::MAX]),
            9 => self.slot = seed.pick(&[self.atoms.count, usize::MAX]),
            10 => self.base.damage(seed),
            11 => self.atoms.damage(seed),
            _ if k >= ranges.shuts.len() || k >= ranges.persons.len() => {}
            12 => ranges.persons[k] = seed.pick(&[ranges.people.min(255) as u16, 255, 65_535]),
            _ => (ranges.opens[k], ranges.shuts[k]) = seed.pick(&[(5, 4), (0, MINUTES_MOST as u32 + 1)]),
        }
    }

    fn merged_number(&self) -> u64 {
        let room = self.merged_room.iter().all(|&room| self.ranges.count <= room);
        lowest(&[
            (1, self.ranges.count_ok()),
            (2, self.ranges.room_ok() && room),
            (4, self.ranges.ok()),
        ])
    }

    fn atoms_number(&self) -> u64 {
        let room = self.atom_room.iter().all(|&room| SLOTS_MOST <= room);
        lowest(&[
            (1, self.ranges.count_ok() && self.base.count_ok()),
            (2, self.ranges.room_ok() && self.base.room_ok() && room),
            (3, self.base.ok()),
            (4, self.ranges.ok()),
        ])
    }

    fn availability_number(&self) -> u64 {
        let room = words_ok(self.ranges.people, self.words);
        lowest(&[
            (1, self.ranges.count_ok() && self.atoms.count_ok()),
            (2, self.ranges.room_ok() && self.atoms.room_ok() && room),
            (4, self.ranges.ok()),
            (9, self.atoms.ok()),
        ])
    }

    fn freeze_number(&self) -> u64 {
        let room = self.atoms.room_ok() && SET_WORDS <= self.flags;
        lowest(&[(1, self.atoms.count_ok()), (2, room), (9, self.atoms.ok())])
    }

    fn yes_no_number(&self) -> u64 {
        lowest(&[
            (1, people_ok(self.ranges.people) && self.atoms.count_ok()),
            (2, words_ok(self.ranges.people, self.words)),
            (11, self.person < self.ranges.people && self.slot < self.atoms.count),
        ])
    }

    fn demand_number(&self) -> u64 {
        lowest(&[(1, self.atoms.count_ok()), (2, self.atoms.room_ok()), (9, self.atoms.ok())])
    }

    fn minutes_number(&self) -> u64 {
        let known = self.slot < self.atoms.count;
        lowest(&[
            (1, self.atoms.count_ok()),
            (2, self.atoms.room_ok()),
            (9, self.atoms.ok()),
            (11, known),
        ])
    }
}

/// A count, or a refusal.
pub fn answer(number: u64, count: usize) -> usize {
    if number == 0 {
        count
    } else {
        REFUSED + number as usize
    }
}

/// Minutes, or a refusal.
pub fn minutes_answer(number: u64, minutes: i64) -> u32 {
    if number == 0 {
        minutes as u32
    } else {
        REFUSED_MINUTES + number as u32
    }
}

/// The first word of each row.
pub fn firsts(rows: &[u64]) -> Vec<u64> {
    rows.iter().step_by(SET_WORDS).copied().collect()
}

fn record(bytes: &mut Vec<u8>, seed: &mut Seed, case: &ProblemCase, mut problem: Problem, damaged: bool) {
    let mut asked = Asked::new(seed, case, &problem);
    let (starts, ends) = slots_of(&problem);
    let (yes, minutes) = (problem.is_available(asked.person, asked.slot), problem.slot_minutes[asked.slot]);
    if damaged {
        for _ in 0..seed.within(1, 2) {
            asked.damage(seed);
        }
    }
    let before: Vec<u64> = (0..SET_WORDS * PEOPLE).map(|_| seed.word()).collect();
    let mut able = before.clone();
    availability_into(&problem, &mut able);
    let mut flags = [seed.word()];
    let often = seed.pick(&[2, 10, 1000]);
    for slot in 0..starts.len() {
        problem.frozen[slot] = seed.one_in(often);
        put_bit(&mut flags, 0, slot, problem.frozen[slot]);
    }
    let marked = flags;
    let end = seed.pick(&ends);
    let at = seed.pick(&[0, end, end - 1, end + 1, seed.clone().word() as u32, u32::MAX]);
    let frozen = problem.freeze_before(instant(i64::from(at)));
    if asked.freeze_number() == 0 {
        for slot in 0..starts.len() {
            put_bit(&mut flags, 0, slot, problem.frozen[slot]);
        }
    }

    asked.lent(bytes, at);
    words(bytes, &firsts(&before));
    words(bytes, &firsts(&able));
    words(bytes, &marked);
    words(bytes, &flags);
    let merged = merged_of(case);
    half(bytes, answer(asked.merged_number(), merged.len()));
    half(bytes, answer(asked.atoms_number(), starts.len()));
    half(bytes, answer(asked.availability_number(), 0));
    half(bytes, answer(asked.freeze_number(), frozen));
    half(bytes, answer(asked.yes_no_number(), usize::from(yes)));
    bytes.extend(minutes_answer(asked.demand_number(), problem.total_demand()).to_le_bytes());
    bytes.extend(minutes_answer(asked.minutes_number(), minutes).to_le_bytes());
    asked.written(bytes, &merged, &starts, &ends);
}

impl Asked {
    /// What is lent and asked, in the record's order.
    fn lent(&self, bytes: &mut Vec<u8>, at: u32) {
        let (base, ranges, atoms) = (&self.base, &self.ranges, &self.atoms);
        let counts = [ranges.people, base.count, ranges.count, atoms.count, self.person, self.slot];
        words(bytes, &counts.map(|count| count as u64));
        bytes.extend(at.to_le_bytes());
        let columns = [&base.starts, &base.ends].map(Vec::len);
        let of_ranges = [ranges.persons.len(), ranges.opens.len(), ranges.shuts.len()];
        let lent = [atoms.starts.len(), atoms.ends.len(), self.words, self.flags];
        let lengths = columns.iter().chain(&of_ranges).chain(&lent);
        for &length in lengths.chain(&self.merged_room).chain(&self.atom_room) {
            half(bytes, length);
        }
        filled32(bytes, BASE, &base.starts, 0);
        filled32(bytes, BASE, &base.ends, 0);
        filled16(bytes, RANGES, &ranges.persons, 0);
        filled32(bytes, RANGES, &ranges.opens, 0);
        filled32(bytes, RANGES, &ranges.shuts, 0);
        filled32(bytes, ATOMS, &atoms.starts, 0);
        filled32(bytes, ATOMS, &atoms.ends, 0);
    }

    /// The columns that come out: the list at the front, or nothing where it is refused.
    fn written(&self, bytes: &mut Vec<u8>, merged: &[Range], starts: &[u32], ends: &[u32]) {
        let merged = if self.merged_number() == 0 { merged } else { &[] };
        let atoms = if self.atoms_number() == 0 { starts.len() } else { 0 };
        let column = |of: fn(&Range) -> u32| merged.iter().map(of).collect::<Vec<u32>>();
        let whose: Vec<u16> = merged.iter().map(|range| range.person as u16).collect();
        filled16(bytes, RANGES, &whose, FILL16);
        filled32(bytes, RANGES, &column(|range| range.start), FILL32);
        filled32(bytes, RANGES, &column(|range| range.end), FILL32);
        filled32(bytes, ATOMS, &starts[..atoms], FILL32);
        filled32(bytes, ATOMS, &ends[..atoms], FILL32);
    }
}

#[cfg(test)]
mod tests {
    #[test]
    fn records_have_one_size() {
        assert_eq!(super::slots(8, 1).bytes.len(), 8 * 658);
    }
}
