//! Ranges merged, base slots split, availability: whole problems through the library.

use crate::call::{bytes16, bytes32, bytes64, Arg, Outcome, Question};
use crate::limits::{MINUTES_MOST, NOTHING, PEOPLE_MOST, RANGES_MOST, SET_WORDS, SLOTS_MOST};
use crate::problems::{availability_into, problem_case, slots_of, Person, ProblemCase, Range};
use crate::seed::Seed;
use crate::table::{lowest, Ranges, Slots};

/// A problem as it is lent.
#[derive(Clone)]
pub struct LentProblem {
    pub base: Slots,
    pub ranges: Ranges,
}

impl LentProblem {
    pub fn new(case: &ProblemCase) -> Self {
        Self {
            base: Slots::new(&case.base),
            ranges: Ranges {
                people: case.people.len(),
                count: case.ranges.len(),
                persons: case.ranges.iter().map(|range| range.person as u16).collect(),
                opens: case.ranges.iter().map(|range| range.start).collect(),
                shuts: case.ranges.iter().map(|range| range.end).collect(),
            },
        }
    }

    fn range_args(&self) -> [Arg; 3] {
        [
            Arg::Lent(2, bytes16(&self.ranges.persons)),
            Arg::Lent(4, bytes32(&self.ranges.opens)),
            Arg::Lent(4, bytes32(&self.ranges.shuts)),
        ]
    }

    /// Counts, slots and ranges, as the functions that take both have them.
    fn slots_and_ranges(&self, slots: usize, starts: &[u32], ends: &[u32]) -> Vec<Arg> {
        let mut args = vec![
            Arg::Number(self.ranges.people as u64),
            Arg::Number(slots as u64),
            Arg::Number(self.ranges.count as u64),
            Arg::Lent(4, bytes32(starts)),
            Arg::Lent(4, bytes32(ends)),
        ];
        args.extend(self.range_args());
        args
    }

    /// Base slots split: `due` at the front of two columns, or a refusal.
    fn atomise(&self, seed: &mut Seed, room: usize, due: Result<(&[u32], &[u32]), u64>) -> Question {
        let froms: Vec<u32> = (0..room).map(|_| seed.word() as u32).collect();
        let tos: Vec<u32> = (0..room).map(|_| seed.word() as u32).collect();
        let mut args = self.slots_and_ranges(self.base.count, &self.base.starts, &self.base.ends);
        args.extend([Arg::LentMut(4, bytes32(&froms)), Arg::LentMut(4, bytes32(&tos))]);
        let (mut froms_due, mut tos_due) = (froms, tos);
        let result = match due {
            Ok((starts, ends)) => {
                froms_due[..starts.len()].copy_from_slice(starts);
                tos_due[..ends.len()].copy_from_slice(ends);
                starts.len() as u64
            }
            Err(number) => NOTHING + number,
        };
        Question {
            function: "boltraven_atomise",
            args,
            due: Outcome {
                result,
                written: vec![bytes32(&froms_due), bytes32(&tos_due)],
            },
        }
    }

    /// Ranges merged: `due` at the front of three columns, or a refusal.
    fn merged(&self, seed: &mut Seed, room: usize, due: Result<&[Range], u64>) -> Question {
        let mut whose: Vec<u16> = (0..room).map(|_| seed.word() as u16).collect();
        let mut froms: Vec<u32> = (0..room).map(|_| seed.word() as u32).collect();
        let mut tos: Vec<u32> = (0..room).map(|_| seed.word() as u32).collect();
        let mut args = vec![Arg::Number(self.ranges.people as u64), Arg::Number(self.ranges.count as u64)];
        args.extend(self.range_args());
        args.extend([
            Arg::LentMut(2, bytes16(&whose)),
            Arg::LentMut(4, bytes32(&froms)),
            Arg::LentMut(4, bytes32(&tos)),
        ]);
        let result = match due {
            Ok(list) => {
                for (k, range) in list.iter().enumerate() {
                    (whose[k], froms[k], tos[k]) = (range.person as u16, range.start, range.end);
                }
                list.len() as u64
            }
            Err(number) => NOTHING + number,
        };
        Question {
            function: "boltraven_merged_ranges",
            args,
            due: Outcome {
                result,
                written: vec![bytes16(&whose), bytes32(&froms), bytes32(&tos)],
            },
        }
    }
}

/// The Rust's merged ranges are private: of one person alone, over one slot that covers all times, they are the slots that come out
/// available.
pub fn merged_of(case: &ProblemCase) -> Vec<Range> {
    let mut merged = Vec::new();
    for person in 0..case.people.len() {
        let own = case.ranges.iter().filter(|range| range.person == person);
        let alone = ProblemCase {
            base: vec![(0, MINUTES_MOST as u32)],
            ranges: own.map(|range| Range { person: 0, ..*range }).collect(),
            people: vec![Person::PLAIN],
            settings: case.settings,
        };
        let problem = alone.rust();
        let (starts, ends) = slots_of(&problem);
        let available = (0..starts.len()).filter(|&slot| problem.is_available(0, slot));
        merged.extend(available.map(|slot| Range {
            person,
            start: starts[slot],
            end: ends[slot],
        }));
    }
    merged
}

/// Whole problems.
pub fn questions(case_seed: u64) -> Vec<Question> {
    let mut seed = Seed::new(case_seed);
    let case = problem_case(&mut seed);
    asked_of(&mut seed, &case)
}

/// The slots, merged ranges and availability of a problem. More than 1,024 atomic slots are refused by 5.
pub fn asked_of(seed: &mut Seed, case: &ProblemCase) -> Vec<Question> {
    let lent = LentProblem::new(case);
    let room = lent.ranges.count + seed.below(2) as usize;
    let merged = merged_of(case);
    let mut asked = vec![lent.merged(seed, room, Ok(&merged))];
    let problem = case.rust();
    let (starts, ends) = slots_of(&problem);
    let room = SLOTS_MOST + seed.below(2) as usize;
    let due = if starts.len() > SLOTS_MOST {
        Err(5)
    } else {
        Ok((&starts[..], &ends[..]))
    };
    asked.push(lent.atomise(seed, room, due));
    if starts.len() <= SLOTS_MOST {
        let before: Vec<u64> = (0..SET_WORDS * lent.ranges.people).map(|_| seed.word()).collect();
        let mut after = before.clone();
        availability_into(&problem, &mut after);
        asked.push(availability(&lent, &starts, &ends, &before, 0, &after));
    }
    asked
}

/// Who is available for which of the lent slots.
fn availability(lent: &LentProblem, starts: &[u32], ends: &[u32], before: &[u64], number: u64, after: &[u64]) -> Question {
    let mut args = lent.slots_and_ranges(starts.len(), starts, ends);
    args.push(Arg::LentMut(8, bytes64(before)));
    Question {
        function: "boltraven_availability",
        args,
        due: Outcome {
            result: number,
            written: vec![bytes64(after)],
        },
    }
}

/// Damaged copies: counts, room, base slots and ranges; the number is the paper's, worked out here by its table.
pub fn damaged(case_seed: u64) -> Vec<Question> {
    let mut seed = Seed::new(case_seed);
    let case = problem_case(&mut seed);
    let LentProblem { mut base, mut ranges } = LentProblem::new(&case);
    let mut room = SLOTS_MOST;
    let slot = seed.below(base.count as u64) as usize;
    let range = seed.below(ranges.count.max(1) as u64) as usize;
    for _ in 0..seed.within(1, 2) {
        match seed.below(13) {
            0 => ranges.people = seed.pick(&[0, PEOPLE_MOST + 1, usize::MAX]),
            1 => base.count = seed.pick(&[0, SLOTS_MOST + 1, usize::MAX]),
            2 => ranges.count = seed.pick(&[RANGES_MOST + 1, 2000, usize::MAX]),
            3 => drop(base.starts.pop()),
            4 => drop(base.ends.pop()),
            5 => drop(ranges.shuts.pop()),
            6 => room = seed.pick(&[0, SLOTS_MOST - 1]),
            7 if slot < base.starts.len() && slot < base.ends.len() => base.ends[slot] = base.starts[slot],
            8 if slot < base.ends.len() => base.ends[slot] = MINUTES_MOST as u32 + 1,
            9 if slot > 0 && slot < base.starts.len() && slot <= base.ends.len() => base.starts[slot] = base.ends[slot - 1] - 1,
            10 if range < ranges.shuts.len() => ranges.shuts[range] = MINUTES_MOST as u32 + 1,
            11 if range < ranges.shuts.len() && ranges.shuts[range] < MINUTES_MOST as u32 => ranges.opens[range] = ranges.shuts[range] + 1,
            12 if range < ranges.persons.len() => ranges.persons[range] = seed.pick(&[ranges.people.min(65_535) as u16, 255, 65_535]),
            _ => {}
        }
    }
    let lent = LentProblem { base, ranges };
    let mut asked = Vec::new();
    let number = lent.atomise_number(room);
    if number > 0 {
        asked.push(lent.atomise(&mut seed, room, Err(number)));
    }
    let room = lent.ranges.persons.len();
    let number = lent.merged_number(room);
    if number > 0 {
        asked.push(lent.merged(&mut seed, room, Err(number)));
    }
    asked
}

impl LentProblem {
    /// A split: 1 to 4.
    fn atomise_number(&self, room: usize) -> u64 {
        lowest(&[
            (1, self.ranges.count_ok() && self.base.count_ok()),
            (2, self.ranges.room_ok() && self.base.room_ok() && SLOTS_MOST <= room),
            (3, self.base.ok()),
            (4, self.ranges.ok()),
        ])
    }

    /// A merge: 1, 2, 4.
    fn merged_number(&self, room: usize) -> u64 {
        lowest(&[
            (1, self.ranges.count_ok()),
            (2, self.ranges.room_ok() && self.ranges.count <= room),
            (4, self.ranges.ok()),
        ])
    }
}
