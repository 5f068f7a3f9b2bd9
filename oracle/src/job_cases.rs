//! A job: its case, its file, and what the Rust makes of it.

use crate::call::{bytes16, bytes32, bytes64};
use crate::days::instant;
use crate::figures::{second_edition, FigureCase, Spread};
use crate::job_records::{file_of, Record, BASE, DRAW, FREEZE, OWNER, PERSON, RANGE, SETTINGS};
use crate::limits::{DRAWS_MOST, MINUTES_MOST, NOBODY, PEOPLE_MOST, RANGES_MOST, SLOTS_MOST};
use crate::problems::{problem_case, slots_of, Person, ProblemCase, Range, Settings};
use crate::rotas::{draws, owners, play, played, Draw, Played};
use crate::seed::Seed;
use on_call::model::problem::Problem;
use on_call::model::Assignment;

/// What a job file says.
#[derive(Debug, Clone)]
pub struct JobCase {
    pub problem: ProblemCase,
    pub freeze: Option<u32>,
    /// A slot and its owner, or 255.
    pub owners: Vec<(u16, u16)>,
    pub draws: Vec<Draw>,
}

impl JobCase {
    /// A job by its seed. It may have too many atomic slots, which is refused.
    pub fn new(seed: &mut Seed) -> Self {
        let case = problem_case(seed);
        let problem = case.rust();
        let freeze = seed.one_in(2).then(|| {
            let (_, ends) = slots_of(&problem);
            let end = seed.pick(&ends);
            let far = seed.word() as u32;
            seed.pick(&[0, end, end.saturating_sub(1), end + 1, far, u32::MAX])
        });
        let mut listed = Vec::new();
        let mut drawn = Vec::new();
        if problem.slot_count() <= SLOTS_MOST {
            let all = owners(seed, &problem);
            let said = all.iter().enumerate().filter(|(_, &owner)| owner != NOBODY || seed.one_in(3));
            listed = said.map(|(slot, &owner)| (slot as u16, u16::from(owner))).collect();
            drawn = draws(seed, &problem);
        }
        Self {
            problem: case,
            freeze,
            owners: listed,
            draws: drawn,
        }
    }

    /// A job at every limit: 1,024 base slots up to the last minute, 32 people, 1,024 ranges, 1,024 owners, 1,024 draws. Everybody is
    /// available for every slot, by 32 touching ranges, the last first; two people own half each, and every draw has them swap their
    /// halves.
    pub fn at_every_limit() -> Self {
        let length = MINUTES_MOST as u32 / SLOTS_MOST as u32;
        let first = MINUTES_MOST as u32 - length * SLOTS_MOST as u32;
        let start = |slot: u32| first + length * slot;
        let (people, ranges) = (PEOPLE_MOST as u32, RANGES_MOST as u32);
        let share = ranges / people;
        let stretch = SLOTS_MOST as u32 / share;
        let range = |k: u32| Range {
            person: (k % people) as usize,
            start: start(k / people * stretch),
            end: start((k / people + 1) * stretch),
        };
        Self {
            problem: ProblemCase {
                base: (0..SLOTS_MOST as u32).map(|slot| (start(slot), start(slot + 1))).collect(),
                ranges: (0..ranges).rev().map(range).collect(),
                people: (0..people)
                    .map(|k| Person {
                        capacity: 1.0 + f64::from(k),
                        prior: 1 << (k % 26),
                    })
                    .collect(),
                settings: Settings {
                    fairness: 0,
                    lock: 0,
                    boundary: 1,
                    edition: 0,
                    value: 127,
                    days: 366,
                },
            },
            freeze: Some(0),
            owners: (0..SLOTS_MOST as u16).map(|slot| (slot, slot / 512)).collect(),
            draws: vec![(75, 0, 1023); DRAWS_MOST],
        }
    }

    /// A job with a long listing: 1,024 slots without a gap from minute 1,000,000 to the last, and 32 people who are available
    /// for all of them. Nobody and people 0 to 9 own a slot each, the first eleven, people 10 to 31 own the others by turns. Of the 33
    /// amounts of minutes seven have eight digits and the others seven; so have the 32 targets. No draw does anything.
    pub fn with_a_long_listing() -> Self {
        let (first, last, few) = (1_000_000, MINUTES_MOST as u32, 24_679);
        let mut base = Vec::new();
        let mut start = first;
        for slot in 0..SLOTS_MOST {
            let end = match slot {
                0..=6 => start + 10_000_000,
                7..=10 => start + 1_000_000,
                1023 => last,
                _ => start + few,
            };
            base.push((start, end));
            start = end;
        }
        let owner = |slot: u16| match slot {
            0 => u16::from(NOBODY),
            1..=10 => slot - 1,
            _ => 10 + (slot - 11) % 22,
        };
        let range = |person| Range {
            person,
            start: first,
            end: last,
        };
        let person = |k| Person {
            capacity: if k < 7 { 10.1 } else { 1.012 },
            ..Person::PLAIN
        };
        Self {
            problem: ProblemCase {
                base,
                ranges: (0..PEOPLE_MOST).map(range).collect(),
                people: (0..PEOPLE_MOST).map(person).collect(),
                settings: Settings {
                    fairness: 1,
                    ..Settings::PLAIN
                },
            },
            freeze: None,
            owners: (0..SLOTS_MOST as u16).map(|slot| (slot, owner(slot))).collect(),
            draws: vec![(100, 0, 0); DRAWS_MOST],
        }
    }

    /// The largest remainder in edition 2: 32 people of capacity 0, and one slot of all minutes.
    pub fn of_idle_people() -> Self {
        let idle = Person { capacity: 0.0, prior: 0 };
        Self {
            problem: ProblemCase {
                base: vec![(0, MINUTES_MOST as u32)],
                ranges: vec![],
                people: vec![idle; PEOPLE_MOST],
                settings: Settings {
                    fairness: 1,
                    edition: 1,
                    ..Settings::PLAIN
                },
            },
            freeze: None,
            owners: vec![],
            draws: vec![],
        }
    }

    /// Sixteen slots of an hour locked in pairs: person 0 has all of them but the last, which is nobody's.
    pub fn uneven_at_the_end() -> Self {
        let range = |person| Range {
            person,
            start: 0,
            end: 960,
        };
        Self {
            problem: ProblemCase {
                base: (0..16).map(|slot| (60 * slot, 60 * slot + 60)).collect(),
                ranges: vec![range(0), range(1)],
                people: vec![Person::PLAIN; 2],
                settings: Settings {
                    fairness: 1,
                    lock: 1,
                    value: 2,
                    ..Settings::PLAIN
                },
            },
            freeze: None,
            owners: (0..15).map(|slot| (slot, 0)).collect(),
            draws: vec![],
        }
    }

    /// The job file.
    pub fn file(&self) -> Vec<u8> {
        file_of(&self.records())
    }

    /// The records of the job file.
    pub fn records(&self) -> Vec<Record> {
        let settings = self.problem.settings;
        let flags = [settings.fairness, settings.lock, settings.boundary, settings.edition];
        let mut records = vec![(SETTINGS, [&flags[..], &bytes16(&[settings.value, settings.days])].concat())];
        records.extend(self.problem.base.iter().map(|&(start, end)| (BASE, bytes32(&[start, end]))));
        for person in &self.problem.people {
            let figures = [bytes64(&[person.capacity.to_bits()]), bytes32(&[person.prior])];
            records.push((PERSON, figures.concat()));
        }
        for range in &self.problem.ranges {
            let times = [bytes16(&[range.person as u16]), bytes32(&[range.start, range.end])];
            records.push((RANGE, times.concat()));
        }
        records.extend(self.freeze.iter().map(|&instant| (FREEZE, bytes32(&[instant]))));
        records.extend(self.owners.iter().map(|&(slot, owner)| (OWNER, bytes16(&[slot, owner]))));
        records.extend(self.draws.iter().map(|draw| (DRAW, bytes16(&[draw.0, draw.1, draw.2]))));
        records
    }

    /// The listing of a job that nothing is wrong with: the Rust's slots, minutes and answers, and the targets, in the paper's lines.
    pub fn listing(&self) -> String {
        let problem = self.frozen();
        let end = self.play(&problem);
        let mut text = self.rota_lines(&problem, &end);
        for (draw, &answer) in end.answers.iter().enumerate() {
            text.push_str(&format!("D {draw} {}\n", ["A", "N", "C"][usize::from(answer)]));
        }
        text.push_str(&format!("U {}\n", end.totals[0]));
        text
    }

    /// The lines of slots and people.
    pub fn rota_lines(&self, problem: &Problem, end: &Played) -> String {
        let (starts, ends) = slots_of(problem);
        let mut text = String::new();
        for slot in 0..problem.slot_count() {
            let owner = if end.owners[slot] == NOBODY {
                "-".to_string()
            } else {
                end.owners[slot].to_string()
            };
            text.push_str(&format!("S {slot} {} {} {owner}\n", starts[slot], ends[slot]));
        }
        for (person, target) in self.targets(problem).iter().enumerate() {
            text.push_str(&format!("P {person} {} {target}\n", end.minutes[person]));
        }
        text
    }

    /// The targets: the Rust's, or edition 2's over the Rust's rounded ones.
    pub fn targets(&self, problem: &Problem) -> Vec<i64> {
        if self.problem.settings.edition == 0 {
            return problem.targets.clone();
        }
        let figures = FigureCase::of(&self.problem, problem);
        second_edition(Spread::MinuteByMinute, &figures, &problem.targets)
    }

    /// The Rust's problem, frozen at the job's instant.
    pub fn frozen(&self) -> Problem {
        let mut problem = self.problem.rust();
        if let Some(at) = self.freeze {
            problem.freeze_before(instant(i64::from(at)));
        }
        problem
    }

    /// The answers to the draws.
    pub fn answers(&self) -> Vec<u8> {
        self.play(&self.frozen()).answers
    }

    /// The rota before its draws.
    pub fn assignment(&self, problem: &Problem) -> Assignment {
        let mut slots = vec![None; problem.slot_count()];
        for &(slot, owner) in &self.owners {
            slots[usize::from(slot)] = (owner != u16::from(NOBODY)).then_some(usize::from(owner));
        }
        Assignment::from_slots(problem, slots)
    }

    pub fn play(&self, problem: &Problem) -> Played {
        let mut assignment = self.assignment(problem);
        let answers = play(problem, &mut assignment, &self.draws);
        played(problem, &assignment, answers)
    }
}
