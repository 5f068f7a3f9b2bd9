//! Rotas and lists of draws: any units, availability and frozen flags, and what the Rust's moves make of them.

use on_call::incremental::Change;
use on_call::model::problem::Problem;
use on_call::model::Assignment;
use on_call::search::moves::MoveGenerator;
use rand::Script;

use crate::bits::put_bit;
use crate::call::{bytes16, bytes32, bytes64, Arg, Outcome, Question};
use crate::limits::{DRAWS_MOST, MINUTES_MOST, NOBODY, PEOPLE_MOST, SET_WORDS, SLOTS_MOST, TOTALS};
use crate::problems::{availability_into, slots_of, unit_starts_of, Person, ProblemCase, Range, Settings};
use crate::seed::Seed;

/// Three numbers a draw.
pub type Draw = (u16, u16, u16);

/// A rota with its draws.
pub struct RotaCase {
    /// The Rust's problem, with the frozen flags in it.
    pub problem: Problem,
    pub owners: Vec<u8>,
    pub draws: Vec<Draw>,
}

/// A rota after a play.
#[derive(Debug, Clone, PartialEq, Eq)]
pub struct Played {
    pub answers: Vec<u8>,
    pub owners: Vec<u8>,
    pub minutes: Vec<u64>,
    /// What nobody owns, in minutes and in slots.
    pub totals: [u64; TOTALS],
}

impl RotaCase {
    /// A rota by its seed. Slots of one unit start on one day and units on different days, so that a lock on all weekdays makes exactly
    /// these units; people's ranges are exactly the slots that they can cover.
    pub fn new(seed: &mut Seed) -> Self {
        let count = if seed.one_in(25) { SLOTS_MOST as u64 } else { seed.within(1, 40) } as usize;
        let people = if seed.one_in(8) { PEOPLE_MOST as u64 } else { seed.within(1, 6) } as usize;
        let locked = seed.one_in(2);
        let base = rota_slots(seed, count, locked);
        let ranges = able(seed, &base, people);
        let case = ProblemCase {
            base,
            ranges,
            people: vec![Person::PLAIN; people],
            settings: Settings {
                fairness: 1,
                lock: u8::from(locked),
                boundary: 1,
                value: 127,
                ..Settings::PLAIN
            },
        };
        let mut problem = case.rust();
        assert_eq!(problem.slot_count(), case.base.len(), "no range cuts a slot");
        let often = seed.pick(&[1000, 30, 8, 3]);
        for flag in problem.frozen.iter_mut() {
            *flag = seed.one_in(often);
        }
        let owners = owners(seed, &problem);
        let draws = draws(seed, &problem);
        Self { problem, owners, draws }
    }

    /// The Rust's assignment of owners.
    pub fn assignment(&self, owners: &[u8]) -> Assignment {
        let slots = owners
            .iter()
            .map(|&owner| (owner != NOBODY).then_some(usize::from(owner)))
            .collect();
        Assignment::from_slots(&self.problem, slots)
    }

    /// Plays all draws as the Rust's moves do.
    pub fn play(&self) -> Played {
        let mut assignment = self.assignment(&self.owners);
        let answers = play(&self.problem, &mut assignment, &self.draws);
        played(&self.problem, &assignment, answers)
    }
}

/// What is to be seen of an assignment.
pub fn played(problem: &Problem, assignment: &Assignment, answers: Vec<u8>) -> Played {
    let owners: Vec<u8> = assignment
        .slots()
        .iter()
        .map(|slot| slot.map_or(NOBODY, |person| person as u8))
        .collect();
    Played {
        minutes: (0..problem.human_count())
            .map(|person| assignment.assigned_minutes(person) as u64)
            .collect(),
        totals: [uncovered(problem, &owners), assignment.unassigned_count() as u64],
        answers,
        owners,
    }
}

/// The minutes of the slots that nobody owns.
pub fn uncovered(problem: &Problem, owners: &[u8]) -> u64 {
    let slots = owners.iter().zip(&problem.slot_minutes);
    slots
        .filter(|(&owner, _)| owner == NOBODY)
        .map(|(_, &minutes)| minutes as u64)
        .sum()
}

/// Plays draws by the Rust's moves: an answer each. One list of changes serves all draws, as in its search.
pub fn play(problem: &Problem, assignment: &mut Assignment, draws: &[Draw]) -> Vec<u8> {
    let generator = MoveGenerator::new();
    let mut changes = Vec::new();
    let answer = |&draw| step(problem, assignment, &generator, draw, &mut changes);
    draws.iter().map(answer).collect()
}

/// One draw: 0 acted, 1 no move, 2 a choice outside.
fn step(
    problem: &Problem,
    assignment: &mut Assignment,
    generator: &MoveGenerator,
    (draw, first, second): Draw,
    changes: &mut Vec<Change>,
) -> u8 {
    if draw >= 100 {
        return 2;
    }
    let mut script = Script::new(u32::from(draw), [usize::from(first), usize::from(second)]);
    let acted = generator.generate(problem, assignment, &mut script, changes);
    if script.outside() {
        return 2;
    }
    if !acted {
        return 1;
    }
    for &(slot, person) in changes.iter() {
        assignment.assign(problem, slot, person);
    }
    0
}

/// Slots for a rota: locked, those of one day make a unit; unlocked, any, some of them touching.
fn rota_slots(seed: &mut Seed, count: usize, locked: bool) -> Vec<(u32, u32)> {
    let mut slots: Vec<(u32, u32)> = Vec::new();
    let mut day = seed.below(30_000);
    let most = seed.pick(&[1, 2, 3, 6, 1024]);
    let mut at = day * 1440;
    while slots.len() < count {
        let in_day = if locked { seed.within(1, most) as usize } else { 1 }.min(count - slots.len());
        for k in 1..=in_day {
            // the last slot of a day may be long, and all start within the day
            let length = if k == in_day { seed.within(1, 400) } else { 1 };
            slots.push((at as u32, (at + length) as u32));
            at += length;
            if in_day <= 300 {
                at += seed.below(2);
            }
        }
        if locked {
            day = at / 1440 + 1 + if seed.one_in(3) { seed.below(4) } else { 0 };
            at = day * 1440;
        }
    }
    assert!(i64::from(slots[slots.len() - 1].1) <= MINUTES_MOST, "the slots fit");
    slots
}

/// Who can cover which slot: any grid, some of it in stretches.
fn able(seed: &mut Seed, base: &[(u32, u32)], people: usize) -> Vec<Range> {
    let mut ranges = Vec::new();
    for person in 0..people {
        let way = seed.below(5);
        let mut value = true;
        let mut left = 0;
        for &(start, end) in base {
            let can = match way {
                0 => true,
                1 => seed.one_in(2),
                2 => !seed.one_in(6),
                3 => seed.one_in(6),
                _ => {
                    if left == 0 {
                        value = !value;
                        left = seed.within(1, 12);
                    }
                    left -= 1;
                    value
                }
            };
            if can {
                ranges.push(Range { person, start, end });
            }
        }
    }
    ranges
}

/// Owners that keep the paper's rules: each unit has one, able to cover it, or nobody; often the same for several units.
pub fn owners(seed: &mut Seed, problem: &Problem) -> Vec<u8> {
    let mut owners = vec![NOBODY; problem.slot_count()];
    let gaps = seed.pick(&[1, 5, 20, 1000]);
    let mut previous = None;
    for (unit, domain) in problem.units.iter().zip(&problem.unit_domains) {
        let owner = match previous {
            Some(person) if domain.contains(&person) && !seed.one_in(3) => Some(person),
            _ if domain.is_empty() || seed.one_in(gaps) => None,
            _ => Some(seed.pick(domain)),
        };
        previous = owner;
        if let Some(person) = owner {
            owners[unit.clone()].fill(person as u8);
        }
    }
    owners
}

/// Draws of all five moves, mostly naming units that there are, some outside in each number.
pub fn draws(seed: &mut Seed, problem: &Problem) -> Vec<Draw> {
    let count = if seed.one_in(40) { DRAWS_MOST as u64 } else { seed.within(0, 30) };
    let units = problem.unit_count() as u64;
    (0..count)
        .map(|_| {
            let draw = match seed.below(12) {
                0 => seed.pick(&[0, 34, 35, 59, 60, 74, 75, 89, 90, 99]),
                1 if seed.one_in(4) => seed.pick(&[100, 101, 65_535]),
                _ => seed.below(100),
            };
            let unit = |seed: &mut Seed| {
                if seed.one_in(40) {
                    seed.pick(&[units, units + 1, 65_535])
                } else {
                    seed.below(units)
                }
            };
            let first = unit(seed);
            let second = match draw {
                35..=59 | 75..=89 => unit(seed),
                90..=99 if seed.one_in(10) => seed.below(4),
                90..=99 => seed.below(2),
                _ => seed.below(problem.human_count() as u64 + 1),
            };
            (draw as u16, first as u16, second as u16)
        })
        .collect()
}

// ---- the calls

/// A rota as it is lent, with any bits past the last slot, and now and then more room than needed.
#[derive(Clone)]
pub struct LentRota {
    pub people: usize,
    pub units: usize,
    pub starts: Vec<u32>,
    pub ends: Vec<u32>,
    pub avail: Vec<u64>,
    pub unit_starts: Vec<u16>,
    pub frozen: Vec<u64>,
    pub owners: Vec<u8>,
    pub sets: Vec<u64>,
    pub minutes: Vec<u64>,
    pub totals: Vec<u64>,
    pub count: usize,
    pub draws: Vec<Draw>,
    pub answers: Vec<u8>,
}

impl LentRota {
    pub fn new(seed: &mut Seed, case: &RotaCase) -> Self {
        let problem = &case.problem;
        let people = problem.human_count();
        let slots = problem.slot_count();
        let spare = seed.below(2) as usize;
        let (starts, ends) = slots_of(problem);
        let unit_starts = unit_starts_of(problem);
        let mut words = |sets: usize| -> Vec<u64> { (0..SET_WORDS * sets + spare).map(|_| seed.word()).collect() };
        let (mut avail, mut frozen, mut sets) = (words(people), words(1), words(people));
        availability_into(problem, &mut avail);
        for slot in 0..slots {
            put_bit(&mut frozen, 0, slot, problem.is_frozen(slot));
        }
        sets_into(&mut sets, people, &case.owners);
        let begun = played(problem, &case.assignment(&case.owners), vec![]);
        let mut bytes = |list: &[u8]| [list, &vec![seed.word() as u8; spare]].concat();
        let owners = bytes(&case.owners);
        let answers = bytes(&vec![9; case.draws.len()]);
        let minutes = [&begun.minutes[..], &vec![seed.word(); spare]].concat();
        let past: Vec<u64> = (0..seed.below(3)).map(|_| seed.word()).collect();
        Self {
            people,
            units: unit_starts.len(),
            starts,
            ends,
            avail,
            unit_starts,
            frozen,
            owners,
            sets,
            minutes,
            totals: [&begun.totals[..], &past].concat(),
            count: case.draws.len(),
            draws: case.draws.clone(),
            answers,
        }
    }

    /// The draws as three columns.
    pub fn columns(&self) -> [Vec<u16>; 3] {
        let numbers: [fn(&Draw) -> u16; 3] = [|draw| draw.0, |draw| draw.1, |draw| draw.2];
        numbers.map(|number| self.draws.iter().map(number).collect())
    }

    /// A play, of draws in three columns and of the same draws as structs: what both leave, or a refusal that leaves everything as it was.
    pub fn plays(&self, due: Result<&Played, u64>) -> Vec<Question> {
        let mut after = self.clone();
        let mut result = 0;
        match due {
            Ok(end) => {
                after.hold(end);
                after.answers[..end.answers.len()].copy_from_slice(&end.answers);
            }
            Err(number) => result = number,
        }
        let due = Outcome {
            result,
            written: [after.buffers(), vec![after.answers]].concat(),
        };
        let columns = self.columns().map(|column| Arg::Lent(2, bytes16(&column))).to_vec();
        let numbers: Vec<u16> = self.draws.iter().flat_map(|draw| [draw.0, draw.1, draw.2]).collect();
        let structs = vec![Arg::Lent(6, bytes16(&numbers))];
        let rota = self.rota_args(Arg::LentMut).to_vec();
        let ways = [("boltraven_play", columns), ("boltraven_play_draws", structs)];
        ways.into_iter()
            .map(|(function, draws)| Question {
                function,
                args: [self.board(), draws, rota.clone(), vec![Arg::LentMut(1, self.answers.clone())]].concat(),
                due: due.clone(),
            })
            .collect()
    }

    /// What a play takes before its draws and its rota.
    pub fn board(&self) -> Vec<Arg> {
        vec![
            Arg::Number(self.people as u64),
            Arg::Number(self.starts.len() as u64),
            Arg::Number(self.units as u64),
            Arg::Number(self.count as u64),
            Arg::Lent(4, bytes32(&self.starts)),
            Arg::Lent(4, bytes32(&self.ends)),
            Arg::Lent(8, bytes64(&self.avail)),
            Arg::Lent(2, bytes16(&self.unit_starts)),
            Arg::Lent(8, bytes64(&self.frozen)),
        ]
    }

    /// Owners, sets, minutes and totals as they are passed, to be read alone or to be written.
    pub fn rota_args(&self, lent: fn(usize, Vec<u8>) -> Arg) -> [Arg; 4] {
        [
            lent(1, self.owners.clone()),
            lent(8, bytes64(&self.sets)),
            lent(8, bytes64(&self.minutes)),
            lent(8, bytes64(&self.totals)),
        ]
    }

    /// Owners, sets, minutes and totals as bytes.
    pub fn buffers(&self) -> Vec<Vec<u8>> {
        vec![
            self.owners.clone(),
            bytes64(&self.sets),
            bytes64(&self.minutes),
            bytes64(&self.totals),
        ]
    }

    /// Puts another rota in the place of this one: what lies past its slots, people and totals stays.
    pub fn hold(&mut self, rota: &Played) {
        self.owners[..rota.owners.len()].copy_from_slice(&rota.owners);
        sets_into(&mut self.sets, self.people, &rota.owners);
        self.minutes[..rota.minutes.len()].copy_from_slice(&rota.minutes);
        self.totals[..TOTALS].copy_from_slice(&rota.totals);
    }
}

/// Everybody's set of slots, by the owners; bits past the last slot stay.
pub fn sets_into(words: &mut [u64], people: usize, owners: &[u8]) {
    for person in 0..people {
        for (slot, &owner) in owners.iter().enumerate() {
            put_bit(words, person, slot, usize::from(owner) == person);
        }
    }
}

impl LentRota {
    /// What every entry on a rota takes first.
    pub fn plan_args(&self) -> Vec<Arg> {
        vec![
            Arg::Number(self.people as u64),
            Arg::Number(self.starts.len() as u64),
            Arg::Lent(4, bytes32(&self.starts)),
            Arg::Lent(4, bytes32(&self.ends)),
        ]
    }

    /// Sets, minutes and totals from owners, over whatever stood there; or a refusal that leaves it.
    pub fn made_from_slots(&self, seed: &mut Seed, case: &RotaCase, number: u64) -> Question {
        let mut rota = self.clone();
        rota.sets.fill_with(|| seed.word());
        rota.minutes.fill_with(|| seed.word());
        rota.totals.fill_with(|| seed.word());
        let mut args = self.plan_args();
        args.extend([
            Arg::Lent(8, bytes64(&self.avail)),
            Arg::Lent(1, self.owners.clone()),
            Arg::LentMut(8, bytes64(&rota.sets)),
            Arg::LentMut(8, bytes64(&rota.minutes)),
            Arg::LentMut(8, bytes64(&rota.totals)),
        ]);
        if number == 0 {
            rota.hold(&played(&case.problem, &case.assignment(&case.owners), vec![]));
        }
        Question {
            function: "boltraven_from_slots",
            args,
            due: Outcome {
                result: number,
                written: rota.buffers().split_off(1),
            },
        }
    }

    /// A slot assigned to somebody or cleared, on a rota of which the recount without units gives this number: any slot and owner, the
    /// slot's own owner again, or a slot of nobody's to one who is available for it.
    pub fn assign(&self, seed: &mut Seed, case: &RotaCase, recount: u64) -> Question {
        let slots = self.starts.len();
        let slot = if seed.one_in(12) {
            slots + seed.below(3) as usize
        } else {
            seed.below(slots as u64) as usize
        };
        let domains = &case.problem.domains;
        let open = |slot: &usize| self.owners.get(*slot) == Some(&NOBODY) && !domains[*slot].is_empty();
        let (slot, owner) = match seed.below(10) {
            0 => (slot, NOBODY),
            1 if seed.one_in(3) => (slot, self.people as u8),
            2 if slot < self.owners.len() => (slot, self.owners[slot]),
            3 => match (0..slots).find(open) {
                Some(slot) => (slot, seed.pick(&domains[slot]) as u8),
                None => (slot, NOBODY),
            },
            _ => (slot, seed.below(self.people.max(1) as u64) as u8),
        };
        self.assigned(case, slot, owner, recount).0
    }

    /// A slot that somebody is available for, cleared, cleared again, filled, filled again, and given to whoever comes next: each on what
    /// the one before left.
    pub fn assigns_in_turn(&self, seed: &mut Seed, case: &RotaCase) -> Vec<Question> {
        let from = seed.below(self.starts.len() as u64) as usize;
        let domains = &case.problem.domains;
        let Some(slot) = (from..domains.len()).find(|&slot| !domains[slot].is_empty()) else {
            return vec![];
        };
        let (one, next) = (seed.pick(&domains[slot]) as u8, seed.pick(&domains[slot]) as u8);
        let mut rota = self.clone();
        let mut asked = Vec::new();
        for owner in [NOBODY, NOBODY, one, one, next] {
            let (question, after) = rota.assigned(case, slot, owner, 0);
            asked.push(question);
            rota = after;
        }
        asked
    }

    /// A slot assigned, and the rota after it. The Rust has no answer for one who is not available, or an unknown one or slot: 12, 11.
    fn assigned(&self, case: &RotaCase, slot: usize, owner: u8, recount: u64) -> (Question, Self) {
        let slots = self.starts.len();
        let person = usize::from(owner);
        let number = if recount > 0 {
            recount
        } else if slot >= slots || (owner != NOBODY && person >= self.people) {
            11
        } else if owner != NOBODY && !case.problem.is_available(person, slot) {
            12
        } else {
            0
        };
        let mut args = self.plan_args();
        args.push(Arg::Lent(8, bytes64(&self.avail)));
        args.extend(self.rota_args(Arg::LentMut));
        args.extend([Arg::Number(slot as u64), Arg::Number(u64::from(owner))]);
        let mut after = self.clone();
        if number == 0 {
            let mut assignment = case.assignment(&self.owners[..slots]);
            assignment.assign(&case.problem, slot, (owner != NOBODY).then_some(person));
            after.hold(&played(&case.problem, &assignment, vec![]));
        }
        let due = Outcome {
            result: number,
            written: after.buffers(),
        };
        let function = "boltraven_assign";
        (Question { function, args, due }, after)
    }
}

#[cfg(test)]
mod tests {
    use super::{played, LentRota, RotaCase};
    use crate::limits::NOBODY;
    use crate::seed::Seed;

    /// Plays that fill units of several slots, that fill some and not all of what was open, and totals lent in every length from two to
    /// four: the generators reach them. No play of the Rust raises a total.
    #[test]
    fn open_units_of_several_slots_are_filled() {
        let (mut filled, mut partly, mut lengths) = (0, 0, [0u64; 3]);
        for k in 0..400 {
            let mut seed = Seed::new(k);
            let case = RotaCase::new(&mut seed);
            let (begun, end) = (played(&case.problem, &case.assignment(&case.owners), vec![]), case.play());
            assert!(begun.totals.iter().zip(end.totals).all(|(&before, after)| after <= before));
            let is_filled =
                |unit: &&std::ops::Range<usize>| unit.len() > 1 && case.owners[unit.start] == NOBODY && end.owners[unit.start] != NOBODY;
            filled += case.problem.units.iter().filter(is_filled).count();
            partly += usize::from(0 < end.totals[1] && end.totals[1] < begun.totals[1]);
            lengths[LentRota::new(&mut seed, &case).totals.len() - 2] += 1;
        }
        assert!(filled > 20 && partly > 30, "{filled}, {partly}");
        assert!(lengths.iter().all(|&times| times > 50), "{lengths:?}");
    }

    /// The generators make rotas that the Rust takes, and draws that reach every answer.
    #[test]
    fn every_answer_is_reached() {
        let mut seen = [0u64; 3];
        for k in 0..300 {
            let case = RotaCase::new(&mut Seed::new(k));
            for answer in case.play().answers {
                seen[usize::from(answer)] += 1;
            }
        }
        assert!(seen.iter().all(|&times| times > 100), "{seen:?}");
    }
}
