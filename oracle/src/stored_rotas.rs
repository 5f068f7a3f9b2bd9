//! Records of rotas, in sections: plays, four facts that are easy to get wrong, single assigns, damaged plays, and failed recounts.

use crate::bits::has_bit;
use crate::limits::{DRAWS_MOST, NOBODY, SET_WORDS, TOTALS};
use crate::planted::{some_parts, table, with_faults};
use crate::problems::{unit_starts_of, Person, ProblemCase, Range, Settings};
use crate::recounts::{faults, of_slots, of_units};
use crate::rotas::{played, Draw, Played, RotaCase};
use crate::seed::Seed;
use crate::stored::{filled16, filled32, half, records, Stored};
use crate::table::{failed, lowest, people_ok, words_ok, Slots, Units};

/// People, slots and draws of a record, at most.
const PEOPLE: usize = 4;
const SLOTS: usize = 16;
const DRAWS: usize = 8;

/// Of each section: its records (the first has as many as are asked for), the answers of one record, and what its line says they are of.
const SECTIONS: [(u64, u64, &str); 8] = [
    (0, 5, ""),
    (12, 8, " of unfrozen twins"),
    (12, 7, " of rotas made uneven"),
    (12, 6, " of swaps of unequal units"),
    (12, 6, " of reassigns"),
    (24, 5, " of single assigns"),
    (36, 6, " of damaged rotas"),
    (32, 3, " of failed recounts"),
];

/// Sections, each with its number of records as u16 before them: plays; twins, which act with no slot frozen and are stopped by one unit;
/// rotas that one assign makes uneven; swaps of units of unequal lengths; reassigns that act; single assigns; damaged plays; failed
/// recounts.
///
/// A record is, low byte first: people, slots, units and draws as u16; sixteen starts and sixteen ends as u32; sixteen u16 of the slots at
/// which units begin; four u16 of slots that a person can cover; a u16 of frozen slots; sixteen owners; the three columns of eight u16 of
/// draws; then what the Rust makes of it: eight answers, sixteen owners, four u16 of the slots that a person holds, four u32 of minutes, and
/// two u32 of what nobody owns, in minutes and in slots; then as u16 the slot and the owner of an assign; the number that is due, of 10 with
/// its part, place and second number, and the same of the recount without units; what is held, worked and owned by nobody before it, as u16
/// and u32 of four people and two u32; and u16 of how many owners, words of sets, totals and unit starts are lent. Of three totals the last
/// is past the needed ones.
///
/// The worked example of the totals is in it: the first play, and the first three single assigns.
pub fn rotas(n: u64, run: u64) -> Stored {
    let kinds: [fn(&mut Seed, u64) -> Option<Record>; 8] = [plain, twin, uneven, unequal_swap, reassign, assign, damaged, failing];
    let mut bytes = Vec::new();
    let mut lines = Vec::new();
    for (kind, (count, answers, label)) in kinds.iter().zip(SECTIONS) {
        let count = if count == 0 { n } else { count };
        let name = format!("stored-rotas{label}");
        half(&mut bytes, count as usize);
        records(count, run, &name, |seed, made| {
            let record = kind(seed, made);
            record.iter().for_each(|record| record.write(&mut bytes));
            record.is_some()
        });
        lines.push((answers * count, label));
    }
    Stored { bytes, lines }
}

/// What is lent, and what is due.
struct Record {
    case: RotaCase,
    due: Played,
    people: usize,
    draws: usize,
    slots: Slots,
    units: Units,
    owners: Vec<u8>,
    sets: Vec<u16>,
    minutes: Vec<u64>,
    totals: Vec<u64>,
    slot: usize,
    owner: u8,
    /// The number that is due, with part and places; and of the recount without units.
    number: u64,
    of_slots: u64,
    owners_lent: usize,
    words_lent: usize,
    totals_lent: usize,
}

/// A small rota, its draws cut to those that fit.
fn small(seed: &mut Seed) -> Option<RotaCase> {
    let mut case = RotaCase::new(seed);
    case.draws.truncate(DRAWS);
    let fits = case.problem.slot_count() <= SLOTS && case.problem.human_count() <= PEOPLE;
    fits.then_some(case)
}

impl Record {
    fn new(case: RotaCase, due: Played) -> Self {
        let problem = &case.problem;
        let unit_starts = unit_starts_of(problem);
        let begun = played(problem, &case.assignment(&case.owners), vec![]);
        Self {
            people: problem.human_count(),
            draws: case.draws.len(),
            slots: Slots::of(problem),
            units: Units {
                count: unit_starts.len(),
                unit_starts,
            },
            owners: case.owners.clone(),
            sets: held(problem.human_count(), &case.owners),
            minutes: begun.minutes,
            totals: begun.totals.to_vec(),
            slot: 0,
            owner: NOBODY,
            number: 0,
            of_slots: 0,
            owners_lent: SLOTS,
            words_lent: SET_WORDS * PEOPLE,
            totals_lent: TOTALS + problem.slot_count() % 2,
            case,
            due,
        }
    }

    fn write(&self, bytes: &mut Vec<u8>) {
        let problem = &self.case.problem;
        for count in [self.people, self.slots.count, self.units.count, self.draws] {
            half(bytes, count);
        }
        filled32(bytes, SLOTS, &self.slots.starts, 0);
        filled32(bytes, SLOTS, &self.slots.ends, 0);
        filled16(bytes, SLOTS, &self.units.unit_starts, 0);
        let set = |holds: &dyn Fn(usize) -> bool| -> u16 { (0..problem.slot_count()).map(|slot| u16::from(holds(slot)) << slot).sum() };
        let able: Vec<u16> = (0..problem.human_count())
            .map(|person| set(&|slot| problem.is_available(person, slot)))
            .collect();
        filled16(bytes, PEOPLE, &able, 0);
        filled16(bytes, 1, &[set(&|slot| problem.is_frozen(slot))], 0);
        fill(bytes, SLOTS, &self.owners);
        for number in [|draw: &Draw| draw.0, |draw: &Draw| draw.1, |draw: &Draw| draw.2] {
            let column: Vec<u16> = self.case.draws.iter().map(number).collect();
            filled16(bytes, DRAWS, &column, 0);
        }
        fill(bytes, DRAWS, &self.due.answers);
        fill(bytes, SLOTS, &self.due.owners);
        filled16(bytes, PEOPLE, &held(problem.human_count(), &self.due.owners), 0);
        worked(bytes, &self.due.minutes);
        open(bytes, &self.due.totals);
        half(bytes, self.slot);
        half(bytes, usize::from(self.owner));
        for answer in [self.number, self.of_slots] {
            // number, part, place, second number
            for n in [answer & 255, answer >> 8 & 255, answer >> 16 & 65_535, answer >> 32] {
                half(bytes, n as usize);
            }
        }
        filled16(bytes, PEOPLE, &self.sets, 0);
        worked(bytes, &self.minutes);
        open(bytes, &self.totals);
        for length in [self.owners_lent, self.words_lent, self.totals_lent, self.units.unit_starts.len()] {
            half(bytes, length);
        }
    }
}

/// The slots that each person holds.
fn held(people: usize, owners: &[u8]) -> Vec<u16> {
    let set = |person: usize| {
        let own = owners.iter().enumerate().filter(|(_, &owner)| usize::from(owner) == person);
        own.map(|(slot, _)| 1u16 << slot).sum()
    };
    (0..people).map(set).collect()
}

fn worked(bytes: &mut Vec<u8>, minutes: &[u64]) {
    let column: Vec<u32> = minutes.iter().map(|&minutes| minutes as u32).collect();
    filled32(bytes, PEOPLE, &column, 0);
}

fn open(bytes: &mut Vec<u8>, totals: &[u64]) {
    let both: Vec<u32> = totals.iter().map(|&total| total as u32).collect();
    filled32(bytes, TOTALS, &both, 0);
}

/// Bytes, with zeros up to a count.
fn fill(bytes: &mut Vec<u8>, count: usize, list: &[u8]) {
    bytes.extend(list.iter().copied().chain(std::iter::repeat(0)).take(count));
}

/// A play; most of them act, since one that only stays put tells little. One in eight ends with a shift whose second is above 1: choice
/// outside. The first is the last step of the totals' worked example.
fn plain(seed: &mut Seed, made: u64) -> Option<Record> {
    if made == 0 {
        let mut case = open_slots([NOBODY, 1]);
        case.draws = vec![(0, 0, 0)];
        let end = case.play();
        return Some(Record::new(case, end));
    }
    let mut case = small(seed)?;
    let shifts = made % 8 == 1;
    if shifts {
        case.draws.truncate(DRAWS - 1);
        let unit = one_of(seed, case.problem.unit_count());
        case.draws.push((seed.within(90, 99) as u16, unit, seed.pick(&[2, 3, 65_535])));
    }
    let end = case.play();
    let outside = !shifts || end.answers.last() == Some(&2);
    (outside && (end.answers.contains(&0) || made % 4 == 0)).then(|| Record::new(case, end))
}

/// The totals' worked example: slots of one and two hours, each a unit, and two people who can cover both.
fn open_slots(owners: [u8; 2]) -> RotaCase {
    let range = |person| Range {
        person,
        start: 0,
        end: 180,
    };
    let case = ProblemCase {
        base: vec![(0, 60), (60, 180)],
        ranges: vec![range(0), range(1)],
        people: vec![Person::PLAIN; 2],
        settings: Settings::PLAIN,
    };
    RotaCase {
        problem: case.rust(),
        owners: owners.to_vec(),
        draws: vec![],
    }
}

/// Its single assigns: the second slot filled, the first cleared, and cleared again.
const FILLED_AND_CLEARED: [([u8; 2], usize, u8); 3] = [([0, NOBODY], 1, 1), ([0, 1], 0, NOBODY), ([NOBODY, 1], 0, NOBODY)];

/// Marked case 12, but with no slot frozen yet: two units, owners 0 and 1, draw (35, 0, 1).
fn case_12() -> RotaCase {
    let base = vec![(0, 60), (60, 120)];
    let range = |person| Range {
        person,
        start: 0,
        end: 120,
    };
    let case = ProblemCase {
        base,
        ranges: vec![range(0), range(1)],
        people: vec![Person::PLAIN; 2],
        settings: Settings::PLAIN,
    };
    RotaCase {
        problem: case.rust(),
        owners: vec![0, 1],
        draws: vec![(35, 0, 1)],
    }
}

/// A draw that acts where nothing is frozen, and answers 1 where a unit is frozen that it doesn't name first: the second of a swap, one
/// inside a run, the one before a run that grows. The record has the frozen flags, and what is due of its twin without them. The first is
/// marked case 12.
fn twin(seed: &mut Seed, made: u64) -> Option<Record> {
    let mut case = if made == 0 { case_12() } else { small(seed)? };
    if made > 0 {
        case.problem.frozen.fill(false);
        case.draws = vec![stoppable(seed, case.problem.unit_count(), made)];
    }
    let end = case.play();
    let first = usize::from(case.draws[0].1);
    let others: Vec<usize> = (0..case.problem.unit_count()).filter(|&unit| unit != first).collect();
    let stopping: Vec<usize> = others.into_iter().filter(|&unit| is_stopped_by(&mut case, unit)).collect();
    let tells = end.answers == [0] && !stopping.is_empty();
    assert!(made > 0 || tells, "the Rust takes marked case 12 as the paper says");
    if !tells {
        return None;
    }
    let unit = case.problem.units[seed.pick(&stopping)].clone();
    case.problem.frozen[unit.start + seed.below(unit.len() as u64) as usize] = true;
    Some(Record::new(case, end))
}

/// A draw of one of the four moves that a frozen unit besides the first can stop, by turns.
fn stoppable(seed: &mut Seed, units: usize, made: u64) -> Draw {
    let first = one_of(seed, units);
    let (draw, second) = match made % 4 {
        0 => (seed.within(35, 59), one_of(seed, units)),
        1 => (seed.within(60, 74), seed.below(PEOPLE as u64) as u16),
        2 => (seed.within(75, 89), one_of(seed, units)),
        _ => (seed.within(90, 99), seed.below(2) as u16),
    };
    (draw as u16, first, second)
}

/// Whether the draw answers 1 and nothing changes once this unit, and no other, is frozen.
fn is_stopped_by(case: &mut RotaCase, unit: usize) -> bool {
    let slot = case.problem.units[unit].start;
    case.problem.frozen[slot] = true;
    let stays = case.play();
    case.problem.frozen[slot] = false;
    stays.answers == [1] && stays.owners == case.owners
}

fn one_of(seed: &mut Seed, units: usize) -> u16 {
    seed.below(units as u64) as u16
}

/// A unit of several slots, of which an assign gives one to another person or to nobody: what is due is the rota after the assign, and of the
/// next play 10.3 with the unit.
fn uneven(seed: &mut Seed, _: u64) -> Option<Record> {
    let case = small(seed)?;
    let long = case.problem.units.iter().find(|unit| unit.len() > 1)?;
    let slot = long.start + seed.below(long.len() as u64) as usize;
    let others = case.problem.domains[slot].iter().map(|&person| person as u8).chain([NOBODY]);
    let others: Vec<u8> = others.filter(|&owner| owner != case.owners[slot]).collect();
    let owner = *others.first()?;
    let unit = case.problem.units.iter().position(|unit| unit.contains(&slot))?;
    let mut record = assigned(case, slot, owner);
    // the assign is accepted, and the next play is not
    record.number = failed(3, unit, 0);
    Some(record)
}

/// One slot assigned: an unknown slot or owner is 11, one who is not available 12. The first are the totals' worked example.
fn assign(seed: &mut Seed, made: u64) -> Option<Record> {
    if let Some(&(owners, slot, owner)) = FILLED_AND_CLEARED.get(made as usize) {
        return Some(assigned(open_slots(owners), slot, owner));
    }
    let case = small(seed)?;
    let (people, slots) = (case.problem.human_count(), case.problem.slot_count());
    let slot = seed.below(slots as u64 + 1) as usize;
    let owner = if seed.one_in(4) {
        NOBODY
    } else {
        seed.below(people as u64 + 1) as u8
    };
    Some(assigned(case, slot, owner))
}

fn assigned(case: RotaCase, slot: usize, owner: u8) -> Record {
    let (problem, person) = (&case.problem, usize::from(owner));
    let known = slot < problem.slot_count() && (owner == NOBODY || person < problem.human_count());
    let fit = !known || owner == NOBODY || problem.is_available(person, slot);
    let number = lowest(&[(11, known), (12, fit)]);
    let mut assignment = case.assignment(&case.owners);
    if number == 0 {
        assignment.assign(problem, slot, (owner != NOBODY).then_some(person));
    }
    let due = played(problem, &assignment, vec![]);
    let mut record = Record::new(case, due);
    (record.slot, record.owner, record.number) = (slot, owner, number);
    record
}

/// A swap that acts, of two units of unequal lengths.
fn unequal_swap(seed: &mut Seed, _: u64) -> Option<Record> {
    let mut case = small(seed)?;
    let units = case.problem.unit_count();
    let (first, second) = (one_of(seed, units), one_of(seed, units));
    let minutes = |unit: u16| {
        case.problem.units[usize::from(unit)]
            .clone()
            .map(|slot| case.problem.slot_minutes[slot])
    };
    if minutes(first).sum::<i64>() == minutes(second).sum::<i64>() {
        return None;
    }
    case.draws = vec![(seed.within(35, 59) as u16, first, second)];
    let end = case.play();
    (end.answers == [0]).then(|| Record::new(case, end))
}

/// A reassign that acts.
fn reassign(seed: &mut Seed, _: u64) -> Option<Record> {
    let mut case = small(seed)?;
    let unit = one_of(seed, case.problem.unit_count());
    case.draws = vec![(seed.below(35) as u16, unit, seed.below(PEOPLE as u64) as u16)];
    let end = case.play();
    (end.answers == [0]).then(|| Record::new(case, end))
}

/// Rules that damage breaks.
const RULES: u64 = 11;

/// A play with one fault or two: what is due is the lowest of their numbers, and everything lent as it was.
fn damaged(seed: &mut Seed, _: u64) -> Option<Record> {
    let case = small(seed)?;
    let slots = case.problem.slot_count();
    let stays = played(&case.problem, &case.assignment(&case.owners), vec![]);
    let mut record = Record::new(case, stays);
    let mut recount = Vec::new();
    let people = record.people;
    let first = seed.below(RULES);
    // a second fault is of another rule, so that it can't undo the first
    let second = (first + seed.below(RULES)) % RULES;
    for rule in [first, second].into_iter().take(if first == second { 1 } else { 2 }) {
        let (slot, person) = (seed.below(slots as u64) as usize, seed.below(people as u64) as usize);
        let total = seed.below(TOTALS as u64) as usize;
        record.damage(seed, rule, slot, person, total);
        recount.extend(match rule {
            4 => Some((1, slot, 0)),
            5 => Some((4, person, slot)),
            6 => Some((5, person, 0)),
            9 => Some((6, total, 0)),
            _ => None,
        });
    }
    let room = record.slots.count <= record.owners_lent && words_ok(record.people, record.words_lent) && TOTALS <= record.totals_lent;
    record.number = lowest(&[
        (1, people_ok(record.people) && record.slots.count_ok() && record.draws <= DRAWS_MOST),
        (2, room),
        (9, record.slots.ok() && record.units.ok(record.slots.count)),
        (10, recount.is_empty()),
    ]);
    if let (10, Some(&(part, place, second))) = (record.number, recount.iter().min()) {
        record.number = failed(part, place, second);
    }
    (record.number > 0).then_some(record)
}

/// A rota that fails the recount: those of the table first, then faults of one part, two and three, in one place or two each.
fn failing(seed: &mut Seed, made: u64) -> Option<Record> {
    let (case, rota) = match table().into_iter().nth(made as usize) {
        Some(row) => row,
        None => {
            let case = small(seed)?;
            let parts = some_parts(seed);
            let rota = with_faults(seed, &case, &parts)?;
            (case, rota)
        }
    };
    let faults = faults(&case, &rota);
    let (people, slots) = (rota.people, case.problem.slot_count());
    let stays = played(&case.problem, &case.assignment(&case.owners), vec![]);
    let mut record = Record::new(case, stays);
    record.owners = rota.owners[..slots].to_vec();
    let set = |person: usize| (0..slots).map(|slot| u16::from(has_bit(&rota.sets, person, slot)) << slot).sum();
    record.sets = (0..people).map(set).collect();
    record.minutes = rota.minutes[..people].to_vec();
    record.totals = rota.totals[..TOTALS].to_vec();
    (record.number, record.of_slots) = (of_units(&faults), of_slots(&faults));
    // minutes and totals are stored as u32
    let fits = record
        .minutes
        .iter()
        .chain(&record.totals)
        .all(|&figure| u32::try_from(figure).is_ok());
    fits.then_some(record)
}

impl Record {
    /// Breaks a rule: 4 to 6, and 9, are those of the recount.
    fn damage(&mut self, seed: &mut Seed, rule: u64, slot: usize, person: usize, total: usize) {
        match rule {
            0 => self.people = seed.pick(&[0, 33, 65_535]),
            1 => self.draws = seed.pick(&[DRAWS_MOST + 1, 65_535]),
            2 => self.owners_lent = slot,
            3 => self.words_lent = SET_WORDS * self.people.clamp(1, PEOPLE) - 1,
            4 => self.owners[slot] = PEOPLE as u8 + seed.below(250) as u8,
            5 => self.sets[person] ^= 1 << slot,
            6 => self.minutes[person] ^= 1 << seed.below(31),
            7 => self.units.unit_starts[0] = 1,
            8 => self.slots.ends[slot] = self.slots.starts[slot],
            9 => self.totals[total] ^= 1 << seed.below(31),
            _ => self.totals_lent = total,
        }
    }
}

#[cfg(test)]
mod tests {
    use super::{assigned, open_slots, FILLED_AND_CLEARED};
    use crate::limits::NOBODY;

    /// The worked example by hand: minutes and totals after each step.
    #[test]
    fn totals_follow_the_example() {
        let due = [([60, 120], [0, 0]), ([0, 120], [60, 1]), ([0, 120], [60, 1])];
        for ((owners, slot, owner), (minutes, totals)) in FILLED_AND_CLEARED.into_iter().zip(due) {
            let record = assigned(open_slots(owners), slot, owner);
            assert_eq!(
                (record.number, &record.due.minutes[..], record.due.totals),
                (0, &minutes[..], totals)
            );
        }
        let begun = open_slots([0, NOBODY]).play();
        assert_eq!((&begun.minutes[..], begun.totals), (&[60, 0][..], [120, 1]));
        let mut case = open_slots([NOBODY, 1]);
        case.draws = vec![(0, 0, 0)];
        let end = case.play();
        assert_eq!((&end.answers[..], &end.minutes[..], end.totals), (&[0][..], &[60, 120][..], [0, 0]));
    }

    #[test]
    fn records_have_one_size() {
        assert_eq!(super::rotas(7, 1).bytes.len(), 8 * 2 + (7 + 4 * 12 + 24 + 36 + 32) * 358);
    }
}
