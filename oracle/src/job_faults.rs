//! Jobs that must be refused: every way to earn a number of the paper's table by a job file, alone or two together.

use crate::call::bytes16;
use crate::job_cases::JobCase;
use crate::job_files::numbers;
use crate::job_records::{file_of, Record, FREEZE, OWNER, SETTINGS};
use crate::limits::{DRAWS_MOST, FILE_MOST, MINUTES_MOST, NOBODY, PEOPLE_MOST, RANGES_MOST, SLOTS_MOST};
use crate::problems::{Person, Range};
use crate::rotas::owners;
use crate::seed::Seed;

/// What a fault changes: what the job says, its records, or its bytes. Each answers whether this job could be given the fault.
#[derive(Clone, Copy)]
enum Change {
    Said(fn(&mut Seed, &mut JobCase) -> bool),
    Laid(fn(&mut Seed, &mut Vec<Record>) -> bool),
    Bytes(fn(&mut Seed, &mut Vec<u8>) -> bool),
}

/// A fault: its name, the number that it earns, and how it is made.
#[derive(Clone, Copy)]
pub struct Fault {
    pub name: &'static str,
    pub number: u8,
    change: Change,
}

const fn said(number: u8, name: &'static str, make: fn(&mut Seed, &mut JobCase) -> bool) -> Fault {
    let change = Change::Said(make);
    Fault { name, number, change }
}

const fn laid(name: &'static str, make: fn(&mut Seed, &mut Vec<Record>) -> bool) -> Fault {
    let change = Change::Laid(make);
    Fault { name, number: 13, change }
}

const fn bytes(name: &'static str, make: fn(&mut Seed, &mut Vec<u8>) -> bool) -> Fault {
    let change = Change::Bytes(make);
    Fault { name, number: 13, change }
}

/// Every fault, in the order in which two of them are made: those of owners on slots that are still sound, the layout last.
pub const FAULTS: [Fault; 47] = [
    said(10, "uneven unit", |seed, job| uneven_units(seed, job, 1)),
    said(10, "uneven units", |seed, job| uneven_units(seed, job, 2)),
    said(11, "slot not below the count", slot_past_the_end),
    said(11, "unknown owner", unknown_owner),
    said(12, "owner not available", unavailable_owner),
    said(7, "fairness", |seed, job| {
        put(&mut job.problem.settings.fairness, seed.within(2, 255) as u8)
    }),
    said(7, "lock", |seed, job| {
        put(&mut job.problem.settings.lock, seed.within(2, 255) as u8)
    }),
    said(7, "boundary", |seed, job| {
        put(&mut job.problem.settings.boundary, seed.within(2, 255) as u8)
    }),
    said(7, "edition", |seed, job| {
        put(&mut job.problem.settings.edition, seed.within(2, 255) as u8)
    }),
    said(7, "every-count or mask", value_above),
    said(7, "shift days", |seed, job| {
        put(&mut job.problem.settings.days, above(seed, 366) as u16)
    }),
    said(6, "capacity not a number", |seed, job| capacity(seed, job, not_a_number)),
    said(6, "capacity below 0", |seed, job| {
        capacity(seed, job, |seed| -f64::from_bits(seed.within(1, f64::MAX.to_bits() + 1)))
    }),
    said(6, "capacity above 1,000", |seed, job| {
        capacity(seed, job, |seed| f64::from_bits(1000f64.to_bits() + 1 + seed.below(1 << 20)))
    }),
    said(6, "capacity not finite", |seed, job| {
        capacity(seed, job, |seed| seed.pick(&[f64::INFINITY, f64::NEG_INFINITY]))
    }),
    said(6, "prior minutes", |seed, job| {
        put(&mut person(seed, job).prior, minute_above(seed))
    }),
    said(5, "too many atomic slots", too_many_slots),
    said(4, "range reversed", |seed, job| {
        let range = a_range(seed, job);
        range.start = range.start.max(1);
        put(&mut range.end, range.start - 1)
    }),
    said(4, "range too late", |seed, job| {
        put(&mut a_range(seed, job).end, minute_above(seed))
    }),
    said(4, "range of an unknown person", |seed, job| {
        let people = job.problem.people.len() as u64;
        let unknown = seed.pick(&[people, people + 1, 255, 256, 65_535]).max(people) as usize;
        put(&mut a_range(seed, job).person, unknown)
    }),
    said(4, "empty range of an unknown person", |_, job| {
        let (person, start, end) = (job.problem.people.len(), 60, 60);
        job.problem.ranges.truncate(RANGES_MOST - 1);
        job.problem.ranges.push(Range { person, start, end });
        true
    }),
    said(3, "base slot empty", |seed, job| {
        let slot = base(seed, job);
        put(&mut slot.1, slot.0)
    }),
    said(3, "base slot reversed", |seed, job| {
        let slot = base(seed, job);
        std::mem::swap(&mut slot.0, &mut slot.1);
        true
    }),
    said(3, "base slot too late", |seed, job| {
        let last = job.problem.base.len() - 1;
        put(&mut job.problem.base[last].1, minute_above(seed))
    }),
    said(3, "base slot before the previous end", |seed, job| {
        let slots = &mut job.problem.base;
        let k = seed.below(slots.len() as u64) as usize;
        let early = slots[k.saturating_sub(1)].1.saturating_sub(1);
        k > 0 && put(&mut slots[k].0, early)
    }),
    said(1, "no base slots", |_, job| emptied(&mut job.problem.base)),
    said(1, "too many base slots", |_, job| {
        let slots = (0..=SLOTS_MOST as u32).map(|k| (2 * k, 2 * k + 1));
        put(&mut job.problem.base, slots.collect())
    }),
    said(1, "no people", |_, job| emptied(&mut job.problem.people)),
    said(1, "too many people", |seed, job| {
        let most = PEOPLE_MOST + 1 + seed.below(3) as usize;
        job.problem.people.resize(most, Person::PLAIN);
        true
    }),
    said(1, "too many ranges", |seed, job| {
        let range = *a_range(seed, job);
        job.problem.ranges.resize(RANGES_MOST + 1 + seed.below(3) as usize, range);
        true
    }),
    said(1, "too many draws", |seed, job| {
        job.draws.resize(DRAWS_MOST + 1 + seed.below(3) as usize, (0, 0, 0));
        true
    }),
    laid("no settings", |_, records| {
        records.remove(0);
        true
    }),
    laid("settings twice", |_, records| twice(records, SETTINGS)),
    laid("freeze twice", |_, records| twice(records, FREEZE)),
    laid("owner slot twice", |_, records| twice(records, OWNER)),
    laid("owner slots fall", |seed, records| {
        exchange(seed, records, |first, second| first == OWNER && second == OWNER)
    }),
    laid("kinds fall", |seed, records| {
        exchange(seed, records, |first, second| first != second)
    }),
    laid("kind 0", |seed, records| {
        records.insert(0, (0, some_bytes(seed)));
        true
    }),
    laid("unknown kind", |seed, records| {
        records.push((seed.pick(&[8, 9, 255, 256, 257, 65_535]), some_bytes(seed)));
        true
    }),
    laid("body too long", |seed, records| {
        let more = seed.word() as u8;
        any_record(seed, records).1.push(more);
        true
    }),
    laid("body too short", |seed, records| any_record(seed, records).1.pop().is_some()),
    laid("body missing", |seed, records| emptied(&mut any_record(seed, records).1)),
    laid("too many bytes", too_many_bytes),
    bytes("no bytes", |_, file| emptied(file)),
    bytes("cut", |seed, file| {
        // every record has eight bytes or more
        let keep = file.len().saturating_sub(seed.within(1, 7) as usize);
        file.truncate(keep);
        true
    }),
    bytes("bytes left over", |seed, file| {
        file.extend((0..seed.within(1, 3)).map(|_| seed.pick(&[0, 1, 255])));
        true
    }),
    bytes("body length one off", |seed, file| {
        file[0] ^= seed.pick(&[1, 2, 4, 128]);
        true
    }),
];

/// Puts a value; a fault that is made.
fn put<T>(place: &mut T, value: T) -> bool {
    *place = value;
    true
}

fn emptied<T>(list: &mut Vec<T>) -> bool {
    let some = !list.is_empty();
    list.clear();
    some
}

/// A number of 16 bits above another, often the next.
fn above(seed: &mut Seed, most: u64) -> u64 {
    seed.pick(&[most + 1, most + 2, 65_535])
}

fn minute_above(seed: &mut Seed) -> u32 {
    seed.pick(&[MINUTES_MOST as u32 + 1, MINUTES_MOST as u32 + 2, 1 << 31, u32::MAX])
}

fn some_bytes(seed: &mut Seed) -> Vec<u8> {
    (0..seed.below(14)).map(|_| seed.word() as u8).collect()
}

// ---- counts, slots, ranges, figures and settings

fn base<'a>(seed: &mut Seed, job: &'a mut JobCase) -> &'a mut (u32, u32) {
    let k = seed.below(job.problem.base.len() as u64) as usize;
    &mut job.problem.base[k]
}

fn person<'a>(seed: &mut Seed, job: &'a mut JobCase) -> &'a mut Person {
    let k = seed.below(job.problem.people.len() as u64) as usize;
    &mut job.problem.people[k]
}

/// Any range, or a new one where there is none.
fn a_range<'a>(seed: &mut Seed, job: &'a mut JobCase) -> &'a mut Range {
    let ranges = &mut job.problem.ranges;
    if ranges.is_empty() {
        let (person, start, end) = (0, 60, 120);
        ranges.push(Range { person, start, end });
    }
    let k = seed.below(ranges.len() as u64) as usize;
    &mut ranges[k]
}

fn capacity(seed: &mut Seed, job: &mut JobCase, make: fn(&mut Seed) -> f64) -> bool {
    put(&mut person(seed, job).capacity, make(seed))
}

/// Any pattern that is not a number: quiet or signalling, of either sign.
fn not_a_number(seed: &mut Seed) -> f64 {
    let sign = seed.below(2) << 63;
    let payload = seed.pick(&[1, 1 << 51, (1 << 52) - 1, (1 << 51) + 1]);
    f64::from_bits(sign | 0x7ff0_0000_0000_0000 | payload)
}

fn value_above(seed: &mut Seed, job: &mut JobCase) -> bool {
    let settings = &mut job.problem.settings;
    let most = if settings.boundary == 0 { 1024 } else { 127 };
    put(&mut settings.value, above(seed, most) as u16)
}

/// One base slot that ranges of one person cut 1,024 times or more: 1,025 slots, or more.
fn too_many_slots(seed: &mut Seed, job: &mut JobCase) -> bool {
    let (first, gap) = (seed.below(1000) as u32, seed.within(1, 1000) as u32);
    let ranges = seed.pick(&[512, 512, 512, 513, 1024]);
    job.problem.base = vec![(first, first + (2 * ranges + 1) * gap)];
    let at = |k: u32| first + k * gap;
    let cut = |k| Range {
        person: 0,
        start: at(2 * k + 1),
        end: at(2 * k + 2),
    };
    job.problem.ranges = (0..ranges).map(cut).collect();
    true
}

// ---- owners

/// The owner that is written for a slot.
fn owner_of(job: &JobCase, slot: usize) -> u16 {
    let found = job.owners.iter().find(|record| usize::from(record.0) == slot);
    found.map_or(u16::from(NOBODY), |record| record.1)
}

/// Writes the owner of some slots.
fn give(job: &mut JobCase, slots: std::ops::Range<usize>, owner: u16) {
    job.owners.retain(|record| !slots.contains(&usize::from(record.0)));
    job.owners.extend(slots.map(|slot| (slot as u16, owner)));
    job.owners.sort_unstable();
}

/// Units whose slots have two owners each, of whom one may be nobody, unknown or not available.
fn uneven_units(seed: &mut Seed, job: &mut JobCase, count: usize) -> bool {
    let settings = &mut job.problem.settings;
    (settings.lock, settings.boundary) = (1, 0);
    settings.value = seed.within(2, 4) as u16;
    let Some(problem) = job.problem.rust_within() else {
        return false;
    };
    let all = owners(seed, &problem);
    job.owners = (0..all.len()).map(|slot| (slot as u16, u16::from(all[slot]))).collect();
    let mut wide: Vec<usize> = (0..problem.unit_count()).filter(|&unit| problem.units[unit].len() > 1).collect();
    let mut made = wide.len() >= count;
    for _ in 0..count.min(wide.len()) {
        let unit = wide.remove(seed.below(wide.len() as u64) as usize);
        made &= give_a_slot(seed, job, problem.units[unit].clone(), problem.human_count());
    }
    made
}

/// One slot of a unit to another owner.
fn give_a_slot(seed: &mut Seed, job: &mut JobCase, unit: std::ops::Range<usize>, people: usize) -> bool {
    let slot = seed.within(unit.start as u64, unit.end as u64 - 1) as usize;
    let people = people as u64;
    let other = seed.pick(&[0, people - 1, people, u64::from(NOBODY), 256, 511]) as u16;
    if other == owner_of(job, slot) {
        return false;
    }
    give(job, slot..slot + 1, other);
    true
}

fn slot_past_the_end(seed: &mut Seed, job: &mut JobCase) -> bool {
    let Some(problem) = job.problem.rust_within() else {
        return false;
    };
    let count = problem.slot_count();
    let slot = seed.pick(&[count, count + 1, SLOTS_MOST, 65_535]).max(count);
    let owner = seed.pick(&[0, u16::from(NOBODY), 65_535]);
    give(job, slot..slot + 1, owner);
    true
}

/// A whole unit of an owner who is not below the number of people. Only 255 is nobody: 256 is not 0.
fn unknown_owner(seed: &mut Seed, job: &mut JobCase) -> bool {
    let Some(problem) = job.problem.rust_within() else {
        return false;
    };
    let unit = seed.pick(&(0..problem.unit_count()).collect::<Vec<usize>>());
    let people = problem.human_count() as u16;
    let unknown = seed.pick(&[people, people + 1, 254, 256, 256 + people - 1, 511, 65_535]);
    give(job, problem.units[unit].clone(), unknown);
    true
}

/// A whole unit of somebody who is not available for all its slots.
fn unavailable_owner(seed: &mut Seed, job: &mut JobCase) -> bool {
    let Some(problem) = job.problem.rust_within() else {
        return false;
    };
    let unit = seed.below(problem.unit_count() as u64) as usize;
    let unfit: Vec<usize> = (0..problem.human_count())
        .filter(|person| !problem.unit_domains[unit].contains(person))
        .collect();
    if unfit.is_empty() {
        return false;
    }
    let person = seed.pick(&unfit) as u16;
    give(job, problem.units[unit].clone(), person);
    true
}

// ---- the layout

fn any_record<'a>(seed: &mut Seed, records: &'a mut [Record]) -> &'a mut Record {
    let k = seed.below(records.len() as u64) as usize;
    &mut records[k]
}

/// The first record of a kind once more.
fn twice(records: &mut Vec<Record>, kind: u16) -> bool {
    let place = records.iter().position(|record| record.0 == kind);
    if let Some(k) = place {
        records.insert(k, records[k].clone());
    }
    place.is_some()
}

/// Two neighbouring records of the wanted kinds exchanged.
fn exchange(seed: &mut Seed, records: &mut [Record], wanted: fn(u16, u16) -> bool) -> bool {
    let places: Vec<usize> = (1..records.len()).filter(|&k| wanted(records[k - 1].0, records[k].0)).collect();
    if places.is_empty() {
        return false;
    }
    let k = seed.pick(&places);
    records.swap(k - 1, k);
    true
}

/// One owner record more than the limit has room for: the slots rise, so only the size is wrong with the layout.
fn too_many_bytes(_: &mut Seed, records: &mut Vec<Record>) -> bool {
    add_owners(records, 1)
}

/// A job's file with owner records for nobody up to the limit of bytes, of slots that it does not have: 11, or 1.
pub fn at_the_limit(job: &JobCase) -> Option<Vec<u8>> {
    let mut records = job.records();
    add_owners(&mut records, 0).then(|| file_of(&records))
}

/// As many owner records for nobody as fit into the limit, and some more.
fn add_owners(records: &mut Vec<Record>, more: usize) -> bool {
    let size: usize = records.iter().map(|(_, body)| 4 + body.len()).sum();
    let end = records.iter().position(|record| record.0 > OWNER).unwrap_or(records.len());
    let slots = records
        .iter()
        .filter(|record| record.0 == OWNER)
        .map(|(_, body)| u16::from_le_bytes([body[0], body[1]]));
    let next = slots.max().map_or(0, |slot| usize::from(slot) + 1);
    let count = FILE_MOST.saturating_sub(size) / 8 + more;
    if next + count > 65_536 {
        return false;
    }
    let added = (next..next + count).map(|slot| (OWNER, bytes16(&[slot as u16, u16::from(NOBODY)])));
    records.splice(end..end, added);
    true
}

// ---- jobs with faults

/// A job's file with these faults, given in the order of the table above, where the job can have them all and none takes another back. Two
/// faults of the layout might, so at most one is taken.
pub fn with_faults(seed: &mut Seed, mut job: JobCase, faults: &[Fault]) -> Option<Vec<u8>> {
    let mut made = faults.iter().filter(|fault| fault.number == 13).count() <= 1;
    for fault in faults {
        if let Change::Said(make) = fault.change {
            made &= make(seed, &mut job);
        }
    }
    if !made || !earned(&job, faults) {
        return None;
    }
    let mut records = job.records();
    for fault in faults {
        if let Change::Laid(make) = fault.change {
            made &= make(seed, &mut records);
        }
    }
    let mut file = file_of(&records);
    for fault in faults {
        if let Change::Bytes(make) = fault.change {
            made &= make(seed, &mut file);
        }
    }
    made.then_some(file)
}

/// Whether the numbers meant are those of the job, as far as they can be told beside the lowest.
fn earned(job: &JobCase, faults: &[Fault]) -> bool {
    let numbers = numbers(job);
    let lowest = numbers.first().copied().unwrap_or(0);
    let shows = |number: u8| match lowest {
        1..=4 => number <= 4 || (6..=7).contains(&number),
        5 | 7 => number < 10,
        _ => true,
    };
    let meant = faults.iter().map(|fault| fault.number).filter(|&number| number < 13);
    meant.filter(|&number| shows(number)).all(|number| numbers.contains(&number))
}

/// Every number that a job file earns.
pub const NUMBERS: [u8; 10] = [1, 3, 4, 5, 6, 7, 10, 11, 12, 13];

/// One or two faults by a seed, in the order of the table.
pub fn some_faults(seed: &mut Seed) -> Vec<Fault> {
    let (first, second) = (a_fault(seed), a_fault(seed));
    if first == second || seed.one_in(3) {
        vec![FAULTS[first]]
    } else {
        vec![FAULTS[first.min(second)], FAULTS[first.max(second)]]
    }
}

/// The place of a fault in the table: of any number, each as often as another.
fn a_fault(seed: &mut Seed) -> usize {
    let number = seed.pick(&NUMBERS);
    let places: Vec<usize> = (0..FAULTS.len()).filter(|&k| FAULTS[k].number == number).collect();
    seed.pick(&places)
}

#[cfg(test)]
mod tests {
    use super::{with_faults, FAULTS};
    use crate::job_cases::JobCase;
    use crate::job_files::listing_of;
    use crate::seed::Seed;

    /// Every fault alone is refused by its own number, in several jobs.
    #[test]
    fn each_fault_is_refused_by_its_number() {
        for fault in FAULTS {
            let mut times = 0;
            for k in 0..60 {
                let mut seed = Seed::new(k);
                let job = JobCase::new(&mut seed);
                if job.file().len() > 2000 || listing_of(&job.file()).is_err() {
                    continue;
                }
                if let Some(file) = with_faults(&mut seed, job, &[fault]) {
                    assert_eq!(listing_of(&file), Err(fault.number), "{} in {k}", fault.name);
                    times += 1;
                }
            }
            assert!(times > 2, "{}: {times}", fault.name);
        }
    }

    /// Of any two faults the lower number is due, and 13 before all.
    #[test]
    fn the_lower_of_two_is_due() {
        for (a, first) in FAULTS.iter().enumerate() {
            for second in &FAULTS[a + 1..] {
                let lowest = first.number.min(second.number);
                let due = if first.number.max(second.number) == 13 { 13 } else { lowest };
                for k in 0..4 {
                    let mut seed = Seed::new(k);
                    let job = JobCase::new(&mut seed);
                    if let Some(file) = with_faults(&mut seed, job, &[*first, *second]) {
                        assert_eq!(listing_of(&file), Err(due), "{} and {} in {k}", first.name, second.name);
                    }
                }
            }
        }
    }
}
