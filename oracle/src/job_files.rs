//! What is due for a job file: the listing that the Rust's answers make, or the number of its refusal by the paper's table. It is worked
//! out from the file's bytes alone, as the paper says them; nothing of the library is asked.

use crate::job_cases::JobCase;
use crate::job_records::{Record, BASE, DRAW, FREEZE, OWNER, PERSON, RANGE, SETTINGS};
use crate::limits::{DRAWS_MOST, FILE_MOST, NOBODY, RANGES_MOST, SLOTS_MOST};
use crate::problems::{Person, ProblemCase, Range, Settings};
use crate::table::{failed, figures_ok, people_ok, range_ok, settings_ok, slots_ok};
use on_call::model::problem::Problem;

/// The size of a body of a kind.
fn body_size(kind: u16) -> Option<usize> {
    match kind {
        SETTINGS | BASE => Some(8),
        PERSON => Some(12),
        RANGE => Some(10),
        FREEZE | OWNER => Some(4),
        DRAW => Some(6),
        _ => None,
    }
}

/// The listing of a job file, or the number of its refusal.
pub fn listing_of(file: &[u8]) -> Result<String, u8> {
    due_of(file).map_err(|refused| refused.number)
}

/// A refusal of a job: its number, and of 10 the lowest uneven unit.
#[derive(Debug, Clone, Copy, PartialEq, Eq)]
pub struct Refused {
    pub number: u8,
    pub unit: Option<usize>,
}

impl Refused {
    /// As the library answers it.
    pub fn answer(self) -> u64 {
        self.unit.map_or(u64::from(self.number), |unit| failed(3, unit, 0))
    }

    /// As the program writes it.
    fn line(self) -> String {
        match self.unit {
            Some(unit) => format!("R 10.3 {unit}\n"),
            None => format!("R {}\n", self.number),
        }
    }
}

/// The listing of a job file, or its refusal.
pub fn due_of(file: &[u8]) -> Result<String, Refused> {
    let job = read(file).ok_or(Refused { number: 13, unit: None })?;
    match numbers(&job).first() {
        Some(10) => Err(Refused {
            number: 10,
            unit: uneven_unit(&job),
        }),
        Some(&number) => Err(Refused { number, unit: None }),
        None => Ok(job.listing()),
    }
}

/// What the program writes for a job file: the listing, or the line of the refusal.
pub fn text_of(file: &[u8]) -> String {
    due_of(file).unwrap_or_else(Refused::line)
}

/// A file's records, where they are whole and nothing is left over.
fn records(file: &[u8]) -> Option<Vec<Record>> {
    let mut records = Vec::new();
    let mut rest = file;
    while !rest.is_empty() {
        let length = usize::from(u16::from_le_bytes(rest.get(0..2)?.try_into().ok()?));
        let kind = u16::from_le_bytes(rest.get(2..4)?.try_into().ok()?);
        records.push((kind, rest.get(4..4 + length)?.to_vec()));
        rest = &rest[4 + length..];
    }
    Some(records)
}

/// The job of a file that keeps the layout; nothing is 13.
pub fn read(file: &[u8]) -> Option<JobCase> {
    if file.len() > FILE_MOST {
        return None;
    }
    let records = records(file)?;
    if records.iter().any(|(kind, body)| body_size(*kind) != Some(body.len())) {
        return None;
    }
    if records.windows(2).any(|pair| pair[0].0 > pair[1].0) {
        return None;
    }
    let of = |wanted: u16| {
        records
            .iter()
            .filter(move |(kind, _)| *kind == wanted)
            .map(|(_, body)| body.as_slice())
    };
    if of(SETTINGS).count() != 1 || of(FREEZE).count() > 1 {
        return None;
    }
    let owners: Vec<(u16, u16)> = of(OWNER).map(|body| (two(body, 0), two(body, 2))).collect();
    if owners.windows(2).any(|pair| pair[0].0 >= pair[1].0) {
        return None;
    }
    let mut settings = of(SETTINGS).map(|body| Settings {
        fairness: body[0],
        lock: body[1],
        boundary: body[2],
        edition: body[3],
        value: two(body, 4),
        days: two(body, 6),
    });
    Some(JobCase {
        problem: ProblemCase {
            base: of(BASE).map(|body| (four(body, 0), four(body, 4))).collect(),
            ranges: of(RANGE).map(range).collect(),
            people: of(PERSON).map(person).collect(),
            settings: settings.next_back()?,
        },
        freeze: of(FREEZE).map(|body| four(body, 0)).next_back(),
        owners,
        draws: of(DRAW).map(|body| (two(body, 0), two(body, 2), two(body, 4))).collect(),
    })
}

fn range(body: &[u8]) -> Range {
    Range {
        person: usize::from(two(body, 0)),
        start: four(body, 2),
        end: four(body, 6),
    }
}

fn person(body: &[u8]) -> Person {
    let bits = u64::from(four(body, 0)) | u64::from(four(body, 4)) << 32;
    Person {
        capacity: f64::from_bits(bits),
        prior: four(body, 8),
    }
}

fn two(body: &[u8], at: usize) -> u16 {
    u16::from_le_bytes([body[at], body[at + 1]])
}

fn four(body: &[u8], at: usize) -> u32 {
    u32::from(two(body, at)) | u32::from(two(body, at + 2)) << 16
}

/// Every number of the table that a job earns, the lowest first, as far as one can be told beside a lower one: atomic slots want sound
/// base slots and ranges, and owners want atomic slots and sound settings.
pub fn numbers(job: &JobCase) -> Vec<u8> {
    let case = &job.problem;
    let judged = [
        (1, !counts_ok(job)),
        (3, !slots_ok(&case.base)),
        (4, !case.ranges.iter().all(|range| range_ok(*range, case.people.len()))),
    ];
    let mut numbers: Vec<u8> = judged.iter().filter(|(_, earned)| *earned).map(|(number, _)| *number).collect();
    let cut = numbers.is_empty().then(|| plain(case).rust().slot_count());
    let too_many = cut.is_some_and(|slots| slots > SLOTS_MOST);
    numbers.extend(too_many.then_some(5));
    numbers.extend((!case.people.iter().all(|person| figures_ok(*person))).then_some(6));
    numbers.extend((!settings_ok(case.settings)).then_some(7));
    if numbers.iter().all(|&number| number == 6) {
        numbers.extend(owners_numbers(job, &sound(case)));
    }
    numbers
}

/// The same base slots and ranges, with figures and settings that nothing is wrong with.
fn plain(case: &ProblemCase) -> ProblemCase {
    ProblemCase {
        people: vec![Person::PLAIN; case.people.len()],
        settings: Settings::PLAIN,
        ..case.clone()
    }
}

/// The slots and units that the Rust makes, of a case that is sound but for its figures.
fn sound(case: &ProblemCase) -> Problem {
    let settings = case.settings;
    ProblemCase { settings, ..plain(case) }.rust()
}

fn counts_ok(job: &JobCase) -> bool {
    let case = &job.problem;
    (1..=SLOTS_MOST).contains(&case.base.len())
        && people_ok(case.people.len())
        && case.ranges.len() <= RANGES_MOST
        && job.draws.len() <= DRAWS_MOST
}

/// 10, 11 and 12: the owners as they are written, over the slots and units that the Rust made.
fn owners_numbers(job: &JobCase, problem: &Problem) -> Vec<u8> {
    let nobody = u16::from(NOBODY);
    let (slots, people) = (problem.slot_count(), problem.human_count());
    let written = written(job, slots);
    let known = |owner: u16| owner == nobody || usize::from(owner) < people;
    let able = |slot: usize, owner: u16| owner == nobody || !known(owner) || problem.is_available(usize::from(owner), slot);
    let judged = [
        (10, uneven_units(problem, &written).next().is_some()),
        (
            11,
            job.owners.iter().any(|&(slot, owner)| usize::from(slot) >= slots || !known(owner)),
        ),
        (12, written.iter().enumerate().any(|(slot, &owner)| !able(slot, owner))),
    ];
    judged.iter().filter(|(_, earned)| *earned).map(|(number, _)| *number).collect()
}

/// The owner of each slot as the file has it, 255 where it has none.
fn written(job: &JobCase, slots: usize) -> Vec<u16> {
    let mut written = vec![u16::from(NOBODY); slots];
    for &(slot, owner) in &job.owners {
        if usize::from(slot) < slots {
            written[usize::from(slot)] = owner;
        }
    }
    written
}

/// The units whose slots have more than one owner, ascending.
fn uneven_units<'a>(problem: &'a Problem, written: &'a [u16]) -> impl Iterator<Item = usize> + 'a {
    let uneven = |unit: &usize| written[problem.units[*unit].clone()].windows(2).any(|pair| pair[0] != pair[1]);
    (0..problem.unit_count()).filter(uneven)
}

/// The lowest of them, of a job whose slots and units are sound.
fn uneven_unit(job: &JobCase) -> Option<usize> {
    let problem = sound(&job.problem);
    let lowest = uneven_units(&problem, &written(job, problem.slot_count())).next();
    lowest
}

#[cfg(test)]
mod tests {
    use super::{listing_of, read, text_of};
    use crate::job_cases::JobCase;
    use crate::seed::Seed;

    /// Sixteen slots in pairs, all of person 0 but the last, which is nobody's; and the same with pair 3 uneven too.
    #[test]
    fn the_lowest_uneven_unit_is_named() {
        let mut job = JobCase::uneven_at_the_end();
        assert_eq!(text_of(&job.file()), "R 10.3 7\n");
        job.owners.remove(6);
        assert_eq!(text_of(&job.file()), "R 10.3 3\n");
        job.owners = (0..16).map(|slot| (slot, 0)).collect();
        assert_eq!(listing_of(&job.file()).map(|text| text.lines().count()), Ok(16 + 2 + 1));
    }

    /// What a job's file says is the job again, and its listing is the job's.
    #[test]
    fn files_are_read_back() {
        for k in 0..200 {
            let job = JobCase::new(&mut Seed::new(k));
            let file = job.file();
            assert_eq!(read(&file).map(|again| again.file()), Some(file.clone()));
            assert!(matches!(listing_of(&file), Ok(_) | Err(5)));
        }
    }
}
