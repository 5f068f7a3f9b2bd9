//! Stored jobs: small job files with the texts that are due for them, which `stored_job` runs with no Rust at hand. They cover every fault
//! of a job file, every two numbers together, and every move with every answer, or they are not written.

use std::collections::BTreeMap;

use crate::job_cases::JobCase;
use crate::job_faults::{with_faults, Fault, FAULTS, NUMBERS};
use crate::job_files::{listing_of, text_of};
use crate::seed::Seed;
use crate::stored::Stored;

/// The moves, each with the last draw that picks it.
const MOVES: [(&str, u16); 5] = [
    ("reassign", 34),
    ("swap units", 59),
    ("reassign run", 74),
    ("swap runs", 89),
    ("shift boundary", 99),
];

/// How often each answer of each move is to be seen, and how many seeds are looked through for anything.
const TIMES: u64 = 3;
const SEARCHED: u64 = 3000;

/// The longest file and the most draws of a job that nothing is wrong with.
const FILE_SMALL: usize = 1200;
const DRAWS_SMALL: usize = 12;

/// Jobs, and what they cover: how often each thing that is wanted was seen.
struct Jobs {
    bytes: Vec<u8>,
    answers: u64,
    seen: BTreeMap<String, u64>,
}

/// Records of jobs: the largest remainder of edition 2; an uneven unit that is the last; at most n that are played, then one of each fault, then one of every two numbers. A record is two u16, low byte first,
/// the length of the file and that of the text that is due; then the file; then the text. What is not covered is an error.
pub fn jobs(n: u64, run: u64) -> Result<Stored, String> {
    let mut jobs = Jobs {
        bytes: Vec::new(),
        answers: 0,
        seen: wanted().into_iter().map(|thing| (thing, 0)).collect(),
    };
    jobs.add(&JobCase::of_idle_people().file(), &[]);
    jobs.add(&JobCase::uneven_at_the_end().file(), &[]);
    jobs.add_played(n, run);
    jobs.add_faults(run);
    jobs.add_pairs(run);
    let missing: Vec<String> = jobs
        .seen
        .into_iter()
        .filter(|(_, times)| *times == 0)
        .map(|(thing, _)| thing)
        .collect();
    if missing.is_empty() {
        Ok(Stored::new(jobs.bytes, jobs.answers))
    } else {
        Err(format!("no stored job covers {}", missing.join("; ")))
    }
}

/// Everything that the jobs are to cover.
fn wanted() -> Vec<String> {
    let moves = MOVES
        .iter()
        .flat_map(|(name, _)| (0..3).map(move |answer| move_thing(name, answer)));
    let faults = FAULTS.iter().map(fault_thing);
    let pairs = pairs().into_iter().map(|(low, high)| pair_thing(low, high));
    moves.chain(faults).chain(pairs).collect()
}

fn move_thing(name: &str, answer: u8) -> String {
    format!("{name} with answer {answer}")
}

fn fault_thing(fault: &Fault) -> String {
    format!("{} alone ({})", fault.name, fault.number)
}

fn pair_thing(low: u8, high: u8) -> String {
    format!("{low} and {high} together")
}

fn pairs() -> Vec<(u8, u8)> {
    let above = |low: u8| NUMBERS.into_iter().filter(move |&high| high > low).map(move |high| (low, high));
    NUMBERS.into_iter().flat_map(above).collect()
}

/// A small job that nothing is wrong with, if this seed makes one.
fn small_job(seed: &mut Seed) -> Option<JobCase> {
    let mut job = JobCase::new(seed);
    job.draws.truncate(DRAWS_SMALL);
    let file = job.file();
    (file.len() <= FILE_SMALL && listing_of(&file).is_ok()).then_some(job)
}

impl Jobs {
    fn add(&mut self, file: &[u8], things: &[String]) {
        let text = text_of(file);
        let bytes = &mut self.bytes;
        for length in [file.len(), text.len()] {
            bytes.extend(u16::try_from(length).expect("a length of 16 bits").to_le_bytes());
        }
        bytes.extend(file);
        bytes.extend(text.as_bytes());
        self.answers += 1;
        for thing in things {
            *self.seen.entry(thing.clone()).or_default() += 1;
        }
    }

    /// The first jobs up to half of n, and then those that show an answer of a move that was not seen often enough yet.
    fn add_played(&mut self, n: u64, run: u64) {
        for k in 0..SEARCHED {
            let Some(job) = small_job(&mut Seed::new(Seed::of_case(run, "stored-jobs", k))) else {
                continue;
            };
            let things = shown(&job);
            let telling = things.iter().any(|thing| self.seen[thing] < TIMES);
            if self.answers < n / 2 || (telling && self.answers < n) {
                self.add(&job.file(), &things);
            }
        }
    }

    /// Each fault alone.
    fn add_faults(&mut self, run: u64) {
        for fault in FAULTS {
            let made = |seed: &mut Seed| small_job(seed).and_then(|job| with_faults(seed, job, &[fault]));
            if let Some(file) = smallest(run, fault.name, made, fault.number) {
                self.add(&file, &[fault_thing(&fault)]);
            }
        }
    }

    /// Every two numbers together: the lower is due, and 13 before all.
    fn add_pairs(&mut self, run: u64) {
        for (low, high) in pairs() {
            let thing = pair_thing(low, high);
            let of = |number: u8| FAULTS.into_iter().filter(move |fault| fault.number == number);
            let both: Vec<Fault> = FAULTS.into_iter().filter(|fault| [low, high].contains(&fault.number)).collect();
            let made = |seed: &mut Seed| {
                let first = seed.pick(&of(low).collect::<Vec<Fault>>()).name;
                let second = seed.pick(&of(high).collect::<Vec<Fault>>()).name;
                let chosen: Vec<Fault> = both.iter().copied().filter(|fault| [first, second].contains(&fault.name)).collect();
                small_job(seed).and_then(|job| with_faults(seed, job, &chosen))
            };
            let due = if high == 13 { 13 } else { low };
            if let Some(file) = smallest(run, &thing, made, due) {
                self.add(&file, &[thing]);
            }
        }
    }
}

/// The answers of the moves that a job shows.
fn shown(job: &JobCase) -> Vec<String> {
    let answers = job.answers();
    let picked = job.draws.iter().zip(answers).filter_map(|(draw, answer)| {
        let (name, _) = MOVES.iter().find(|(_, last)| draw.0 <= *last)?;
        Some(move_thing(name, answer))
    });
    picked.collect()
}

/// The smallest file of some that were made and are refused by the number due.
fn smallest(run: u64, name: &str, made: impl Fn(&mut Seed) -> Option<Vec<u8>>, due: u8) -> Option<Vec<u8>> {
    let files = (0..SEARCHED).filter_map(|k| made(&mut Seed::new(Seed::of_case(run, name, k))));
    let refused = files.filter(|file| listing_of(file) == Err(due));
    refused.take(ENOUGH).min_by_key(Vec::len)
}

/// Files among which the smallest is taken.
const ENOUGH: usize = 20;

#[cfg(test)]
mod tests {
    /// Stored jobs cover what they are to cover, and too few are an error.
    #[test]
    fn all_is_covered() {
        assert!(super::jobs(40, 1).is_ok());
        assert!(super::jobs(1, 1).is_err());
    }
}
