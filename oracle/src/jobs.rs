//! Whole jobs: a job file, and the listing that the Rust's answers make.

use crate::call::{bytes64, Arg, Outcome, Question};
use crate::job_cases::JobCase;
use crate::job_faults::{at_the_limit, some_faults, with_faults};
use crate::job_files::{due_of, listing_of};
use crate::library;
use crate::seed::Seed;
use std::{fs, io};

/// The room that a listing is asked for, in bytes.
const LISTING_MOST: usize = 65_536;

/// The bytes of `with_a_long_listing`'s.
const LISTING_LONG: usize = 36_343;

// ---- files, and the calls

/// A long listing: as long as it is said to be, with the room that is asked for; with a byte less room it is refused with 2.
pub fn long_listing() -> io::Result<u64> {
    let file = JobCase::with_a_long_listing().file();
    let length = listing_of(&file).map_or(0, |text| text.len());
    let mut differing = u64::from(length != LISTING_LONG);
    for (room, number) in [(LISTING_MOST, 0), (LISTING_MOST - 1, 2)] {
        let question = question(&mut Seed::new(0), file.clone(), room);
        let got = library::ask(&question)?;
        differing += u64::from(got != question.due || got.result != number);
    }
    println!("jobs: a long listing has {length} bytes, and {differing} of 3 answers to it differ");
    Ok(differing)
}

/// Times the job at every limit, and the same file cut by its last byte, which is refused at once: what is between is the job's. Each time
/// is the mean of n runs, of the processor and not of the clock.
pub fn time(n: u64) -> io::Result<u64> {
    let file = JobCase::at_every_limit().file();
    let cut = file[..file.len() - 1].to_vec();
    let mut mean = [0.0; 2];
    let mut differing = 0;
    for (file, mean) in [file, cut].into_iter().zip(&mut mean) {
        let question = question(&mut Seed::new(0), file, LISTING_MOST);
        let begun = processor_time()?;
        for _ in 0..n {
            differing += u64::from(library::ask(&question)? != question.due);
        }
        *mean = (processor_time()? - begun) as f64 / n as f64 / 1e6;
    }
    let [whole, cut] = mean;
    let time = whole - cut;
    println!("jobs: a job at every limit takes {time:.2} ms: {whole:.2} less {cut:.2} for its file cut by a byte, means of {n} runs");
    Ok(differing)
}

/// Nanoseconds that this process has had of a processor.
fn processor_time() -> io::Result<u64> {
    let got = fs::read_to_string("/proc/self/schedstat")?;
    let first = got.split(' ').next().and_then(|word| word.parse().ok());
    first.ok_or_else(|| io::Error::other("/proc/self/schedstat has no number"))
}

/// The file of a job that nothing is wrong with, unless it has too many atomic slots.
pub fn sound_file(seed: &mut Seed) -> Vec<u8> {
    JobCase::new(seed).file()
}

/// A job's file with one fault or two, or filled up to the limit, or with one bit changed, or cut anywhere: that may leave a job that
/// nothing is wrong with.
pub fn damaged_file(seed: &mut Seed) -> Vec<u8> {
    let job = JobCase::new(seed);
    let mut file = job.file();
    match seed.below(16) {
        0 => file = at_the_limit(&job).unwrap_or(file),
        1 => {
            let at = seed.below(file.len() as u64) as usize;
            file[at] ^= 1 << seed.below(8);
        }
        2 => file.truncate(seed.below(file.len() as u64 + 1) as usize),
        _ => {
            // not every job can have every fault
            let made = (0..8).find_map(|_| {
                let faults = some_faults(seed);
                with_faults(seed, job.clone(), &faults)
            });
            file = made.unwrap_or(file);
        }
    }
    file
}

/// A job, run into a buffer with the room that is asked for or a little more: what lies past the listing stays, and a refusal leaves all.
fn question(seed: &mut Seed, file: Vec<u8>, room: usize) -> Question {
    let before: Vec<u8> = vec![seed.word() as u8; room];
    let (mut after, was) = (before.clone(), seed.word());
    let (mut number, mut length) = (0, was);
    // short of room is 2: after 13 and 1, before the rest
    let listed = match due_of(&file) {
        Err(refused) if refused.number == 13 || refused.number == 1 => Err(refused.answer()),
        _ if room < LISTING_MOST => Err(2),
        listed => listed.map_err(|refused| refused.answer()),
    };
    match listed {
        Ok(text) => {
            after[..text.len()].copy_from_slice(text.as_bytes());
            length = text.len() as u64;
        }
        Err(refused) => number = refused,
    }
    Question {
        function: "boltraven_run_job",
        args: vec![Arg::Lent(1, file), Arg::LentMut(1, before), Arg::Out(was)],
        due: Outcome {
            result: number,
            written: vec![after, bytes64(&[length])],
        },
    }
}

/// A whole job.
pub fn questions(case_seed: u64) -> Vec<Question> {
    let mut seed = Seed::new(case_seed);
    let file = sound_file(&mut seed);
    let room = LISTING_MOST + seed.below(3) as usize;
    vec![question(&mut seed, file, room)]
}

/// A damaged job, now and then with too little room besides.
pub fn damaged(case_seed: u64) -> Vec<Question> {
    let mut seed = Seed::new(case_seed);
    let file = damaged_file(&mut seed);
    let room = if seed.one_in(8) {
        seed.pick(&[0, 1, 4096, LISTING_MOST - 1])
    } else {
        LISTING_MOST
    };
    vec![question(&mut seed, file, room)]
}

#[cfg(test)]
mod tests {
    use super::{damaged_file, JobCase, LISTING_LONG};
    use crate::job_files::listing_of;
    use crate::problems::{Person, ProblemCase, Range, Settings};
    use crate::seed::Seed;

    /// Damaged jobs reach every number, and some have nothing wrong with them.
    #[test]
    fn every_number_is_reached() {
        let mut seen = [0u64; 14];
        for k in 0..2000 {
            let number = listing_of(&damaged_file(&mut Seed::new(k))).err();
            seen[usize::from(number.unwrap_or(0))] += 1;
        }
        for number in [0, 1, 3, 4, 5, 6, 7, 10, 11, 12, 13] {
            assert!(seen[number] >= 5, "{number}: {seen:?}");
        }
    }

    /// The job at every limit is accepted, all its draws act, and only more owner records would make its file longer.
    #[test]
    fn limits_are_met() {
        let job = JobCase::at_every_limit();
        let listing = listing_of(&job.file()).expect("it is accepted");
        assert_eq!(
            listing.lines().filter(|line| line.starts_with('D') && line.ends_with('A')).count(),
            1024
        );
        assert_eq!(job.file().len(), 45_588);
    }

    /// A long listing is as long as it is said to be.
    #[test]
    fn a_long_listing_is_met() {
        let long = listing_of(&JobCase::with_a_long_listing().file()).expect("it is accepted");
        assert_eq!(long.len(), LISTING_LONG);
    }

    /// The paper's own job and its listing.
    #[test]
    fn worked_example() {
        let ranges = vec![
            Range {
                person: 0,
                start: 0,
                end: 120,
            },
            Range {
                person: 1,
                start: 60,
                end: 180,
            },
        ];
        let job = JobCase {
            problem: ProblemCase {
                base: vec![(0, 120)],
                ranges,
                people: vec![Person::PLAIN; 2],
                settings: Settings::PLAIN,
            },
            freeze: None,
            owners: vec![(0, 0), (1, 0)],
            draws: vec![(0, 1, 1)],
        };
        let listing = "S 0 0 60 0\nS 1 60 120 1\nP 0 60 80\nP 1 60 40\nD 0 A\nU 0\n";
        assert_eq!(job.listing(), listing);
    }
}
