//! Recordings that are opened: where the job ends, the job prepared into lent lists, and the blocks, read one after the other. What is prepared is
//! the Rust's problem and its rota; what is read is what `recordings` reads of the same bytes.

use crate::bits::put_bit;
use crate::call::{bytes16, bytes32, bytes64, bytes_i64, Arg, Outcome, Question};
use crate::job_cases::JobCase;
use crate::job_faults::{some_faults, with_faults};
use crate::job_files::{due_of, read};
use crate::limits::{NOBODY, NOTHING, PEOPLE_MOST, SET_WORDS, SLOTS_MOST, TOTALS};
use crate::problems::{availability_into, slots_of, unit_starts_of};
use crate::recordings::{self, block, job_end, BLOCKS_MOST};
use crate::rotas::{played, sets_into};
use crate::seed::Seed;

/// The most blocks of a recording that are asked for one after the other.
const ASKED_MOST: usize = 8;

/// The lists that are lent for a job, in order: the size of an entry, and how many entries are asked for whatever the job is.
const LISTS: [(usize, usize); 10] = [
    (4, SLOTS_MOST),              // starts
    (4, SLOTS_MOST),              // ends
    (8, SET_WORDS * PEOPLE_MOST), // availability
    (2, SLOTS_MOST),              // unit starts
    (8, SET_WORDS),               // frozen flags
    (8, PEOPLE_MOST),             // targets
    (1, SLOTS_MOST),              // owners
    (8, SET_WORDS * PEOPLE_MOST), // sets
    (8, PEOPLE_MOST),             // minutes
    (8, TOTALS),
];

// ---- the job

/// The bytes of each list, as far as it is asked for, and the counts of people, slots and units.
fn prepared(case: &JobCase) -> ([Vec<u8>; 10], [u64; 3]) {
    let problem = case.frozen();
    let (people, slots) = (problem.human_count(), problem.slot_count());
    let begun = played(&problem, &case.assignment(&problem), vec![]);
    let (starts, ends) = slots_of(&problem);
    let unit_starts = unit_starts_of(&problem);
    let words = || vec![0; SET_WORDS * PEOPLE_MOST];
    let (mut avail, mut sets, mut frozen) = (words(), words(), vec![0; SET_WORDS]);
    availability_into(&problem, &mut avail);
    sets_into(&mut sets, people, &begun.owners);
    (0..slots).for_each(|slot| put_bit(&mut frozen, 0, slot, problem.is_frozen(slot)));
    let mut lists = [
        bytes32(&starts),
        bytes32(&ends),
        bytes64(&avail),
        bytes16(&unit_starts),
        bytes64(&frozen),
        bytes_i64(&case.targets(&problem)),
        begun.owners,
        bytes64(&sets),
        bytes64(&begun.minutes),
        bytes64(&begun.totals),
    ];
    for (k, (size, room)) in LISTS.into_iter().enumerate() {
        lists[k].resize(size * room, if k == 6 { NOBODY } else { 0 });
    }
    (lists, [people as u64, slots as u64, unit_starts.len() as u64])
}

/// What stands against a job, as it is answered: 13 and 1 before 2, which a short list is, and that before the rest.
fn refusal(job: &[u8], short: bool) -> Option<u64> {
    if !read(job).is_some_and(|case| case.draws.is_empty()) {
        return Some(13);
    }
    match due_of(job) {
        Err(refused) if refused.number == 1 => Some(1),
        _ if short => Some(2),
        due => due.err().map(|refused| refused.answer()),
    }
}

fn some_bytes(seed: &mut Seed, n: usize) -> Vec<u8> {
    (0..n).map(|_| seed.word() as u8).collect()
}

/// A job begun in lists that hold anything: with the room that is asked for and some more, but those of `short`, which have less.
fn begun(seed: &mut Seed, job: &[u8], short: &[usize]) -> Question {
    let lent: Vec<Vec<u8>> = LISTS
        .into_iter()
        .enumerate()
        .map(|(k, (size, room))| {
            let less = seed.pick(&[0, room as u64 / 2, room as u64 - 1]);
            let more = room as u64 + seed.below(3);
            some_bytes(seed, size * if short.contains(&k) { less } else { more } as usize)
        })
        .collect();
    let was = [seed.word(), seed.word(), seed.word()];
    let (mut after, mut counts) = (lent.clone(), was);
    let refused = refusal(job, !short.is_empty());
    if let (None, Some(case)) = (refused, read(job)) {
        let (lists, made) = prepared(&case);
        after
            .iter_mut()
            .zip(&lists)
            .for_each(|(list, made)| list[..made.len()].copy_from_slice(made));
        counts = made;
    }
    let mut args = vec![Arg::Lent(1, job.to_vec())];
    args.extend(lent.into_iter().zip(LISTS).map(|(bytes, (size, _))| Arg::LentMut(size, bytes)));
    args.extend(was.map(Arg::Out));
    after.extend(counts.map(|count| count.to_le_bytes().to_vec()));
    Question {
        function: "boltraven_begin_recording",
        args,
        due: Outcome {
            result: refused.unwrap_or(0),
            written: after,
        },
    }
}

// ---- the blocks

/// The block at the front of what is left, read into lists that hold anything: each with room for its draws or more, but for `short` of them.
fn read_one(seed: &mut Seed, rest: &[u8], blocks: usize, short: usize) -> Question {
    let found = if rest.is_empty() { None } else { Some(block(rest, blocks)) };
    let due = found.map(|found| found.map(|(recorded, after)| (recorded, rest.len() - after.len())));
    let count = due.iter().flatten().map(|(recorded, _)| recorded.len()).sum::<usize>();
    let less = short.min(if count == 0 { 0 } else { 4 });
    let mut lent: Vec<Vec<u16>> = (0..4)
        .map(|k| {
            let room = if k < less {
                seed.below(count as u64)
            } else {
                count as u64 + seed.below(3)
            };
            (0..room).map(|_| seed.word() as u16).collect()
        })
        .collect();
    let turned = seed.below(4) as usize;
    lent.rotate_left(turned);
    let was = [seed.word(), seed.word()];
    let (mut after, mut numbers) = (lent.clone(), was);
    let result = match due {
        None => NOTHING,
        Some(Err(number)) => u64::from(number),
        Some(Ok(_)) if less > 0 => 2,
        Some(Ok((recorded, next))) => {
            for (j, ((draw, first, second), answer)) in recorded.into_iter().enumerate() {
                after
                    .iter_mut()
                    .zip([draw, first, second, answer])
                    .for_each(|(list, number)| list[j] = number);
            }
            numbers = [count as u64, next as u64];
            0
        }
    };
    let mut args = vec![Arg::Lent(1, rest.to_vec()), Arg::Number(blocks as u64)];
    args.extend(lent.iter().map(|list| Arg::LentMut(2, bytes16(list))));
    args.extend(was.map(Arg::Out));
    let mut written: Vec<Vec<u8>> = after.iter().map(|list| bytes16(list)).collect();
    written.extend(numbers.map(|number| number.to_le_bytes().to_vec()));
    Question {
        function: "boltraven_read_block",
        args,
        due: Outcome { result, written },
    }
}

/// The blocks of what follows a job, up to the end or the first that is refused.
fn read_all(seed: &mut Seed, mut rest: &[u8]) -> Vec<Question> {
    let mut asked = Vec::new();
    for blocks in 0..ASKED_MOST {
        asked.push(read_one(seed, rest, blocks, 0));
        match block(rest, blocks) {
            Ok((_, after)) => rest = after,
            Err(_) => break,
        }
    }
    asked
}

// ---- the questions

fn job_end_question(bytes: &[u8]) -> Question {
    Question::number("boltraven_job_end", vec![Arg::Lent(1, bytes.to_vec())], job_end(bytes) as u64)
}

/// A recording, of which something may be wrong after its job: its job's end, its job and its blocks.
pub fn questions(case_seed: u64) -> Vec<Question> {
    let mut seed = Seed::new(case_seed);
    let file = recordings::file(&mut seed);
    let (job, rest) = file.split_at(job_end(&file));
    let mut asked = vec![job_end_question(&file), begun(&mut seed, job, &[])];
    asked.extend(read_all(&mut seed, rest));
    asked
}

/// The bytes of a job without draws that has one fault or two.
fn damaged_job(seed: &mut Seed) -> Vec<u8> {
    let mut job = JobCase::new(seed);
    job.draws.clear();
    let made = (0..8).find_map(|_| {
        let faults = some_faults(seed);
        with_faults(seed, job.clone(), &faults)
    });
    made.unwrap_or_else(|| job.file())
}

/// A job with faults, lists that are short, a recording with a bit changed, and blocks near the most that there may be.
pub fn damaged(case_seed: u64) -> Vec<Question> {
    let mut seed = Seed::new(case_seed);
    let short: Vec<usize> = (0..seed.below(3)).map(|_| seed.below(10) as usize).collect();
    let job = damaged_job(&mut seed);
    let mut asked = vec![begun(&mut seed, &job, &short)];
    let mut file = recordings::file(&mut seed);
    let one = [seed.below(10) as usize];
    asked.push(begun(&mut seed, &file[..job_end(&file)], &one));
    let rest = &file[job_end(&file)..];
    let (near, lists) = (BLOCKS_MOST - seed.below(3) as usize, seed.within(1, 4) as usize);
    asked.push(read_one(&mut seed, rest, near, 0));
    asked.push(read_one(&mut seed, rest, usize::MAX, 0));
    asked.push(read_one(&mut seed, rest, 0, lists));
    if !file.is_empty() {
        let at = seed.below(file.len() as u64) as usize;
        file[at] ^= 1 << seed.below(8);
    }
    let (job, rest) = file.split_at(job_end(&file));
    asked.extend([job_end_question(&file), begun(&mut seed, job, &[])]);
    asked.extend(read_all(&mut seed, rest));
    asked
}

#[cfg(test)]
mod tests {
    use super::{damaged, questions};
    use std::collections::BTreeSet;

    /// Every answer that a recording's job and its blocks can have is due in some case.
    #[test]
    fn every_answer_is_due() {
        let asked = (0..150).flat_map(|k| [questions(k), damaged(k)].concat());
        let due: BTreeSet<(&str, u64)> = asked.map(|question| (question.function, question.due.result & 65_791)).collect();
        for number in [0, 1, 2, 3, 4, 5, 6, 7, 10 + 3 * 256, 11, 12, 13] {
            let due = due
                .iter()
                .any(|(function, result)| *function == "boltraven_begin_recording" && result & 255 == number & 255);
            assert!(due, "{number}");
        }
        for number in [0, 1, 2, 13, 65_536] {
            assert!(due.contains(&("boltraven_read_block", number)), "{number}");
        }
    }
}
