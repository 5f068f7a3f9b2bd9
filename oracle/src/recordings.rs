//! Recordings: a job, then blocks of recorded draws. What the replay's program must show of one is worked out here from its bytes, as the paper
//! says them, over the Rust's moves; nothing of the library is asked.

use std::fs::{self, File};
use std::io;
use std::process::Stdio;

use crate::job_cases::JobCase;
use crate::job_files::{due_of, read, text_of};
use crate::job_records::{file_of, CLOSE, DRAW, RECORDED};
use crate::jobs;
use crate::limits::{DRAWS_MOST, SLOTS_MOST};
use crate::problems::{Person, ProblemCase, Range, Settings};
use crate::program::{described, is_listing, started};
use crate::rotas::{draws, play, played, Draw};
use crate::seed::Seed;
use on_call::model::problem::Problem;
use on_call::model::Assignment;

/// The most blocks of a recording.
pub const BLOCKS_MOST: usize = 65_535;

// ---- what is due

/// Where the job ends: at the first head of kind 8 or 9, heads being walked by the lengths that stand in them.
pub fn job_end(file: &[u8]) -> usize {
    let mut at = 0;
    while at + 4 <= file.len() {
        if [RECORDED, CLOSE].contains(&two(file, at + 2)) {
            return at;
        }
        at += 4 + usize::from(two(file, at));
    }
    file.len()
}

fn two(bytes: &[u8], at: usize) -> u16 {
    u16::from_le_bytes([bytes[at], bytes[at + 1]])
}

/// A record after the job: a draw with its answer, a close, or one that is faulty.
enum Next {
    Recorded(Draw, u16),
    Close,
    Faulty,
}

/// The record at the front of what is left, and what follows it.
fn next(rest: &[u8]) -> (Next, &[u8]) {
    let whole = |size: usize| rest.len() >= 4 + size && usize::from(two(rest, 0)) == size;
    if rest.len() < 4 {
        return (Next::Faulty, rest);
    }
    match two(rest, 2) {
        RECORDED if whole(8) && two(rest, 10) <= 2 => {
            let draw = (two(rest, 4), two(rest, 6), two(rest, 8));
            (Next::Recorded(draw, two(rest, 10)), &rest[12..])
        }
        CLOSE if whole(0) => (Next::Close, &rest[4..]),
        _ => (Next::Faulty, rest),
    }
}

/// Draws with their recorded answers.
pub type Recorded = Vec<(Draw, u16)>;

/// A block read whole: its draws with their answers and what follows it; or the number of its first faulty record.
pub fn block(mut rest: &[u8], closed: usize) -> Result<(Recorded, &[u8]), u8> {
    let mut recorded = Vec::new();
    loop {
        let (record, after) = next(rest);
        match record {
            Next::Faulty => return Err(13),
            _ if closed >= BLOCKS_MOST => return Err(1),
            Next::Close => return Ok((recorded, after)),
            Next::Recorded(..) if recorded.len() == DRAWS_MOST => return Err(1),
            Next::Recorded(draw, answer) => recorded.push((draw, answer)),
        }
        rest = after;
    }
}

/// What the program must write of a recording.
pub fn shown_of(file: &[u8]) -> String {
    let (job, mut rest) = file.split_at(job_end(file));
    // a draw of a job's file is no part of a recording's
    let Some(case) = read(job).filter(|case| case.draws.is_empty()) else {
        return "R 13\n".to_string();
    };
    if due_of(job).is_err() {
        return text_of(job);
    }
    let problem = case.frozen();
    let mut assignment = case.assignment(&problem);
    let mut text = String::new();
    for closed in 0.. {
        if rest.is_empty() {
            return text + "E\n";
        }
        let (recorded, after) = match block(rest, closed) {
            Ok(read) => read,
            Err(number) => return text + &format!("R {number}\n"),
        };
        let differs = replayed(&problem, &mut assignment, &recorded);
        text += &format!("B {closed}\n");
        text += &case.rota_lines(&problem, &played(&problem, &assignment, vec![]));
        if let Some(place) = differs {
            return text + &format!("X {closed} {place}\n");
        }
        rest = after;
    }
    text
}

/// Plays recorded draws up to the first whose answer is another one, and it.
fn replayed(problem: &Problem, assignment: &mut Assignment, recorded: &[(Draw, u16)]) -> Option<usize> {
    recorded
        .iter()
        .position(|&(draw, answer)| u16::from(play(problem, assignment, &[draw])[0]) != answer)
}

// ---- recordings by a seed

/// The bytes of a recorded draw, and of a close.
pub fn recorded_bytes(draw: Draw, answer: u16) -> Vec<u8> {
    let body = [draw.0, draw.1, draw.2, answer]
        .iter()
        .flat_map(|field| field.to_le_bytes())
        .collect();
    file_of(&[(RECORDED, body)])
}

pub fn close_bytes() -> Vec<u8> {
    file_of(&[(CLOSE, vec![])])
}

/// The paper's job without its draw.
pub fn paper() -> Vec<u8> {
    let range = |person, start, end| Range { person, start, end };
    let job = JobCase {
        problem: ProblemCase {
            base: vec![(0, 120)],
            ranges: vec![range(0, 0, 120), range(1, 60, 180)],
            people: vec![Person::PLAIN; 2],
            settings: Settings::PLAIN,
        },
        freeze: None,
        owners: vec![(0, 0), (1, 0)],
        draws: vec![],
    };
    job.file()
}

/// The paper's job and blocks of draws with the answers that are recorded.
pub fn recording(blocks: &[&[(Draw, u16)]]) -> Vec<u8> {
    let mut bytes = paper();
    for one in blocks {
        for &(draw, answer) in *one {
            bytes.extend(recorded_bytes(draw, answer));
        }
        bytes.extend(close_bytes());
    }
    bytes
}

/// n draws of a problem.
fn some_draws(seed: &mut Seed, problem: &Problem, n: usize) -> Vec<Draw> {
    let mut made = Vec::new();
    while made.len() < n {
        made.extend(draws(seed, problem));
    }
    made.truncate(n);
    made
}

/// How many draws each block has: few as a rule; sometimes the most, and one more.
fn sizes(seed: &mut Seed) -> Vec<usize> {
    let many = seed.one_in(8);
    let blocks = if many { seed.within(5, 7) } else { seed.below(6) };
    (0..blocks)
        .map(|_| match seed.below(if many { 2 } else { 24 }) {
            0 if many => DRAWS_MOST,
            0 => seed.pick(&[DRAWS_MOST, DRAWS_MOST, DRAWS_MOST + 1]),
            1 | 2 => 0,
            3 => 1,
            _ => seed.within(1, 20) as usize,
        })
        .collect()
}

/// The records after a job, each as its bytes: blocks with the answers that the Rust gives, up to five of them changed.
fn tail(seed: &mut Seed, case: &JobCase) -> Vec<Vec<u8>> {
    let problem = case.frozen();
    let mut assignment = case.assignment(&problem);
    let mut records = Vec::new();
    let sizes = sizes(seed);
    let mut changes = if seed.one_in(2) { seed.within(1, 5) } else { 0 };
    let all = sizes.iter().sum::<usize>().max(1) as u64;
    for size in sizes {
        for draw in some_draws(seed, &problem, size) {
            let answer = u16::from(play(&problem, &mut assignment, &[draw])[0]);
            let change = changes > 0 && seed.below(all) < 2;
            changes -= u64::from(change);
            records.push(recorded_bytes(draw, if change { (answer + 1) % 3 } else { answer }));
        }
        records.push(close_bytes());
    }
    records
}

/// A fault somewhere after the job.
fn with_fault(seed: &mut Seed, mut records: Vec<Vec<u8>>) -> Vec<u8> {
    let at = seed.below(records.len() as u64 + 1) as usize;
    let draw = (seed.below(100) as u16, 0, 1);
    let mut last = vec![];
    match seed.below(8) {
        0 => records.insert(at, recorded_bytes(draw, seed.pick(&[3, 4, 255, 256, 65_535]))),
        1 => records.insert(
            at,
            file_of(&[(seed.pick(&[0, 1, 6, DRAW, 10, 65_535]), vec![0; seed.pick(&[0, 4, 6, 8])])]),
        ),
        2 => records.insert(at, file_of(&[(RECORDED, vec![0; seed.pick(&[0, 6, 7, 9, 10])])])),
        3 => records.insert(at, file_of(&[(CLOSE, vec![0; seed.pick(&[1, 4, 8])])])),
        4 => {
            records.pop();
        }
        5 => last = vec![0; seed.within(1, 3) as usize],
        6 => last = recorded_bytes(draw, 0),
        _ => {
            let mut bytes = records.concat();
            bytes.truncate(seed.below(bytes.len() as u64 + 1) as usize);
            return bytes;
        }
    }
    [records.concat(), last].concat()
}

/// A recording: of a sound job as a rule, with a fault after it in one of three; of a damaged one now and then; or with a draw of a job's file.
pub fn file(seed: &mut Seed) -> Vec<u8> {
    let mut case = JobCase::new(seed);
    let kept = std::mem::take(&mut case.draws);
    if case.frozen().slot_count() > SLOTS_MOST {
        return [case.file(), recorded_bytes((0, 0, 0), 0), close_bytes()].concat();
    }
    let records = tail(seed, &case);
    let bytes = if seed.one_in(3) {
        with_fault(seed, records)
    } else {
        records.concat()
    };
    let job = match seed.below(12) {
        0 => jobs::damaged_file(seed),
        1 => {
            case.draws = kept;
            case.file()
        }
        _ => case.file(),
    };
    [job, bytes].concat()
}

/// Recordings of as many empty blocks as there may be, and one more; the last with something after it that is no record.
fn at_the_limit() -> Vec<Vec<u8>> {
    let job = JobCase::uneven_at_the_end();
    let even = JobCase {
        owners: (0..16).map(|slot| (slot, 0)).collect(),
        ..job
    };
    let blocks = |n: usize| [even.file(), close_bytes().repeat(n)].concat();
    let most = blocks(BLOCKS_MOST);
    vec![
        most.clone(),
        blocks(BLOCKS_MOST + 1),
        [&most[..], &recorded_bytes((0, 0, 0), 0)].concat(),
        [&most[..], &recorded_bytes((0, 0, 0), 3)].concat(),
        [&most[..], &[9, 0]].concat(),
    ]
}

// ---- the comparison

/// Runs the replay's program on n recordings, on standard input and by name, and on those at the limit; prints the seed of each that it shows in
/// another way than is due.
pub fn compare(n: u64, run: u64, command: &[String]) -> io::Result<u64> {
    let name = std::env::temp_dir().join(format!("oracle-{}.recording", std::process::id()));
    let mut differing = 0;
    let mut ends = [0u64; 3];
    let limits = at_the_limit();
    let few = n.min(limits.len() as u64);
    for k in 0..n + few {
        let case_seed = Seed::of_case(run, "recordings", k);
        let made = if k < n {
            file(&mut Seed::new(case_seed))
        } else {
            limits[(k - n) as usize].clone()
        };
        fs::write(&name, &made)?;
        let got = if k % 2 == 0 {
            started(command, &[]).stdin(File::open(&name)?).output()?
        } else {
            started(command, &[&name]).stdin(Stdio::null()).output()?
        };
        let due = shown_of(&made);
        let last = due.lines().last().unwrap_or("");
        ends["EXR".find(&last[..1]).unwrap_or(0)] += 1;
        if !is_listing(&got, &due) {
            differing += 1;
            println!("recordings {case_seed}: {} and not {last}", described(&got));
        }
    }
    fs::remove_file(&name)?;
    let [agree, differ, refused] = ends;
    println!("recordings: {agree} that agree, {differ} that differ, {refused} refused: {differing} are shown in another way (seed {run})");
    Ok(differing)
}

// ---- a long recording, to measure with

/// A recording of n blocks of 1,024 draws each, agreeing, written to a file as it is made: of the job at every limit, or of the paper's, whose
/// draws all act.
pub fn write_long(n: usize, path: &str, small: bool) -> io::Result<()> {
    use std::io::Write;
    let mut case = JobCase::at_every_limit();
    let draw = case.draws[0];
    case.draws.clear();
    let mut out = io::BufWriter::new(File::create(path)?);
    let (job, two) = if small {
        (paper(), [(0, 1, 1), (0, 1, 0)])
    } else {
        (case.file(), [draw; 2])
    };
    out.write_all(&job)?;
    let both = two.map(|draw| recorded_bytes(draw, 0)).concat();
    let block = [both.repeat(DRAWS_MOST / 2), close_bytes()].concat();
    for _ in 0..n {
        out.write_all(&block)?;
    }
    out.flush()
}

#[cfg(test)]
mod tests {
    use super::{block, close_bytes, file, paper, recorded_bytes, recording, shown_of};
    use crate::job_files::read;
    use crate::seed::Seed;

    /// The worked example of a difference, of a fault, and of an unclosed block.
    #[test]
    fn worked_examples() {
        let first = "B 0\nS 0 0 60 0\nS 1 60 120 1\nP 0 60 80\nP 1 60 40\n";
        let second = "B 1\nS 0 0 60 0\nS 1 60 120 0\nP 0 120 80\nP 1 0 40\n";
        let acted = ((0, 1, 1), 0);
        let file = recording(&[&[acted], &[((0, 0, 1), 2), ((0, 1, 0), 1), acted], &[((0, 0, 0), 7)]]);
        assert_eq!(shown_of(&file), format!("{first}{second}X 1 1\n"));
        let file = recording(&[&[acted], &[((0, 1, 0), 0), ((0, 1, 1), 3)]]);
        assert_eq!(shown_of(&file), format!("{first}R 13\n"));
        let open = [recording(&[&[acted]]), recorded_bytes((0, 1, 0), 0)].concat();
        assert_eq!(shown_of(&open), format!("{first}R 13\n"));
        assert_eq!(shown_of(&paper()), "E\n");
    }

    /// One draw too many is 1, but 13 where that record is faulty itself.
    #[test]
    fn one_too_many() {
        let most = recorded_bytes((0, 0, 0), 0).repeat(1024);
        let with = |last: &[u8]| block(&[&most[..], last, &close_bytes()].concat(), 0).map(|(draws, _)| draws.len());
        assert_eq!(with(&[]), Ok(1024));
        assert_eq!(with(&recorded_bytes((0, 0, 0), 0)), Err(1));
        assert_eq!(with(&recorded_bytes((0, 0, 0), 3)), Err(13));
        assert_eq!(block(&close_bytes(), 65_535).map(|(draws, _)| draws.len()), Err(1));
        assert_eq!(block(&[9, 0], 65_535).map(|(draws, _)| draws.len()), Err(13));
    }

    /// Recordings end in every way, and some tails are longer than a job may be.
    #[test]
    fn every_end_is_reached() {
        let (mut ends, mut long) = ([0u64; 6], 0);
        for k in 0..400 {
            let made = file(&mut Seed::new(k));
            long += u64::from(made.len() > 60_000);
            let shown = shown_of(&made);
            let blocks = shown.starts_with('B');
            let last = shown.lines().last().unwrap_or("").to_string();
            let end = match (&last[..], blocks) {
                ("E", _) => 0,
                ("R 13", true) => 1,
                ("R 1", true) => 2,
                ("R 13", false) => 3,
                (other, _) if other.starts_with('X') => 4,
                _ => 5,
            };
            ends[end] += 1;
        }
        assert!(ends.iter().all(|&count| count > 0) && long > 0, "{ends:?} {long}");
        assert!(read(&paper()).is_some());
    }
}
