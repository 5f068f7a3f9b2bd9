//! Stored recordings: small ones with the texts that are due for them, which `stored_replay` plays with no Rust at hand. They cover every way in
//! which a replay ends, or they are not written. As many blocks as there may be are too long to be stored: `oracle/compare recordings` has them.

use std::collections::BTreeMap;

use crate::job_cases::JobCase;
use crate::job_faults::{with_faults, Fault, FAULTS, NUMBERS};
use crate::recordings::{close_bytes, file, job_end, paper, recorded_bytes, recording, shown_of};
use crate::seed::Seed;
use crate::stored::Stored;

/// How often each ending is to be seen, how many seeds are looked through, and the longest recording that a seed makes.
const TIMES: u64 = 3;
const SEARCHED: u64 = 1500;
const SMALL: usize = 1500;

/// Refused jobs among which the smallest is taken.
const ENOUGH: usize = 20;

/// Recordings, and how often each ending was seen.
struct Recordings {
    bytes: Vec<u8>,
    answers: u64,
    seen: BTreeMap<String, u64>,
}

/// Records of recordings: the worked ones; one of a refused job by each number, with a good block; up to n by seeds. A record is two u16, low byte first,
/// the length of the recording and that of the text that is due; then the recording; then the text. An ending that is missing is an error.
pub fn recordings(n: u64, run: u64) -> Result<Stored, String> {
    let mut all = Recordings {
        bytes: Vec::new(),
        answers: 0,
        seen: wanted().into_iter().map(|ending| (ending, 0)).collect(),
    };
    for made in worked() {
        all.add(&made);
    }
    for made in NUMBERS.iter().filter_map(|&number| refused(run, number)) {
        all.add(&made);
    }
    for k in 0..SEARCHED {
        let made = file(&mut Seed::new(Seed::of_case(run, "stored-recordings", k)));
        if made.len() > SMALL {
            continue;
        }
        let times = all.seen.get(&ending(&made)).copied().unwrap_or(0);
        if times == 0 || (all.answers < n && times < TIMES) || all.answers < n / 2 {
            all.add(&made);
        }
    }
    let missing: Vec<String> = all
        .seen
        .into_iter()
        .filter(|(_, times)| *times == 0)
        .map(|(ending, _)| ending)
        .collect();
    if missing.is_empty() {
        Ok(Stored::new(all.bytes, all.answers))
    } else {
        Err(format!("no stored recording ends with {}", missing.join("; ")))
    }
}

/// Recordings that are always stored: the worked difference, fault and unclosed block; no blocks; empty ones; the most draws of a block, which agree
/// but for the last; one draw more, after a block, and one more that is faulty itself.
fn worked() -> Vec<Vec<u8>> {
    let acted = ((0, 1, 1), 0);
    let back = ((0, 1, 0), 0);
    let first = recording(&[&[acted]]);
    let most = [back, acted].repeat(512);
    let mut wrong = most.clone();
    wrong[1023].1 = 1;
    let one_more = |answer: u16| {
        let draws: Vec<u8> = most.iter().flat_map(|&(draw, answer)| recorded_bytes(draw, answer)).collect();
        [&first[..], &draws, &recorded_bytes((0, 1, 0), answer), &close_bytes()].concat()
    };
    vec![
        recording(&[&[acted], &[((0, 0, 1), 2), ((0, 1, 0), 1), acted], &[((0, 0, 0), 7)]]),
        recording(&[&[acted], &[back, ((0, 1, 1), 3)]]),
        [&first[..], &recorded_bytes((0, 1, 0), 0)].concat(),
        paper(),
        recording(&[&[], &[acted], &[], &[]]),
        recording(&[&[acted], &most]),
        recording(&[&[acted], &wrong]),
        one_more(0),
        one_more(3),
    ]
}

/// The smallest of some recordings whose job is refused by a number, before a good block.
fn refused(run: u64, number: u8) -> Option<Vec<u8>> {
    let faults: Vec<Fault> = FAULTS.into_iter().filter(|fault| fault.number == number).collect();
    let made = |k: u64| {
        let mut seed = Seed::new(Seed::of_case(run, "stored-refused-recordings", k));
        let mut case = JobCase::new(&mut seed);
        case.draws.clear();
        let fault = seed.pick(&faults);
        let job = with_faults(&mut seed, case, &[fault])?;
        Some([&job[..], &recorded_bytes((0, 0, 0), 0), &close_bytes()].concat())
    };
    let due = format!("R {number} of the job");
    let right = (0..SEARCHED).filter_map(made).filter(|made| ending(made) == due);
    right.take(ENOUGH).min_by_key(Vec::len)
}

/// Every ending that is to be covered.
fn wanted() -> Vec<String> {
    let blocks = ["E", "E without blocks", "X", "R 13", "R 1", "R 13 in the first block"];
    let jobs = NUMBERS.iter().map(|number| format!("R {number} of the job"));
    blocks.iter().map(ToString::to_string).chain(jobs).collect()
}

/// How the text that is due for a recording ends.
fn ending(made: &[u8]) -> String {
    let text = shown_of(made);
    let last = text.lines().last().unwrap_or("");
    let number = last.split(['.', ' ']).nth(1).unwrap_or("");
    let shown = text.starts_with('B');
    match &last[..1] {
        "E" if !shown => "E without blocks".to_string(),
        "R" if shown => format!("R {number}"),
        "R" if shown_of(&made[..job_end(made)]) == "E\n" => format!("R {number} in the first block"),
        "R" => format!("R {number} of the job"),
        kind => kind.to_string(),
    }
}

impl Recordings {
    fn add(&mut self, made: &[u8]) {
        let text = shown_of(made);
        for length in [made.len(), text.len()] {
            self.bytes.extend(u16::try_from(length).expect("a length of 16 bits").to_le_bytes());
        }
        self.bytes.extend(made);
        self.bytes.extend(text.as_bytes());
        self.answers += 1;
        *self.seen.entry(ending(made)).or_default() += 1;
    }
}

#[cfg(test)]
mod tests {
    /// Stored recordings end in every way that is wanted.
    #[test]
    fn every_ending_is_stored() {
        assert!(super::recordings(40, 1).is_ok());
    }
}
