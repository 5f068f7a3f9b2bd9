//! Replays of recorded blocks: the answers are those of the Rust's own moves, some of them changed; what each block leaves is the Rust's rota
//! after the draws up to and with the first that differs.

use on_call::model::problem::Problem;

use crate::call::{bytes16, Arg, Outcome, Question};
use crate::limits::{DRAWS_MOST, NOTHING};
use crate::planted::{some_parts, with_faults};
use crate::recounts::{faults, of_units};
use crate::rotas::{draws, play, played, Draw, LentRota, Played, RotaCase};
use crate::seed::Seed;
use crate::ways::spoil_lent;

/// The most blocks of a night.
const BLOCKS: u64 = 5;

/// The most answers of a block that are changed.
const CHANGED: u64 = 5;

/// A night: blocks replayed one after another, each on what the one before it left, up to the first that differs.
pub fn questions(case_seed: u64) -> Vec<Question> {
    let mut seed = Seed::new(case_seed);
    let case = RotaCase::new(&mut seed);
    let mut rota = LentRota::new(&mut seed, &case);
    let mut owners = case.owners.clone();
    let mut asked = vec![];
    for _ in 0..seed.within(1, BLOCKS) {
        let block = block(&mut seed, &case.problem);
        let recorded = recorded(&mut seed, &case, &owners, &block);
        let end = End::of(&case, &owners, &block, &recorded);
        asked.push(Asking::new(&mut seed, &rota, block, recorded).question(Ok(&end)));
        rota.hold(&end.rota);
        owners.clone_from(&end.rota.owners);
        if end.place.is_some() {
            break;
        }
    }
    asked
}

/// The draws of a block: none, one, or as many as a play's, the most that there may be among them.
fn block(seed: &mut Seed, problem: &Problem) -> Vec<Draw> {
    let mut all = draws(seed, problem);
    match seed.below(8) {
        0 => all.clear(),
        1 => all.truncate(1),
        _ => {}
    }
    all
}

/// The Rust's answers to a block; in one block of three some are changed to another.
fn recorded(seed: &mut Seed, case: &RotaCase, owners: &[u8], block: &[Draw]) -> Vec<u16> {
    let answers = play(&case.problem, &mut case.assignment(owners), block);
    let mut recorded: Vec<u16> = answers.into_iter().map(u16::from).collect();
    if !recorded.is_empty() && seed.one_in(3) {
        for _ in 0..seed.within(1, CHANGED) {
            let place = seed.below(recorded.len() as u64) as usize;
            recorded[place] = (recorded[place] + seed.within(1, 2) as u16) % 3;
        }
    }
    recorded
}

/// How a block ends: the first draw that differs, and the Rust's rota after the draws that are played.
struct End {
    place: Option<usize>,
    rota: Played,
}

impl End {
    fn of(case: &RotaCase, owners: &[u8], block: &[Draw], recorded: &[u16]) -> Self {
        let answers = play(&case.problem, &mut case.assignment(owners), block);
        let place = answers.iter().zip(recorded).position(|(&answer, &due)| u16::from(answer) != due);
        let mut assignment = case.assignment(owners);
        let done = &block[..place.map_or(block.len(), |place| place + 1)];
        play(&case.problem, &mut assignment, done);
        Self {
            place,
            rota: played(&case.problem, &assignment, vec![]),
        }
    }
}

/// A block as it is asked: the rota with its draws, and the recorded answers with any numbers past them.
struct Asking {
    rota: LentRota,
    recorded: Vec<u16>,
    place: u64,
}

impl Asking {
    fn new(seed: &mut Seed, rota: &LentRota, block: Vec<Draw>, mut recorded: Vec<u16>) -> Self {
        let mut rota = rota.clone();
        rota.count = block.len();
        rota.draws = block;
        recorded.extend((0..seed.below(3)).map(|_| seed.word() as u16));
        Self {
            rota,
            recorded,
            place: seed.word(),
        }
    }

    /// What the block comes to: its end, or a refusal that leaves everything as it was.
    fn question(&self, due: Result<&End, u64>) -> Question {
        let mut after = self.rota.clone();
        let (result, place) = match due {
            Ok(end) => {
                after.hold(&end.rota);
                end.place.map_or((0, self.place), |place| (NOTHING, place as u64))
            }
            Err(number) => (number, self.place),
        };
        let columns = self.rota.columns().map(|column| Arg::Lent(2, bytes16(&column)));
        let mut args = self.rota.board();
        args.extend(columns);
        args.push(Arg::Lent(2, bytes16(&self.recorded)));
        args.extend(self.rota.rota_args(Arg::LentMut));
        args.push(Arg::Out(self.place));
        let mut written = after.buffers();
        written.push(place.to_le_bytes().to_vec());
        Question {
            function: "boltraven_replay_block",
            args,
            due: Outcome { result, written },
        }
    }
}

/// Blocks that are refused: by a recorded answer that is none, by a count or a list, by a fault of what is lent or of the recount, alone or
/// together. 13 is due before all, then the lowest.
pub fn damaged(case_seed: u64) -> Vec<Question> {
    let mut seed = Seed::new(case_seed);
    let case = RotaCase::new(&mut seed);
    let parts = if seed.one_in(3) { some_parts(&mut seed) } else { vec![] };
    let mut rota = with_faults(&mut seed, &case, &parts).unwrap_or_else(|| LentRota::new(&mut seed, &case));
    let recount = of_units(&faults(&case, &rota));
    let lent = if seed.one_in(3) { spoil_lent(&mut seed, &mut rota) } else { 0 };
    let recorded = recorded(&mut seed, &case, &case.owners, &case.draws);
    let mut asking = Asking::new(&mut seed, &rota, case.draws.clone(), recorded.clone());
    let block = if seed.one_in(2) { spoil_block(&mut seed, &mut asking) } else { 0 };
    if seed.one_in(3) {
        let place = seed.below(asking.recorded.len().max(1) as u64) as usize;
        let none = seed.pick(&[3, 4, 255, 256, 258, 65_535]);
        asking.recorded.get_mut(place).into_iter().for_each(|answer| *answer = none);
    }
    let is_none = asking.recorded.iter().take(asking.rota.count).any(|&answer| answer > 2);
    let of_lent = [lent, block].into_iter().filter(|&number| number > 0).min();
    let refused = is_none.then_some(13).or(of_lent).or((recount > 0).then_some(recount));
    vec![match refused {
        Some(number) => asking.question(Err(number)),
        None => asking.question(Ok(&End::of(&case, &case.owners, &case.draws, &recorded))),
    }]
}

/// A fault of the block's lists: its number.
fn spoil_block(seed: &mut Seed, asking: &mut Asking) -> u64 {
    match seed.below(3) {
        0 => {
            asking.rota.count = seed.pick(&[DRAWS_MOST + 1, usize::MAX]);
            1
        }
        1 => {
            asking.rota.count = (asking.rota.count + 1).min(DRAWS_MOST);
            asking.rota.draws.truncate(asking.rota.count - 1);
            2
        }
        _ => {
            asking.rota.count = asking.rota.count.max(1);
            asking.rota.draws.resize(asking.rota.count, (0, 0, 0));
            asking.recorded.truncate(asking.rota.count - 1);
            2
        }
    }
}

#[cfg(test)]
mod tests {
    use super::{damaged, questions, NOTHING};

    /// Blocks that agree and blocks that differ, at the first place and later, empty ones, single draws and the longest: the generator
    /// reaches them all, and each number of a refusal.
    #[test]
    fn every_end_is_reached() {
        let (mut agree, mut differ, mut later, mut sizes) = (0, 0, 0, [0; 3]);
        let mut numbers = [0; 14];
        for k in 0..150 {
            for question in questions(k) {
                let due = &question.due;
                let place = due.written.last().map_or(0, |bytes| bytes[0]);
                agree += usize::from(due.result == 0);
                differ += usize::from(due.result == NOTHING);
                later += usize::from(due.result == NOTHING && place > 0);
                match question.args.get(3) {
                    Some(crate::call::Arg::Number(0)) => sizes[0] += 1,
                    Some(crate::call::Arg::Number(1)) => sizes[1] += 1,
                    Some(crate::call::Arg::Number(1024)) => sizes[2] += 1,
                    _ => {}
                }
            }
            for question in damaged(k) {
                if question.due.result != NOTHING {
                    numbers[(question.due.result % 256) as usize] += 1;
                }
            }
        }
        assert!(agree > 60 && differ > 30 && later > 15, "{agree}, {differ}, {later}");
        assert!(sizes.iter().all(|&times| times > 0), "{sizes:?}");
        assert!([1, 2, 9, 10, 13].iter().all(|&number| numbers[number] > 1), "{numbers:?}");
    }
}
