//! Ways back to remembered owners: which draws are due is worked out from the Rust's units and domains, and where they lead from its rotas.

use on_call::model::problem::Problem;

use crate::call::{bytes16, bytes32, bytes64, Arg, Outcome, Question};
use crate::limits::{NOBODY, NOTHING, SET_WORDS, TOTALS};
use crate::planted::{some_parts, with_faults};
use crate::recounts::{faults, of_units};
use crate::rotas::{owners, play, played, Draw, LentRota, Played, RotaCase};
use crate::seed::Seed;
use crate::table::failed;

/// How many swaps are tried for one that acts.
const TRIED: usize = 20;

/// The draws that give each unit whose owner differs its remembered owner, at the place that the Rust's domain has them; or the first unit
/// that none gives back.
pub fn way(problem: &Problem, remembered: &[u8], owners: &[u8]) -> Result<Vec<Draw>, usize> {
    let mut draws = Vec::new();
    for (unit, slots) in problem.units.iter().enumerate() {
        let was = remembered[slots.start];
        if was == owners[slots.start] {
            continue;
        }
        let is_frozen = slots.clone().any(|slot| problem.is_frozen(slot));
        let place = problem.unit_domains[unit].iter().position(|&person| person == usize::from(was));
        match place {
            Some(place) if !is_frozen => draws.push((0, unit as u16, place as u16)),
            _ => return Err(unit),
        }
    }
    Ok(draws)
}

/// What stands against remembered owners: the first unit with two of them 10.3, an unknown one 11, one who is not available 12; or 0.
pub fn against(case: &RotaCase, remembered: &[u8]) -> u64 {
    let problem = &case.problem;
    let owners = &remembered[..problem.slot_count()];
    let is_known = |owner: u8| usize::from(owner) < problem.human_count();
    let uneven = problem
        .units
        .iter()
        .position(|unit| owners[unit.clone()].iter().any(|owner| *owner != owners[unit.start]));
    if let Some(unit) = uneven {
        return failed(3, unit, 0);
    }
    if owners.iter().any(|&owner| owner != NOBODY && !is_known(owner)) {
        return 11;
    }
    let is_away = |slot: &usize| owners[*slot] != NOBODY && !problem.is_available(usize::from(owners[*slot]), *slot);
    if (0..owners.len()).any(|slot| is_away(&slot)) {
        return 12;
    }
    0
}

/// A way back from where the draws of a rota lead to where it began, played; from it to any other owners, played where there is one; and a
/// swap of units that acts, played twice.
pub fn questions(case_seed: u64) -> Vec<Question> {
    let mut seed = Seed::new(case_seed);
    let case = RotaCase::new(&mut seed);
    let lent = LentRota::new(&mut seed, &case);
    let mut ended = lent.clone();
    ended.hold(&case.play());
    let others = owners(&mut seed, &case.problem);
    let mut asked = there_and_back(&mut seed, &case, &ended, &case.owners);
    asked.extend(there_and_back(&mut seed, &case, &lent, &others));
    asked.extend(swapped_twice(&mut seed, &case, &lent));
    asked
}

/// The way from a rota to remembered owners; and where there is one, the play of its draws, which ends in the Rust's rota of these owners.
fn there_and_back(seed: &mut Seed, case: &RotaCase, rota: &LentRota, remembered: &[u8]) -> Vec<Question> {
    let mut asked = vec![asked_way(&Asking::new(seed, rota, remembered), &case.problem, remembered)];
    if let Ok(draws) = way(&case.problem, remembered, &rota.owners) {
        let answers = vec![0; draws.len()];
        let end = played(&case.problem, &case.assignment(remembered), answers);
        asked.extend(played_on(rota, draws, &end));
    }
    asked
}

/// A way back that nothing stands against.
fn asked_way(asking: &Asking, problem: &Problem, remembered: &[u8]) -> Question {
    match way(problem, remembered, &asking.rota.owners) {
        Ok(draws) => asking.question(Due::Draws(&draws)),
        Err(unit) => asking.question(Due::Unit(unit)),
    }
}

/// A swap of units that acts by the Rust's moves, twice: the rota is as it was.
fn swapped_twice(seed: &mut Seed, case: &RotaCase, lent: &LentRota) -> Vec<Question> {
    let units = case.problem.unit_count() as u64;
    let acting = (0..TRIED).find_map(|_| {
        let swap = (seed.within(35, 59) as u16, seed.below(units) as u16, seed.below(units) as u16);
        let mut assignment = case.assignment(&case.owners);
        (play(&case.problem, &mut assignment, &[swap]) == [0]).then_some(swap)
    });
    let Some(swap) = acting else { return vec![] };
    let start = played(&case.problem, &case.assignment(&case.owners), vec![0, 0]);
    played_on(lent, vec![swap, swap], &start)
}

/// Both plays of these draws on a rota.
fn played_on(rota: &LentRota, draws: Vec<Draw>, end: &Played) -> Vec<Question> {
    let mut rota = rota.clone();
    rota.count = draws.len();
    rota.answers = vec![9; draws.len() + 1];
    rota.draws = draws;
    rota.plays(Ok(end))
}

/// What is due of a way back.
enum Due<'a> {
    Draws(&'a [Draw]),
    Unit(usize),
    Refusal(u64),
}

/// A way back as it is asked: the rota, the remembered owners, the flags, and the columns to write, with any numbers in them.
struct Asking<'a> {
    rota: &'a LentRota,
    remembered: Vec<u8>,
    columns: [Vec<u16>; 3],
    told: u64,
}

impl<'a> Asking<'a> {
    fn new(seed: &mut Seed, rota: &'a LentRota, remembered: &[u8]) -> Self {
        let spare = seed.below(3) as usize;
        let mut column = || (0..remembered.len() + spare).map(|_| seed.word() as u16).collect::<Vec<u16>>();
        let columns = [column(), column(), column()];
        Self {
            rota,
            remembered: [remembered, &vec![seed.word() as u8; spare]].concat(),
            columns,
            told: seed.word(),
        }
    }

    fn question(&self, due: Due) -> Question {
        let rota = self.rota;
        let mut args = vec![
            Arg::Number(rota.people as u64),
            Arg::Number(rota.starts.len() as u64),
            Arg::Number(rota.units as u64),
            Arg::Lent(4, bytes32(&rota.starts)),
            Arg::Lent(4, bytes32(&rota.ends)),
            Arg::Lent(8, bytes64(&rota.avail)),
            Arg::Lent(2, bytes16(&rota.unit_starts)),
            Arg::Lent(8, bytes64(&rota.frozen)),
            Arg::Lent(1, self.remembered.clone()),
        ];
        args.extend(rota.rota_args(Arg::Lent));
        args.extend(self.columns.iter().map(|column| Arg::LentMut(2, bytes16(column))));
        args.push(Arg::Out(self.told));
        let mut columns = self.columns.clone();
        let (result, told) = match due {
            Due::Draws(draws) => {
                for (k, draw) in draws.iter().enumerate() {
                    (columns[0][k], columns[1][k], columns[2][k]) = *draw;
                }
                (0, draws.len() as u64)
            }
            Due::Unit(unit) => (NOTHING, unit as u64),
            Due::Refusal(number) => (number, self.told),
        };
        let mut written: Vec<Vec<u8>> = columns.iter().map(|column| bytes16(column)).collect();
        written.push(told.to_le_bytes().to_vec());
        Question {
            function: "boltraven_way_back",
            args,
            due: Outcome { result, written },
        }
    }
}

/// Ways back that are refused: by a fault of what is lent, of the recount, or of the remembered owners, alone or together; the lowest is due.
pub fn damaged(case_seed: u64) -> Vec<Question> {
    let mut seed = Seed::new(case_seed);
    let case = RotaCase::new(&mut seed);
    let parts = if seed.one_in(3) { some_parts(&mut seed) } else { vec![] };
    let mut rota = with_faults(&mut seed, &case, &parts).unwrap_or_else(|| LentRota::new(&mut seed, &case));
    let mut remembered = owners(&mut seed, &case.problem);
    for _ in 0..seed.below(3) {
        spoil(&mut seed, &case, &mut remembered);
    }
    let recount = of_units(&faults(&case, &rota));
    let against = against(&case, &remembered);
    let lent = if seed.one_in(3) { spoil_lent(&mut seed, &mut rota) } else { 0 };
    let mut asking = Asking::new(&mut seed, &rota, &remembered);
    let short = if seed.one_in(4) {
        shorten(&mut seed, &mut asking, remembered.len())
    } else {
        0
    };
    // 1 and 2 before 9, these before 10 of the rota, and that before 10, 11 and 12 of the remembered owners
    let of_lent = [lent, short].into_iter().filter(|&number| number > 0).min();
    let refused = of_lent.or([recount, against].into_iter().find(|&number| number > 0));
    vec![match refused {
        Some(number) => asking.question(Due::Refusal(number)),
        None => asked_way(&asking, &case.problem, &remembered),
    }]
}

/// A fault of remembered owners: a slot of any owner, or a unit of an unknown one or of one who may not be available.
fn spoil(seed: &mut Seed, case: &RotaCase, remembered: &mut [u8]) {
    let people = case.problem.human_count() as u64;
    let unit = case.problem.units[seed.below(case.problem.unit_count() as u64) as usize].clone();
    match seed.below(3) {
        0 => {
            let slot = seed.within(unit.start as u64, unit.end as u64 - 1) as usize;
            let person = seed.below(people) as u8;
            remembered[slot] = if seed.one_in(4) { NOBODY } else { person };
        }
        1 => remembered[unit].fill(seed.within(people, 254) as u8),
        _ => remembered[unit].fill(seed.below(people) as u8),
    }
}

/// A fault of what the rota is lent in: its number.
pub fn spoil_lent(seed: &mut Seed, rota: &mut LentRota) -> u64 {
    let slots = rota.starts.len();
    let slot = seed.below(slots as u64) as usize;
    match seed.below(9) {
        0 => rota.people = seed.pick(&[0, 33, usize::MAX]),
        1 => rota.starts.clear(),
        2 => rota.owners.truncate(slots - 1),
        3 => rota.sets.truncate(SET_WORDS * rota.people - 1),
        4 => rota.frozen.truncate(SET_WORDS - 1),
        5 => rota.unit_starts.truncate(rota.units - 1),
        6 => rota.ends[slot] = rota.starts[slot],
        7 => rota.totals.truncate(seed.below(TOTALS as u64) as usize),
        _ => rota.unit_starts[0] = 1,
    }
    match (rota.starts.is_empty() || rota.people == 0 || rota.people > 32, rota.ends.get(slot)) {
        (true, _) => 1,
        (_, end) if end == rota.starts.get(slot) || rota.unit_starts.first() == Some(&1) => 9,
        _ => 2,
    }
}

/// One of what is lent besides, too short: 2.
fn shorten(seed: &mut Seed, asking: &mut Asking, slots: usize) -> u64 {
    match seed.below(4) {
        3 => asking.remembered.truncate(slots - 1),
        column => asking.columns[column as usize].truncate(slots - 1),
    }
    2
}

#[cfg(test)]
mod tests {
    use super::{way, RotaCase, Seed};

    /// Ways that there are, of many draws and of none, and units in the way: the generators reach them all.
    #[test]
    fn every_way_is_reached() {
        let mut seen = [0u64; 4];
        for k in 0..400 {
            let case = RotaCase::new(&mut Seed::new(k));
            let end = case.play().owners;
            let kind = match way(&case.problem, &case.owners, &end) {
                Ok(draws) => draws.len().min(2),
                Err(_) => 3,
            };
            seen[kind] += 1;
        }
        assert!(seen.iter().all(|&times| times > 20), "{seen:?}");
    }
}
