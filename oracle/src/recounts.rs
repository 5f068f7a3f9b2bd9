//! The recount, by its six parts, each walked over the whole rota against what the Rust rebuilds from the owners: every place at
//! fault, of which the lowest of the first part that has one is due. And an empty rota.

use on_call::model::Assignment;

use crate::bits::{has_bit, put_bit};
use crate::call::{bytes16, bytes32, bytes64, Arg, Outcome, Question};
use crate::limits::{NOBODY, SET_WORDS, TOTALS};
use crate::rotas::{played, uncovered, LentRota, RotaCase};
use crate::seed::Seed;
use crate::table::failed;

/// Recounts of some rotas that are changed in one place, where it may matter or not; and an empty rota.
pub fn questions(seed: &mut Seed, case: &RotaCase, lent: &LentRota) -> Vec<Question> {
    let mut asked = Vec::new();
    for _ in 0..4 {
        let rota = changed(seed, case, lent);
        let faults = faults(case, &rota);
        asked.push(with_units(&rota, of_units(&faults)));
        asked.push(without_units(&rota, of_slots(&faults)));
    }
    asked.push(empty(case, lent, 0));
    asked
}

/// The parts of the recount.
pub const PARTS: usize = 6;

/// The places at fault of each part, ascending: a slot, a slot, a unit, a person with a slot, a person, a total.
pub type Faults = [Vec<(usize, usize)>; PARTS];

/// What is due of a recount with units: 0, or the lowest place of the first part that has one.
pub fn of_units(faults: &Faults) -> u64 {
    first_of(faults, &[1, 2, 3, 4, 5, 6])
}

/// The same without units: part 3 is never asked.
pub fn of_slots(faults: &Faults) -> u64 {
    first_of(faults, &[1, 2, 4, 5, 6])
}

fn first_of(faults: &Faults, parts: &[usize]) -> u64 {
    let mut places = parts.iter().filter_map(|&part| Some((part, faults[part - 1].first()?)));
    places.next().map_or(0, |(part, &(place, second))| failed(part, place, second))
}

/// Every place at fault: owners known, owners available, units uniform, sets and minutes equal to those that the Rust rebuilds from the
/// owners, an unknown one holding nothing, totals those of the slots of nobody's. Bits past the last slot don't count.
pub fn faults(case: &RotaCase, lent: &LentRota) -> Faults {
    let problem = &case.problem;
    let slots = problem.slot_count();
    let owners = &lent.owners[..slots];
    let is_known = |owner: u8| usize::from(owner) < lent.people;
    let is_unknown = |slot: &usize| owners[*slot] != NOBODY && !is_known(owners[*slot]);
    let is_away = |slot: &usize| is_known(owners[*slot]) && !problem.is_available(usize::from(owners[*slot]), *slot);
    let is_uneven = |unit: &usize| {
        let unit = problem.units[*unit].clone();
        owners[unit.clone()].iter().any(|owner| *owner != owners[unit.start])
    };
    let held: Vec<u8> = owners.iter().map(|&owner| if is_known(owner) { owner } else { NOBODY }).collect();
    let rebuilt = case.assignment(&held);
    let is_wrong = |person: usize, slot: usize| has_bit(&lent.sets, person, slot) != rebuilt.slots_of(person).contains(slot);
    let wrong_slots = |person: usize| {
        let wrong = (0..slots).filter(move |&slot| is_wrong(person, slot));
        wrong.map(move |slot| (person, slot))
    };
    let alone = |place: usize| (place, 0);
    let people = 0..lent.people;
    let open = owners.iter().filter(|&&owner| owner == NOBODY).count() as u64;
    let totals = [uncovered(problem, owners), open];
    [
        (0..slots).filter(is_unknown).map(alone).collect(),
        (0..slots).filter(is_away).map(alone).collect(),
        (0..problem.unit_count()).filter(is_uneven).map(alone).collect(),
        people.clone().flat_map(wrong_slots).collect(),
        people
            .filter(|&person| lent.minutes[person] != rebuilt.assigned_minutes(person) as u64)
            .map(alone)
            .collect(),
        (0..TOTALS).filter(|&k| lent.totals[k] != totals[k]).map(alone).collect(),
    ]
}

/// A rota that is changed in one place.
fn changed(seed: &mut Seed, case: &RotaCase, lent: &LentRota) -> LentRota {
    let mut rota = lent.clone();
    let slots = case.problem.slot_count();
    let slot = seed.below(slots as u64) as usize;
    let person = seed.below(rota.people as u64) as usize;
    let somebody = if seed.one_in(4) { NOBODY } else { person as u8 };
    match seed.below(9) {
        0 => {}
        // an owner, and nothing else
        1 => rota.owners[slot] = somebody,
        // an owner, with all that is derived: the slot's unit may be uneven now, or the person unavailable
        2 | 3 => {
            rota.owners[slot] = somebody;
            let made = played(&case.problem, &case.assignment(&rota.owners[..slots]), vec![]);
            rota.hold(&made);
        }
        // a slot of somebody's set, to whatever
        4 => put_bit(&mut rota.sets, person, slot, seed.one_in(2)),
        // bits past the last slot
        5 => {
            for past in slots..64 * SET_WORDS {
                put_bit(&mut rota.sets, person, past, seed.one_in(2));
            }
        }
        6 => rota.minutes[person] = seed.pick(&[0, rota.minutes[person], rota.minutes[person] ^ 1 << 32]),
        7 => {
            let k = seed.below(TOTALS as u64) as usize;
            let total = rota.totals[k];
            rota.totals[k] = seed.pick(&[0, total, total + 1, total ^ 1 << 32]);
        }
        // what lies past the totals
        _ => rota.totals[TOTALS..].fill_with(|| seed.word()),
    }
    rota
}

/// The recount as a play asks it.
pub fn with_units(lent: &LentRota, number: u64) -> Question {
    let mut args = vec![
        Arg::Number(lent.people as u64),
        Arg::Number(lent.starts.len() as u64),
        Arg::Number(lent.units as u64),
        Arg::Lent(4, bytes32(&lent.starts)),
        Arg::Lent(4, bytes32(&lent.ends)),
        Arg::Lent(8, bytes64(&lent.avail)),
        Arg::Lent(2, bytes16(&lent.unit_starts)),
    ];
    args.extend(lent.rota_args(Arg::Lent));
    Question::number("boltraven_recount", args, number)
}

/// The recount as an assign asks it.
pub fn without_units(lent: &LentRota, number: u64) -> Question {
    let mut args = lent.plan_args();
    args.push(Arg::Lent(8, bytes64(&lent.avail)));
    args.extend(lent.rota_args(Arg::Lent));
    Question::number("boltraven_recount_slots", args, number)
}

/// A rota emptied, as the Rust's empty one; or a refusal.
pub fn empty(case: &RotaCase, lent: &LentRota, number: u64) -> Question {
    let mut after = lent.clone();
    if number == 0 {
        after.hold(&played(&case.problem, &Assignment::empty(&case.problem), vec![]));
    }
    let mut args = lent.plan_args();
    args.extend(lent.rota_args(Arg::LentMut));
    Question {
        function: "boltraven_empty",
        args,
        due: Outcome {
            result: number,
            written: after.buffers(),
        },
    }
}

#[cfg(test)]
mod tests {
    use super::{changed, faults, of_slots, of_units};
    use crate::rotas::{LentRota, RotaCase};
    use crate::seed::Seed;

    /// Changed rotas pass, fail, and fail for their units alone.
    #[test]
    fn every_verdict_is_reached() {
        let mut seen = [0u64; 3];
        for k in 0..600 {
            let mut seed = Seed::new(k);
            let case = RotaCase::new(&mut seed);
            let lent = LentRota::new(&mut seed, &case);
            let faults = faults(&case, &changed(&mut seed, &case, &lent));
            let verdict = usize::from(of_units(&faults) == 0) + usize::from(of_slots(&faults) == 0);
            seen[verdict] += 1;
        }
        assert!(seen.iter().all(|&times| times > 20), "{seen:?}");
    }
}
