//! What is asked of a rota: plays, changes, recounts and single questions; and the same of one with a fault.

use crate::call::Question;
use crate::limits::{DRAWS_MOST, NOBODY, SET_WORDS, TOTALS};
use crate::readers;
use crate::recounts;
use crate::rotas::{LentRota, RotaCase};
use crate::seed::Seed;
use crate::table::failed;

/// A play of all draws of a rota; all that is derived made from its owners; slots assigned; recounts; single questions; and the units given
/// away one by one from nobody.
pub fn questions(case_seed: u64) -> Vec<Question> {
    let mut seed = Seed::new(case_seed);
    let mut case = RotaCase::new(&mut seed);
    let lent = LentRota::new(&mut seed, &case);
    let mut asked = lent.plays(Ok(&case.play()));
    asked.push(lent.made_from_slots(&mut seed, &case, 0));
    for _ in 0..3 {
        asked.push(lent.assign(&mut seed, &case, 0));
    }
    asked.extend(lent.assigns_in_turn(&mut seed, &case));
    asked.extend(recounts::questions(&mut seed, &case, &lent));
    asked.extend(readers::questions(&mut seed, &case, &lent));
    give_away(&mut seed, &mut case);
    asked.extend(LentRota::new(&mut seed, &case).plays(Ok(&case.play())));
    asked
}

/// Nobody owns a slot, and each unit goes to one who can cover it, or would; one in eight is drawn twice.
fn give_away(seed: &mut Seed, case: &mut RotaCase) {
    case.owners.fill(NOBODY);
    case.draws.clear();
    for (unit, domain) in case.problem.unit_domains.iter().enumerate() {
        for _ in 0..if seed.one_in(8) { 2 } else { 1 } {
            let place = seed.below(domain.len().max(1) as u64);
            case.draws.push((seed.below(35) as u16, unit as u16, place as u16));
        }
    }
    case.draws.truncate(DRAWS_MOST);
}

/// Rotas with one fault: in what was lent, or of the recount, of which the last two may fail together. The numbers are the paper's, each the
/// only one that is due: of a play, of the recount, of the recount without units, and of an empty rota. An entry that doesn't take the
/// damaged thing has none.
pub fn damaged(case_seed: u64) -> Vec<Question> {
    let mut seed = Seed::new(case_seed);
    let case = RotaCase::new(&mut seed);
    let mut lent = LentRota::new(&mut seed, &case);
    let slots = case.problem.slot_count();
    let slot = seed.below(slots as u64) as usize;
    let person = seed.below(lent.people as u64) as usize;
    let recounted = |number: u64| [number, number, number, 0];
    let [play, recount, recount_slots, empty] = match seed.below(17) {
        0 => {
            lent.people = seed.pick(&[0, 33, usize::MAX]);
            [1, 1, 1, 1]
        }
        1 => {
            lent.owners.truncate(slots - 1);
            [2, 2, 2, 2]
        }
        2 => {
            lent.sets.truncate(SET_WORDS * lent.people - 1);
            [2, 2, 2, 2]
        }
        3 => {
            lent.ends[slot] = lent.starts[slot];
            [9, 9, 9, 9]
        }
        4 => {
            lent.unit_starts[0] = 1;
            [9, 9, 0, 0]
        }
        5 => {
            lent.units = 0;
            [9, 9, 0, 0]
        }
        6 => {
            lent.owners[slot] = lent.people as u8 + seed.below(254 - lent.people as u64) as u8;
            recounted(failed(1, slot, 0))
        }
        7 => {
            let word = &mut lent.sets[SET_WORDS * person + slot / 64];
            *word ^= 1 << (slot % 64);
            recounted(failed(4, person, slot))
        }
        8 => {
            lent.minutes[person] ^= 1 << seed.below(64);
            recounted(failed(5, person, 0))
        }
        9 => {
            lent.count = seed.pick(&[DRAWS_MOST + 1, usize::MAX]);
            [1, 0, 0, 0]
        }
        10 => {
            lent.count = (lent.count + 1).min(DRAWS_MOST);
            lent.draws.truncate(lent.count - 1);
            [2, 0, 0, 0]
        }
        11 => {
            lent.unit_starts.truncate(lent.units - 1);
            [2, 2, 0, 0]
        }
        12 => {
            lent.starts.clear();
            [1, 1, 1, 1]
        }
        13 => {
            lent.totals.truncate(seed.below(TOTALS as u64) as usize);
            [2, 2, 2, 2]
        }
        14 => {
            let k = seed.below(TOTALS as u64) as usize;
            lent.totals[k] ^= 1 << seed.below(64);
            recounted(failed(6, k, 0))
        }
        15 => {
            (0..TOTALS).for_each(|k| lent.totals[k] ^= 1 << seed.below(64));
            recounted(failed(6, 0, 0))
        }
        _ => {
            lent.totals[seed.below(TOTALS as u64) as usize] ^= 1 << seed.below(64);
            lent.minutes[person] ^= 1 << seed.below(64);
            recounted(failed(5, person, 0))
        }
    };
    let mut asked = lent.plays(Err(play));
    if !lent.starts.is_empty() {
        asked.push(lent.assign(&mut seed, &case, recount_slots));
    }
    // it recounts nothing, and 11 is for an unknown owner
    let made = match recount_slots {
        number if number < 10 => number,
        failed_by if failed_by == failed(1, slot, 0) => 11,
        _ => 0,
    };
    asked.push(lent.made_from_slots(&mut seed, &case, made));
    asked.push(recounts::with_units(&lent, recount));
    asked.push(recounts::without_units(&lent, recount_slots));
    asked.push(recounts::empty(&case, &lent, empty));
    asked
}

#[cfg(test)]
mod tests {
    use super::give_away;
    use crate::rotas::RotaCase;
    use crate::seed::Seed;

    /// Units of several slots that go from nobody to somebody, each by one draw; and rotas of which some units stay open.
    #[test]
    fn units_of_several_slots_are_given_away() {
        let (mut long, mut open) = (0, 0);
        for k in 0..200 {
            let mut seed = Seed::new(k);
            let mut case = RotaCase::new(&mut seed);
            give_away(&mut seed, &mut case);
            let end = case.play();
            let is_given = |draw: &(&(u16, u16, u16), &u8)| *draw.1 == 0 && case.problem.units[usize::from(draw.0 .1)].len() > 1;
            long += case.draws.iter().zip(&end.answers).filter(is_given).count();
            open += usize::from(end.totals[1] > 0);
        }
        assert!(long > 300 && open > 30, "{long}, {open}");
    }
}
