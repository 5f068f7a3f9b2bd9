//! Rotas with faults of chosen parts of the recount, alone and together, in one place or two each; and all that recounts them.

use crate::bits::{has_bit, put_bit};
use crate::call::Question;
use crate::limits::{NOBODY, TOTALS};
use crate::problems::{Person, ProblemCase, Range, Settings};
use crate::recounts::{faults, of_slots, of_units, with_units, without_units, PARTS};
use crate::rotas::{sets_into, uncovered, LentRota, RotaCase};
use crate::seed::Seed;

/// The most parts that are planted together, and the most places of each.
const TOGETHER: u64 = 3;
const PLACES: u64 = 2;

/// Rotas that are tried for the parts that are wanted: not every one can have them.
const TRIED: usize = 60;

/// A rota with faults, recounted by every entry: the two recounts, two plays, an assign. One in eight has none.
pub fn questions(case_seed: u64) -> Vec<Question> {
    let mut seed = Seed::new(case_seed);
    let (case, rota) = any_rota(&mut seed);
    let faults = faults(&case, &rota);
    let (units, slots) = (of_units(&faults), of_slots(&faults));
    let mut asked = vec![with_units(&rota, units), without_units(&rota, slots)];
    match units {
        0 => asked.extend(rota.plays(Ok(&case.play()))),
        refused => asked.extend(rota.plays(Err(refused))),
    }
    for _ in 0..2 {
        asked.push(rota.assign(&mut seed, &case, slots));
    }
    asked
}

fn any_rota(seed: &mut Seed) -> (RotaCase, LentRota) {
    let parts = if seed.one_in(8) { vec![] } else { some_parts(seed) };
    let made = (0..TRIED).find_map(|_| {
        let case = RotaCase::new(seed);
        let rota = with_faults(seed, &case, &parts)?;
        Some((case, rota))
    });
    made.unwrap_or_else(|| panic!("no rota takes faults of parts {parts:?}"))
}

/// One part, two or three, ascending.
pub fn some_parts(seed: &mut Seed) -> Vec<usize> {
    let wanted = seed.within(1, TOGETHER) as usize;
    let mut left: Vec<usize> = (1..=PARTS).collect();
    while left.len() > wanted {
        left.remove(seed.below(left.len() as u64) as usize);
    }
    left
}

/// The rota of a case with faults of these parts and of no other, in one place or two each, where it can have them.
pub fn with_faults(seed: &mut Seed, case: &RotaCase, parts: &[usize]) -> Option<LentRota> {
    let mut rota = LentRota::new(seed, case);
    let slots = case.problem.slot_count();
    let mut units = shuffled(seed, case.problem.unit_count());
    for &part in parts.iter().filter(|&&part| part <= 3) {
        for _ in 0..seed.within(1, PLACES) {
            plant_owner(seed, case, &mut rota, &mut units, part)?;
        }
    }
    // what the owners make, whatever they are now: an unknown one holds nothing
    sets_into(&mut rota.sets, rota.people, &rota.owners[..slots]);
    for person in 0..rota.people {
        let own = (0..slots).filter(|&slot| usize::from(rota.owners[slot]) == person);
        rota.minutes[person] = own.map(|slot| u64::from(rota.ends[slot] - rota.starts[slot])).sum();
    }
    let open = rota.owners[..slots].iter().filter(|&&owner| owner == NOBODY).count();
    rota.totals[..TOTALS].copy_from_slice(&[uncovered(&case.problem, &rota.owners[..slots]), open as u64]);
    if parts.contains(&4) {
        plant_bits(seed, &mut rota, slots);
    }
    if parts.contains(&5) {
        let people = shuffled(seed, rota.people);
        for &person in people.iter().take(seed.within(1, PLACES) as usize) {
            rota.minutes[person] ^= 1 << seed.pick(&[0, 1, 7, 32, 63]);
        }
    }
    if parts.contains(&6) {
        plant_totals(seed, &mut rota);
    }
    let planted = faults(case, &rota);
    let with: Vec<usize> = (1..=PARTS).filter(|part| !planted[part - 1].is_empty()).collect();
    assert_eq!(with, parts, "the parts that were planted are at fault, and no other");
    Some(rota)
}

/// The numbers below a count in any order.
fn shuffled(seed: &mut Seed, count: usize) -> Vec<usize> {
    let mut left: Vec<usize> = (0..count).collect();
    for k in (1..count).rev() {
        left.swap(k, seed.below(k as u64 + 1) as usize);
    }
    left
}

/// A fault of the owners in a unit that has none yet: an unknown owner of all of it, one who isn't available for all of it, or two owners.
fn plant_owner(seed: &mut Seed, case: &RotaCase, rota: &mut LentRota, units: &mut Vec<usize>, part: usize) -> Option<()> {
    let problem = &case.problem;
    let people = rota.people;
    let away = |unit: usize| (0..people).find(|person| !problem.unit_domains[unit].contains(person));
    let can_be = |unit: usize| match part {
        1 => true,
        2 => away(unit).is_some(),
        _ => problem.units[unit].len() > 1,
    };
    let at = units.iter().position(|&unit| can_be(unit))?;
    let unit = units.remove(at);
    let slots = problem.units[unit].clone();
    match part {
        1 => rota.owners[slots].fill(seed.within(people as u64, 254) as u8),
        2 => rota.owners[slots].fill(away(unit)? as u8),
        _ => {
            let slot = seed.within(slots.start as u64, slots.end as u64 - 1) as usize;
            let able = problem.domains[slot].iter().map(|&person| person as u8).chain([NOBODY]);
            let others: Vec<u8> = able.filter(|&owner| owner != rota.owners[slot]).collect();
            rota.owners[slot] = *others.get(seed.below(others.len().max(1) as u64) as usize)?;
        }
    }
    Some(())
}

/// Slots of sets put in where they are out, and out where they are in: one, two of one person, or two of two, mostly the higher slot of the
/// lower person.
fn plant_bits(seed: &mut Seed, rota: &mut LentRota, slots: usize) {
    let (mut people, mut slots) = (shuffled(seed, rota.people), shuffled(seed, slots));
    let count = if seed.one_in(3) { 1 } else { 2.min(slots.len()) };
    slots.truncate(count);
    people.truncate(count);
    if !seed.one_in(4) {
        people.sort_unstable();
        slots.sort_unstable_by(|a, b| b.cmp(a));
    }
    let is_one = people.len() < count || seed.one_in(4);
    for (k, slot) in slots.into_iter().enumerate() {
        let person = people[if is_one { 0 } else { k }];
        let is = has_bit(&rota.sets, person, slot);
        put_bit(&mut rota.sets, person, slot, !is);
    }
}

/// One total wrong, or both: by one, as an owner's change that was missed would leave it, or by any bit.
fn plant_totals(seed: &mut Seed, rota: &mut LentRota) {
    let which = shuffled(seed, TOTALS);
    for &k in which.iter().take(seed.within(1, PLACES) as usize) {
        rota.totals[k] = match seed.below(3) {
            0 => rota.totals[k] + 1,
            1 if rota.totals[k] > 0 => 0,
            _ => rota.totals[k] ^ 1 << seed.pick(&[0, 1, 7, 32, 63]),
        };
    }
}

// ---- the table by which the parts were read

/// Slots of 60 minutes, units 0-1 and 2-3, person 0 available for all of them, person 1 for 2 and 3; owners 0 0 1 1.
fn table_case() -> RotaCase {
    let range = |person, start, end| Range { person, start, end };
    let case = ProblemCase {
        base: (0..4).map(|slot| (60 * slot, 60 * slot + 60)).collect(),
        ranges: vec![range(0, 0, 240), range(1, 120, 240)],
        people: vec![Person::PLAIN; 2],
        settings: Settings {
            lock: 1,
            value: 2,
            ..Settings::PLAIN
        },
    };
    RotaCase {
        problem: case.rust(),
        owners: vec![0, 0, 1, 1],
        draws: vec![],
    }
}

/// Owners, and of a damage beside them person 1's set of slots, person 0's minutes, and the totals.
type Damage = ([u8; 4], Option<u64>, Option<u64>, [u64; TOTALS]);

const DAMAGES: [Damage; 10] = [
    ([0, 9, 1, 7], None, None, [0, 0]),
    ([1, 0, 9, 1], None, None, [0, 0]),
    ([1, 0, 1, 1], None, None, [0, 0]),
    ([0, 0, 1, NOBODY], None, None, [0, 0]),
    ([0, 0, 1, 1], Some(0b0110), None, [0, 0]),
    ([0, 0, 1, 1], None, Some(121), [0, 0]),
    ([0, 0, 1, 1], None, None, [60, 0]),
    ([0, 0, 1, 1], None, None, [0, 1]),
    ([0, 0, 1, 1], None, None, [60, 1]),
    ([0, 0, 1, 1], None, Some(121), [60, 1]),
];

/// The rotas of the table. Sets, minutes and totals are those of owners 0 0 1 1 but where they are the damage.
pub fn table() -> Vec<(RotaCase, LentRota)> {
    let damaged = |(owners, set, minutes, totals): Damage| {
        let case = table_case();
        let mut rota = LentRota::new(&mut Seed::new(0), &case);
        rota.owners[..4].copy_from_slice(&owners);
        if let Some(set) = set {
            (0..4).for_each(|slot| put_bit(&mut rota.sets, 1, slot, set >> slot & 1 == 1));
        }
        if let Some(minutes) = minutes {
            rota.minutes[0] = minutes;
        }
        rota.totals[..TOTALS].copy_from_slice(&totals);
        (case, rota)
    };
    DAMAGES.into_iter().map(damaged).collect()
}

#[cfg(test)]
mod tests {
    use std::collections::BTreeMap;

    use super::{any_rota, table};
    use crate::recounts::{faults, of_slots, of_units, Faults};
    use crate::seed::Seed;
    use crate::table::failed;

    /// The table's answers, worked out by hand: of the recount, and of the one of single slots.
    #[test]
    fn the_table_is_as_it_was_read() {
        let same = |part, place, second| [failed(part, place, second); 2];
        let due = [
            same(1, 1, 0),
            same(1, 2, 0),
            same(2, 0, 0),
            [failed(3, 1, 0), failed(4, 1, 3)],
            same(4, 1, 1),
            same(5, 0, 0),
            same(6, 0, 0),
            same(6, 1, 0),
            same(6, 0, 0),
            same(5, 0, 0),
        ];
        for ((case, rota), due) in table().into_iter().zip(due) {
            let faults = faults(&case, &rota);
            assert_eq!([of_units(&faults), of_slots(&faults)], due, "{faults:?}");
        }
    }

    /// The parts at fault and how many places each has.
    fn planted(faults: &Faults) -> Vec<(usize, usize)> {
        let parts = faults.iter().enumerate().filter(|(_, places)| !places.is_empty());
        parts.map(|(k, places)| (k + 1, places.len())).collect()
    }

    /// Wrong answers: the last place of the part; of parts 1 and 2 the lowest slot, whichever the part; the lowest slot over all sets.
    fn wrong(faults: &Faults) -> [Option<u64>; 3] {
        let (k, first) = faults
            .iter()
            .enumerate()
            .find(|(_, places)| !places.is_empty())
            .unwrap_or((0, &faults[0]));
        let last = first.last().map(|&(place, second)| failed(k + 1, place, second));
        let by_slot = [1, 2].map(|part| faults[part - 1].first().map(|place| (place.0, part)));
        let by_slot = by_slot.into_iter().flatten().min().map(|(slot, part)| failed(part, slot, 0));
        let lowest = faults[3].iter().min_by_key(|place| (place.1, place.0));
        let by_set = lowest.filter(|_| k == 3).map(|&(person, slot)| failed(4, person, slot));
        [last, by_slot, by_set]
    }

    /// Every part alone, every two and every three together, two places of each part, no fault; and each wrong answer can be told.
    #[test]
    fn every_choice_of_parts_is_planted() {
        let mut seen: BTreeMap<Vec<usize>, u64> = BTreeMap::new();
        let mut twice = [0u64; 6];
        let mut told = [0u64; 3];
        for k in 0..2000 {
            let (case, rota) = any_rota(&mut Seed::new(k));
            let faults = faults(&case, &rota);
            let parts = planted(&faults);
            *seen.entry(parts.iter().map(|part| part.0).collect()).or_default() += 1;
            parts.iter().filter(|part| part.1 > 1).for_each(|part| twice[part.0 - 1] += 1);
            let due = of_units(&faults);
            for (told, wrong) in told.iter_mut().zip(wrong(&faults)) {
                *told += u64::from(wrong.is_some_and(|wrong| wrong != due));
            }
        }
        assert_eq!(seen.len(), 1 + 6 + 15 + 20, "{seen:?}");
        assert!(seen.values().all(|&times| times > 8), "{seen:?}");
        assert!(twice.iter().all(|&times| times > 30), "{twice:?}");
        assert!(told.iter().all(|&times| times > 10), "{told:?}");
    }
}
