//! Single questions of slots, units and owners, with numbers past their counts among them.

use crate::call::{bytes16, bytes64, Arg, Outcome, Question};
use crate::limits::{NOBODY, NOTHING};
use crate::rotas::{played, LentRota, RotaCase};
use crate::seed::Seed;

/// The refusal of an index that is not below its count.
const UNKNOWN: u64 = 11;

/// An index below a count, now and then past it.
fn index(seed: &mut Seed, count: usize) -> usize {
    if seed.one_in(8) {
        count + seed.below(3) as usize
    } else {
        seed.below(count as u64) as usize
    }
}

/// A question whose answer is so many numbers, written through addresses; or none, where something is unknown.
fn beside(function: &'static str, args: Vec<Arg>, seed: &mut Seed, due: Option<Vec<u64>>, numbers: usize) -> Question {
    let was: Vec<u64> = (0..numbers).map(|_| seed.word()).collect();
    let result = if due.is_some() { 0 } else { UNKNOWN };
    Question::beside(function, args, &was, result, due)
}

/// A question whose answer is the number itself; or none, where something is unknown.
fn plain(function: &'static str, args: Vec<Arg>, due: Option<u64>) -> Question {
    Question::number(function, args, due.unwrap_or(NOTHING + UNKNOWN))
}

/// The owner of a slot, a person's minutes, who can cover a slot, a slot's unit, a unit's slots, minutes of one and of all slots, and the
/// slots and minutes that nobody owns.
pub fn questions(seed: &mut Seed, case: &RotaCase, lent: &LentRota) -> Vec<Question> {
    let problem = &case.problem;
    let assignment = case.assignment(&case.owners);
    let (slots, people, units) = (problem.slot_count(), lent.people, lent.units);
    let slot = index(seed, slots);
    let person = index(seed, people);
    let unit = index(seed, units);

    let owner = (slot < slots).then(|| assignment.get(slot).map_or(u64::from(NOBODY), |person| person as u64));
    let owner_args = vec![
        Arg::Number(people as u64),
        Arg::Number(slots as u64),
        Arg::Lent(1, lent.owners.clone()),
        Arg::Number(slot as u64),
    ];
    let unassigned = Some(assignment.unassigned_count() as u64);
    let unassigned_args = owner_args[..3].to_vec();
    let uncovered = Some(vec![played(problem, &assignment, vec![]).totals[0]]);
    let uncovered_args = [lent.plan_args(), vec![Arg::Lent(1, lent.owners.clone())]].concat();
    let minutes = (person < people).then(|| vec![assignment.assigned_minutes(person) as u64]);
    let minutes_args = vec![
        Arg::Number(people as u64),
        Arg::Lent(8, bytes64(&lent.minutes)),
        Arg::Number(person as u64),
    ];
    let span = (unit < units).then(|| vec![problem.units[unit].start as u64, problem.units[unit].end as u64]);
    let units_args = vec![
        Arg::Number(slots as u64),
        Arg::Number(units as u64),
        Arg::Lent(2, bytes16(&lent.unit_starts)),
    ];
    let length = (slot < slots).then(|| vec![problem.slot_minutes[slot] as u64]);
    // slots, starts and ends
    let slots_args = lent.plan_args()[1..].to_vec();
    let one = |args: &[Arg], k: usize| [args, &[Arg::Number(k as u64)]].concat();
    vec![
        plain("boltraven_owner_of_slot", owner_args, owner),
        beside("boltraven_minutes_of", minutes_args, seed, minutes, 1),
        beside("boltraven_unit_slots", one(&units_args, unit), seed, span, 2),
        beside("boltraven_slot_minutes", one(&slots_args, slot), seed, length, 1),
        beside("boltraven_demand", slots_args, seed, Some(vec![problem.total_demand() as u64]), 1),
        plain("boltraven_unassigned_count", unassigned_args, unassigned),
        beside("boltraven_uncovered_minutes", uncovered_args, seed, uncovered, 1),
        plain(
            "boltraven_unit_of_slot",
            one(&units_args, slot),
            problem.unit_of_slot.get(slot).map(|&unit| unit as u64),
        ),
        slot_domain(seed, case, lent, slot),
    ]
}

/// The ascending list of people who can cover a slot.
fn slot_domain(seed: &mut Seed, case: &RotaCase, lent: &LentRota, slot: usize) -> Question {
    let before: Vec<u8> = (0..lent.people + seed.below(2) as usize).map(|_| seed.word() as u8).collect();
    let mut after = before.clone();
    let domain = case.problem.domains.get(slot);
    for (k, &person) in domain.into_iter().flatten().enumerate() {
        after[k] = person as u8;
    }
    Question {
        function: "boltraven_slot_domain",
        args: vec![
            Arg::Number(lent.people as u64),
            Arg::Number(case.problem.slot_count() as u64),
            Arg::Lent(8, bytes64(&lent.avail)),
            Arg::LentMut(1, before),
            Arg::Number(slot as u64),
        ],
        due: Outcome {
            result: domain.map_or(NOTHING + UNKNOWN, |domain| domain.len() as u64),
            written: vec![after],
        },
    }
}
