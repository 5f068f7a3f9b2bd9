//! Records of ways back: the worked examples, then any, with those that a unit stands in the way of and those that are refused.

use crate::limits::{NOBODY, TOTALS};
use crate::planted::with_faults;
use crate::problems::{unit_starts_of, Person, ProblemCase, Range, Settings};
use crate::recounts::{faults, of_units};
use crate::rotas::{owners, uncovered, Draw, LentRota, RotaCase};
use crate::seed::Seed;
use crate::stored::{filled16, filled32, half, records, Stored};
use crate::table::Slots;
use crate::ways::{against, way};

/// People and slots of a record, at most.
const PEOPLE: usize = 4;
const SLOTS: usize = 16;

/// What stands in the columns, and in the answers, before a call.
const BEFORE: u16 = 7;
const UNANSWERED: u8 = 9;

/// Records of ways back. A record is, low byte first: people, slots and units as u16; sixteen starts and sixteen ends as u32; sixteen u16 of
/// the slots at which units begin; four u16 of slots that a person can cover; a u16 of frozen slots; sixteen remembered owners, and sixteen
/// owners as they are; then what is due: as u16 whether there are draws (0), a unit in the way (1) or a refusal (2), how many draws or
/// which unit, and the refusal's number, part and place; the three columns of sixteen u16; sixteen answers of the play of the draws; and as
/// two u32 what nobody owns of the remembered owners, in minutes and in slots. A record has four answers, and one more where there are draws.
pub fn ways(n: u64, run: u64) -> Stored {
    let mut bytes = Vec::new();
    let mut answers = 0;
    records(n, run, "stored-ways", |seed, made| {
        let record = match EXAMPLES.get(made as usize) {
            Some((lengths, remembered, now)) => Some(example(lengths, remembered, now)),
            None => any(seed, made),
        };
        let Some((case, remembered)) = record else { return false };
        answers += write(&mut bytes, &case, &remembered);
        true
    });
    Stored::new(bytes, answers)
}

/// Ways that are always stored: the minutes of slots, each a unit of its own; the remembered owners; the owners as they are. Two owners
/// swapped, beside a slot of nobody's; four slots after three draws; what swapped runs leave when they are swapped again; nothing to do.
type Example = (&'static [u32], &'static [u8], &'static [u8]);
const EXAMPLES: [Example; 4] = [
    (&[60, 120, 60], &[0, 1, 255], &[1, 0, 255]),
    (&[60, 60, 60, 60], &[0, 1, 1, 0], &[0, 0, 1, 1]),
    (&[60, 60, 60], &[0, 1, 0], &[0, 1, 1]),
    (&[60, 60, 60], &[0, 1, 0], &[0, 1, 0]),
];

/// Two people who can cover every slot.
fn example(lengths: &[u32], remembered: &[u8], now: &[u8]) -> (RotaCase, Vec<u8>) {
    let mut base = Vec::new();
    let mut at = 0;
    for length in lengths {
        base.push((at, at + length));
        at += length;
    }
    let range = |person| Range { person, start: 0, end: at };
    let case = ProblemCase {
        base,
        ranges: vec![range(0), range(1)],
        people: vec![Person::PLAIN; 2],
        settings: Settings::PLAIN,
    };
    let case = RotaCase {
        problem: case.rust(),
        owners: now.to_vec(),
        draws: vec![],
    };
    (case, remembered.to_vec())
}

/// A small rota and what is remembered: where its draws began, other owners, or owners with a fault.
fn any(seed: &mut Seed, made: u64) -> Option<(RotaCase, Vec<u8>)> {
    let mut case = RotaCase::new(seed);
    if case.problem.slot_count() > SLOTS || case.problem.human_count() > PEOPLE {
        return None;
    }
    let mut remembered = case.owners.clone();
    match made % 4 {
        0 | 1 => case.owners = case.play().owners,
        2 => remembered = owners(seed, &case.problem),
        _ => {
            let part = seed.within(1, 3) as usize;
            remembered = with_faults(seed, &case, &[part])?.owners[..case.problem.slot_count()].to_vec();
        }
    }
    let differs = remembered != case.owners;
    let is_way = way(&case.problem, &remembered, &case.owners).is_ok();
    // half of the others have a unit in the way
    (differs && (made % 4 == 3 || is_way == (made % 8 < 4))).then_some((case, remembered))
}

/// Writes a record; how many answers it has.
fn write(bytes: &mut Vec<u8>, case: &RotaCase, remembered: &[u8]) -> u64 {
    let problem = &case.problem;
    let rota = LentRota::new(&mut Seed::new(0), case);
    assert_eq!(of_units(&faults(case, &rota)), 0, "the rota as it is passes the recount");
    let (people, slots) = (problem.human_count(), Slots::of(problem));
    let unit_starts = unit_starts_of(problem);
    for count in [people, slots.count, unit_starts.len()] {
        half(bytes, count);
    }
    filled32(bytes, SLOTS, &slots.starts, 0);
    filled32(bytes, SLOTS, &slots.ends, 0);
    filled16(bytes, SLOTS, &unit_starts, 0);
    let set = |holds: &dyn Fn(usize) -> bool| -> u16 { (0..slots.count).map(|slot| u16::from(holds(slot)) << slot).sum() };
    let able: Vec<u16> = (0..people).map(|person| set(&|slot| problem.is_available(person, slot))).collect();
    filled16(bytes, PEOPLE, &able, 0);
    filled16(bytes, 1, &[set(&|slot| problem.is_frozen(slot))], 0);
    for list in [remembered, &case.owners[..]] {
        bytes.extend(list.iter().copied().chain(std::iter::repeat(0)).take(SLOTS));
    }
    let refusal = against(case, remembered);
    let due = if refusal > 0 {
        Err(0)
    } else {
        way(problem, remembered, &case.owners)
    };
    let (kind, told, draws) = match due {
        _ if refusal > 0 => (2, 0, vec![]),
        Ok(draws) => (0, draws.len(), draws),
        Err(unit) => (1, unit, vec![]),
    };
    for n in [
        kind,
        told,
        (refusal & 255) as usize,
        (refusal >> 8 & 255) as usize,
        (refusal >> 16) as usize,
    ] {
        half(bytes, n);
    }
    for number in [|draw: &Draw| draw.0, |draw: &Draw| draw.1, |draw: &Draw| draw.2] {
        let column: Vec<u16> = draws.iter().map(number).collect();
        filled16(bytes, SLOTS, &column, BEFORE);
    }
    bytes.extend((0..SLOTS).map(|k| if k < draws.len() { 0 } else { UNANSWERED }));
    let open = remembered.iter().filter(|&&owner| owner == NOBODY).count();
    filled32(bytes, TOTALS, &[uncovered(problem, remembered) as u32, open as u32], 0);
    if kind == 0 {
        5
    } else {
        4
    }
}
