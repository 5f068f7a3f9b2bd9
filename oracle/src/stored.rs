//! Stored answers: records of the Rust's answers, which the `stored_*` programs of the library compare with no Rust at hand.

use crate::bits::put_bit;
use crate::figures::{second_edition, targets_by, FigureCase, Spread, WRONG, WRONG_SPREADS};
use crate::limits::SLOTS_MOST;
use crate::problems::Person;
use crate::seed::Seed;
use crate::sets::{held, index, next_run, next_unset_after, prev_unset_before, SetCase};

/// Nothing found, in a record.
const NOTHING: usize = 65_535;

/// Indexes of a set's record, and the bytes of its changes.
const INDEXES: usize = 8;
const CHANGES: usize = 2 * (2 + 128) + 2 * (4 + 128);

/// Records, and what is written of them.
pub struct Stored {
    pub bytes: Vec<u8>,
    /// For each line that the program writes: how many answers, and of what.
    pub lines: Vec<(u64, &'static str)>,
}

impl Stored {
    /// Records with one line for all of their answers.
    pub fn new(bytes: Vec<u8>, answers: u64) -> Self {
        let lines = vec![(answers, "")];
        Self { bytes, lines }
    }
}

/// Tries seed after seed of this name until n records are made. `make` has the seed and how many there are by then, and answers whether it
/// made one.
pub fn records(n: u64, run: u64, name: &str, mut make: impl FnMut(&mut Seed, u64) -> bool) {
    let mut made = 0;
    let mut k = 0;
    while made < n {
        made += u64::from(make(&mut Seed::new(Seed::of_case(run, name, k)), made));
        k += 1;
    }
}

/// Records of slot sets. A record is, in u16 and u64 numbers, low byte first: the length; the 16 words; is_empty; count; eight times an
/// index with contains, next_set, prev_set, next_unset_after, prev_unset_before, what holds it (0 a run, 1 a hole) with its ends, and the
/// ends of the next run from it on; then, each with all words after it, the index of an insert and of a remove, and the two ends of a
/// stretch put in and of one taken out; a set of no slots has none to change, and zeros there. Nothing is 65,535. The first records are
/// those of `EXAMPLES`.
pub fn slot_sets(n: u64, run: u64) -> Stored {
    let mut bytes = Vec::new();
    let mut answers = 0;
    records(n, run, "stored-slot-sets", |seed, made| {
        let (case, asked) = match EXAMPLES.get(made as usize) {
            Some((members, len, asked)) => (example(members.clone(), *len), *asked),
            None => (SetCase::new(seed), &[][..]),
        };
        slot_set(&mut bytes, seed, &case, asked);
        answers += if case.len > 0 { 62 } else { 58 };
        true
    });
    Stored::new(bytes, answers)
}

/// Sets that are always stored, by their members and their length, and the indexes that are asked first: holes before, behind and between
/// runs, at the length, of an empty set, and none of no slots.
const EXAMPLES: [(std::ops::Range<usize>, usize, &[usize]); 5] = [
    (60..70, 70, &[64, 5, 70]),
    (60..70, 80, &[70]),
    (60..70, 64, &[5]),
    (0..0, 70, &[69]),
    (60..70, 0, &[0]),
];

/// A set by its members, those at or past the length among them, and its length.
fn example(members: std::ops::Range<usize>, len: usize) -> SetCase {
    let mut words = [0; SLOTS_MOST / 64];
    for i in members {
        put_bit(&mut words, 0, i, true);
    }
    SetCase { len, words }
}

/// Records of targets, of at most eight people and six slots. A record is, low byte first: people, slots, fairness and edition as u16; six starts
/// and six ends as u32; eight u16 of slots that a person can cover; eight capacities as one u32 divided by another; eight prior minutes as
/// u32; eight targets as u32, with 2 ^ 31 added. Some of the cases are looked for: those that tell a wrong rule from the Rust's.
/// Each case is stored in both editions: the Rust's targets, and edition 2's over the Rust's rounded ones.
pub fn targets(n: u64, run: u64) -> Stored {
    let mut bytes = Vec::new();
    let mut found = [0u64; WRONG.len()];
    let mut told_second = [0u64; WRONG_SPREADS.len()];
    let mut plain = n - TELLING * (WRONG.len() + WRONG_SPREADS.len()) as u64;
    let mut made = 0;
    for (case, ratios) in table() {
        both_editions(&mut bytes, &case, &ratios, &case.rust());
    }
    for k in 0..SEARCHED * n {
        if made == n {
            break;
        }
        let mut seed = Seed::new(Seed::of_case(run, "stored-targets", k));
        let mut case = FigureCase::new(&mut seed);
        case.people.truncate(FIGURES);
        case.able.truncate(FIGURES);
        let ratios = ratios(&mut seed, &mut case);
        let due = case.rust();
        if due.iter().any(|&target| i32::try_from(target).is_err()) {
            continue;
        }
        let second = second_edition(Spread::MinuteByMinute, &case, &due);
        let mut tells = false;
        for (rule, times) in WRONG.iter().zip(found.iter_mut()) {
            if *times < TELLING && targets_by(*rule, &case) != due {
                *times += 1;
                tells = true;
            }
        }
        for (rule, times) in WRONG_SPREADS.iter().zip(told_second.iter_mut()) {
            if *times < TELLING && second_edition(*rule, &case, &due) != second {
                *times += 1;
                tells = true;
            }
        }
        if tells || plain > 0 {
            plain -= u64::from(!tells);
            both_editions(&mut bytes, &case, &ratios, &due);
            made += 1;
        }
    }
    Stored::new(bytes, 2 * (made + table().len() as u64))
}

/// The table in which both editions are set side by side: marked cases 7 to 10, and more of them. One slot, fairness 1.
fn table() -> Vec<(FigureCase, Vec<(u32, u32)>)> {
    let row = |above: &[u32], priors: &[u32], demand: u32| {
        let person = |(&above, &prior): (&u32, &u32)| Person {
            capacity: f64::from(above),
            prior,
        };
        let case = FigureCase {
            lengths: vec![demand],
            able: vec![vec![true]; above.len()],
            people: above.iter().zip(priors).map(person).collect(),
            fairness: 1,
        };
        (case, above.iter().map(|&above| (above, 1)).collect())
    };
    vec![
        row(&[1; 3], &[0; 3], 100),
        row(&[1; 4], &[0; 4], 2),
        row(&[1; 2], &[300, 0], 100),
        row(&[0; 2], &[0; 2], 100),
        row(&[1; 4], &[0; 4], 5),
        row(&[2, 1, 1, 1], &[0; 4], 8),
        row(&[1; 4], &[300, 0, 0, 0], 100),
        row(&[1; 3], &[300, 0, 0], 101),
        row(&[0, 1, 1, 1], &[0; 4], 100),
        row(&[0; FIGURES], &[0; FIGURES], 100_000_000),
    ]
}

/// A case in both editions.
fn both_editions(bytes: &mut Vec<u8>, case: &FigureCase, ratios: &[(u32, u32)], due: &[i64]) {
    figures(bytes, case, 0, ratios, due);
    figures(bytes, case, 1, ratios, &second_edition(Spread::MinuteByMinute, case, due));
}

/// Cases that tell each wrong rule, and how many seeds a record are looked through for them.
const TELLING: u64 = 3;
const SEARCHED: u64 = 2000;

/// People, and slots, of a record of targets.
const FIGURES: usize = 8;
const FIGURE_SLOTS: usize = 6;

/// Capacities that are one u32 divided by another: in some cases all alike.
fn ratios(seed: &mut Seed, case: &mut FigureCase) -> Vec<(u32, u32)> {
    let ratio = |seed: &mut Seed| match seed.below(6) {
        0 => (0, 1),
        1 => (1000, 1),
        2 => (seed.within(1, 10) as u32, seed.within(1, 10) as u32),
        3 => (seed.word() as u32, u32::MAX),
        4 => (1, u32::MAX - seed.below(1000) as u32),
        _ => (1, 1),
    };
    let alike = ratio(seed);
    let equal = seed.one_in(3);
    let mut ratios = Vec::new();
    for person in case.people.iter_mut() {
        let (above, below) = if equal { alike } else { ratio(seed) };
        person.capacity = f64::from(above) / f64::from(below);
        ratios.push((above, below));
    }
    ratios
}

fn figures(bytes: &mut Vec<u8>, case: &FigureCase, edition: usize, ratios: &[(u32, u32)], due: &[i64]) {
    half(bytes, case.people.len());
    half(bytes, case.lengths.len());
    half(bytes, usize::from(case.fairness));
    half(bytes, edition);
    let slots = case.slots();
    quads(bytes, FIGURE_SLOTS, slots.iter().map(|slot| slot.0));
    quads(bytes, FIGURE_SLOTS, slots.iter().map(|slot| slot.1));
    for person in 0..FIGURES {
        let row = case.able.get(person).map_or(&[][..], |row| row);
        let set: usize = row.iter().enumerate().map(|(slot, &can)| usize::from(can) << slot).sum();
        half(bytes, set);
    }
    quads(bytes, FIGURES, ratios.iter().map(|ratio| ratio.0));
    // nobody's capacity is divided by 0
    let below = ratios.iter().map(|ratio| ratio.1).chain(std::iter::repeat(1));
    quads(bytes, FIGURES, below.take(FIGURES));
    quads(bytes, FIGURES, case.people.iter().map(|person| person.prior));
    quads(bytes, FIGURES, due.iter().map(|&target| (target + (1 << 31)) as u32));
}

/// Numbers, with zeros up to a count.
fn quads(bytes: &mut Vec<u8>, count: usize, numbers: impl Iterator<Item = u32>) {
    filled32(bytes, count, &numbers.collect::<Vec<u32>>(), 0);
}

fn slot_set(bytes: &mut Vec<u8>, seed: &mut Seed, case: &SetCase, asked: &[usize]) {
    let set = case.rust();
    half(bytes, case.len);
    words(bytes, &case.words);
    half(bytes, usize::from(set.is_empty()));
    half(bytes, set.count());
    for k in 0..INDEXES {
        // an index is a u16 here, and the largest stands for nothing
        let i = asked.get(k).copied().unwrap_or_else(|| index(seed, case.len).min(NOTHING - 1));
        half(bytes, i);
        half(bytes, usize::from(set.contains(i)));
        for found in [
            set.next_set(i),
            set.prev_set(i),
            next_unset_after(case, i),
            prev_unset_before(case, i),
        ] {
            half(bytes, found.unwrap_or(NOTHING));
        }
        let (number, first, last) = held(case, i).unwrap_or((NOTHING as u64, NOTHING, NOTHING));
        let (next_first, next_last) = next_run(case, i).unwrap_or((NOTHING, NOTHING));
        for n in [number as usize, first, last, next_first, next_last] {
            half(bytes, n);
        }
    }
    if case.len == 0 {
        bytes.resize(bytes.len() + CHANGES, 0);
        return;
    }
    for value in [true, false] {
        let i = seed.below(case.len as u64) as usize;
        half(bytes, i);
        words(bytes, &after(case, i, i + 1, value));
    }
    for value in [true, false] {
        let a = index(seed, case.len).min(case.len);
        let b = index(seed, case.len).min(case.len);
        let (from, to) = (a.min(b), a.max(b));
        half(bytes, from);
        half(bytes, to);
        words(bytes, &after(case, from, to, value));
    }
}

/// The words after each slot from `from` up to `to` was inserted or removed.
fn after(case: &SetCase, from: usize, to: usize, value: bool) -> [u64; SLOTS_MOST / 64] {
    let mut set = case.rust();
    for i in from..to {
        if value {
            set.insert(i);
        } else {
            set.remove(i);
        }
    }
    case.words_of(&set)
}

/// u16 numbers, filled up to a count.
pub fn filled16(bytes: &mut Vec<u8>, count: usize, list: &[u16], fill: u16) {
    for n in list.iter().copied().chain(std::iter::repeat(fill)).take(count) {
        bytes.extend(n.to_le_bytes());
    }
}

/// u32 numbers, filled up to a count.
pub fn filled32(bytes: &mut Vec<u8>, count: usize, list: &[u32], fill: u32) {
    for n in list.iter().copied().chain(std::iter::repeat(fill)).take(count) {
        bytes.extend(n.to_le_bytes());
    }
}

pub fn half(bytes: &mut Vec<u8>, n: usize) {
    bytes.extend((n as u16).to_le_bytes());
}

pub fn words(bytes: &mut Vec<u8>, words: &[u64]) {
    for word in words {
        bytes.extend(word.to_le_bytes());
    }
}

#[cfg(test)]
mod tests {
    #[test]
    fn examples_are_held_as_said() {
        let due = [
            vec![Some((0, 60, 69)), Some((1, 0, 59)), None],
            vec![Some((1, 70, 79))],
            vec![Some((1, 0, 59))],
            vec![Some((1, 0, 69))],
            vec![None],
        ];
        for ((members, len, asked), due) in super::EXAMPLES.into_iter().zip(due) {
            let case = super::example(members, len);
            let held: Vec<_> = asked.iter().map(|&i| super::held(&case, i)).collect();
            assert_eq!(held, due);
        }
    }

    #[test]
    fn records_have_one_size() {
        assert_eq!(super::slot_sets(7, 1).bytes.len(), 7 * 834);
        let stored = super::targets(40, 1);
        assert_eq!(stored.bytes.len() as u64, stored.lines[0].0 * 200);
    }
}
