//! Records of retirings: the worked example and what comes of it changed, then any, with those that are refused.

use crate::limits::{NOBODY, SLOTS_MOST};
use crate::problems::Settings;
use crate::retiring::{damage, example, small, Due, Held, New};
use crate::seed::Seed;
use crate::stored::{filled16, filled32, half, records, words, Stored};

/// People, slots, new base slots and ranges of a record, at most.
const PEOPLE: usize = 4;
const SLOTS: usize = 16;
const BASE: usize = 4;
const RANGES: usize = 6;

/// The answers of a record: what is said, eleven columns, the published column.
const ANSWERS: u64 = 13;

/// Records of retirings. A record is, low byte first: people, slots, units, new base slots and ranges as u16; the settings, four bytes and
/// two u16; four starts and four ends of new base slots as u32; six ranges, as six u16 of people, six starts and six ends as u32; all columns
/// as they are lent; the answer as u16: 0 with how many slots went, how many there are and how many units, 1 nothing, 2 everything, or 3
/// with the refusal's number, part, place and second number; all columns as they are then; how many slots went and how many there are;
/// sixteen published owners, and the same after it. All columns are sixteen starts and sixteen ends as u32, sixteen u16 of unit starts,
/// sixteen owners, four people's available slots and four people's own slots as a u64 each, frozen slots as a u64, four u64 of minutes, two
/// of totals, four u32 of prior minutes, and the retired total as a u64.
pub fn retirings(n: u64, run: u64) -> Stored {
    let mut bytes = Vec::new();
    let mut answers = 0;
    records(n, run, "stored-retirings", |seed, made| {
        let Some((held, new)) = record(seed, made as usize) else {
            return false;
        };
        write(&mut bytes, seed, &held, &new);
        answers += ANSWERS;
        true
    });
    Stored::new(bytes, answers)
}

/// How many records are of the example.
const OF_EXAMPLE: usize = 8;

/// The example; with the first slot not frozen, and with all frozen; with a prior at the limit and one past it; with the first new slot
/// touching the last end, and one minute before it; and with minutes that the recount finds wrong. Then any, every third with a fault.
fn record(seed: &mut Seed, made: usize) -> Option<(Held, New)> {
    if made >= OF_EXAMPLE {
        let (mut held, mut new) = small(seed, PEOPLE, SLOTS)?;
        if made % 3 == 0 {
            damage(seed, &mut held, &mut new);
        }
        return fits(&held, &new).then_some((held, new));
    }
    let (mut held, mut new) = example();
    match made {
        1 => held.frozen[0] &= !1,
        2 => held.frozen[0] |= 63,
        3 => held.priors[0] = 99_999_040,
        4 => held.priors[0] = 99_999_041,
        5 => {
            new = New::of(
                2,
                &[(8160, 8161)],
                &[],
                Settings {
                    value: 2,
                    ..Settings::PLAIN
                },
            )
        }
        6 => new.base.starts[0] = 8159,
        7 => held.minutes = vec![0, 0],
        _ => {}
    }
    Some((held, new))
}

/// Whether a record has room for it, before and then.
fn fits(held: &Held, new: &New) -> bool {
    let columns = held.slots.starts.len() >= SLOTS_MOST && held.slots.ends.len() >= SLOTS_MOST && held.owners.len() >= SLOTS_MOST;
    let counts = held.people <= PEOPLE && (1..=SLOTS).contains(&held.slots.count) && held.units.count <= SLOTS;
    let figures = held.minutes.len() >= held.people && held.totals.len() >= 2 && held.priors.len() >= held.people;
    let sets = held.avail.len() >= 16 * held.people && held.sets.len() >= 16 * held.people && held.frozen.len() >= 16;
    let base = new.base.count <= BASE && new.base.starts.len() == new.base.count && new.base.ends.len() == new.base.count;
    let ranges =
        new.ranges.count <= RANGES && [new.ranges.opens.len(), new.ranges.shuts.len(), new.ranges.persons.len()] == [new.ranges.count; 3];
    let lent =
        columns && counts && figures && sets && base && ranges && held.units.unit_starts.len() >= SLOTS_MOST && !held.retired.is_empty();
    lent && match held.due(new) {
        Due::Retired(_, then) => then.slots.count <= SLOTS,
        _ => true,
    }
}

fn write(bytes: &mut Vec<u8>, seed: &mut Seed, held: &Held, new: &New) {
    let counts = [held.people, held.slots.count, held.units.count, new.base.count, new.ranges.count];
    counts.iter().for_each(|&count| half(bytes, count));
    let s = new.settings;
    bytes.extend([s.fairness, s.lock, s.boundary, s.edition]);
    filled16(bytes, 2, &[s.value, s.days], 0);
    filled32(bytes, BASE, &new.base.starts, 0);
    filled32(bytes, BASE, &new.base.ends, 0);
    filled16(bytes, RANGES, &new.ranges.persons, 0);
    filled32(bytes, RANGES, &new.ranges.opens, 0);
    filled32(bytes, RANGES, &new.ranges.shuts, 0);
    columns(bytes, held);
    let slots = held.slots.count;
    let (told, then, gone) = match held.due(new) {
        Due::Retired(gone, then) => ([0, gone, then.slots.count, then.units.count, 0], *then, gone),
        Due::Nothing => ([1, 0, 0, 0, 0], held.clone(), 0),
        Due::Everything => ([2, 0, 0, 0, 0], held.clone(), 0),
        Due::Refused(n) => {
            let part = |from: u32, bits: u32| (n >> from & ((1 << bits) - 1)) as usize;
            ([3, part(0, 8), part(8, 8), part(16, 16), part(32, 16)], held.clone(), 0)
        }
    };
    told.iter().for_each(|&n| half(bytes, n));
    columns(bytes, &then);
    half(bytes, gone);
    half(bytes, then.slots.count);
    let published: Vec<u8> = (0..SLOTS).map(|_| seed.word() as u8).collect();
    let mut after = published.clone();
    for (slot, owner) in after[..then.slots.count].iter_mut().enumerate() {
        *owner = if slot < slots - gone { published[gone + slot] } else { NOBODY };
    }
    bytes.extend(published.iter().chain(&after));
}

/// All columns, each up to what a record has of it.
fn columns(bytes: &mut Vec<u8>, held: &Held) {
    filled32(bytes, SLOTS, &held.slots.starts, 0);
    filled32(bytes, SLOTS, &held.slots.ends, 0);
    filled16(bytes, SLOTS, &held.units.unit_starts, 0);
    bytes.extend(&held.owners[..SLOTS]);
    let first = |words: &[u64], person: usize| words.get(16 * person).copied().unwrap_or(0);
    for sets in [&held.avail, &held.sets] {
        (0..PEOPLE).for_each(|person| words(bytes, &[first(sets, person)]));
    }
    words(bytes, &held.frozen[..1]);
    let minutes = |k: usize| held.minutes.get(k).copied().unwrap_or(0);
    words(bytes, &(0..PEOPLE).map(minutes).collect::<Vec<u64>>());
    words(bytes, &held.totals[..2]);
    filled32(bytes, PEOPLE, &held.priors, 0);
    words(bytes, &held.retired[..1]);
}

#[cfg(test)]
mod tests {
    use super::{record, retirings, ANSWERS};
    use crate::retiring::Due;
    use crate::seed::Seed;

    #[test]
    fn records_have_one_size() {
        let stored = retirings(30, 1);
        assert_eq!((stored.bytes.len(), stored.lines[0].0), (30 * 796, 30 * ANSWERS));
    }

    /// What is said of the example, and of it changed, is what was worked out by hand.
    #[test]
    fn the_example_is_as_it_was_read() {
        let said = |made: usize| {
            let (held, new) = record(&mut Seed::new(0), made).expect("it is always there");
            held.due(&new)
        };
        let Due::Retired(gone, then) = said(0) else { panic!("units go") };
        assert_eq!((gone, then.slots.count), (4, 5));
        assert_eq!(then.slots.starts[..5], [6240, 7680, 8160, 8400, 9600]);
        assert_eq!(then.slots.ends[..5], [6720, 8160, 8400, 8640, 10_080]);
        assert_eq!(then.units.unit_starts[..then.units.count], [0, 2, 4]);
        assert_eq!(then.owners[..5], [1, 1, 255, 255, 255]);
        assert_eq!((&then.minutes[..], &then.totals[..]), (&[0, 960][..], &[960, 3][..]));
        assert_eq!((&then.priors[..], then.retired[0]), (&[1060, 0][..], 967));
        assert_eq!([then.avail[0] & 31, then.avail[16] & 31, then.frozen[0] & 31], [7, 31, 1]);
        assert!(matches!(said(1), Due::Nothing));
        assert!(matches!(said(2), Due::Everything));
        assert!(matches!(said(3), Due::Retired(4, _)));
        assert!(matches!(said(4), Due::Refused(6)));
        assert!(matches!(said(5), Due::Retired(4, _)));
        assert!(matches!(said(6), Due::Refused(3)));
        assert!(matches!(said(7), Due::Refused(n) if n == 10 + 256 * 5));
    }
}
