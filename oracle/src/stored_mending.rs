//! Records of damaged rotas and what they are mended to: the worked example, then small ones, by the generator's own three steps.

use crate::mending::{example, small, Found, EXAMPLE_REPAIRS};
use crate::stored::{filled16, filled32, half, records, words, Stored};

/// People and slots of a record, at most; numbers of its list; what stands in that before.
pub const PEOPLE: usize = 4;
pub const SLOTS: usize = 8;
const LIST: usize = 90;
const BEFORE: u64 = 7;

/// What is added to a refusal's number.
const REFUSED: usize = 60_000;

/// The words of a row past its first, as the program that reads these records fills them.
const GARBAGE: u64 = 11_936_128_518_282_651_045;

/// Answers of a record: how many repairs, owners, sets, minutes, totals, the list, and that it is then right and needs no more repair.
const ANSWERS: u64 = 7;

/// A record is, low byte first: people, slots, units and the numbers that the list has room for, as u16; eight starts and eight ends as u32;
/// eight u16 of unit starts; four words of slots that a person can cover, and one of frozen slots; then what was found, eight owners as
/// bytes, four words of sets, four minutes and two totals; then what is due: four u16, the first how many repairs, or 60,000 and the
/// refusal's number; owners, sets, minutes and totals again; and ninety numbers of the list, 7 where nothing is written.
pub fn mending(n: u64, run: u64) -> Stored {
    let mut bytes = Vec::new();
    let found = example();
    let due = found.mended();
    assert_eq!(
        found.repairs(&due),
        EXAMPLE_REPAIRS,
        "the example's list is the one that was worked out by hand"
    );
    let table = [(&found, 35), (&found, 34), (&found, 0), (&due, 0)];
    for (rota, room) in table {
        record(&mut bytes, &with_room(rota, room));
    }
    records(n, run, "stored-mending", |seed, made| {
        let Some(found) = small(seed, PEOPLE, SLOTS) else { return false };
        let numbers = 5 * found.repairs(&found.mended()).len();
        let room = [numbers, numbers + 3, numbers.saturating_sub(1), LIST][made as usize % 4];
        record(&mut bytes, &with_room(&found, room));
        true
    });
    Stored::new(bytes, ANSWERS * (n + table.len() as u64))
}

/// A rota with a list of so many sevens.
fn with_room(found: &Found, room: usize) -> Found {
    Found {
        list: vec![BEFORE; room],
        ..found.clone()
    }
}

fn record(bytes: &mut Vec<u8>, found: &Found) {
    for count in [found.people, found.slots.count, found.units.count, found.list.len()] {
        half(bytes, count);
    }
    filled32(bytes, SLOTS, &found.slots.starts, 0);
    filled32(bytes, SLOTS, &found.slots.ends, 0);
    filled16(bytes, SLOTS, &found.units.unit_starts, 0);
    rows(bytes, &found.avail, PEOPLE);
    rows(bytes, &found.frozen, 1);
    rota(bytes, found);
    let (number, after) = match found.due() {
        Ok((repairs, new)) => (repairs, new),
        Err(n) => (REFUSED + n as usize, found.clone()),
    };
    for n in [number, 0, 0, 0] {
        half(bytes, n);
    }
    rota(bytes, &after);
    filled(bytes, &after.list, LIST, BEFORE);
}

/// Owners, sets, minutes and totals.
fn rota(bytes: &mut Vec<u8>, found: &Found) {
    bytes.extend(found.owners.iter().copied().chain(std::iter::repeat(0)).take(SLOTS));
    rows(bytes, &found.sets, PEOPLE);
    filled(bytes, &found.minutes, PEOPLE, 0);
    filled(bytes, &found.totals, 2, 0);
}

/// The first word of each row.
fn rows(bytes: &mut Vec<u8>, all: &[u64], count: usize) {
    let first: Vec<u64> = (0..count).map(|row| all.get(16 * row).copied().unwrap_or(0)).collect();
    words(bytes, &first);
}

fn filled(bytes: &mut Vec<u8>, list: &[u64], count: usize, fill: u64) {
    let all: Vec<u64> = list.iter().copied().chain(std::iter::repeat(fill)).take(count).collect();
    words(bytes, &all);
}

/// What a small rota is lent in, cut to what a record holds: rows whose words past the first are what the program puts there.
pub fn cut(found: &mut Found) {
    for words in [&mut found.avail, &mut found.sets] {
        words.truncate(16 * found.people);
    }
    found.frozen.truncate(16);
    for words in [&mut found.avail, &mut found.sets, &mut found.frozen] {
        (0..words.len()).filter(|k| k % 16 > 0).for_each(|k| words[k] = GARBAGE);
    }
    found.owners.truncate(found.slots.count);
    found.minutes.truncate(found.people);
    found.totals.truncate(2);
}

#[cfg(test)]
mod tests {
    #[test]
    fn records_have_one_size() {
        assert_eq!(super::mending(7, 1).bytes.len(), (7 + 4) * 1032);
    }
}
