//! Records of rotas made elsewhere: the examples, and small ones, by the generator's own five scans.

use crate::elsewhere::{examples, Elsewhere};
use crate::seed::Seed;
use crate::stored::{filled16, filled32, half, records, words, Stored};

/// People and slots of a record, at most.
const PEOPLE: usize = 4;
const SLOTS: usize = 8;

/// What is due where nothing is named, and what is added to a refusal's number.
const NO_SLOT: usize = 65_535;
const REFUSED: u64 = 100;

/// A record is, low byte first: people, slots and units as u16, and a u16 of 0; cap and rest as u32; eight starts and eight ends as u32; eight
/// u16 of unit starts; four words of slots that a person can cover, and one of frozen slots; eight published owners and eight owners as
/// bytes; then the broken rule, 0 for none, or 100 and the refusal's number, and the slot, each as u16.
pub fn elsewhere(n: u64, run: u64) -> Stored {
    let table = examples();
    let mut bytes = Vec::new();
    for (rota, _) in &table {
        record(&mut bytes, rota);
    }
    records(n, run, "stored-elsewhere", |seed, _| {
        record(&mut bytes, &small(seed));
        true
    });
    Stored::new(bytes, n + table.len() as u64)
}

/// A small rota: as it is made, with a figure beside what it has, or changed.
fn small(seed: &mut Seed) -> Elsewhere {
    let (count, people) = (seed.within(1, SLOTS as u64) as usize, seed.within(1, PEOPLE as u64) as usize);
    let rota = Elsewhere::new(seed, count, people);
    match seed.below(4) {
        0 => Elsewhere { cap: rota.cap - 1, ..rota },
        1 => Elsewhere {
            rest: rota.rest + 1,
            ..rota
        },
        2 => rota.changed(seed),
        _ => rota,
    }
}

fn record(bytes: &mut Vec<u8>, rota: &Elsewhere) {
    let (verdict, slot) = match rota.number() {
        0 => rota.broken().unwrap_or((0, NO_SLOT)),
        n => (REFUSED + n, NO_SLOT),
    };
    for count in [rota.people, rota.slots.count, rota.units.count, 0] {
        half(bytes, count);
    }
    filled32(bytes, 2, &[rota.cap, rota.rest], 0);
    filled32(bytes, SLOTS, &rota.slots.starts, 0);
    filled32(bytes, SLOTS, &rota.slots.ends, 0);
    filled16(bytes, SLOTS, &rota.units.unit_starts, 0);
    let rows: Vec<u64> = (0..PEOPLE)
        .map(|person| rota.avail.get(16 * person).copied().unwrap_or(0))
        .collect();
    words(bytes, &rows);
    words(bytes, &rota.frozen[..1]);
    for owners in [&rota.published, &rota.owners] {
        let all = owners.iter().take(rota.slots.count).copied();
        bytes.extend(all.chain(std::iter::repeat(0)).take(SLOTS));
    }
    half(bytes, verdict as usize);
    half(bytes, slot);
}

#[cfg(test)]
mod tests {
    #[test]
    fn records_have_one_size() {
        assert_eq!(super::elsewhere(7, 1).bytes.len(), (7 + 12) * 156);
    }
}
