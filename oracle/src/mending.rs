//! Damaged rotas mended: the generator's own three steps over what is lent, and the list of what they change. The Rust has no such step; a
//! mended rota is played on by its moves.

use crate::bits::{has_bit, put_bit};
use crate::call::{bytes16, bytes32, bytes64, Arg, Outcome, Question};
use crate::limits::{NOBODY, NOTHING, PEOPLE_MOST, SET_WORDS, SLOTS_MOST, TOTALS};
use crate::problems::{Person, ProblemCase, Range, Settings};
use crate::rotas::{play, played, LentRota, RotaCase};
use crate::seed::Seed;
use crate::stored_mending::cut;
use crate::table::{lowest, people_ok, words_ok, Slots, Units};

/// Part, place, old, new, and 1 for a slot that is frozen.
pub type Repair = [u64; 5];

/// A rota as it was found, and the list that is lent for its repairs.
#[derive(Debug, Clone)]
pub struct Found {
    pub people: usize,
    pub slots: Slots,
    pub units: Units,
    pub avail: Vec<u64>,
    pub frozen: Vec<u64>,
    pub owners: Vec<u8>,
    pub sets: Vec<u64>,
    pub minutes: Vec<u64>,
    pub totals: Vec<u64>,
    pub list: Vec<u64>,
}

impl Found {
    fn of(rota: &LentRota) -> Self {
        let slots: Vec<(u32, u32)> = rota.starts.iter().copied().zip(rota.ends.iter().copied()).collect();
        Self {
            people: rota.people,
            slots: Slots::new(&slots),
            units: Units {
                count: rota.units,
                unit_starts: rota.unit_starts.clone(),
            },
            avail: rota.avail.clone(),
            frozen: rota.frozen.clone(),
            owners: rota.owners.clone(),
            sets: rota.sets.clone(),
            minutes: rota.minutes.clone(),
            totals: rota.totals.clone(),
            list: vec![],
        }
    }

    /// The refusal's number, or 0; the list's room is judged apart.
    pub fn number(&self) -> u64 {
        lowest(&[
            (1, people_ok(self.people)),
            (1, self.slots.count_ok()),
            (2, self.slots.room_ok()),
            (2, words_ok(self.people, self.avail.len())),
            (2, self.units.room_ok()),
            (2, self.frozen.len() >= SET_WORDS),
            (2, self.owners.len() >= self.slots.count),
            (2, words_ok(self.people, self.sets.len())),
            (2, self.minutes.len() >= self.people),
            (2, self.totals.len() >= TOTALS),
            (9, self.slots.ok()),
            (9, self.units.ok(self.slots.count)),
        ])
    }

    /// Step 1: whether an owner may stay on a slot.
    fn may_stay(&self, owner: u8, slot: usize) -> bool {
        owner == NOBODY || usize::from(owner) < self.people && has_bit(&self.avail, usize::from(owner), slot)
    }

    /// Steps 1 and 2: the owners that are left.
    fn left(&self) -> Vec<u8> {
        let count = self.slots.count;
        let mut owners: Vec<u8> = (0..count)
            .map(|slot| {
                Some(self.owners[slot])
                    .filter(|&owner| self.may_stay(owner, slot))
                    .unwrap_or(NOBODY)
            })
            .collect();
        let starts: Vec<usize> = self.units.unit_starts[..self.units.count]
            .iter()
            .map(|&at| usize::from(at))
            .collect();
        let ends = starts.iter().skip(1).copied().chain([count]);
        for (&first, end) in starts.iter().zip(ends) {
            let unit = &mut owners[first..end];
            if unit.iter().any(|owner| *owner != unit[0]) {
                unit.fill(NOBODY);
            }
        }
        owners
    }

    /// All three steps: what lies past the slots, the people and the totals stays.
    pub fn mended(&self) -> Self {
        let mut new = self.clone();
        let owners = self.left();
        new.owners[..owners.len()].copy_from_slice(&owners);
        let minutes = |slot: usize| u64::from(self.slots.ends[slot] - self.slots.starts[slot]);
        let of = |owner: usize| owners.iter().enumerate().filter(move |(_, &is)| usize::from(is) == owner);
        for person in 0..self.people {
            for (slot, &owner) in owners.iter().enumerate() {
                put_bit(&mut new.sets, person, slot, usize::from(owner) == person);
            }
            new.minutes[person] = of(person).map(|(slot, _)| minutes(slot)).sum();
        }
        let nobody = usize::from(NOBODY);
        new.totals[0] = of(nobody).map(|(slot, _)| minutes(slot)).sum();
        new.totals[1] = of(nobody).count() as u64;
        new
    }

    /// What differs, part by part.
    pub fn repairs(&self, new: &Self) -> Vec<Repair> {
        let flag = |slot: usize| u64::from(has_bit(&self.frozen, 0, slot));
        let bytes = |owners: &[u8]| -> Vec<u64> { owners.iter().map(|&owner| u64::from(owner)).collect() };
        let parts = [
            (bytes(&self.owners), bytes(&new.owners), self.slots.count),
            (self.sets.clone(), new.sets.clone(), SET_WORDS * self.people),
            (self.minutes.clone(), new.minutes.clone(), self.people),
            (self.totals.clone(), new.totals.clone(), TOTALS),
        ];
        let mut repairs = Vec::new();
        for (part, (old, new, count)) in parts.iter().enumerate() {
            for place in (0..*count).filter(|&place| old[place] != new[place]) {
                let is_frozen = if part == 0 { flag(place) } else { 0 };
                repairs.push([part as u64, place as u64, old[place], new[place], is_frozen]);
            }
        }
        repairs
    }

    /// The number of repairs with the mended rota and its list, or the refusal.
    pub fn due(&self) -> Result<(usize, Self), u64> {
        match self.number() {
            0 => {
                let mut new = self.mended();
                let repairs = self.repairs(&new);
                let numbers = repairs.concat();
                if numbers.len() > self.list.len() {
                    return Err(2);
                }
                new.list[..numbers.len()].copy_from_slice(&numbers);
                Ok((repairs.len(), new))
            }
            n => Err(n),
        }
    }

    /// As the library takes it, with the outcome that is due.
    fn question(&self) -> Question {
        let args = vec![
            Arg::Number(self.people as u64),
            Arg::Number(self.slots.count as u64),
            Arg::Number(self.units.count as u64),
            Arg::Lent(4, bytes32(&self.slots.starts)),
            Arg::Lent(4, bytes32(&self.slots.ends)),
            Arg::Lent(8, bytes64(&self.avail)),
            Arg::Lent(2, bytes16(&self.units.unit_starts)),
            Arg::Lent(8, bytes64(&self.frozen)),
            Arg::LentMut(1, self.owners.clone()),
            Arg::LentMut(8, bytes64(&self.sets)),
            Arg::LentMut(8, bytes64(&self.minutes)),
            Arg::LentMut(8, bytes64(&self.totals)),
            Arg::LentMut(8, bytes64(&self.list)),
        ];
        let (result, after) = match self.due() {
            Ok((repairs, new)) => (repairs as u64, new),
            Err(n) => (NOTHING + n, self.clone()),
        };
        let written = vec![
            after.owners.clone(),
            bytes64(&after.sets),
            bytes64(&after.minutes),
            bytes64(&after.totals),
            bytes64(&after.list),
        ];
        Question {
            function: "boltraven_mend",
            args,
            due: Outcome { result, written },
        }
    }

    // ---- damaged by a seed

    /// Damages a part: 0 owners, 1 sets, 2 minutes, 3 totals; past what counts too.
    fn spoil(&mut self, seed: &mut Seed, part: usize) {
        for _ in 0..seed.within(1, 4) {
            match part {
                0 => {
                    let slot = seed.below(self.owners.len() as u64) as usize;
                    let somebody = seed.below(self.people as u64) as u8;
                    self.owners[slot] = seed.pick(&[somebody, somebody, NOBODY, self.people as u8, 254]);
                }
                1 => {
                    let k = seed.below(self.sets.len() as u64) as usize;
                    self.sets[k] ^= seed.pick(&[1, 1 << 5, 1 << 63, u64::MAX]);
                }
                2 => {
                    let k = seed.below(self.minutes.len() as u64) as usize;
                    self.minutes[k] = seed.pick(&[0, 1, u64::MAX, self.minutes[k].wrapping_add(1)]);
                }
                _ => {
                    let k = seed.below(self.totals.len() as u64) as usize;
                    self.totals[k] = seed.pick(&[0, u64::MAX, self.totals[k].wrapping_sub(1)]);
                }
            }
        }
    }

    /// Anything in every column.
    fn rubbish(&mut self, seed: &mut Seed) {
        self.owners.fill_with(|| seed.word() as u8);
        for column in [&mut self.sets, &mut self.minutes, &mut self.totals] {
            column.fill_with(|| seed.word());
        }
    }

    /// A list of as many numbers, with anything in them.
    fn with_list(&self, seed: &mut Seed, room: usize) -> Self {
        Self {
            list: (0..room).map(|_| seed.word()).collect(),
            ..self.clone()
        }
    }

    /// Room for what comes out, for one number less, for none, and for more than is needed.
    fn rooms(&self) -> Vec<usize> {
        let numbers = 5 * self.repairs(&self.mended()).len();
        vec![numbers, numbers.saturating_sub(1), 0, numbers + 7]
    }
}

/// Each part damaged alone, several, rubbish in all of them, and a sound rota; each with every room for the list. What is mended is mended
/// again, with no room, and played on by the Rust's moves.
pub fn questions(case_seed: u64) -> Vec<Question> {
    let mut seed = Seed::new(case_seed);
    let case = RotaCase::new(&mut seed);
    let lent = LentRota::new(&mut seed, &case);
    let sound = Found::of(&lent);
    let mut asked = Vec::new();
    for kind in 0..7 {
        let mut found = sound.clone();
        match kind {
            0..=3 => found.spoil(&mut seed, kind),
            4 => (0..4).for_each(|part| found.spoil(&mut seed, part)),
            5 => found.rubbish(&mut seed),
            _ => {}
        }
        for room in found.rooms() {
            asked.push(found.with_list(&mut seed, room).question());
        }
        asked.push(found.mended().question());
        asked.extend(played_on(&case, &lent, &found));
    }
    asked
}

/// The draws of a case on what a rota was mended to: sets, minutes and totals are then the Rust's.
fn played_on(case: &RotaCase, lent: &LentRota, found: &Found) -> Vec<Question> {
    let new = found.mended();
    let mut assignment = case.assignment(&new.owners[..new.slots.count]);
    let begun = played(&case.problem, &assignment, vec![]);
    let answers = play(&case.problem, &mut assignment, &case.draws);
    let end = played(&case.problem, &assignment, answers);
    let mut rota = lent.clone();
    (rota.owners, rota.sets, rota.minutes, rota.totals) = (new.owners, new.sets, new.minutes, new.totals);
    let mut theirs = rota.clone();
    theirs.hold(&begun);
    assert_eq!(
        rota.buffers(),
        theirs.buffers(),
        "the three steps end in the Rust's rota of these owners"
    );
    rota.plays(Ok(&end))
}

/// What is lent is at fault, in one way or in two, on a rota that is damaged besides.
pub fn damaged(case_seed: u64) -> Vec<Question> {
    let mut seed = Seed::new(case_seed);
    let case = RotaCase::new(&mut seed);
    let mut found = Found::of(&LentRota::new(&mut seed, &case));
    found.rubbish(&mut seed);
    found.list = vec![seed.word(); seed.pick(&[0, 5, 5 * 1570])];
    for _ in 0..seed.within(1, 2) {
        let slots = found.slots.count;
        let words = (SET_WORDS * found.people.min(PEOPLE_MOST)).saturating_sub(1);
        match seed.below(9) {
            0 => found.people = seed.pick(&[0, 33, usize::MAX]),
            1 => found.slots.damage(&mut seed),
            2 => found.units.damage(&mut seed, slots),
            3 => found.avail.truncate(words),
            4 => found.frozen.truncate(SET_WORDS - 1),
            5 => found.owners.truncate(slots.min(SLOTS_MOST).saturating_sub(1)),
            6 => found.sets.truncate(words),
            7 => found.minutes.truncate(found.people.min(PEOPLE_MOST).saturating_sub(1)),
            _ => found.totals.truncate(seed.below(TOTALS as u64) as usize),
        }
    }
    vec![found.question()]
}

/// A small rota, damaged in one way or sound; none where the seed's rota is too large for that.
pub fn small(seed: &mut Seed, people: usize, slots: usize) -> Option<Found> {
    let case = RotaCase::new(seed);
    if case.problem.slot_count() > slots || case.problem.human_count() > people {
        return None;
    }
    let mut found = Found::of(&LentRota::new(seed, &case));
    cut(&mut found);
    match seed.below(8) {
        part @ 0..=3 => found.spoil(seed, part as usize),
        4 | 5 => (0..4).for_each(|part| found.spoil(seed, part)),
        6 => found.rubbish(seed),
        _ => {}
    }
    cut(&mut found);
    Some(found)
}

// ---- the example by which document 02's request was read

/// Five slots of 60 minutes, units 0-1, 2-3 and 4; person 0 free for all, 1 for 2 and 3; slot 0 frozen; sets, minutes and totals as for
/// owners 0 0 1 1 0; owners found 7 0 1 1 1.
pub fn example() -> Found {
    let base: Vec<(u32, u32)> = (0..5).map(|k| (60 * k, 60 * k + 60)).collect();
    let range = |person, start, end| Range { person, start, end };
    let case = ProblemCase {
        base,
        ranges: vec![range(0, 0, 300), range(1, 120, 240)],
        people: vec![Person::PLAIN; 2],
        settings: Settings {
            lock: 1,
            boundary: 0,
            value: 2,
            ..Settings::PLAIN
        },
    };
    let mut problem = case.rust();
    problem.frozen[0] = true;
    let case = RotaCase {
        problem,
        owners: vec![0, 0, 1, 1, 0],
        draws: vec![],
    };
    let mut found = Found::of(&LentRota::new(&mut Seed::new(0), &case));
    cut(&mut found);
    for words in [&mut found.avail, &mut found.sets, &mut found.frozen] {
        words.iter_mut().step_by(SET_WORDS).for_each(|word| *word &= 31);
    }
    found.owners = vec![7, 0, 1, 1, 1];
    found
}

/// Its repairs, worked out by hand.
pub const EXAMPLE_REPAIRS: [Repair; 7] = [
    [0, 0, 7, 255, 1],
    [0, 1, 0, 255, 0],
    [0, 4, 1, 255, 0],
    [1, 0, 19, 0, 0],
    [2, 0, 180, 0, 0],
    [3, 0, 0, 180, 0],
    [3, 1, 0, 3, 0],
];

#[cfg(test)]
mod tests {
    use super::{example, questions, Found, EXAMPLE_REPAIRS};
    use crate::limits::NOTHING;
    use crate::rotas::{LentRota, RotaCase};
    use crate::seed::Seed;

    #[test]
    fn the_example_is_as_it_was_read() {
        let found = example();
        let new = found.mended();
        assert_eq!(found.repairs(&new), EXAMPLE_REPAIRS);
        assert_eq!(new.owners, [255, 255, 1, 1, 255]);
        assert_eq!((new.minutes, new.totals), (vec![0, 120], vec![180, 3]));
    }

    #[test]
    fn sound_rotas_need_no_repair() {
        for k in 0..200 {
            let mut seed = Seed::new(k);
            let case = RotaCase::new(&mut seed);
            let found = Found::of(&LentRota::new(&mut seed, &case));
            assert!(found.repairs(&found.mended()).is_empty());
        }
    }

    /// Every part is repaired alone and with others, frozen slots and others are, and short lists are refused.
    #[test]
    fn every_repair_is_reached() {
        let mut seen = [0u64; 6];
        for k in 0..60 {
            for question in questions(k).iter().filter(|question| question.function == "boltraven_mend") {
                seen[5] += u64::from(question.due.result == NOTHING + 2);
                let list = &question.due.written[4];
                let repairs = if question.due.result < NOTHING {
                    question.due.result as usize
                } else {
                    0
                };
                for repair in list.chunks(40).take(repairs) {
                    seen[usize::from(repair[0])] += 1;
                    seen[4] += u64::from(repair[32]);
                }
            }
        }
        assert!(seen.iter().all(|&times| times > 50), "{seen:?}");
    }
}
