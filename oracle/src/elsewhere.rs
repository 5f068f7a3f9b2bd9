//! A rota made elsewhere: the generator's own five scans, over slots and minutes, and which of them breaks first. The Rust has no such check.

use crate::bits::{has_bit, put_bit};
use crate::call::{bytes16, bytes32, bytes64, Arg, Question};
use crate::limits::{MINUTES_MOST, NOBODY, NOTHING, PEOPLE_MOST, SET_WORDS, SLOTS_MOST};
use crate::seed::Seed;
use crate::table::{lowest, people_ok, words_ok, Slots, Units};

/// What is brought, and what it is judged by.
#[derive(Debug, Clone)]
pub struct Elsewhere {
    pub people: usize,
    pub slots: Slots,
    pub units: Units,
    pub cap: u32,
    pub rest: u32,
    pub avail: Vec<u64>,
    pub frozen: Vec<u64>,
    pub published: Vec<u8>,
    pub owners: Vec<u8>,
}

/// A shift: its owner, its first and its last slot.
type Shift = (u8, usize, usize);

/// The last minute that a figure may be.
const LAST: u32 = MINUTES_MOST as u32;

impl Elsewhere {
    /// The first rule that is broken, and the lowest slot at which it shows.
    pub fn broken(&self) -> Option<(u64, usize)> {
        let scans = [self.barred(), self.moved(), self.uneven(), self.too_long(), self.too_close()];
        scans.into_iter().zip(1..).find_map(|(slot, rule)| Some((rule, slot?)))
    }

    /// The refusal's number, or 0.
    pub fn number(&self) -> u64 {
        lowest(&[
            (1, people_ok(self.people)),
            (1, self.slots.count_ok()),
            (2, self.slots.room_ok()),
            (2, words_ok(self.people, self.avail.len())),
            (2, self.units.room_ok()),
            (2, self.frozen.len() >= SET_WORDS),
            (2, self.published.len() >= self.slots.count),
            (2, self.owners.len() >= self.slots.count),
            (7, (1..=LAST).contains(&self.cap) && self.rest <= LAST),
            (9, self.slots.ok()),
            (9, self.units.ok(self.slots.count)),
        ])
    }

    fn count(&self) -> usize {
        self.slots.count
    }

    /// 1: somebody's slot who is unknown, or not available for it.
    fn barred(&self) -> Option<usize> {
        let may = |slot: usize| {
            let owner = usize::from(self.owners[slot]);
            owner == usize::from(NOBODY) || owner < self.people && has_bit(&self.avail, owner, slot)
        };
        (0..self.count()).find(|&slot| !may(slot))
    }

    /// 2: a frozen slot that is not as published.
    fn moved(&self) -> Option<usize> {
        (0..self.count()).find(|&slot| has_bit(&self.frozen, 0, slot) && self.owners[slot] != self.published[slot])
    }

    /// 3: a slot that differs from its unit's first.
    fn uneven(&self) -> Option<usize> {
        let starts: Vec<usize> = self.units.unit_starts[..self.units.count]
            .iter()
            .map(|&at| usize::from(at))
            .collect();
        let ends = starts.iter().skip(1).copied().chain([self.count()]);
        starts
            .iter()
            .zip(ends)
            .find_map(|(&first, end)| (first..end).find(|&slot| self.owners[slot] != self.owners[first]))
    }

    /// The shifts, in order: slots side by side with one owner, who is somebody.
    fn shifts(&self) -> Vec<Shift> {
        let mut shifts: Vec<Shift> = Vec::new();
        for slot in 0..self.count() {
            match shifts.last_mut() {
                Some(shift) if shift.0 == self.owners[slot] => shift.2 = slot,
                _ => shifts.push((self.owners[slot], slot, slot)),
            }
        }
        shifts.retain(|shift| shift.0 != NOBODY);
        shifts
    }

    /// How long a shift is: from its first start to its last end.
    fn length(&self, shift: Shift) -> u32 {
        self.slots.ends[shift.2] - self.slots.starts[shift.1]
    }

    /// 4: the first slot of a shift that is longer than the cap.
    fn too_long(&self) -> Option<usize> {
        let long = self.shifts().into_iter().find(|&shift| self.length(shift) > self.cap);
        long.map(|shift| shift.1)
    }

    /// The minutes between any two shifts of one person, with the first slot of the later one.
    fn gaps(&self) -> Vec<(u32, usize)> {
        let shifts = self.shifts();
        let mut gaps = Vec::new();
        for (k, later) in shifts.iter().enumerate() {
            let earlier = shifts[..k].iter().filter(|shift| shift.0 == later.0);
            gaps.extend(earlier.map(|shift| (self.slots.starts[later.1] - self.slots.ends[shift.2], later.1)));
        }
        gaps
    }

    /// 5: the lowest slot that a shift starts at too soon after another of its owner.
    fn too_close(&self) -> Option<usize> {
        let close = self.gaps().into_iter().filter(|gap| gap.0 < self.rest);
        close.map(|gap| gap.1).min()
    }

    /// As the library takes it, with the outcome that is due.
    fn question(&self, seed: &mut Seed) -> Question {
        let args = vec![
            Arg::Number(self.people as u64),
            Arg::Number(self.slots.count as u64),
            Arg::Number(self.units.count as u64),
            Arg::Number(u64::from(self.cap)),
            Arg::Number(u64::from(self.rest)),
            Arg::Lent(4, bytes32(&self.slots.starts)),
            Arg::Lent(4, bytes32(&self.slots.ends)),
            Arg::Lent(8, bytes64(&self.avail)),
            Arg::Lent(2, bytes16(&self.units.unit_starts)),
            Arg::Lent(8, bytes64(&self.frozen)),
            Arg::Lent(1, self.published.clone()),
            Arg::Lent(1, self.owners.clone()),
        ];
        let (result, slot) = match self.number() {
            0 => self.broken().map_or((0, None), |(rule, slot)| (rule, Some(slot as u64))),
            n => (NOTHING + n, None),
        };
        Question::beside("boltraven_may_be_used", args, &[seed.word()], result, slot.map(|slot| vec![slot]))
    }

    // ---- made by a seed

    /// A rota that mostly keeps the first three rules; cap and rest are what it has, or anything where it has no shift or no two.
    pub fn new(seed: &mut Seed, count: usize, people: usize) -> Self {
        let slots = spaced(seed, count);
        let units = cut(seed, count);
        let past = seed.below(3) as usize;
        let mut rota = Self {
            people,
            slots: Slots::new(&slots),
            units,
            cap: 1,
            rest: 0,
            avail: vec![0; SET_WORDS * people + past],
            frozen: vec![0; SET_WORDS + past],
            published: vec![NOBODY; count + past],
            owners: vec![NOBODY; count + past],
        };
        rota.man(seed);
        rota.cap = rota
            .shifts()
            .into_iter()
            .map(|shift| rota.length(shift))
            .max()
            .unwrap_or(1 + seed.below(1000) as u32);
        rota.rest = rota.gaps().into_iter().map(|gap| gap.0).min().unwrap_or(seed.below(1000) as u32);
        rota
    }

    /// Gives each unit an owner or nobody, with long and short runs; makes the owners available, and some others; freezes some slots as they
    /// are. Bits past the last slot, and published owners of slots that aren't frozen, are whatever.
    fn man(&mut self, seed: &mut Seed) {
        let count = self.count();
        for word in self.avail.iter_mut().chain(self.frozen.iter_mut()) {
            *word = seed.word();
        }
        let often = seed.pick(&[2, 4, 10, 1000]);
        let changing = seed.pick(&[1, 2, 3, 8]);
        let (mut owner, mut begun) = (NOBODY, false);
        for slot in 0..count {
            let first = self.units.unit_starts[..self.units.count].contains(&(slot as u16));
            if first && (!begun || seed.one_in(changing)) {
                owner = if seed.one_in(5) {
                    NOBODY
                } else {
                    seed.below(self.people as u64) as u8
                };
                begun = true;
            }
            self.owners[slot] = owner;
            if owner != NOBODY {
                put_bit(&mut self.avail, usize::from(owner), slot, true);
            }
            let is_frozen = seed.one_in(often);
            put_bit(&mut self.frozen, 0, slot, is_frozen);
            self.published[slot] = if is_frozen { owner } else { seed.word() as u8 };
        }
    }

    /// Changes an owner, what is published, a flag or a figure, so that any rule may break.
    pub fn changed(&self, seed: &mut Seed) -> Self {
        let mut rota = self.clone();
        for _ in 0..seed.within(1, 3) {
            let slot = seed.below(rota.count() as u64) as usize;
            let somebody = seed.below(rota.people as u64) as u8;
            match seed.below(8) {
                0 => rota.owners[slot] = seed.pick(&[rota.people as u8, 254, somebody]),
                1 => rota.owners[slot] = NOBODY,
                2 => put_bit(&mut rota.avail, usize::from(somebody), slot, seed.one_in(2)),
                3 => rota.published[slot] = seed.pick(&[NOBODY, somebody, 254]),
                4 => put_bit(&mut rota.frozen, 0, slot, seed.one_in(2)),
                5 => rota.cap = seed.within(1, u64::from(rota.cap) + 10) as u32,
                6 => rota.rest = seed.below(2 * u64::from(rota.rest) + 10) as u32,
                _ => {
                    rota.owners[slot] = somebody;
                    put_bit(&mut rota.avail, usize::from(somebody), slot, true);
                }
            }
        }
        rota
    }
}

/// Slots with gaps between some of them, from minute 0 or up to the last one in some.
fn spaced(seed: &mut Seed, count: usize) -> Vec<(u32, u32)> {
    let mut at = if seed.one_in(4) { 0 } else { seed.below(10_000) as u32 };
    let mut slots = Vec::new();
    for _ in 0..count {
        at += seed.pick(&[0, 0, 1, 30, 600]);
        let length = seed.pick(&[1, 59, 60, 480]);
        slots.push((at, at + length));
        at += length;
    }
    if seed.one_in(10) {
        let up = LAST - at;
        slots.iter_mut().for_each(|slot| *slot = (slot.0 + up, slot.1 + up));
    }
    slots
}

/// Units of one slot each, or longer.
fn cut(seed: &mut Seed, count: usize) -> Units {
    let often = seed.pick(&[1, 2, 4]);
    let mut unit_starts: Vec<u16> = (1..count as u16).filter(|_| seed.one_in(often)).collect();
    unit_starts.insert(0, 0);
    let count = unit_starts.len();
    Units { count, unit_starts }
}

/// A rota by its seed.
fn drawn(seed: &mut Seed) -> Elsewhere {
    let count = if seed.one_in(25) { SLOTS_MOST as u64 } else { seed.within(1, 30) } as usize;
    let people = if seed.one_in(8) { PEOPLE_MOST as u64 } else { seed.within(1, 5) } as usize;
    Elsewhere::new(seed, count, people)
}

/// One below, at and one above a figure, in its limits.
fn around(figure: u32, least: u32) -> impl Iterator<Item = u32> {
    (figure.saturating_sub(1).max(least)..=figure + 1).filter(|&n| n <= LAST)
}

/// A rota with cap and rest at, one below and one above what it has; and changed in some places.
pub fn questions(case_seed: u64) -> Vec<Question> {
    let mut seed = Seed::new(case_seed);
    let rota = drawn(&mut seed);
    let mut asked = Vec::new();
    for cap in around(rota.cap, 1) {
        for rest in around(rota.rest, 0) {
            let figures = Elsewhere { cap, rest, ..rota.clone() };
            asked.push(figures.question(&mut seed));
        }
    }
    for _ in 0..8 {
        asked.push(rota.changed(&mut seed).question(&mut seed));
    }
    asked
}

/// What is lent or asked is at fault, in one way or in two.
pub fn damaged(case_seed: u64) -> Vec<Question> {
    let mut seed = Seed::new(case_seed);
    let mut rota = drawn(&mut seed);
    for _ in 0..seed.within(1, 2) {
        let slots = rota.slots.count;
        match seed.below(9) {
            0 => rota.people = seed.pick(&[0, 33, usize::MAX]),
            1 => rota.slots.damage(&mut seed),
            2 => rota.units.damage(&mut seed, slots),
            3 => rota.avail.truncate((SET_WORDS * rota.people.min(PEOPLE_MOST)).saturating_sub(1)),
            4 => rota.frozen.truncate(SET_WORDS - 1),
            5 => rota.published.truncate(slots.min(SLOTS_MOST).saturating_sub(1)),
            6 => rota.owners.truncate(slots.min(SLOTS_MOST).saturating_sub(1)),
            7 => rota.cap = seed.pick(&[0, LAST + 1, u32::MAX]),
            _ => rota.rest = seed.pick(&[LAST + 1, u32::MAX]),
        }
    }
    vec![rota.question(&mut seed)]
}

// ---- the examples by which document 02's rule was read

/// Slots 0-60, 60-120, 150-210, 210-270, 300-360; units 0-1, 2, 3, 4; person 0 free for all, 1 for 0 to 3; slot 0 frozen, published 0.
fn example(cap: u32, rest: u32, owners: [u8; 5]) -> Elsewhere {
    let slots = [(0, 60), (60, 120), (150, 210), (210, 270), (300, 360)];
    let unit_starts = vec![0, 2, 3, 4];
    let row = |bits: u64| [bits].into_iter().chain([0; SET_WORDS - 1]);
    Elsewhere {
        people: 2,
        slots: Slots::new(&slots),
        units: Units { count: 4, unit_starts },
        cap,
        rest,
        avail: row(0b11111).chain(row(0b1111)).collect(),
        frozen: row(1).collect(),
        published: vec![0; 5],
        owners: owners.to_vec(),
    }
}

/// What is due: the broken rule and its slot, none where all hold, or the refusal.
pub type Due = Result<Option<(u64, usize)>, u64>;

/// The examples, with what is due of each, worked out by hand.
pub fn examples() -> Vec<(Elsewhere, Due)> {
    const N: u8 = NOBODY;
    let theirs = [0, 0, 1, 0, N];
    let over_gaps = [0, 0, 0, N, 0];
    vec![
        (example(120, 90, theirs), Ok(None)),
        (example(120, 91, theirs), Ok(Some((5, 3)))),
        (example(119, 90, theirs), Ok(Some((4, 0)))),
        (example(210, 90, over_gaps), Ok(None)),
        (example(209, 90, over_gaps), Ok(Some((4, 0)))),
        (example(120, 90, [0, N, 1, 0, N]), Ok(Some((3, 1)))),
        (example(120, 90, [N, N, 1, 0, N]), Ok(Some((2, 0)))),
        (example(120, 90, [0, 0, 1, 0, 1]), Ok(Some((1, 4)))),
        (example(120, 90, [0, 0, 9, 0, N]), Ok(Some((1, 2)))),
        (example(0, 90, theirs), Err(7)),
        (example(120, LAST + 1, theirs), Err(7)),
        (example(120, 0, theirs), Ok(None)),
    ]
}

#[cfg(test)]
mod tests {
    use super::{drawn, examples, Elsewhere};
    use crate::seed::Seed;

    #[test]
    fn examples_are_as_they_were_read() {
        for (rota, due) in examples() {
            let got = match rota.number() {
                0 => Ok(rota.broken()),
                n => Err(n),
            };
            assert_eq!(got, due, "{rota:?}");
        }
    }

    /// Changed rotas keep all rules, and break each of them first.
    #[test]
    fn every_verdict_is_reached() {
        let mut seen = [0u64; 6];
        for k in 0..600 {
            let mut seed = Seed::new(k);
            let rota = drawn(&mut seed).changed(&mut seed);
            seen[rota.broken().map_or(0, |(rule, _)| rule as usize)] += 1;
        }
        assert!(seen.iter().all(|&times| times > 10), "{seen:?}");
    }

    /// As it is made, cap and rest are just met; with a minute less of the cap, or more of the rest, a rule breaks.
    #[test]
    fn figures_are_what_the_rota_has() {
        for k in 0..300 {
            let rota = drawn(&mut Seed::new(k));
            assert_eq!(rota.broken(), None);
            if !rota.shifts().is_empty() && rota.cap > 1 {
                let shorter = Elsewhere {
                    cap: rota.cap - 1,
                    ..rota.clone()
                };
                assert_eq!(shorter.broken().map(|broken| broken.0), Some(4));
            }
            if !rota.gaps().is_empty() {
                let longer = Elsewhere {
                    rest: rota.rest + 1,
                    ..rota.clone()
                };
                assert_eq!(longer.broken().map(|broken| broken.0), Some(5));
            }
        }
    }
}
