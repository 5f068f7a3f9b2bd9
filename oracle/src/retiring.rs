//! Past weeks retired, by the generator's own steps over what is lent: which units go, what stays, what is added to prior minutes. What is
//! new is the Rust's: its split, availability and units of the new slots alone. What is left is prepared by the Rust again and played on.

use on_call::model::problem::Problem;

use crate::bits::{has_bit, put_bit};
use crate::call::{bytes16, bytes32, bytes64, Arg, Outcome, Question};
use crate::limits::{MINUTES_MOST, NOBODY, NOTHING, RANGES_MOST, SET_WORDS, SLOTS_MOST, TOTALS};
use crate::problems::{ranges, settings, slots_of, unit_starts_of, Person, ProblemCase, Range, Settings};
use crate::recounts::with_units;
use crate::rotas::{draws, play, played, LentRota, RotaCase};
use crate::seed::Seed;
use crate::table::{damage_settings, failed, lowest, people_ok, range_ok, settings_ok, slots_ok, words_ok, Ranges, Slots, Units};

/// What is answered where everything would go.
const EVERYTHING: u64 = 2 * NOTHING;

/// A rota as it is held, with prior minutes and the retired total.
#[derive(Debug, Clone)]
pub struct Held {
    pub people: usize,
    pub slots: Slots,
    pub units: Units,
    pub avail: Vec<u64>,
    pub frozen: Vec<u64>,
    pub owners: Vec<u8>,
    pub sets: Vec<u64>,
    pub minutes: Vec<u64>,
    pub totals: Vec<u64>,
    pub priors: Vec<u32>,
    pub retired: Vec<u64>,
}

/// What is to come behind it.
#[derive(Debug, Clone)]
pub struct New {
    pub settings: Settings,
    pub base: Slots,
    pub ranges: Ranges,
}

impl New {
    pub fn of(people: usize, base: &[(u32, u32)], ranges: &[Range], settings: Settings) -> Self {
        let ranges = Ranges {
            people,
            count: ranges.len(),
            persons: ranges.iter().map(|range| range.person as u16).collect(),
            opens: ranges.iter().map(|range| range.start).collect(),
            shuts: ranges.iter().map(|range| range.end).collect(),
        };
        let base = Slots::new(base);
        Self { settings, base, ranges }
    }

    fn base(&self) -> Vec<(u32, u32)> {
        (0..self.base.count).map(|k| (self.base.starts[k], self.base.ends[k])).collect()
    }

    fn ranges(&self) -> Vec<Range> {
        let range = |k: usize| Range {
            person: usize::from(self.ranges.persons[k]),
            start: self.ranges.opens[k],
            end: self.ranges.shuts[k],
        };
        (0..self.ranges.count).map(range).collect()
    }

    /// What the Rust makes of it, where there is a new slot.
    fn rust(&self, people: usize, settings: Settings) -> Option<Problem> {
        let case = ProblemCase {
            base: self.base(),
            ranges: self.ranges(),
            people: vec![Person::PLAIN; people],
            settings,
        };
        (self.base.count > 0).then(|| case.rust())
    }
}

/// What retiring comes to.
#[derive(Debug, Clone)]
pub enum Due {
    /// How many slots went, and what is held then.
    Retired(usize, Box<Held>),
    Nothing,
    Everything,
    Refused(u64),
}

impl Held {
    /// A rota with room for 1,024 slots and more, and anything in it.
    fn of(seed: &mut Seed, rota: &LentRota) -> Self {
        let spare = seed.below(3) as usize;
        let slots = rota.starts.len();
        let mut room = |list: Vec<u64>| -> Vec<u64> {
            let more = SLOTS_MOST + spare - slots.min(SLOTS_MOST);
            list.into_iter().take(slots).chain((0..more).map(|_| seed.word())).collect()
        };
        let starts = room(rota.starts.iter().map(|&n| u64::from(n)).collect());
        let ends = room(rota.ends.iter().map(|&n| u64::from(n)).collect());
        let owners = room(rota.owners.iter().map(|&n| u64::from(n)).collect());
        let mut unit_starts = rota.unit_starts.clone();
        while unit_starts.len() < SLOTS_MOST + spare {
            unit_starts.push(seed.word() as u16);
        }
        let priors = (0..rota.people + spare)
            .map(|k| if k < rota.people { seed.below(1000) } else { seed.word() } as u32)
            .collect();
        let retired = (0..=spare).map(|k| if k == 0 { seed.below(1000) } else { seed.word() }).collect();
        Self {
            people: rota.people,
            slots: Slots {
                count: slots,
                starts: starts.iter().map(|&n| n as u32).collect(),
                ends: ends.iter().map(|&n| n as u32).collect(),
            },
            units: Units {
                count: rota.units,
                unit_starts,
            },
            avail: rota.avail.clone(),
            frozen: rota.frozen.clone(),
            owners: owners.iter().map(|&n| n as u8).collect(),
            sets: rota.sets.clone(),
            minutes: rota.minutes.clone(),
            totals: rota.totals.clone(),
            priors,
            retired,
        }
    }

    fn length(&self, slot: usize) -> u64 {
        u64::from(self.slots.ends[slot] - self.slots.starts[slot])
    }

    /// The minutes that an owner has of the first slots.
    fn owned(&self, owner: u8, slots: usize) -> u64 {
        let of = (0..slots).filter(|&slot| self.owners[slot] == owner);
        of.map(|slot| self.length(slot)).sum()
    }

    /// Where each unit begins and ends.
    fn bounds(&self) -> Vec<(usize, usize)> {
        let starts: Vec<usize> = self.units.unit_starts[..self.units.count]
            .iter()
            .map(|&at| usize::from(at))
            .collect();
        let ends = starts.iter().skip(1).copied().chain([self.slots.count]);
        starts.iter().copied().zip(ends).collect()
    }

    /// How many units go, and how many slots: the leading units of which every slot is frozen.
    pub fn going(&self) -> (usize, usize) {
        let bounds = self.bounds();
        let is_past = |unit: &&(usize, usize)| (unit.0..unit.1).all(|slot| has_bit(&self.frozen, 0, slot));
        let past: Vec<_> = bounds.iter().take_while(is_past).collect();
        (past.len(), past.last().map_or(0, |unit| unit.1))
    }

    /// 10: the first part of the recount that fails, at its lowest place; or 0.
    fn recount(&self) -> u64 {
        let slots = self.slots.count;
        let owner = |slot: usize| self.owners[slot];
        let is_known = |owner: u8| usize::from(owner) < self.people;
        if let Some(slot) = (0..slots).find(|&slot| owner(slot) != NOBODY && !is_known(owner(slot))) {
            return failed(1, slot, 0);
        }
        let is_away = |slot: &usize| owner(*slot) != NOBODY && !has_bit(&self.avail, usize::from(owner(*slot)), *slot);
        if let Some(slot) = (0..slots).find(is_away) {
            return failed(2, slot, 0);
        }
        let is_uneven = |unit: &(usize, usize)| (unit.0..unit.1).any(|slot| owner(slot) != owner(unit.0));
        if let Some(unit) = self.bounds().iter().position(is_uneven) {
            return failed(3, unit, 0);
        }
        for person in 0..self.people {
            let is_wrong = |slot: &usize| has_bit(&self.sets, person, *slot) != (usize::from(owner(*slot)) == person);
            if let Some(slot) = (0..slots).find(is_wrong) {
                return failed(4, person, slot);
            }
        }
        if let Some(person) = (0..self.people).find(|&person| self.minutes[person] != self.owned(person as u8, slots)) {
            return failed(5, person, 0);
        }
        let open = (0..slots).filter(|&slot| owner(slot) == NOBODY).count() as u64;
        let totals = [self.owned(NOBODY, slots), open];
        (0..TOTALS).find(|&k| self.totals[k] != totals[k]).map_or(0, |k| failed(6, k, 0))
    }

    /// Each person's prior minutes, and the retired total, after the first slots went.
    fn figures_after(&self, gone: usize) -> (Vec<u64>, u64) {
        let prior = |person: usize| u64::from(self.priors[person]) + self.owned(person as u8, gone);
        (
            (0..self.people).map(prior).collect(),
            self.retired[0].saturating_add(self.owned(NOBODY, gone)),
        )
    }

    /// The refusal's number, or 0.
    pub fn number(&self, new: &New) -> u64 {
        let asked = lowest(&[
            (1, people_ok(self.people)),
            (1, self.slots.count_ok()),
            (1, new.base.count <= SLOTS_MOST),
            (1, new.ranges.count <= RANGES_MOST),
            (2, self.slots.starts.len() >= SLOTS_MOST && self.slots.ends.len() >= SLOTS_MOST),
            (2, words_ok(self.people, self.avail.len())),
            (2, self.units.unit_starts.len() >= SLOTS_MOST && self.units.room_ok()),
            (2, self.frozen.len() >= SET_WORDS),
            (2, self.owners.len() >= SLOTS_MOST),
            (2, words_ok(self.people, self.sets.len())),
            (2, self.minutes.len() >= self.people),
            (2, self.totals.len() >= TOTALS),
            (2, self.priors.len() >= self.people),
            (2, !self.retired.is_empty()),
            (2, new.base.room_ok()),
            (2, new.ranges.room_ok()),
        ]);
        if asked > 0 {
            return asked;
        }
        let is_right = |n: u64| n <= MINUTES_MOST as u64;
        let are_right = |(priors, retired): (Vec<u64>, u64)| priors.into_iter().all(is_right) && is_right(retired);
        let base_ok = slots_ok(&new.base());
        let ranges_ok = new.ranges().iter().all(|&range| range_ok(range, self.people));
        let sound = self.slots.ok() && self.units.ok(self.slots.count);
        let mut rules = vec![
            (3, base_ok),
            (4, ranges_ok),
            (6, are_right(self.figures_after(0))),
            (7, settings_ok(new.settings)),
            (9, sound),
        ];
        // what is asked of sound slots and units alone
        if sound {
            let gone = self.going().1;
            let kept = self.slots.count - gone;
            let last_end = self.slots.ends[self.slots.count - 1];
            rules.push((3, kept == 0 || new.base.count == 0 || last_end <= new.base.starts[0]));
            if base_ok && ranges_ok {
                let split = new.rust(self.people, Settings::PLAIN).map_or(0, |problem| problem.slot_count());
                rules.push((5, kept + split <= SLOTS_MOST));
            }
            let recount = self.recount();
            rules.push((recount, recount == 0));
            rules.push((6, recount > 0 || are_right(self.figures_after(gone))));
        }
        lowest(&rules)
    }

    /// What is held after the first units went and what is new came; entries and bits past the new counts stay.
    fn after(&self, new: &New, units: usize, gone: usize) -> Self {
        let fresh = new.rust(self.people, new.settings);
        let (new_starts, new_ends) = fresh.as_ref().map_or((vec![], vec![]), slots_of);
        let new_units = fresh.as_ref().map_or(vec![], unit_starts_of);
        let kept = self.slots.count - gone;
        let mut then = self.clone();
        let starts = [&self.slots.starts[gone..self.slots.count], &new_starts].concat();
        let ends = [&self.slots.ends[gone..self.slots.count], &new_ends].concat();
        let owners = [&self.owners[gone..self.slots.count], &vec![NOBODY; new_starts.len()]].concat();
        let count = starts.len();
        then.slots.count = count;
        then.slots.starts[..count].copy_from_slice(&starts);
        then.slots.ends[..count].copy_from_slice(&ends);
        then.owners[..count].copy_from_slice(&owners);
        let old_units = self.units.unit_starts[units..self.units.count].iter().map(|&at| at - gone as u16);
        let begins: Vec<u16> = old_units.chain(new_units.iter().map(|&at| at + kept as u16)).collect();
        then.units.count = begins.len();
        then.units.unit_starts[..begins.len()].copy_from_slice(&begins);
        for (slot, &owner) in owners.iter().enumerate() {
            let was = (slot < kept).then_some(gone + slot);
            put_bit(&mut then.frozen, 0, slot, was.is_some_and(|was| has_bit(&self.frozen, 0, was)));
            for person in 0..self.people {
                let can = match (was, &fresh) {
                    (Some(was), _) => has_bit(&self.avail, person, was),
                    (None, Some(problem)) => problem.is_available(person, slot - kept),
                    (None, None) => unreachable!("a slot that is neither old nor new"),
                };
                put_bit(&mut then.avail, person, slot, can);
                put_bit(&mut then.sets, person, slot, usize::from(owner) == person);
            }
        }
        for person in 0..self.people {
            then.minutes[person] = then.owned(person as u8, count);
        }
        then.totals[0] = then.owned(NOBODY, count);
        then.totals[1] = owners.iter().filter(|&&owner| owner == NOBODY).count() as u64;
        let (priors, retired) = self.figures_after(gone);
        for (prior, lifted) in then.priors.iter_mut().zip(priors) {
            *prior = lifted as u32;
        }
        then.retired[0] = retired;
        then
    }

    pub fn due(&self, new: &New) -> Due {
        let number = self.number(new);
        if number > 0 {
            return Due::Refused(number);
        }
        match self.going() {
            (0, _) => Due::Nothing,
            (units, _) if units == self.units.count => Due::Everything,
            (units, gone) => Due::Retired(gone, Box::new(self.after(new, units, gone))),
        }
    }

    /// Every column that may be rewritten: the size of an entry, and the bytes.
    fn columns(&self) -> [(usize, Vec<u8>); 11] {
        [
            (4, bytes32(&self.slots.starts)),
            (4, bytes32(&self.slots.ends)),
            (8, bytes64(&self.avail)),
            (2, bytes16(&self.units.unit_starts)),
            (8, bytes64(&self.frozen)),
            (1, self.owners.clone()),
            (8, bytes64(&self.sets)),
            (8, bytes64(&self.minutes)),
            (8, bytes64(&self.totals)),
            (4, bytes32(&self.priors)),
            (8, bytes64(&self.retired)),
        ]
    }

    /// As the library takes it, with what is due.
    fn question(&self, new: &New, told: u64) -> Question {
        let s = new.settings;
        let counts = [self.people, self.slots.count, self.units.count, new.base.count, new.ranges.count];
        let bytes = [s.fairness, s.lock, s.boundary, s.edition];
        let mut args: Vec<Arg> = counts.iter().map(|&count| Arg::Number(count as u64)).collect();
        args.extend(bytes.iter().map(|&byte| Arg::Number(u64::from(byte))));
        args.extend([s.value, s.days].map(|number| Arg::Number(u64::from(number))));
        args.extend([
            Arg::Lent(4, bytes32(&new.base.starts)),
            Arg::Lent(4, bytes32(&new.base.ends)),
            Arg::Lent(2, bytes16(&new.ranges.persons)),
            Arg::Lent(4, bytes32(&new.ranges.opens)),
            Arg::Lent(4, bytes32(&new.ranges.shuts)),
        ]);
        args.extend(self.columns().map(|(size, bytes)| Arg::LentMut(size, bytes)));
        args.push(Arg::Out(told));
        let (result, told, after) = match self.due(new) {
            Due::Retired(gone, then) => (0, three(gone, then.slots.count, then.units.count), *then),
            Due::Nothing => (NOTHING, told, self.clone()),
            Due::Everything => (EVERYTHING, told, self.clone()),
            Due::Refused(number) => (number, told, self.clone()),
        };
        let mut written: Vec<Vec<u8>> = after.columns().into_iter().map(|(_, bytes)| bytes).collect();
        written.push(told.to_le_bytes().to_vec());
        Question {
            function: "boltraven_retire",
            args,
            due: Outcome { result, written },
        }
    }

    /// The Rust's problem of what is held: its slots and who can cover them, with these units and flags.
    fn problem(&self) -> Problem {
        let count = self.slots.count;
        let base: Vec<(u32, u32)> = (0..count).map(|k| (self.slots.starts[k], self.slots.ends[k])).collect();
        let mut ranges = Vec::new();
        for person in 0..self.people {
            let able = (0..count).filter(|&slot| has_bit(&self.avail, person, slot));
            ranges.extend(able.map(|slot| Range {
                person,
                start: base[slot].0,
                end: base[slot].1,
            }));
        }
        let case = ProblemCase {
            base,
            ranges,
            people: vec![Person::PLAIN; self.people],
            settings: Settings::PLAIN,
        };
        let mut problem = case.rust();
        assert_eq!(problem.slot_count(), count, "no range cuts a slot");
        problem.units = self.bounds().into_iter().map(|(first, end)| first..end).collect();
        let can = |problem: &Problem, unit: &std::ops::Range<usize>| {
            let covers = |person: &usize| unit.clone().all(|slot| problem.is_available(*person, slot));
            (0..self.people).filter(covers).collect()
        };
        problem.unit_domains = problem.units.iter().map(|unit| can(&problem, unit)).collect();
        for (unit, slots) in problem.units.iter().enumerate() {
            problem.unit_of_slot[slots.clone()].fill(unit);
        }
        for slot in 0..count {
            problem.frozen[slot] = has_bit(&self.frozen, 0, slot);
        }
        problem
    }

    /// A recount and a play of any draws on what is held: sets, minutes and totals are those that the Rust rebuilds, and its moves go on.
    fn played_on(&self, seed: &mut Seed) -> Vec<Question> {
        let count = self.slots.count;
        let problem = self.problem();
        let draws = draws(seed, &problem);
        let case = RotaCase {
            problem,
            owners: self.owners[..count].to_vec(),
            draws,
        };
        let rota = LentRota {
            people: self.people,
            units: self.units.count,
            starts: self.slots.starts[..count].to_vec(),
            ends: self.slots.ends[..count].to_vec(),
            avail: self.avail.clone(),
            unit_starts: self.units.unit_starts.clone(),
            frozen: self.frozen.clone(),
            owners: self.owners.clone(),
            sets: self.sets.clone(),
            minutes: self.minutes.clone(),
            totals: self.totals.clone(),
            count: case.draws.len(),
            draws: case.draws.clone(),
            answers: vec![9; case.draws.len() + 1],
        };
        let mut assignment = case.assignment(&case.owners);
        let mut theirs = rota.clone();
        theirs.hold(&played(&case.problem, &assignment, vec![]));
        assert_eq!(rota.buffers(), theirs.buffers(), "what is held is the Rust's rota of these owners");
        let answers = play(&case.problem, &mut assignment, &case.draws);
        let mut asked = vec![with_units(&rota, 0)];
        asked.extend(rota.plays(Ok(&played(&case.problem, &assignment, answers))));
        asked
    }

    // ---- by a seed

    /// Frozen flags: a stretch from the first slot on, that ends where a unit does or within one, or none, or all; and islands behind.
    fn freeze(&mut self, seed: &mut Seed) {
        let count = self.slots.count;
        let unit = seed.pick(&self.bounds());
        let end = match seed.below(8) {
            0 => 0,
            1 => count,
            2 => seed.below(count as u64 + 1) as usize,
            3 => unit.1 - 1,
            4 => unit.0 + 1,
            _ => unit.0,
        };
        let often = seed.pick(&[1000, 20, 3]);
        for slot in 0..count {
            put_bit(&mut self.frozen, 0, slot, slot < end || seed.one_in(often));
        }
    }

    /// New slots behind the last end: touching it, after a gap, or days later.
    fn new_behind(&self, seed: &mut Seed) -> New {
        let last = self.slots.ends[self.slots.count - 1];
        let days = seed.one_in(2);
        let many = if seed.one_in(30) { 1024 } else { seed.within(1, 12) };
        let mut at = u64::from(last) + seed.pick(&[0, 0, 1, 10, 1440, 20_000]);
        let mut base = Vec::new();
        for _ in 0..if seed.one_in(5) { 0 } else { many } {
            if days {
                at = at.div_ceil(1440) * 1440;
            }
            let end = at + seed.within(1, if many > 100 { 600 } else { 3000 });
            base.push((at as u32, end as u32));
            at = end + seed.pick(&[0, 0, 1, 500]);
        }
        let near: Vec<(u32, u32)> = if base.is_empty() { vec![(last, last + 60)] } else { base.clone() };
        let most = seed.pick(&[8, 24, RANGES_MOST as u64]);
        let ranges = ranges(seed, &near, self.people, most);
        New::of(self.people, &base, &ranges, settings(seed))
    }

    /// New slots that come to so many with those that stay; the first of them is cut, by some ranges that begin within it.
    fn new_up_to(&self, seed: &mut Seed, room: usize) -> New {
        let kept = self.slots.count - self.going().1;
        let fresh = room - kept;
        // ranges of one person merge into the longest, so each cut needs a person of its own
        let cuts = (seed.below(4) as usize).min(self.people).max(fresh.saturating_sub(SLOTS_MOST));
        let cuts = cuts.min(fresh.saturating_sub(1));
        let last = self.slots.ends[self.slots.count - 1];
        let base: Vec<(u32, u32)> = (0..(fresh - cuts) as u32).map(|k| (last + 10 * k, last + 10 * k + 10)).collect();
        let range = |k: usize| Range {
            person: k,
            start: last + 1 + k as u32,
            end: MINUTES_MOST as u32,
        };
        let ranges: Vec<Range> = (0..cuts).map(range).collect();
        New::of(self.people, &base, &ranges, settings(seed))
    }

    /// Prior minutes and the total so that retiring lifts one of them to the limit, or one past it.
    fn at_limit(&mut self, seed: &mut Seed) {
        let gone = self.going().1;
        let past = seed.below(2);
        let limit = MINUTES_MOST as u64 + past;
        let k = seed.below(self.people as u64 + 1) as usize;
        if k == self.people {
            self.retired[0] = limit - self.owned(NOBODY, gone);
        } else {
            self.priors[k] = (limit - self.owned(k as u8, gone)) as u32;
        }
    }

    /// Something that is derived from the owners, or an owner, changed.
    fn spoil(&mut self, seed: &mut Seed) {
        let slot = seed.below(self.slots.count as u64) as usize;
        let person = seed.below(self.people as u64) as usize;
        match seed.below(6) {
            0 => self.owners[slot] = seed.pick(&[self.people as u8, 254]),
            1 => self.owners[slot] = seed.pick(&[person as u8, NOBODY]),
            2 => {
                let can = has_bit(&self.avail, person, slot);
                put_bit(&mut self.avail, person, slot, !can);
            }
            3 => {
                let holds = has_bit(&self.sets, person, slot);
                put_bit(&mut self.sets, person, slot, !holds);
            }
            4 => self.minutes[person] = seed.pick(&[0, 1, u64::MAX]),
            _ => self.totals[slot % TOTALS] ^= seed.pick(&[1, 1 << 40]),
        }
    }
}

/// Three counts as one number.
fn three(gone: usize, slots: usize, units: usize) -> u64 {
    gone as u64 | (slots as u64) << 16 | (units as u64) << 32
}

/// A rota with any stretch of frozen slots; now and then with figures at the limit.
fn held(seed: &mut Seed) -> Held {
    let case = RotaCase::new(seed);
    let rota = LentRota::new(seed, &case);
    let mut held = Held::of(seed, &rota);
    held.freeze(seed);
    held
}

/// A retiring; what it leaves played on; a published column beside it; and a second retiring of what it left.
pub fn questions(case_seed: u64) -> Vec<Question> {
    let mut seed = Seed::new(case_seed);
    let mut held = held(&mut seed);
    let new = match seed.below(12) {
        0 => held.new_up_to(&mut seed, SLOTS_MOST),
        1 => held.new_up_to(&mut seed, SLOTS_MOST + 1),
        _ => held.new_behind(&mut seed),
    };
    if seed.one_in(4) {
        held.at_limit(&mut seed);
    }
    let mut asked = vec![held.question(&new, seed.word())];
    if let Due::Retired(gone, then) = held.due(&new) {
        asked.push(column(&mut seed, held.slots.count, gone, then.slots.count));
        asked.extend(then.played_on(&mut seed));
        let mut next = *then;
        next.freeze(&mut seed);
        let new = next.new_behind(&mut seed);
        asked.push(next.question(&new, seed.word()));
    }
    asked
}

/// What is lent is at fault, in one way or in two or three; the lowest number is due.
pub fn damaged(case_seed: u64) -> Vec<Question> {
    let mut seed = Seed::new(case_seed);
    let mut held = held(&mut seed);
    let mut new = held.new_behind(&mut seed);
    if seed.one_in(6) {
        new = held.new_up_to(&mut seed, SLOTS_MOST + 1);
    }
    for _ in 0..seed.within(1, 3) {
        damage(&mut seed, &mut held, &mut new);
    }
    let told = seed.word();
    let counts: Vec<usize> = (0..3).map(|_| seed.pick(&[0, 1, 2, 9, 30, 1023, 1024, 1025, usize::MAX])).collect();
    vec![held.question(&new, told), column(&mut seed, counts[0], counts[1], counts[2])]
}

/// One fault more.
pub fn damage(seed: &mut Seed, held: &mut Held, new: &mut New) {
    let count = held.slots.count.min(SLOTS_MOST);
    let people = held.people.min(32);
    let words = (SET_WORDS * people).saturating_sub(1);
    let is_sound = people_ok(held.people) && held.slots.count_ok() && held.units.count <= SLOTS_MOST;
    let most = MINUTES_MOST as u32;
    let k = seed.below(new.base.starts.len().min(new.base.ends.len()).max(1) as u64) as usize;
    let has_base = k < new.base.starts.len() && k < new.base.ends.len();
    match seed.below(24) {
        0 => held.people = seed.pick(&[0, 33, usize::MAX]),
        1 => held.slots.count = seed.pick(&[0, SLOTS_MOST + 1, usize::MAX]),
        2 => new.base.count = seed.pick(&[SLOTS_MOST + 1, usize::MAX]),
        3 => new.ranges.count = seed.pick(&[RANGES_MOST + 1, usize::MAX]),
        4 => match seed.below(4) {
            0 => held.slots.starts.truncate(SLOTS_MOST - 1),
            1 => held.slots.ends.truncate(SLOTS_MOST - 1),
            2 => held.units.unit_starts.truncate(SLOTS_MOST - 1),
            _ => held.owners.truncate(SLOTS_MOST - 1),
        },
        5 => match seed.below(7) {
            0 => held.avail.truncate(words),
            1 => held.sets.truncate(words),
            2 => held.frozen.truncate(SET_WORDS - 1),
            3 => held.minutes.truncate(people.saturating_sub(1)),
            4 => held.totals.truncate(TOTALS - 1),
            5 => held.priors.truncate(people.saturating_sub(1)),
            _ => held.retired.clear(),
        },
        6 => match seed.below(5) {
            0 => drop(new.base.starts.pop()),
            1 => drop(new.base.ends.pop()),
            2 => drop(new.ranges.persons.pop()),
            3 => drop(new.ranges.opens.pop()),
            _ => drop(new.ranges.shuts.pop()),
        },
        // 3: a new slot that is empty, reversed, late, or before the one before it; and the first one before the last end
        7 if has_base => new.base.ends[k] = new.base.starts[k],
        8 if has_base && k > 0 => new.base.starts[k] = new.base.ends[k - 1] - 1,
        9 if has_base => new.base.ends[k] = most + 1,
        10 | 11 if has_base && held.slots.ends.len() >= count && count > 0 => new.base.starts[0] = held.slots.ends[count - 1] - 1,
        // 4
        12 | 13 if !new.ranges.opens.is_empty() => {
            let k = seed.below(new.ranges.opens.len() as u64) as usize;
            match seed.below(3) {
                0 => new.ranges.opens[k] = most,
                1 if k < new.ranges.shuts.len() => new.ranges.shuts[k] = most + 1,
                _ if k < new.ranges.persons.len() => new.ranges.persons[k] = held.people as u16,
                _ => {}
            }
        }
        // 6
        14 | 15 if people > 0 && !held.priors.is_empty() => held.priors[0] = seed.pick(&[most, most + 1, u32::MAX]),
        16 if !held.retired.is_empty() => held.retired[0] = seed.pick(&[most.into(), u64::from(most) + 1, u64::MAX]),
        // 7
        17 => damage_settings(seed, &mut new.settings),
        // 9
        18 if count > 0 && held.slots.ends.len() >= count && held.slots.starts.len() >= count => {
            let slot = seed.below(count as u64) as usize;
            held.slots.ends[slot] = seed.pick(&[held.slots.starts[slot], most + 1]);
        }
        19 => match seed.below(4) {
            0 => held.units.count = 0,
            1 => held.units.unit_starts[0] = 1,
            2 => {
                let last = held.units.count.clamp(1, held.units.unit_starts.len()) - 1;
                held.units.unit_starts[last] = count as u16;
            }
            _ => held.units.count = held.units.unit_starts.len() + seed.below(2) as usize,
        },
        // 10
        _ if is_sound
            && held.owners.len() >= count
            && held.avail.len() > words
            && held.sets.len() > words
            && held.minutes.len() >= people
            && held.totals.len() >= TOTALS =>
        {
            held.spoil(seed);
        }
        _ => {}
    }
}

/// A published column after a retiring.
fn column(seed: &mut Seed, before: usize, gone: usize, count: usize) -> Question {
    let most = before.max(count).min(SLOTS_MOST + 1);
    let len = (most + seed.pick(&[0, 0, 1, 5])).saturating_sub(usize::from(seed.one_in(8)));
    let bytes: Vec<u8> = (0..len).map(|_| seed.word() as u8).collect();
    let counts = [before, count].iter().all(|n| (1..=SLOTS_MOST).contains(n));
    let number = lowest(&[
        (1, counts && gone <= before && before - gone <= count),
        (2, before <= len && count <= len),
    ]);
    let mut after = bytes.clone();
    if number == 0 {
        let then = [&bytes[gone..before], &vec![NOBODY; count - (before - gone)]].concat();
        after[..count].copy_from_slice(&then);
    }
    Question {
        function: "boltraven_retire_column",
        args: vec![
            Arg::Number(before as u64),
            Arg::Number(gone as u64),
            Arg::Number(count as u64),
            Arg::LentMut(1, bytes),
        ],
        due: Outcome {
            result: number,
            written: vec![after],
        },
    }
}

// ---- small ones, to be stored

/// The example by which document 02's request was read: six slots on six days in units of two, of which the first five are frozen; two new
/// slots, the first of which touches the last end and is cut by a range.
pub fn example() -> (Held, New) {
    let slots: Vec<(u32, u32)> = (0..6).map(|day| (1440 * day + 480, 1440 * day + 960)).collect();
    let mut held = Held {
        people: 2,
        slots: Slots::new(&slots),
        units: Units {
            count: 3,
            unit_starts: vec![0, 2, 4],
        },
        avail: vec![0; 2 * SET_WORDS],
        frozen: vec![0; SET_WORDS],
        owners: vec![0, 0, NOBODY, NOBODY, 1, 1],
        sets: vec![0; 2 * SET_WORDS],
        minutes: vec![960, 960],
        totals: vec![960, 2],
        priors: vec![100, 0],
        retired: vec![7],
    };
    held.slots.starts.resize(SLOTS_MOST, 7);
    held.slots.ends.resize(SLOTS_MOST, 7);
    held.units.unit_starts.resize(SLOTS_MOST, 7);
    held.owners.resize(SLOTS_MOST, 7);
    held.frozen[0] = 31;
    (held.avail[0], held.avail[SET_WORDS]) = (63, 63);
    (held.sets[0], held.sets[SET_WORDS]) = (3, 48);
    let range = |person, start, end| Range { person, start, end };
    let settings = Settings {
        lock: 1,
        value: 2,
        ..Settings::PLAIN
    };
    let ranges = [range(0, 8160, 8400), range(1, 0, 100_000)];
    (held, New::of(2, &[(8160, 8640), (9600, 10_080)], &ranges, settings))
}

/// A rota of few slots with what is new, by a seed; none where the seed's are too many.
pub fn small(seed: &mut Seed, people: usize, slots: usize) -> Option<(Held, New)> {
    let held = held(seed);
    if held.people > people || held.slots.count > slots {
        return None;
    }
    let new = held.new_behind(seed);
    Some((held, new))
}

#[cfg(test)]
mod tests {
    use super::{damaged, questions, EVERYTHING};
    use crate::limits::{NOTHING, SLOTS_MOST};

    /// Retired, nothing, everything, exactly 1,024 slots then, and 5 and 6: the sound cases reach them.
    #[test]
    fn every_outcome_is_reached() {
        let mut seen = [0u64; 6];
        for k in 0..400 {
            let due = &questions(k)[0].due;
            let told = u64::from_le_bytes(due.written[11][..].try_into().expect("eight bytes"));
            let is_full = due.result == 0 && told >> 16 & 65_535 == SLOTS_MOST as u64;
            let kinds = [0, NOTHING, EVERYTHING, 5, 6];
            for (kind, times) in kinds.iter().zip(&mut seen) {
                *times += u64::from(due.result == *kind);
            }
            seen[5] += u64::from(is_full);
        }
        assert!(seen.iter().all(|&times| times > 5), "{seen:?}");
    }

    /// Every refusal, and every part of the recount.
    #[test]
    fn every_refusal_is_reached() {
        let mut seen = [0u64; 14];
        for k in 0..3000 {
            let number = damaged(k)[0].due.result;
            match number & 255 {
                10 => seen[(number >> 8 & 255) as usize + 7] += 1,
                n @ 1..=7 if number < NOTHING => seen[n as usize - 1] += 1,
                9 => seen[7] += 1,
                _ => {}
            }
        }
        assert!(seen.iter().all(|&times| times > 5), "{seen:?}");
    }
}
