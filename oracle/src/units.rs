//! Days, run lengths, domains and frozen units, over the atomic slots of a problem.

use on_call::model::problem::Problem;

use crate::bits::put_bit;
use crate::call::{bytes16, bytes32, bytes64, Arg, Outcome, Question};
use crate::covered::{around_midnight, figures};
use crate::days::instant;
use crate::lent_units::{lent, DueUnits, LentUnits};
use crate::limits::{NOTHING, SET_WORDS};
use crate::problems::{availability_into, problem_within, slots_of, unit_masks_of, unit_starts_of, ProblemCase};
use crate::rotations::with_settings;
use crate::seed::Seed;
use crate::table::Slots;

/// A call that writes a number through an address, or refuses and writes nothing.
fn beside(function: &'static str, args: Vec<Arg>, was: u64, number: u64, due: u64) -> Question {
    Question::beside(function, args, &[was], number, (number == 0).then(|| vec![due]))
}

/// Covered days, minutes a day, target and achievable runs, each unit's domain, and freezing at an instant.
pub fn questions(case_seed: u64) -> Vec<Question> {
    let mut seed = Seed::new(case_seed);
    let Some((case, problem)) = problem_within(&mut seed) else {
        return vec![];
    };
    let mut avail: Vec<u64> = (0..SET_WORDS * problem.human_count()).map(|_| seed.word()).collect();
    availability_into(&problem, &mut avail);
    let lent_slots = Slots::of(&problem).args();

    let mut asked = figures_asked(&mut seed, &case, &problem, &avail);
    asked.extend(domains(&mut seed, &problem, &avail));
    asked.push(all_domains(&mut seed, &problem, &avail));
    asked.extend(freezing(&mut seed, problem, &lent_slots));
    asked
}

/// Covered days, and what follows from them, over slots around midnight.
pub fn covered(case_seed: u64) -> Vec<Question> {
    let mut seed = Seed::new(case_seed);
    let case = around_midnight(&mut seed);
    let problem = case.rust();
    let mut avail: Vec<u64> = (0..SET_WORDS * problem.human_count()).map(|_| seed.word()).collect();
    availability_into(&problem, &mut avail);
    figures_asked(&mut seed, &case, &problem, &avail)
}

/// Covered days, minutes a day, the target run, two people's achievable runs and everybody's: by the generator's own count, and again by the Rust's
/// where it counts as many days.
fn figures_asked(seed: &mut Seed, case: &ProblemCase, problem: &Problem, avail: &[u64]) -> Vec<Question> {
    let people = problem.human_count();
    let slots = Slots::of(problem);
    let (own, rust) = figures(case, problem);
    let mut asked = Vec::new();
    for due in std::iter::once(own).chain(rust) {
        asked.push(beside(COVERED_DAYS, slots.args(), seed.word(), 0, due.days));
        asked.push(beside("boltraven_minutes_per_day", slots.args(), seed.word(), 0, due.per_day));
        let target_args = with_settings(case.settings, slots.args());
        asked.push(beside("boltraven_target_run", target_args, seed.word(), 0, due.target));
        for person in [0, people - 1] {
            let mut args = vec![Arg::Number(people as u64)];
            args.extend(with_settings(case.settings, slots.args()));
            args.extend([Arg::Lent(8, bytes64(avail)), Arg::Number(person as u64)]);
            asked.push(beside("boltraven_achievable_run", args, seed.word(), 0, due.achievable[person]));
        }
        let mut args = vec![Arg::Number(people as u64)];
        args.extend(with_settings(case.settings, slots.args()));
        args.push(Arg::Lent(8, bytes64(avail)));
        let before: Vec<u64> = (0..people + seed.below(2) as usize).map(|_| seed.word()).collect();
        asked.push(everybody(args, before, 0, &due.achievable));
    }
    asked
}

/// A call that writes everybody's achievable run, or refuses and writes nothing.
fn everybody(mut args: Vec<Arg>, before: Vec<u64>, number: u64, right: &[u64]) -> Question {
    let mut after = before.clone();
    if number == 0 {
        after[..right.len()].copy_from_slice(right);
    }
    args.push(Arg::LentMut(8, bytes64(&before)));
    Question {
        function: "boltraven_achievable_runs",
        args,
        due: Outcome {
            result: number,
            written: vec![bytes64(&after)],
        },
    }
}

/// The function that is asked once where the Rust counts other days, and twice where it counts the same.
const COVERED_DAYS: &str = "boltraven_covered_days";

/// Whether the Rust counts as many days as are covered, in a case that asks for them.
pub fn counts_agree(questions: &[Question]) -> Option<bool> {
    match questions.iter().filter(|question| question.function == COVERED_DAYS).count() {
        0 => None,
        times => Some(times > 1),
    }
}

/// The domains of some units, as the ascending list of people.
fn domains(seed: &mut Seed, problem: &Problem, avail: &[u64]) -> Vec<Question> {
    let people = problem.human_count();
    let unit_starts = unit_starts_of(problem);
    let mut asked = Vec::new();
    for _ in 0..3 {
        let unit = seed.below(unit_starts.len() as u64) as usize;
        let domain = &problem.unit_domains[unit];
        let before: Vec<u8> = (0..people + seed.below(2) as usize).map(|_| seed.word() as u8).collect();
        let mut after = before.clone();
        for (k, &person) in domain.iter().enumerate() {
            after[k] = person as u8;
        }
        asked.push(Question {
            function: "boltraven_unit_domain",
            args: vec![
                Arg::Number(people as u64),
                Arg::Number(problem.slot_count() as u64),
                Arg::Number(unit_starts.len() as u64),
                Arg::Lent(8, bytes64(avail)),
                Arg::Lent(2, bytes16(&unit_starts)),
                Arg::LentMut(1, before),
                Arg::Number(unit as u64),
            ],
            due: Outcome {
                result: domain.len() as u64,
                written: vec![after],
            },
        });
        let slot = seed.below(problem.slot_count() as u64) as usize;
        let person = seed.below(people as u64) as usize;
        asked.push(Question::number(
            "boltraven_is_available",
            vec![
                Arg::Number(people as u64),
                Arg::Number(problem.slot_count() as u64),
                Arg::Lent(8, bytes64(avail)),
                Arg::Number(person as u64),
                Arg::Number(slot as u64),
            ],
            u64::from(problem.is_available(person, slot)),
        ));
    }
    asked
}

/// The domains of all units at once, a mask each, in a list with room for as many as slots or a little more.
fn all_domains(seed: &mut Seed, problem: &Problem, avail: &[u64]) -> Question {
    let unit_starts = unit_starts_of(problem);
    let before: Vec<u32> = (0..problem.slot_count() + seed.below(2) as usize)
        .map(|_| seed.word() as u32)
        .collect();
    let args = vec![
        Arg::Number(problem.human_count() as u64),
        Arg::Number(problem.slot_count() as u64),
        Arg::Number(unit_starts.len() as u64),
        Arg::Lent(8, bytes64(avail)),
        Arg::Lent(2, bytes16(&unit_starts)),
    ];
    masks(args, before, 0, &unit_masks_of(problem))
}

/// A call that writes a mask a unit, or refuses and writes nothing.
fn masks(mut args: Vec<Arg>, before: Vec<u32>, number: u64, right: &[u32]) -> Question {
    let mut after = before.clone();
    if number == 0 {
        after[..right.len()].copy_from_slice(right);
    }
    args.push(Arg::LentMut(4, bytes32(&before)));
    Question {
        function: "boltraven_unit_domains",
        args,
        due: Outcome {
            result: number,
            written: vec![bytes32(&after)],
        },
    }
}

/// Freezing at an instant, over flags that some slots have already, and then whether units are frozen.
fn freezing(seed: &mut Seed, mut problem: Problem, lent_slots: &[Arg]) -> Vec<Question> {
    let count = problem.slot_count();
    let (starts, ends) = slots_of(&problem);
    let mut flags: Vec<u64> = (0..SET_WORDS).map(|_| seed.word()).collect();
    let often = seed.pick(&[2, 10, 1000]);
    for slot in 0..count {
        problem.frozen[slot] = seed.one_in(often);
        put_bit(&mut flags, 0, slot, problem.frozen[slot]);
    }
    let slot = seed.below(count as u64) as usize;
    let far = seed.word() as u32;
    let at = seed.pick(&[0, starts[slot], ends[slot], ends[slot] - 1, ends[slot] + 1, far, u32::MAX]);
    let before = flags.clone();
    let frozen = problem.freeze_before(instant(i64::from(at)));
    for slot in 0..count {
        put_bit(&mut flags, 0, slot, problem.frozen[slot]);
    }
    let mut args = lent_slots.to_vec();
    args.extend([Arg::LentMut(8, bytes64(&before)), Arg::Number(u64::from(at))]);
    let mut asked = vec![Question {
        function: "boltraven_freeze_before",
        args,
        due: Outcome {
            result: frozen as u64,
            written: vec![bytes64(&flags)],
        },
    }];
    let unit_starts = unit_starts_of(&problem);
    for _ in 0..3 {
        let unit = seed.below(unit_starts.len() as u64) as usize;
        asked.push(Question::number(
            "boltraven_unit_frozen",
            vec![
                Arg::Number(count as u64),
                Arg::Number(unit_starts.len() as u64),
                Arg::Lent(2, bytes16(&unit_starts)),
                Arg::Lent(8, bytes64(&flags)),
                Arg::Number(unit as u64),
            ],
            u64::from(problem.is_unit_frozen(unit)),
        ));
    }
    asked
}

/// Damaged copies, some of them twice: each function is asked all the same, and answers the paper's number or, where the damage is none of
/// its concern, gives the Rust's answer.
pub fn damaged(case_seed: u64) -> Vec<Question> {
    let mut seed = Seed::new(case_seed);
    let Some((case, problem)) = problem_within(&mut seed) else {
        return vec![];
    };
    let (mut asked, due) = lent(&mut seed, &case, problem);
    for _ in 0..seed.within(1, 2) {
        asked.damage(&mut seed);
    }
    let mut questions = asked.starts_asked(&mut seed, &due);
    questions.extend(asked.units_asked(&mut seed, &due));
    questions.extend(asked.figures_asked(&mut seed, &due));
    questions.push(asked.domains_asked(&mut seed, &due));
    questions
}

impl LentUnits {
    /// What a domain takes before the list that is written.
    fn domain_args(&self) -> Vec<Arg> {
        vec![
            Arg::Number(self.people as u64),
            Arg::Number(self.slots.count as u64),
            Arg::Number(self.units.count as u64),
            Arg::Lent(8, bytes64(&self.avail)),
            Arg::Lent(2, bytes16(&self.units.unit_starts)),
        ]
    }

    /// What the question whether a unit is frozen takes.
    fn frozen_args(&self) -> Vec<Arg> {
        vec![
            Arg::Number(self.slots.count as u64),
            Arg::Number(self.units.count as u64),
            Arg::Lent(2, bytes16(&self.units.unit_starts)),
            Arg::Lent(8, bytes64(&self.frozen)),
            Arg::Number(self.unit as u64),
        ]
    }

    /// Rotation and unit starts.
    fn starts_asked(&self, seed: &mut Seed, due: &DueUnits) -> Vec<Question> {
        let number = self.starts_number();
        let asked = [("boltraven_rotation_starts", &due.rotations), ("boltraven_unit_starts", &due.units)];
        let question = |(function, starts): (&'static str, &Vec<u16>)| {
            let before: Vec<u16> = (0..self.starts_room).map(|_| seed.word() as u16).collect();
            let args = with_settings(self.settings, self.slots.args());
            list(function, args, 2, bytes16(&before), number, starts.len(), &bytes16(starts))
        };
        asked.map(question).into()
    }

    /// A unit's domain, and whether it is frozen.
    fn units_asked(&self, seed: &mut Seed, due: &DueUnits) -> Vec<Question> {
        let before: Vec<u8> = (0..self.list_room).map(|_| seed.word() as u8).collect();
        let domain = &due.unit_domain;
        let mut of_unit = list(
            "boltraven_unit_domain",
            self.domain_args(),
            1,
            before,
            self.unit_domain_number(),
            domain.len(),
            domain,
        );
        of_unit.args.push(Arg::Number(self.unit as u64));
        vec![
            of_unit,
            Question::number(
                "boltraven_unit_frozen",
                self.frozen_args(),
                answer_or(self.frozen_number(), u64::from(due.is_frozen)),
            ),
        ]
    }

    /// All units' domains.
    fn domains_asked(&self, seed: &mut Seed, due: &DueUnits) -> Question {
        let before: Vec<u32> = (0..self.masks_room).map(|_| seed.word() as u32).collect();
        masks(self.domain_args(), before, self.unit_domains_number(), &due.unit_masks)
    }

    /// Covered days, minutes a day, target and achievable runs: by the generator's own count, and by the Rust's where it is the same.
    fn figures_asked(&self, seed: &mut Seed, due: &DueUnits) -> Vec<Question> {
        let target_args = with_settings(self.settings, self.slots.args());
        let mut run_args = vec![Arg::Number(self.people as u64)];
        run_args.extend(target_args.clone());
        run_args.push(Arg::Lent(8, bytes64(&self.avail)));
        let runs_args = run_args.clone();
        run_args.push(Arg::Number(self.person as u64));
        let mut asked = Vec::new();
        for by in std::iter::once(&due.own).chain(&due.rust) {
            let questions = [
                (COVERED_DAYS, self.slots.args(), self.days_number(), by.days),
                ("boltraven_minutes_per_day", self.slots.args(), self.days_number(), by.per_day),
                ("boltraven_target_run", target_args.clone(), self.target_number(), by.target),
                (
                    "boltraven_achievable_run",
                    run_args.clone(),
                    self.achievable_number(),
                    by.achievable[due.person],
                ),
            ];
            asked.extend(questions.map(|(function, args, number, right)| beside(function, args, seed.word(), number, right)));
            let before: Vec<u64> = (0..self.list_room).map(|_| seed.word()).collect();
            asked.push(everybody(runs_args.clone(), before, self.achievable_runs_number(), &by.achievable));
        }
        asked
    }
}

/// A number that was asked for, or a refusal.
fn answer_or(number: u64, right: u64) -> u64 {
    if number == 0 {
        right
    } else {
        NOTHING + number
    }
}

/// A call that writes a list at the front of a lent buffer, or refuses and writes nothing.
fn list(function: &'static str, mut args: Vec<Arg>, size: usize, before: Vec<u8>, number: u64, count: usize, right: &[u8]) -> Question {
    let mut after = before.clone();
    if number == 0 {
        after[..right.len()].copy_from_slice(right);
    }
    args.push(Arg::LentMut(size, before));
    Question {
        function,
        args,
        due: Outcome {
            result: answer_or(number, count as u64),
            written: vec![after],
        },
    }
}
