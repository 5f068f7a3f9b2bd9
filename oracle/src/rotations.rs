//! Where rotations and units begin: by count and by weekday, across years.

use crate::call::{bytes16, bytes32, Arg, Outcome, Question};
use crate::limits::{MINUTES_MOST, NOTHING, SLOTS_MOST};
use crate::problems::{problem_case, problem_within, slots_of, unit_starts_of, ProblemCase, Settings};
use crate::seed::Seed;
use crate::table::damage_settings;

/// The starts of rotations and of units over the atomic slots of a problem.
pub fn questions(case_seed: u64) -> Vec<Question> {
    let mut seed = Seed::new(case_seed);
    let Some((case, problem)) = problem_within(&mut seed) else {
        return vec![];
    };
    let rotations: Vec<u16> = problem.rotation_starts.iter().map(|&start| start as u16).collect();
    let (starts, ends) = slots_of(&problem);
    vec![
        question(&mut seed, "boltraven_rotation_starts", case.settings, &starts, &ends, &rotations),
        question(
            &mut seed,
            "boltraven_unit_starts",
            case.settings,
            &starts,
            &ends,
            &unit_starts_of(&problem),
        ),
    ]
}

/// The arguments of slots, with the settings after their count.
pub fn with_settings(settings: Settings, slots: Vec<Arg>) -> Vec<Arg> {
    let (count, columns) = slots.split_at(1);
    [count, &settings_args(settings), columns].concat()
}

/// The settings as arguments.
fn settings_args(settings: Settings) -> [Arg; 6] {
    [
        Arg::Number(u64::from(settings.fairness)),
        Arg::Number(u64::from(settings.lock)),
        Arg::Number(u64::from(settings.boundary)),
        Arg::Number(u64::from(settings.edition)),
        Arg::Number(u64::from(settings.value)),
        Arg::Number(u64::from(settings.days)),
    ]
}

/// A list of slots comes out at the front of a buffer with room for all slots or more; what lies past the list stays.
fn question(seed: &mut Seed, function: &'static str, settings: Settings, starts: &[u32], ends: &[u32], due: &[u16]) -> Question {
    let room = starts.len() + seed.below(3) as usize;
    let before: Vec<u16> = (0..room).map(|_| seed.word() as u16).collect();
    let mut after = before.clone();
    after[..due.len()].copy_from_slice(due);
    let mut args = vec![Arg::Number(starts.len() as u64)];
    args.extend(settings_args(settings));
    args.extend([
        Arg::Lent(4, bytes32(starts)),
        Arg::Lent(4, bytes32(ends)),
        Arg::LentMut(2, bytes16(&before)),
    ]);
    Question {
        function,
        args,
        due: Outcome {
            result: due.len() as u64,
            written: vec![bytes16(&after)],
        },
    }
}

/// Damaged settings, slots or room: the number is the paper's, worked out here by its table.
pub fn damaged(case_seed: u64) -> Vec<Question> {
    let mut seed = Seed::new(case_seed);
    let ProblemCase {
        mut base, mut settings, ..
    } = problem_case(&mut seed);
    let mut number = 9;
    let k = seed.below(base.len() as u64) as usize;
    match seed.below(5) {
        0 => base[k].1 = base[k].0,
        1 => base[k] = (base[k].1, base[k].0),
        2 => base[k].1 = MINUTES_MOST as u32 + 1,
        3 if k > 0 => base[k].0 = base[k - 1].1 - 1,
        _ => number = 0,
    }
    if seed.one_in(2) {
        number = 7;
        damage_settings(&mut seed, &mut settings);
    }
    let starts: Vec<u32> = base.iter().map(|slot| slot.0).collect();
    let mut ends: Vec<u32> = base.iter().map(|slot| slot.1).collect();
    let mut asked = question(&mut seed, "boltraven_unit_starts", settings, &starts, &ends, &[]);
    let slots = base.len();
    if seed.one_in(3) {
        number = 2;
        let mut unit_starts = vec![7u16; slots];
        match seed.below(2) {
            0 => unit_starts.truncate(slots - 1),
            _ => ends.truncate(slots - 1),
        }
        asked.args[8] = Arg::Lent(4, bytes32(&ends));
        asked.args[9] = Arg::LentMut(2, bytes16(&unit_starts));
        asked.due.written = vec![bytes16(&unit_starts)];
    }
    if seed.one_in(3) {
        number = 1;
        asked.args[0] = Arg::Number(seed.pick(&[0, SLOTS_MOST as u64 + 1, 1 << 40, u64::MAX]));
    }
    asked.due.result = NOTHING + number;
    if number == 0 {
        vec![]
    } else {
        vec![asked]
    }
}
