//! Covered days as document 02 has them, and the figures that follow, by a count of the generator's own; and the Rust's, which counts start
//! dates: a case is compared with the Rust only where both counts agree.

use on_call::model::problem::Problem;

use crate::limits::MINUTES_MOST;
use crate::problems::{Person, ProblemCase, Range, Settings};
use crate::seed::Seed;
use crate::table::Slots;

/// Minutes of a date.
const DATE: u32 = 1440;

/// The last minute that there is.
const LAST: u32 = MINUTES_MOST as u32;

/// What follows from the covered days: minutes a day, the target run, and each person's achievable run.
#[derive(Debug, Clone, PartialEq, Eq)]
pub struct Figures {
    pub days: u64,
    pub per_day: u64,
    pub target: u64,
    pub achievable: Vec<u64>,
}

/// The figures by the generator's own count, and the Rust's where it counts as many days.
pub fn figures(case: &ProblemCase, problem: &Problem) -> (Figures, Option<Figures>) {
    let slots = Slots::of(problem);
    let own = own_figures(case.settings, problem, &slots);
    let rust = rust_figures(case, problem, &slots);
    let agree = own.days == rust.days;
    (own, agree.then_some(rust))
}

/// The distinct dates on which a minute of a slot falls: that of its first minute, and of each midnight before its end.
fn covered_days(slots: &Slots) -> u64 {
    let mut covered = vec![false; (LAST / DATE + 1) as usize];
    for (&start, &end) in slots.starts.iter().zip(&slots.ends) {
        let mut minute = start;
        while minute < end {
            covered[(minute / DATE) as usize] = true;
            minute = (minute / DATE + 1) * DATE;
        }
    }
    covered.iter().filter(|&&is| is).count() as u64
}

fn own_figures(settings: Settings, problem: &Problem, slots: &Slots) -> Figures {
    let lengths: Vec<u64> = slots
        .starts
        .iter()
        .zip(&slots.ends)
        .map(|(start, end)| u64::from(end - start))
        .collect();
    let days = covered_days(slots);
    let per_day = (lengths.iter().sum::<u64>() / days).max(1);
    let target = per_day * u64::from(settings.days.max(1));
    let longest = |person| {
        let available = |slot: usize| problem.is_available(person, slot);
        let runs = (0..lengths.len()).map(|from| {
            (from..lengths.len())
                .take_while(|&slot| available(slot))
                .map(|slot| lengths[slot])
                .sum()
        });
        runs.max().unwrap_or(0u64)
    };
    let achievable = (0..problem.human_count()).map(|person| longest(person).clamp(1, target)).collect();
    Figures {
        days,
        per_day,
        target,
        achievable,
    }
}

/// The Rust's. With a shift of one day its target run is the minutes a day; its days are private, and counted here as it counts them.
fn rust_figures(case: &ProblemCase, problem: &Problem, slots: &Slots) -> Figures {
    let mut one_day = case.clone();
    one_day.settings.days = 1;
    let mut dates: Vec<u32> = slots.starts.iter().map(|start| start / DATE).collect();
    dates.dedup();
    Figures {
        days: dates.len() as u64,
        per_day: one_day.rust().target_run_minutes as u64,
        target: problem.target_run_minutes as u64,
        achievable: problem.achievable_run_minutes.iter().map(|&minutes| minutes as u64).collect(),
    }
}

// ---- slots around midnight

/// A problem whose slots start and end on midnight or a minute beside it, share dates, or last for weeks and years; in a third of the cases
/// none goes past midnight.
pub fn around_midnight(seed: &mut Seed) -> ProblemCase {
    let near = [0, 1, 60, DATE - 1, DATE, DATE + 1, 2 * DATE];
    let mut at = seed.below(1000) as u32 * DATE + seed.pick(&[0, 1, DATE - 1, 700]);
    let mut base = Vec::new();
    let by_midnight = seed.one_in(3);
    for _ in 0..seed.within(1, 8) {
        let gap = seed.pick(&near);
        let to_midnight = DATE - (at + gap) % DATE;
        let long = seed.within(1, 5_000_000) as u32;
        let length = if by_midnight {
            seed.pick(&[1, to_midnight.min(60), to_midnight])
        } else {
            seed.pick(&[1, 60, DATE - 1, DATE, DATE + 1, 2 * DATE, 30 * DATE, long])
        };
        base.push((at + gap, at + gap + length));
        at += gap + length;
    }
    if seed.one_in(30) {
        base = vec![(seed.pick(&[0, 1, DATE]), seed.pick(&[LAST, LAST - 1, LAST / DATE * DATE]))];
    }
    let mut case = always_available(&base);
    case.settings.days = seed.pick(&[0, 1, 2, 7, 366]);
    if seed.one_in(2) {
        let slot = seed.pick(&base);
        case.ranges[0].end = seed.within(u64::from(slot.0), u64::from(slot.1)) as u32;
    }
    case
}

/// These slots, and one person who is there all the time.
fn always_available(base: &[(u32, u32)]) -> ProblemCase {
    let range = Range {
        person: 0,
        start: 0,
        end: LAST,
    };
    ProblemCase {
        base: base.to_vec(),
        ranges: vec![range],
        people: vec![Person::PLAIN],
        settings: Settings::PLAIN,
    }
}

/// The examples by which document 02's rule was read, and the slot that is on every date.
const EXAMPLES: [&[(u32, u32)]; 6] = [
    &[(0, 43_200)],
    &[(0, 1440)],
    &[(0, 1441)],
    &[(1380, 1440), (1440, 1500), (2879, 2881)],
    &[(1439, 1441), (1441, 1500)],
    &[(0, LAST)],
];

pub fn examples() -> impl Iterator<Item = ProblemCase> {
    EXAMPLES.into_iter().map(always_available)
}

#[cfg(test)]
mod tests {
    use std::collections::BTreeSet;

    use super::{around_midnight, covered_days, examples, figures, DATE};
    use crate::seed::Seed;
    use crate::table::Slots;

    /// Start dates, covered days and minutes a day, worked out by hand.
    #[test]
    fn examples_are_as_they_were_read() {
        let due = [(1, 30, 1440), (1, 1, 1440), (1, 2, 720), (2, 3, 40), (2, 2, 30), (1, 69_445, 1439)];
        for (case, (starts, days, per_day)) in examples().zip(due) {
            let (own, rust) = figures(&case, &case.rust());
            assert_eq!((own.days, own.per_day), (days, per_day), "{case:?}");
            assert_eq!(rust.is_some(), starts == days, "{case:?}");
        }
    }

    /// The count from midnight to midnight is the count minute by minute.
    #[test]
    fn midnights_are_minutes() {
        let problems = (0..200).map(|k| around_midnight(&mut Seed::new(k)).rust());
        for problem in problems.filter(|problem| problem.total_demand() < 100_000) {
            let slots = Slots::of(&problem);
            let minutes = slots.starts.iter().zip(&slots.ends).flat_map(|(&start, &end)| start..end);
            let dates: BTreeSet<u32> = minutes.map(|minute| minute / DATE).collect();
            assert_eq!(covered_days(&slots), dates.len() as u64);
        }
    }

    /// Where both count as many days, the figures are the same; both sorts of cases come up.
    #[test]
    fn figures_agree_with_the_rust() {
        let mut agreed = 0;
        for k in 0..300 {
            let case = around_midnight(&mut Seed::new(k));
            if let (own, Some(rust)) = figures(&case, &case.rust()) {
                assert_eq!(own, rust);
                agreed += 1;
            }
        }
        assert!((30..270).contains(&agreed), "{agreed}");
    }
}
