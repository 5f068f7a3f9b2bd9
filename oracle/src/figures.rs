//! Targets: people's figures and what they are available for, the Rust's targets, and wrong rules that the cases must tell from them.

use crate::limits::{MINUTES_MOST, PEOPLE_MOST};
use crate::problems::{people, slots_of, Person, ProblemCase, Range, Settings};
use crate::seed::Seed;
use on_call::model::problem::Problem;

/// What targets are worked out from: slots by their lengths, who can cover which, and the figures.
#[derive(Debug, Clone)]
pub struct FigureCase {
    pub lengths: Vec<u32>,
    /// A row a person.
    pub able: Vec<Vec<bool>>,
    pub people: Vec<Person>,
    pub fairness: u8,
}

impl FigureCase {
    /// A case by its seed: few slots, so that many cases are run, of lengths that make sums round.
    pub fn new(seed: &mut Seed) -> Self {
        let people = people(seed, PEOPLE_MOST as u64);
        let count = seed.within(1, 6);
        let most = seed.pick(&[1, 2, 7, 100, 1440, 100_000, MINUTES_MOST as u64 / 6]);
        let lengths = (0..count).map(|_| seed.within(1, most) as u32).collect();
        let able = (0..people.len()).map(|_| (0..count).map(|_| !seed.one_in(3)).collect()).collect();
        Self {
            lengths,
            able,
            people,
            fairness: seed.below(2) as u8,
        }
    }

    /// The largest remainder: everybody of capacity 0, and as much demand as there may be.
    pub fn largest(seed: &mut Seed) -> Self {
        let idle = Person { capacity: 0.0, prior: 0 };
        let count = seed.pick(&[1, 2, 3, 31, PEOPLE_MOST]);
        Self {
            lengths: vec![MINUTES_MOST as u32],
            able: vec![vec![true]; count],
            people: vec![idle; count],
            fairness: seed.below(2) as u8,
        }
    }

    /// The figures of a whole problem, with the Rust's slots and availability.
    pub fn of(case: &ProblemCase, problem: &Problem) -> Self {
        let (starts, ends) = slots_of(problem);
        let able = |person| (0..problem.slot_count()).map(|slot| problem.is_available(person, slot)).collect();
        Self {
            lengths: starts.iter().zip(&ends).map(|(start, end)| end - start).collect(),
            able: (0..case.people.len()).map(able).collect(),
            people: case.people.clone(),
            fairness: case.settings.fairness,
        }
    }

    /// The slots, apart by a minute, so that nobody's ranges meet.
    pub fn slots(&self) -> Vec<(u32, u32)> {
        let mut at = 0;
        let mut slots = Vec::new();
        for &length in &self.lengths {
            slots.push((at, at + length));
            at += length + 1;
        }
        slots
    }

    /// The whole problem around these figures.
    pub fn problem(&self) -> ProblemCase {
        let slots = self.slots();
        let mut ranges = Vec::new();
        for (person, row) in self.able.iter().enumerate() {
            for (&(start, end), _) in slots.iter().zip(row).filter(|(_, &can)| can) {
                ranges.push(Range { person, start, end });
            }
        }
        ProblemCase {
            base: slots,
            ranges,
            people: self.people.clone(),
            settings: Settings {
                fairness: self.fairness,
                ..Settings::PLAIN
            },
        }
    }

    /// The Rust's targets.
    pub fn rust(&self) -> Vec<i64> {
        self.problem().rust().targets
    }

    fn demand(&self) -> u64 {
        self.lengths.iter().map(|&length| u64::from(length)).sum()
    }

    fn available(&self, person: usize) -> u64 {
        let minutes = self.lengths.iter().zip(&self.able[person]).filter(|(_, &can)| can);
        minutes.map(|(&length, _)| u64::from(length)).sum()
    }
}

/// The rule of targets, and rules that are wrong in one step.
#[derive(Debug, Clone, Copy, PartialEq, Eq)]
pub enum Rule {
    AsGiven,
    /// Raw shares added from the last person to the first.
    SumBackwards,
    /// N * raw / sum: the product before the quotient.
    ProductFirst,
    /// The product and the difference rounded once.
    Fused,
    /// Halves to the even neighbour.
    HalfToEven,
    /// Halves down.
    HalfDown,
    /// The rest to the first of equals.
    FirstOfEquals,
    /// Shares of the pinned still in the sum.
    PinnedStay,
}

/// The wrong rules.
pub const WRONG: [Rule; 7] = [
    Rule::SumBackwards,
    Rule::ProductFirst,
    Rule::Fused,
    Rule::HalfToEven,
    Rule::HalfDown,
    Rule::FirstOfEquals,
    Rule::PinnedStay,
];

/// What the passes leave, before anything is done with the remainder.
pub struct Rounded {
    pub targets: Vec<i64>,
    pub pinned: Vec<bool>,
}

/// Targets by a rule: written from the paper, to see which mistakes the cases would show.
pub fn targets_by(rule: Rule, case: &FigureCase) -> Vec<i64> {
    let Rounded { mut targets, pinned } = rounded_by(rule, case);
    let rest = case.demand() as i64 - targets.iter().sum::<i64>();
    let unpinned = (0..targets.len()).filter(|&person| !pinned[person]);
    let largest = if rule == Rule::FirstOfEquals {
        unpinned.rev().max_by_key(|&person| targets[person])
    } else {
        unpinned.max_by_key(|&person| targets[person])
    };
    targets[largest.unwrap_or(0)] += rest;
    targets
}

/// The passes by a rule.
fn rounded_by(rule: Rule, case: &FigureCase) -> Rounded {
    let count = case.people.len();
    let demand = case.demand();
    let base = |person: usize| if case.fairness == 1 { demand } else { case.available(person) };
    let raw: Vec<f64> = (0..count)
        .map(|person| case.people[person].capacity * base(person) as f64)
        .collect();
    let mut targets = vec![0i64; count];
    let mut pinned = vec![false; count];
    for _ in 0..=count {
        let active: Vec<usize> = (0..count).filter(|&person| !pinned[person]).collect();
        let shared: Vec<usize> = if rule == Rule::PinnedStay {
            (0..count).collect()
        } else {
            active.clone()
        };
        let sum: f64 = if rule == Rule::SumBackwards {
            shared.iter().rev().map(|&person| raw[person]).sum()
        } else {
            shared.iter().map(|&person| raw[person]).sum()
        };
        if sum <= 0.0 {
            break;
        }
        let priors: u64 = active.iter().map(|&person| u64::from(case.people[person].prior)).sum();
        let notional = (demand + priors) as f64;
        let mut changed = false;
        for person in active {
            let prior = f64::from(case.people[person].prior);
            let target = match rule {
                Rule::ProductFirst => notional * raw[person] / sum - prior,
                Rule::Fused => notional.mul_add(raw[person] / sum, -prior),
                _ => notional * (raw[person] / sum) - prior,
            };
            if target < 0.0 {
                pinned[person] = true;
                targets[person] = 0;
                changed = true;
            } else {
                targets[person] = rounded(rule, target);
            }
        }
        if !changed {
            break;
        }
    }
    Rounded { targets, pinned }
}

/// Edition 2 of the rule on the remainder, and rules that are wrong in one step.
#[derive(Debug, Clone, Copy, PartialEq, Eq)]
pub enum Spread {
    MinuteByMinute,
    /// All missing minutes to the smallest, all extra ones from the largest.
    AllToOne,
    /// The highest number first among equals.
    FromTheLast,
    /// Edition 1's answer where nothing in it is negative.
    FirstIfNotNegative,
    /// Pinned people take part.
    PinnedToo,
}

/// The wrong rules of edition 2.
pub const WRONG_SPREADS: [Spread; 4] = [Spread::AllToOne, Spread::FromTheLast, Spread::FirstIfNotNegative, Spread::PinnedToo];

/// Edition 2's targets by a rule. The rounded targets are those from which edition 1's remainder makes the Rust's targets.
pub fn second_edition(rule: Spread, case: &FigureCase, rust: &[i64]) -> Vec<i64> {
    assert_eq!(targets_by(Rule::AsGiven, case), rust, "the passes are the Rust's");
    let Rounded { mut targets, pinned } = rounded_by(Rule::AsGiven, case);
    if rule == Spread::FirstIfNotNegative && rust.iter().all(|&target| target >= 0) {
        return rust.to_vec();
    }
    let mut part: Vec<usize> = (0..targets.len())
        .filter(|&person| rule == Spread::PinnedToo || !pinned[person])
        .collect();
    if part.is_empty() {
        part = (0..targets.len()).collect();
    }
    if rule == Spread::FromTheLast {
        part.reverse();
    }
    let mut rest = case.demand() as i64 - targets.iter().sum::<i64>();
    while rest != 0 {
        let level = part.iter().all(|&person| targets[person] == targets[part[0]]);
        let rounds = rest / part.len() as i64;
        if rule == Spread::AllToOne {
            let person = next(&part, &targets, rest);
            targets[person] += rest;
            rest = 0;
        } else if level && rounds > 0 {
            // everybody stands level: whole rounds at once
            part.iter().for_each(|&person| targets[person] += rounds);
            rest -= rounds * part.len() as i64;
        } else {
            let person = next(&part, &targets, rest);
            targets[person] += rest.signum();
            rest -= rest.signum();
        }
    }
    targets
}

/// Who gets the next missing minute, or gives up the next extra one: the first of equals.
fn next(part: &[usize], targets: &[i64], rest: i64) -> usize {
    let smallest = part.iter().copied().min_by_key(|&person| targets[person] * rest.signum());
    smallest.expect("somebody takes part")
}

/// The nearest whole number.
fn rounded(rule: Rule, target: f64) -> i64 {
    let is_half = target.fract() == 0.5;
    match rule {
        Rule::HalfToEven if is_half && target.trunc() % 2.0 == 0.0 => target.trunc() as i64,
        Rule::HalfDown if is_half => target.trunc() as i64,
        _ => target.round() as i64,
    }
}

/// How many of n cases the paper's rule gives other targets than the Rust, and the same of each wrong rule, with the first such seed.
pub fn compare_rules(n: u64, run: u64) -> (u64, Vec<(Rule, u64, Option<u64>)>) {
    let mut differing = 0;
    let mut wrong: Vec<(Rule, u64, Option<u64>)> = WRONG.iter().map(|&rule| (rule, 0, None)).collect();
    for k in 0..n {
        let case_seed = Seed::of_case(run, "targets", k);
        let case = FigureCase::new(&mut Seed::new(case_seed));
        let due = case.rust();
        if targets_by(Rule::AsGiven, &case) != due {
            differing += 1;
        }
        for (rule, seen, first) in wrong.iter_mut() {
            if targets_by(*rule, &case) != due {
                *seen += 1;
                first.get_or_insert(case_seed);
            }
        }
    }
    (differing, wrong)
}

#[cfg(test)]
mod tests {
    use super::{compare_rules, second_edition, FigureCase, Spread, WRONG_SPREADS};
    use crate::problems::Person;
    use crate::seed::Seed;

    fn equal(capacities: &[f64], priors: &[u32], demand: u32) -> FigureCase {
        let people = capacities.iter().zip(priors);
        FigureCase {
            lengths: vec![demand],
            able: vec![vec![true]; capacities.len()],
            people: people.map(|(&capacity, &prior)| Person { capacity, prior }).collect(),
            fairness: 1,
        }
    }

    /// The table of both editions: figures, demand, edition 1, edition 2.
    #[test]
    fn both_editions() {
        let both = |capacities: &[f64], priors: &[u32], demand: u32| {
            let case = equal(capacities, priors, demand);
            let first = case.rust();
            let second = second_edition(Spread::MinuteByMinute, &case, &first);
            (first, second)
        };
        assert_eq!(both(&[1.0; 3], &[0; 3], 100), (vec![33, 33, 34], vec![34, 33, 33]));
        assert_eq!(both(&[1.0; 4], &[0; 4], 2), (vec![1, 1, 1, -1], vec![0, 0, 1, 1]));
        assert_eq!(both(&[1.0; 2], &[300, 0], 100), (vec![0, 100], vec![0, 100]));
        assert_eq!(both(&[0.0; 2], &[0; 2], 100), (vec![0, 100], vec![50, 50]));
        assert_eq!(both(&[1.0; 4], &[0; 4], 5), (vec![1, 1, 1, 2], vec![2, 1, 1, 1]));
        assert_eq!(both(&[2.0, 1.0, 1.0, 1.0], &[0; 4], 8), (vec![2, 2, 2, 2], vec![2, 2, 2, 2]));
        assert_eq!(both(&[1.0; 4], &[300, 0, 0, 0], 100), (vec![0, 33, 33, 34], vec![0, 34, 33, 33]));
        assert_eq!(both(&[1.0; 3], &[300, 0, 0], 101), (vec![0, 51, 50], vec![0, 50, 51]));
        let (first, second) = both(&[0.0; 32], &[0; 32], 100_000_000);
        assert_eq!(first[31], 100_000_000);
        assert_eq!(second, vec![3_125_000; 32]);
    }

    /// The cases tell every wrong rule of edition 2 from the minute-by-minute one.
    #[test]
    fn wrong_spreads_are_told() {
        for rule in WRONG_SPREADS {
            let tells = |k| {
                let case = FigureCase::new(&mut Seed::new(Seed::of_case(1, "targets", k)));
                let rust = case.rust();
                second_edition(rule, &case, &rust) != second_edition(Spread::MinuteByMinute, &case, &rust)
            };
            assert!((0..2000).any(tells), "{rule:?} is not told from the rule");
        }
    }

    /// The cases tell every wrong rule from the Rust's, and the paper's from none.
    #[test]
    fn wrong_rules_are_found() {
        let (differing, wrong) = compare_rules(20_000, 1);
        assert_eq!(differing, 0);
        for (rule, seen, _) in wrong {
            assert!(seen > 0, "{rule:?} is not told from the Rust's rule");
        }
    }
}
