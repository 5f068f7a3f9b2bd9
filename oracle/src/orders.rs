//! Ranges in the orders in which importers send them: by person and start, nearly so, falling, by start alone.

use std::cmp::Reverse;

use crate::call::Question;
use crate::limits::{MINUTES_MOST, PEOPLE_MOST, RANGES_MOST};
use crate::problems::{base_slots, Person, ProblemCase, Range, Settings};
use crate::seed::Seed;
use crate::splitting::asked_of;

/// Problems whose ranges come in one of the orders, merged, split and asked for availability.
pub fn questions(case_seed: u64) -> Vec<Question> {
    let mut seed = Seed::new(case_seed);
    let case = ordered_case(&mut seed);
    asked_of(&mut seed, &case)
}

fn ordered_case(seed: &mut Seed) -> ProblemCase {
    let base = base_slots(seed, 4);
    let people = seed.pick(&[1, 1, 2, 3, PEOPLE_MOST]);
    let mut ranges = ranges(seed, &base, people);
    seed.pick(&ORDERS)(seed, &mut ranges);
    ProblemCase {
        base,
        ranges,
        people: vec![Person::PLAIN; people],
        settings: Settings::PLAIN,
    }
}

/// No range, one, a few or as many as there may be, on a grid that is coarse or fine: they touch, overlap, start together, are empty; some
/// are there twice.
fn ranges(seed: &mut Seed, base: &[(u32, u32)], people: usize) -> Vec<Range> {
    let count = if seed.one_in(12) {
        RANGES_MOST
    } else {
        seed.pick(&[0, 1, 2, 3, 8, 40])
    };
    let (first, last) = (base[0].0, base[base.len() - 1].1);
    let places = seed.pick(&[6, 20, 2000]);
    let step = ((last - first) / places).max(1);
    let mut ranges: Vec<Range> = Vec::new();
    for _ in 0..count {
        if !ranges.is_empty() && seed.one_in(6) {
            ranges.push(seed.pick(&ranges));
            continue;
        }
        let start = first + seed.below(u64::from(places)) as u32 * step;
        let end = start + seed.below(4) as u32 * step;
        ranges.push(Range {
            person: seed.below(people as u64) as usize,
            start: start.min(MINUTES_MOST as u32),
            end: end.min(MINUTES_MOST as u32),
        });
    }
    ranges
}

/// How a list of ranges is ordered.
type Order = fn(&mut Seed, &mut [Range]);

const ORDERS: [Order; 7] = [
    in_order,
    ends_falling,
    one_out_of_place,
    last_two_changed,
    falling,
    by_start,
    as_made,
];

/// By person, then start; ends as they come.
fn in_order(_: &mut Seed, ranges: &mut [Range]) {
    ranges.sort_by_key(|range| (range.person, range.start));
}

/// By person, then start, and of those that start together the longest first: in order, but not by ends.
fn ends_falling(_: &mut Seed, ranges: &mut [Range]) {
    ranges.sort_by_key(|range| (range.person, range.start, Reverse(range.end)));
}

/// In order but for one, which may be anywhere, the last place too.
fn one_out_of_place(seed: &mut Seed, ranges: &mut [Range]) {
    in_order(seed, ranges);
    if !ranges.is_empty() {
        let places = ranges.len() as u64;
        let from = seed.below(places) as usize;
        let place = (if seed.one_in(2) { places - 1 } else { seed.below(places) }) as usize;
        if from <= place {
            ranges[from..=place].rotate_left(1);
        } else {
            ranges[place..=from].rotate_right(1);
        }
    }
}

/// In order but for the last two.
fn last_two_changed(seed: &mut Seed, ranges: &mut [Range]) {
    in_order(seed, ranges);
    let count = ranges.len();
    if count > 1 {
        ranges.swap(count - 2, count - 1);
    }
}

/// The last first.
fn falling(seed: &mut Seed, ranges: &mut [Range]) {
    in_order(seed, ranges);
    ranges.reverse();
}

/// By start, whoever's they are.
fn by_start(_: &mut Seed, ranges: &mut [Range]) {
    ranges.sort_by_key(|range| range.start);
}

/// As they come.
fn as_made(_: &mut Seed, _: &mut [Range]) {}

#[cfg(test)]
mod tests {
    use super::ordered_case;
    use crate::limits::RANGES_MOST;
    use crate::problems::ProblemCase;
    use crate::seed::Seed;

    fn is_in_order(case: &ProblemCase) -> bool {
        case.ranges
            .windows(2)
            .all(|two| (two[0].person, two[0].start) <= (two[1].person, two[1].start))
    }

    /// Of 400 cases some have no range, one, two, or as many as there may be; from two on some are in order and some are not.
    #[test]
    fn every_order_is_made() {
        let cases: Vec<ProblemCase> = (0..400).map(|k| ordered_case(&mut Seed::new(k))).collect();
        for count in [0, 1, 2, RANGES_MOST] {
            let of_count: Vec<bool> = cases.iter().filter(|case| case.ranges.len() == count).map(is_in_order).collect();
            assert!(of_count.contains(&true), "none in order of {count}");
            assert!(count < 2 || of_count.contains(&false), "all in order of {count}");
        }
    }
}
