//! Rows of ranges merged.

use std::hint::black_box;

use boltraven::lent;
use on_call::timerange::TimeRange;

use super::{row, Row, Side};
use crate::days::minute_of;
use crate::problems::{time_range, ProblemCase, Range};
use crate::splitting::LentProblem;
use crate::table::Ranges;

/// Ranges as they are lent, with room for what comes out.
#[derive(Clone)]
struct Merge {
    given: Ranges,
    count: usize,
    whose: Vec<u16>,
    froms: Vec<u32>,
    tos: Vec<u32>,
}

impl Merge {
    fn new(case: &ProblemCase) -> Self {
        let given = LentProblem::new(case).ranges;
        let room = given.count;
        Self {
            given,
            count: 0,
            whose: vec![0; room],
            froms: vec![0; room],
            tos: vec![0; room],
        }
    }

    fn merge(&mut self) {
        let given = &self.given;
        let done = lent::merged_ranges(
            given.people,
            given.count,
            &given.persons,
            &given.opens,
            &given.shuts,
            &mut self.whose,
            &mut self.froms,
            &mut self.tos,
        );
        self.count = done.expect("nothing is refused");
    }

    fn seen(&self) -> Vec<Range> {
        let range = |k: usize| Range {
            person: usize::from(self.whose[k]),
            start: self.froms[k],
            end: self.tos[k],
        };
        (0..self.count).map(range).collect()
    }
}

/// Each person's ranges, in the order in which they are lent.
fn lists(case: &ProblemCase) -> Vec<Vec<TimeRange>> {
    let mut lists = vec![Vec::new(); case.people.len()];
    for range in &case.ranges {
        lists[range.person].push(time_range(range.start, range.end));
    }
    lists
}

/// Merging is private in the Rust: the same work over its type.
fn merge_lists(lists: &mut [Vec<TimeRange>]) {
    for list in lists {
        list.retain(|range| !range.is_zero());
        list.sort();
        list.dedup_by(|next, held| {
            let touches = next.start <= held.end;
            if touches {
                held.end = held.end.max(next.end);
            }
            touches
        });
    }
}

fn seen_of_lists(lists: &[Vec<TimeRange>]) -> Vec<Range> {
    let of = |person: usize, range: &TimeRange| Range {
        person,
        start: minute_of(range.start) as u32,
        end: minute_of(range.end) as u32,
    };
    let own = |(person, list): (usize, &Vec<TimeRange>)| list.iter().map(|range| of(person, range)).collect::<Vec<_>>();
    lists.iter().enumerate().flat_map(own).collect()
}

pub fn merge(case: &ProblemCase) -> Row {
    let lent = Merge::new(case);
    let ours = Side {
        fresh: Box::new(move || lent.clone()),
        run: Box::new(|lent: &mut Merge| black_box(lent).merge()),
        seen: Box::new(Merge::seen),
    };
    let case = case.clone();
    let rust = Side {
        fresh: Box::new(move || lists(&case)),
        run: Box::new(|lists: &mut Vec<Vec<TimeRange>>| merge_lists(black_box(lists))),
        seen: Box::new(|lists: &Vec<Vec<TimeRange>>| seen_of_lists(lists)),
    };
    row(ours, rust)
}
