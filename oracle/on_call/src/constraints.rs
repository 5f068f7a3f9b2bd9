//! A stand-in for `constraints`: one constraint, which yields a given list, so that any base slots and any ranges reach `Problem::build`.

use crate::timerange::TimeRange;

/// Yields its ranges, in their order, whatever it is given.
#[derive(Debug, Clone, Default)]
pub struct Constraint {
    pub ranges: Vec<TimeRange>,
}

impl Constraint {
    pub fn flat_map<'a, I: Iterator<Item = TimeRange> + 'a>(&self, _ranges: I) -> Box<dyn Iterator<Item = TimeRange> + 'a> {
        Box::new(self.ranges.clone().into_iter())
    }
}
