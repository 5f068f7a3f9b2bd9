//! The row of edition 2: a call with the largest remainder, beside the same call with none.

use boltraven::lent;

use super::{row, Row, Side};
use crate::limits::{MINUTES_MOST, PEOPLE_MOST, SET_WORDS};

/// A call of 32 people and one slot of all minutes that there may be.
struct Call {
    capacities: Vec<f64>,
    targets: Vec<i64>,
}

/// The call with everybody of one capacity. With 0 nobody has a share, and all minutes are handed out; with 1 the shares leave none.
fn call(capacity: f64) -> Side<Call, Vec<i64>> {
    Side {
        fresh: Box::new(move || Call {
            capacities: vec![capacity; PEOPLE_MOST],
            targets: vec![0; PEOPLE_MOST],
        }),
        run: Box::new(|call| {
            let (starts, ends) = ([0], [MINUTES_MOST as u32]);
            let (avail, priors) = ([1; SET_WORDS * PEOPLE_MOST], [0; PEOPLE_MOST]);
            let capacities = &call.capacities;
            lent::compute_targets(PEOPLE_MOST, 1, 1, 1, &starts, &ends, &avail, capacities, &priors, &mut call.targets)
                .expect("nothing is refused");
        }),
        seen: Box::new(|call| call.targets.clone()),
    }
}

/// Both come to the same targets.
pub fn largest_remainder() -> Row {
    row(call(0.0), call(1.0))
}
