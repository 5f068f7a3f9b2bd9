//! Rows of questions of a set.

use std::hint::black_box;

use boltraven::lent;
use on_call::model::assignment::SlotSet;

use super::inputs::Set;
use super::{row, Row, Side};
use crate::limits::SLOTS_MOST;

/// How often a question of a set is asked, at every slot each time.
const ROUNDS: usize = 16;

/// One side's question of its set, asked at every slot, round after round; what is to be seen are the answers of one round.
fn side<S: ?Sized, A: 'static>(set: &'static S, ask: impl Fn(&S, usize) -> A + Copy + 'static) -> Side<(), Vec<A>> {
    Side {
        fresh: Box::new(|| ()),
        run: Box::new(move |()| {
            for slot in (0..ROUNDS).flat_map(|_| 0..SLOTS_MOST) {
                black_box(ask(black_box(set), black_box(slot)));
            }
        }),
        seen: Box::new(move |()| (0..SLOTS_MOST).map(|slot| ask(set, slot)).collect()),
    }
}

/// A question of a set, of each side in its own way, which may be inlined.
fn asked<A: PartialEq + 'static>(
    set: Set,
    ours: impl Fn(&[u64], usize) -> A + Copy + 'static,
    rust: impl Fn(&SlotSet, usize) -> A + Copy + 'static,
) -> Row {
    let set: &'static Set = Box::leak(Box::new(set));
    row(side(&set.words[..], ours), side(&set.rust, rust))
}

pub fn next_set(set: Set) -> Row {
    asked(
        set,
        |words, slot| lent::set_next_set(SLOTS_MOST, words, slot).expect("nothing is refused"),
        |rust, slot| rust.next_set(slot),
    )
}

/// The same of a person's row.
pub fn row_next_set(set: Set) -> Row {
    asked(
        set,
        |words, slot| lent::next_set(1, SLOTS_MOST, words, 0, slot).expect("nothing is refused"),
        |rust, slot| rust.next_set(slot),
    )
}

/// The Rust has no holes: of those only that there is no run is to be seen.
fn run_of(held: lent::Held, first: u64, last: u64) -> Option<(usize, usize)> {
    (held == lent::Held::Run).then_some((first as usize, last as usize))
}

pub fn run_bounds(set: Set) -> Row {
    asked(
        set,
        |words, slot| {
            let (mut first, mut last) = (0, 0);
            let held = lent::set_run_bounds(SLOTS_MOST, words, slot, &mut first, &mut last);
            run_of(held.expect("nothing is refused"), first, last)
        },
        |rust, slot| rust.run_bounds(slot),
    )
}

/// The same of a person's row.
pub fn row_run_bounds(set: Set) -> Row {
    asked(
        set,
        |words, slot| {
            let (mut first, mut last) = (0, 0);
            let held = lent::run_bounds(1, SLOTS_MOST, words, 0, slot, &mut first, &mut last);
            run_of(held.expect("nothing is refused"), first, last)
        },
        |rust, slot| rust.run_bounds(slot),
    )
}

pub fn count(set: Set) -> Row {
    asked(
        set,
        |words, _| lent::set_count(SLOTS_MOST, words).expect("nothing is refused"),
        |rust, _| rust.count(),
    )
}

/// The same of a person's row.
pub fn row_count(set: Set) -> Row {
    asked(
        set,
        |words, _| lent::count(1, SLOTS_MOST, words, 0).expect("nothing is refused"),
        |rust, _| rust.count(),
    )
}
