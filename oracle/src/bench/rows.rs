//! The rows by their names.

use super::inputs::{all_able, falling, first_at_end, partly_able, ranges_in_order, shuffled, Rota, Set};
use super::job::job;
use super::merge::merge;
use super::prepare::{prepare, prepare_all};
use super::refused::{refused, Lent};
use super::rota::{assign, failed_recount, from_slots, no_draws, play, recount, replay, runs, structs};
use super::set::{count, next_set, row_count, row_next_set, row_run_bounds, run_bounds};
use super::spread::largest_remainder;
use super::Row;
use crate::job_cases::JobCase;
use crate::limits::SLOTS_MOST;
use crate::seed::Seed;

/// A row by its name.
pub type Named = (&'static str, fn(u64) -> Row);

/// Every row.
pub const ROWS: &[Named] = &[
    ("prepare, 64 slots", |seed| prepare(&partly_able(&mut Seed::new(seed), 64))),
    ("prepare, 256 slots", |seed| prepare(&partly_able(&mut Seed::new(seed), 256))),
    ("prepare, 1,024 slots", |seed| {
        prepare(&partly_able(&mut Seed::new(seed), SLOTS_MOST))
    }),
    ("prepare, 1,024 slots, ranges in any order", |seed| {
        let case = partly_able(&mut Seed::new(seed), SLOTS_MOST);
        prepare(&shuffled(&mut Seed::new(seed), case))
    }),
    ("prepare, 1,024 slots, all figures", |seed| {
        prepare_all(&partly_able(&mut Seed::new(seed), SLOTS_MOST))
    }),
    ("merge, 1,024 ranges in order", |seed| merge(&ranges_in_order(&mut Seed::new(seed)))),
    ("merge, 1,024 ranges, the first at the end", |seed| {
        merge(&first_at_end(ranges_in_order(&mut Seed::new(seed))))
    }),
    ("merge, 1,024 ranges in any order", |seed| {
        let case = ranges_in_order(&mut Seed::new(seed));
        merge(&shuffled(&mut Seed::new(seed), case))
    }),
    ("merge, 1,024 ranges falling", |seed| {
        merge(&falling(ranges_in_order(&mut Seed::new(seed))))
    }),
    ("play, 64 slots", |seed| play(typical(seed, 64, 0, 1))),
    ("play, 256 slots", |seed| play(typical(seed, 256, 0, 1))),
    ("play, 1,024 slots", |seed| play(typical(seed, SLOTS_MOST, 0, 1))),
    ("play, 128 locked units of 8 slots", |seed| play(typical(seed, SLOTS_MOST, 1, 8))),
    ("play, partial availability", |seed| play(partly(seed))),
    ("play, one run of 1,024 slots", |seed| {
        let mut seed = Seed::new(seed);
        let case = all_able(&mut seed, SLOTS_MOST, 0, 1);
        play(Rota::one_run(&mut seed, &case))
    }),
    ("play of structs, beside one of columns, 1,024 slots", |seed| {
        structs(typical(seed, SLOTS_MOST, 0, 1))
    }),
    ("replay of 1,024 draws, beside their play, 1,024 slots", |seed| {
        replay(typical(seed, SLOTS_MOST, 0, 1))
    }),
    ("recount, 64 slots", |seed| recount(typical(seed, 64, 0, 1))),
    ("recount, 256 slots", |seed| recount(typical(seed, 256, 0, 1))),
    ("recount, 1,024 slots", |seed| recount(typical(seed, SLOTS_MOST, 0, 1))),
    ("recount failed by an unknown owner, beside one that passes", |seed| {
        failed_recount(partly(seed), 1)
    }),
    ("recount failed by an owner not available, beside one that passes", |seed| {
        failed_recount(partly(seed), 2)
    }),
    ("recount failed by an uneven unit, beside one that passes", |seed| {
        failed_recount(typical(seed, SLOTS_MOST, 1, 8), 3)
    }),
    ("recount failed by a wrong set, beside one that passes", |seed| {
        failed_recount(partly(seed), 4)
    }),
    ("recount failed by wrong minutes, beside one that passes", |seed| {
        failed_recount(partly(seed), 5)
    }),
    ("recount failed by a wrong total, beside one that passes", |seed| {
        failed_recount(partly(seed), 6)
    }),
    ("play, no draws, 1,024 slots", |seed| no_draws(typical(seed, SLOTS_MOST, 0, 1))),
    ("from_slots, 1,024 slots", |seed| from_slots(typical(seed, SLOTS_MOST, 0, 1))),
    ("64 assigns, 1,024 slots", |seed| assign(typical(seed, SLOTS_MOST, 0, 1))),
    ("runs of 32 people, 1,024 slots", |seed| runs(typical(seed, SLOTS_MOST, 0, 1))),
    ("runs of 32 people, 1,024 slots, partial availability", |seed| {
        let mut seed = Seed::new(seed);
        let case = partly_able(&mut seed, SLOTS_MOST);
        runs(Rota::typical(&mut seed, &case))
    }),
    ("next_set, sparse", |_| next_set(sparse())),
    ("next_set, full", |_| next_set(full())),
    ("run_bounds, sparse", |_| run_bounds(sparse())),
    ("run_bounds, full", |_| run_bounds(full())),
    ("count, sparse", |_| count(sparse())),
    ("count, full", |_| count(full())),
    ("next_set of a row, sparse", |_| row_next_set(sparse())),
    ("next_set of a row, full", |_| row_next_set(full())),
    ("run_bounds of a row, sparse", |_| row_run_bounds(sparse())),
    ("run_bounds of a row, full", |_| row_run_bounds(full())),
    ("count of a row, full", |_| row_count(full())),
    ("1 for a million slots, demand", |_| refused(Lent::demand)),
    ("1 for a million slots, availability", |_| refused(Lent::availability)),
    ("1 for a million slots, freeze_before", |_| refused(Lent::freeze_before)),
    ("1 for a million slots, covered_days", |_| refused(Lent::covered_days)),
    ("1 for a million slots, from_slots", |_| refused(Lent::made_from_slots)),
    ("1 for a million slots, play", |_| refused(Lent::play)),
    ("1 for a million slots, uncovered_minutes", |_| refused(Lent::uncovered_minutes)),
    ("targets in edition 2, all minutes handed out, beside none", |_| largest_remainder()),
    ("a whole job at every limit", |_| job(JobCase::at_every_limit())),
];

fn typical(seed: u64, slots: usize, lock: u8, every: u16) -> Rota {
    let mut seed = Seed::new(seed);
    let case = all_able(&mut seed, slots, lock, every);
    Rota::typical(&mut seed, &case)
}

/// A rota of the longest list of slots, for which not everybody is available.
fn partly(seed: u64) -> Rota {
    let mut seed = Seed::new(seed);
    let case = partly_able(&mut seed, SLOTS_MOST);
    Rota::typical(&mut seed, &case)
}

/// One slot in 61.
fn sparse() -> Set {
    Set::of(|slot| slot % 61 == 30)
}

/// Every slot.
fn full() -> Set {
    Set::of(|_| true)
}
