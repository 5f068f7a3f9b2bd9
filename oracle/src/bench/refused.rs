//! Rows of a count above its limit: a million slots, lent and counted, are refused with 1, and none of them is to be walked for it.

use std::hint::black_box;

use boltraven::{lent, Refusal};

use super::{row, Row, Side};
use crate::limits::{NOBODY, SET_WORDS, SLOTS_MOST, TOTALS};

/// How many slots are lent and counted.
const MANY: usize = 1_000_000;

/// A million slots of a minute each, without a gap, and all else that an entry takes, for one person.
pub struct Lent {
    starts: Vec<u32>,
    ends: Vec<u32>,
    words: Vec<u64>,
    flags: Vec<u64>,
    owners: Vec<u8>,
    sets: Vec<u64>,
    minutes: Vec<u64>,
    totals: Vec<u64>,
    out: u64,
}

impl Lent {
    fn new() -> Self {
        Self {
            starts: (0..MANY as u32).collect(),
            ends: (1..=MANY as u32).collect(),
            words: vec![u64::MAX; SET_WORDS],
            flags: vec![0; SET_WORDS],
            owners: vec![NOBODY; MANY],
            sets: vec![0; SET_WORDS],
            minutes: vec![0],
            totals: vec![0; TOTALS],
            out: 0,
        }
    }

    pub fn demand(&mut self) -> Result<(), Refusal> {
        lent::demand(MANY, &self.starts, &self.ends, &mut self.out)
    }

    pub fn availability(&mut self) -> Result<(), Refusal> {
        lent::availability(1, MANY, 0, &self.starts, &self.ends, &[], &[], &[], &mut self.words)
    }

    pub fn freeze_before(&mut self) -> Result<(), Refusal> {
        lent::freeze_before(MANY, &self.starts, &self.ends, &mut self.flags, 0).map(|_| ())
    }

    pub fn covered_days(&mut self) -> Result<(), Refusal> {
        lent::covered_days(MANY, &self.starts, &self.ends, &mut self.out)
    }

    pub fn made_from_slots(&mut self) -> Result<(), Refusal> {
        lent::from_slots(
            1,
            MANY,
            &self.starts,
            &self.ends,
            &self.words,
            &self.owners,
            &mut self.sets,
            &mut self.minutes,
            &mut self.totals,
        )
    }

    pub fn play(&mut self) -> Result<(), Refusal> {
        lent::play(
            1,
            MANY,
            1,
            0,
            &self.starts,
            &self.ends,
            &self.words,
            &[0],
            &self.flags,
            &[],
            &[],
            &[],
            &mut self.owners,
            &mut self.sets,
            &mut self.minutes,
            &mut self.totals,
            &mut [],
        )
    }

    pub fn uncovered_minutes(&mut self) -> Result<(), Refusal> {
        lent::uncovered_minutes(1, MANY, &self.starts, &self.ends, &self.owners, &mut self.out)
    }
}

/// One call, and the number that it is refused with. The Rust refuses nothing: beside it stands the bare comparison with the limit.
pub fn refused(ask: fn(&mut Lent) -> Result<(), Refusal>) -> Row {
    let ours = Side {
        fresh: Box::new(|| (Lent::new(), 0)),
        run: Box::new(move |state: &mut (Lent, u8)| state.1 = ask(&mut state.0).map_or_else(|refusal| refusal.number(), |()| 0)),
        seen: Box::new(|state| state.1),
    };
    let rust = Side {
        fresh: Box::new(|| (MANY, 0)),
        run: Box::new(|state: &mut (usize, u8)| state.1 = u8::from(black_box(state.0) > SLOTS_MOST)),
        seen: Box::new(|state| state.1),
    };
    row(ours, rust)
}
