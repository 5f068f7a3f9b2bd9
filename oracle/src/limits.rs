//! The paper's limits, and the numbers that stand for nobody and for nothing.

/// The last minute that a time may be.
pub const MINUTES_MOST: i64 = 100_000_000;

/// The most people, slots, ranges and draws. A set has at most as many members as there are slots.
pub const PEOPLE_MOST: usize = 32;
pub const SLOTS_MOST: usize = 1024;
pub const RANGES_MOST: usize = 1024;
pub const DRAWS_MOST: usize = 1024;

/// The most bytes of a job file.
pub const FILE_MOST: usize = 49_152;

/// Words in a set.
pub const SET_WORDS: usize = 16;

/// The totals kept with a rota: what nobody owns, in minutes and in slots.
pub const TOTALS: usize = 2;

/// The owner byte of a slot that nobody holds.
pub const NOBODY: u8 = 255;

/// What an exported function answers for nothing found; a refusal adds its number.
pub const NOTHING: u64 = 65_536;
