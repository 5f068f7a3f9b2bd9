//! The bits of a set among everybody's words.

use crate::limits::SET_WORDS;

/// Whether a slot is in a person's row.
pub fn has_bit(words: &[u64], person: usize, slot: usize) -> bool {
    words[SET_WORDS * person + slot / 64] >> (slot % 64) & 1 == 1
}

/// Puts a slot into a person's row, or takes it out.
pub fn put_bit(words: &mut [u64], person: usize, slot: usize, value: bool) {
    let mask = 1u64 << (slot % 64);
    let word = &mut words[SET_WORDS * person + slot / 64];
    if value {
        *word |= mask;
    } else {
        *word &= !mask;
    }
}
