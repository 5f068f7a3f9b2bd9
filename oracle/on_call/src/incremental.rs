//! A stand-in for `search::incremental`: the type of a change alone.

use crate::model::problem::{HumanIdx, SlotIdx};

/// A slot, and who is to get it.
pub type Change = (SlotIdx, Option<HumanIdx>);
