//! The Rust's `timerange`, `model` and `search::moves`, compiled from its own files, unchanged. What they use of the
//! rest of it is stood in for, no larger than they touch: `config`, `constraints` and `search::incremental::Change`.

pub mod config;
pub mod constraints;
pub mod incremental;

include!(concat!(env!("OUT_DIR"), "/files.rs"));
