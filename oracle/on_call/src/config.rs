//! A stand-in for `config`: the fields that `Problem::build` reads, with no reading of files and no limits.

use std::collections::HashMap;

use chrono::{Duration, Weekday};

use crate::constraints::Constraint;

/// What a problem is built from.
#[derive(Debug, Clone)]
pub struct Config {
    pub constraints: Vec<Constraint>,
    pub humans: HashMap<String, Human>,
    pub shift_length: Duration,
    pub fairness: FairnessMode,
    pub rotation: Rotation,
    pub rules: Rules,
    pub weights: Weights,
}

impl Config {
    /// Accepts everything: the Rust's own limits are not compared (docs/DIFFERENCES.md).
    pub fn validate(&self) -> Result<(), String> {
        Ok(())
    }

    pub fn desired_rest(&self) -> Duration {
        self.shift_length
    }
}

/// A person. `preferences` stays empty: the bias is not covered.
#[derive(Debug, Clone)]
pub struct Human {
    pub constraints: Vec<Constraint>,
    pub prior_workload: Duration,
    pub capacity: Option<f64>,
    pub preferences: Vec<Preference>,
}

/// A preference, which no case has.
#[derive(Debug, Clone)]
pub struct Preference {
    pub weight: f64,
}

impl Preference {
    pub fn resolve(&self) -> Result<(&Constraint, PreferenceKind), String> {
        Err("no case has a preference".to_string())
    }
}

#[derive(Debug, Clone, Copy, PartialEq, Eq)]
pub enum PreferenceKind {
    Avoid,
    Prefer,
}

#[derive(Debug, Clone, Copy, PartialEq, Eq)]
pub enum FairnessMode {
    Capacity,
    Equal,
}

#[derive(Debug, Clone)]
pub struct Rotation {
    pub lock: bool,
    pub boundary: Option<RotationBoundary>,
}

#[derive(Debug, Clone)]
pub enum RotationBoundary {
    DayOfWeek(Vec<Weekday>),
    EverySlots(usize),
}

/// The rules of rest, which nothing covered reads.
#[derive(Debug, Clone, Default)]
pub struct Rules {
    pub min_rest: Option<Duration>,
    pub max_consecutive: Option<Duration>,
}

/// The weights of the score, which nothing covered reads.
#[derive(Debug, Clone, Default)]
pub struct Weights {
    pub fairness: f64,
    pub run_length: f64,
    pub rest: f64,
    pub preference: f64,
    pub stability: f64,
}
