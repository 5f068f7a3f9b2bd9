//! Rows of a problem that is prepared.

use std::hint::black_box;

use boltraven::lent;
use on_call::model::problem::Problem;

use super::{row, Row, Side};
use crate::limits::{SET_WORDS, SLOTS_MOST};
use crate::problems::{availability_into, build, slots_of, unit_masks_of, unit_starts_of, ProblemCase, Settings};
use crate::splitting::LentProblem;

/// A problem as it is lent, with room for what comes out.
#[derive(Clone)]
struct Preparation {
    given: LentProblem,
    settings: Settings,
    capacities: Vec<f64>,
    priors: Vec<u32>,
    slots: usize,
    starts: Vec<u32>,
    ends: Vec<u32>,
    avail: Vec<u64>,
    units: usize,
    unit_starts: Vec<u16>,
    targets: Vec<i64>,
    target_run: u64,
    runs: Vec<u64>,
    masks: Vec<u32>,
}

impl Preparation {
    fn new(case: &ProblemCase) -> Self {
        let people = case.people.len();
        Self {
            given: LentProblem::new(case),
            settings: case.settings,
            capacities: case.people.iter().map(|person| person.capacity).collect(),
            priors: case.people.iter().map(|person| person.prior).collect(),
            slots: 0,
            starts: vec![0; SLOTS_MOST],
            ends: vec![0; SLOTS_MOST],
            avail: vec![0; SET_WORDS * people],
            units: 0,
            unit_starts: vec![0; SLOTS_MOST],
            targets: vec![0; people],
            target_run: 0,
            runs: vec![0; people],
            masks: vec![0; SLOTS_MOST],
        }
    }

    /// Ranges merged and base slots split, availability, units, targets.
    fn prepare(&mut self) -> Result<(), boltraven::Refusal> {
        let (base, ranges, set) = (&self.given.base, &self.given.ranges, self.settings);
        self.slots = lent::atomise(
            ranges.people,
            base.count,
            ranges.count,
            &base.starts,
            &base.ends,
            &ranges.persons,
            &ranges.opens,
            &ranges.shuts,
            &mut self.starts,
            &mut self.ends,
        )?;
        lent::availability(
            ranges.people,
            self.slots,
            ranges.count,
            &self.starts,
            &self.ends,
            &ranges.persons,
            &ranges.opens,
            &ranges.shuts,
            &mut self.avail,
        )?;
        self.units = lent::unit_starts(
            self.slots,
            set.fairness,
            set.lock,
            set.boundary,
            set.edition,
            set.value,
            set.days,
            &self.starts,
            &self.ends,
            &mut self.unit_starts,
        )?;
        lent::compute_targets(
            ranges.people,
            self.slots,
            set.fairness,
            set.edition,
            &self.starts,
            &self.ends,
            &self.avail,
            &self.capacities,
            &self.priors,
            &mut self.targets,
        )
    }

    /// The target run, everybody's achievable run, and every unit's domain.
    fn figures(&mut self) -> Result<(), boltraven::Refusal> {
        let (people, set) = (self.given.ranges.people, self.settings);
        let (starts, ends) = (&self.starts, &self.ends);
        lent::target_run(
            self.slots,
            set.fairness,
            set.lock,
            set.boundary,
            set.edition,
            set.value,
            set.days,
            starts,
            ends,
            &mut self.target_run,
        )?;
        lent::achievable_runs(
            people,
            self.slots,
            set.fairness,
            set.lock,
            set.boundary,
            set.edition,
            set.value,
            set.days,
            starts,
            ends,
            &self.avail,
            &mut self.runs,
        )?;
        lent::unit_domains(people, self.slots, self.units, &self.avail, &self.unit_starts, &mut self.masks)
    }

    fn seen(&self) -> Prepared {
        Prepared {
            starts: self.starts[..self.slots].to_vec(),
            ends: self.ends[..self.slots].to_vec(),
            avail: self.avail.clone(),
            unit_starts: self.unit_starts[..self.units].to_vec(),
            targets: self.targets.clone(),
        }
    }

    fn figures_seen(&self) -> Figures {
        Figures {
            target_run: self.target_run as i64,
            runs: self.runs.iter().map(|&run| run as i64).collect(),
            masks: self.masks[..self.units].to_vec(),
        }
    }
}

/// What is to be seen of a prepared problem.
#[derive(PartialEq)]
struct Prepared {
    starts: Vec<u32>,
    ends: Vec<u32>,
    avail: Vec<u64>,
    unit_starts: Vec<u16>,
    targets: Vec<i64>,
}

/// What else the Rust works out.
#[derive(PartialEq)]
struct Figures {
    target_run: i64,
    runs: Vec<i64>,
    masks: Vec<u32>,
}

fn prepared(problem: &Problem) -> Prepared {
    let (starts, ends) = slots_of(problem);
    let mut avail = vec![0; SET_WORDS * problem.human_count()];
    availability_into(problem, &mut avail);
    Prepared {
        starts,
        ends,
        avail,
        unit_starts: unit_starts_of(problem),
        targets: problem.targets.clone(),
    }
}

fn figures(problem: &Problem) -> Figures {
    Figures {
        target_run: problem.target_run_minutes,
        runs: problem.achievable_run_minutes.clone(),
        masks: unit_masks_of(problem),
    }
}

/// The Rust's `Problem::build`, by the one and by the other.
fn built<V>(case: &ProblemCase, seen: impl Fn(&Problem) -> V + 'static) -> Side<(on_call::config::Config, Option<Problem>), V> {
    let case = case.clone();
    Side {
        fresh: Box::new(move || (case.config(), None)),
        run: Box::new(|(config, problem)| *problem = Some(build(black_box(config)))),
        seen: Box::new(move |(_, problem)| seen(problem.as_ref().expect("it was built"))),
    }
}

pub fn prepare(case: &ProblemCase) -> Row {
    let lent = Preparation::new(case);
    let ours = Side {
        fresh: Box::new(move || lent.clone()),
        run: Box::new(|lent: &mut Preparation| black_box(lent).prepare().expect("nothing is refused")),
        seen: Box::new(Preparation::seen),
    };
    row(ours, built(case, prepared))
}

pub fn prepare_all(case: &ProblemCase) -> Row {
    let lent = Preparation::new(case);
    let ours = Side {
        fresh: Box::new(move || lent.clone()),
        run: Box::new(|lent: &mut Preparation| {
            black_box(&mut *lent).prepare().expect("nothing is refused");
            black_box(lent).figures().expect("nothing is refused")
        }),
        seen: Box::new(|lent: &Preparation| (lent.seen(), lent.figures_seen())),
    };
    row(ours, built(case, |problem| (prepared(problem), figures(problem))))
}
