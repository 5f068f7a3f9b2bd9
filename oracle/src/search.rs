//! The Rust's own move generator on a job, by a seed: its draws in blocks, which blocks a search would keep, and the owners at the end.

use std::fmt::Write;
use std::ops::Range;

use on_call::model::problem::Problem;
use on_call::model::Assignment;
use on_call::search::moves::MoveGenerator;
use rand::RngExt;

use crate::job_cases::JobCase;
use crate::limits::NOBODY;
use crate::rotas::{played, Draw};
use crate::seed::Seed;

/// A source of numbers for one draw, which notes what was asked: the number that picks the move, and the choices in it.
struct Noted<'s> {
    seed: &'s mut Seed,
    draw: u32,
    choices: Vec<usize>,
}

impl Noted<'_> {
    fn choose(&mut self, count: usize) -> usize {
        let choice = self.seed.below(count as u64) as usize;
        self.choices.push(choice);
        choice
    }

    /// The draw; a choice that wasn't asked for is 0.
    fn noted(&self) -> Draw {
        let choice = |k: usize| self.choices.get(k).map_or(0, |&choice| choice as u16);
        (self.draw as u16, choice(0), choice(1))
    }
}

impl RngExt for Noted<'_> {
    fn random_range(&mut self, range: Range<usize>) -> usize {
        range.start + self.choose(range.end - range.start)
    }

    fn random_bool(&mut self, _chance: f64) -> bool {
        self.choose(2) == 1
    }

    fn random_weight(&mut self, total: u32) -> u32 {
        self.draw = self.seed.below(u64::from(total)) as u32;
        self.draw
    }
}

/// A job's lines, then blocks of draws, each to be kept or undone, then the owners in which the Rust's rota ends. One block in three is
/// undone, by a copy that was kept; nothing is scored.
pub fn moves(job: &JobCase, blocks: u64, draws: u64, run: u64) -> String {
    let mut seed = Seed::new(run);
    let problem = job.frozen();
    let mut rota = job.assignment(&problem);
    let mut text = lines_of(job);
    for _ in 0..blocks {
        let kept = rota.clone();
        let is_kept = !seed.one_in(3);
        text.push_str(if is_kept { "block keep\n" } else { "block undo\n" });
        for _ in 0..draws {
            let (draw, first, second) = drawn(&problem, &mut rota, &mut seed);
            writeln!(text, "draw {draw} {first} {second}").expect("a text takes lines");
        }
        if !is_kept {
            rota = kept;
        }
    }
    for (slot, owner) in played(&problem, &rota, vec![]).owners.iter().enumerate() {
        writeln!(text, "last {slot} {}", name(u16::from(*owner))).expect("a text takes lines");
    }
    text
}

/// One move of the Rust's generator, made; and the draw that it comes from.
fn drawn(problem: &Problem, rota: &mut Assignment, seed: &mut Seed) -> Draw {
    let mut source = Noted {
        seed,
        draw: 0,
        choices: vec![],
    };
    let mut changes = Vec::new();
    if MoveGenerator::new().generate(problem, rota, &mut source, &mut changes) {
        for (slot, person) in changes {
            rota.assign(problem, slot, person);
        }
    }
    source.noted()
}

fn name(owner: u16) -> String {
    if owner == u16::from(NOBODY) {
        "-".to_string()
    } else {
        owner.to_string()
    }
}

/// The job as lines of tools/job, its times in minutes and without its own draws.
fn lines_of(job: &JobCase) -> String {
    let s = job.problem.settings;
    let mut lines = vec![format!(
        "settings fairness {} lock {} boundary {} value {} days {} edition {}",
        s.fairness,
        s.lock,
        s.boundary,
        s.value,
        s.days,
        s.edition + 1
    )];
    lines.extend(job.problem.base.iter().map(|(start, end)| format!("base {start} {end}")));
    lines.extend(
        job.problem
            .people
            .iter()
            .map(|one| format!("person {} {}", one.capacity, one.prior)),
    );
    let ranges = job.problem.ranges.iter();
    lines.extend(ranges.map(|range| format!("range {} {} {}", range.person, range.start, range.end)));
    lines.extend(job.freeze.map(|instant| format!("freeze {instant}")));
    lines.extend(job.owners.iter().map(|&(slot, owner)| format!("owner {slot} {}", name(owner))));
    lines.join("\n") + "\n"
}
