//! Rows of a rota: made of its owners, recounted, played.

use std::hint::black_box;
use std::ops::Range;

use boltraven::lent;
use on_call::model::problem::Problem;
use on_call::model::Assignment;

use super::inputs::Rota;
use super::{row, Row, Side};
use crate::bits::{has_bit, put_bit};
use crate::limits::{NOBODY, TOTALS};
use crate::rotas::{self, LentRota};

/// What is to be seen of a rota.
#[derive(PartialEq)]
struct Seen {
    owners: Vec<u8>,
    members: Vec<Vec<usize>>,
    minutes: Vec<u64>,
    totals: Vec<u64>,
    answers: Vec<u8>,
}

/// What is to be seen of a lent rota, with the answers to its draws.
fn seen_of_lent(rota: &LentRota) -> Seen {
    let (people, slots) = (rota.people, rota.starts.len());
    let members = |person| (0..slots).filter(|&slot| has_bit(&rota.sets, person, slot)).collect();
    Seen {
        owners: rota.owners[..slots].to_vec(),
        members: (0..people).map(members).collect(),
        minutes: rota.minutes[..people].to_vec(),
        totals: rota.totals[..TOTALS].to_vec(),
        answers: rota.answers[..rota.count].to_vec(),
    }
}

/// What is to be seen of an assignment of the Rust, with the answers to its draws.
fn seen_of_rust(problem: &Problem, assignment: &Assignment, answers: Vec<u8>) -> Seen {
    let people = 0..problem.human_count();
    let owner = |slot: &Option<usize>| slot.map_or(NOBODY, |person| person as u8);
    let owners: Vec<u8> = assignment.slots().iter().map(owner).collect();
    Seen {
        members: people.clone().map(|person| assignment.slots_of(person).iter().collect()).collect(),
        minutes: people.map(|person| assignment.assigned_minutes(person) as u64).collect(),
        totals: vec![rotas::uncovered(problem, &owners), assignment.unassigned_count() as u64],
        owners,
        answers,
    }
}

/// A rota lives as long as the program: both sides of a row read it.
fn kept(rota: Rota) -> &'static Rota {
    Box::leak(Box::new(rota))
}

/// The Rust's assignment before its draws.
fn begun(rota: &Rota) -> Assignment {
    rota.case.assignment(&rota.case.owners)
}

// ---- from_slots

fn lent_from_slots(rota: &mut LentRota) {
    let done = lent::from_slots(
        rota.people,
        rota.starts.len(),
        &rota.starts,
        &rota.ends,
        &rota.avail,
        &rota.owners,
        &mut rota.sets,
        &mut rota.minutes,
        &mut rota.totals,
    );
    done.expect("nothing is refused");
}

/// A rota made of its owners.
pub fn from_slots(rota: Rota) -> Row {
    let rota = kept(rota);
    let ours = Side {
        fresh: Box::new(|| {
            let mut empty = rota.lent.clone();
            empty.sets.fill(0);
            empty.minutes.fill(0);
            empty.totals.fill(0);
            empty
        }),
        run: Box::new(|rota: &mut LentRota| lent_from_slots(black_box(rota))),
        seen: Box::new(seen_of_lent),
    };
    let rust = Side {
        fresh: Box::new(|| (Some(begun(rota).slots().to_vec()), None)),
        run: Box::new(|(owners, made): &mut (Option<Vec<Option<usize>>>, Option<Assignment>)| {
            let owners = owners.take().expect("it runs once");
            *made = Some(Assignment::from_slots(black_box(&rota.case.problem), owners));
        }),
        seen: Box::new(|(_, made): &(Option<Vec<Option<usize>>>, Option<Assignment>)| {
            let made = made.as_ref().expect("it was made");
            seen_of_rust(&rota.case.problem, made, rota.lent.answers[..rota.lent.count].to_vec())
        }),
    };
    row(ours, rust)
}

// ---- assign

/// How many slots are assigned in a turn, one call each.
const ASSIGNS: usize = 64;

/// The slots that are assigned, spread over the rota, each with the person after its owner.
fn assigns(owners: &[u8], people: usize) -> Vec<(usize, u8)> {
    let slots = (0..ASSIGNS).map(|k| k * (owners.len() / ASSIGNS));
    slots.map(|slot| (slot, (owners[slot] + 1) % people as u8)).collect()
}

fn lent_assigns(rota: &mut LentRota) {
    for (slot, owner) in assigns(&rota.owners[..rota.starts.len()], rota.people) {
        let done = lent::assign(
            rota.people,
            rota.starts.len(),
            &rota.starts,
            &rota.ends,
            &rota.avail,
            &mut rota.owners,
            &mut rota.sets,
            &mut rota.minutes,
            &mut rota.totals,
            slot,
            owner,
        );
        done.expect("nothing is refused");
    }
}

/// Slots of a rota that everybody can cover go to somebody else, one call each; the Rust checks nothing.
pub fn assign(rota: Rota) -> Row {
    let rota = kept(rota);
    let ours = Side {
        fresh: Box::new(|| rota.lent.clone()),
        run: Box::new(|rota: &mut LentRota| lent_assigns(black_box(rota))),
        seen: Box::new(seen_of_lent),
    };
    let rust = Side {
        fresh: Box::new(|| begun(rota)),
        run: Box::new(|assignment: &mut Assignment| {
            for (slot, owner) in assigns(&rota.case.owners, rota.lent.people) {
                black_box(&mut *assignment).assign(&rota.case.problem, slot, Some(usize::from(owner)));
            }
        }),
        seen: Box::new(|assignment: &Assignment| {
            let answers = rota.lent.answers[..rota.lent.count].to_vec();
            seen_of_rust(&rota.case.problem, assignment, answers)
        }),
    };
    row(ours, rust)
}

// ---- recounts

fn lent_recount(rota: &LentRota) -> bool {
    let answer = lent::recount(
        rota.people,
        rota.starts.len(),
        rota.units,
        &rota.starts,
        &rota.ends,
        &rota.avail,
        &rota.unit_starts,
        &rota.owners,
        &rota.sets,
        &rota.minutes,
        &rota.totals,
    );
    answer.is_ok()
}

/// The recount in the Rust's terms, which has none: every owner known and available, one owner a unit, and a rota made anew of the owners
/// with the same sets and minutes. It keeps no totals.
fn rust_recount(problem: &Problem, assignment: &Assignment) -> bool {
    let owners = assignment.slots();
    let can = |person: usize, slot: usize| person < problem.human_count() && problem.is_available(person, slot);
    let may_be = |(slot, owner): (usize, &Option<usize>)| owner.map_or(true, |person| can(person, slot));
    let one_owner = |unit: &Range<usize>| owners[unit.clone()].iter().all(|owner| *owner == owners[unit.start]);
    owners.iter().enumerate().all(may_be)
        && problem.units.iter().all(one_owner)
        && Assignment::from_slots(problem, owners.to_vec()) == *assignment
}

/// The verdict of each side on its rota: whether it is right.
fn judged(rota: &'static Rota, ours: fn(&Rota, &mut LentRota) -> bool, rust: fn(&Problem, &Assignment) -> bool) -> Row {
    let ours = Side {
        fresh: Box::new(|| (rota.lent.clone(), false)),
        run: Box::new(move |(lent, is_right): &mut (LentRota, bool)| *is_right = ours(rota, black_box(lent))),
        seen: Box::new(|(_, is_right): &(LentRota, bool)| *is_right),
    };
    let rust = Side {
        fresh: Box::new(|| (begun(rota), false)),
        run: Box::new(move |(assignment, is_right): &mut (Assignment, bool)| *is_right = rust(&rota.case.problem, black_box(assignment))),
        seen: Box::new(|(_, is_right): &(Assignment, bool)| *is_right),
    };
    row(ours, rust)
}

/// The recount, as a play asks it first.
pub fn recount(rota: Rota) -> Row {
    judged(kept(rota), |_, lent| lent_recount(lent), rust_recount)
}

/// A rota with a fault of a part of the recount at the last place: the last slot, unit, person or total, or the last slot of the last person's
/// set.
/// Where an owner is at fault, sets, minutes and totals stay as they were: their parts come later.
fn with_last_fault(rota: &Rota, part: usize) -> LentRota {
    let mut lent = rota.lent.clone();
    let (person, slot) = (lent.people - 1, lent.starts.len() - 1);
    match part {
        1 => lent.owners[slot] = lent.people as u8,
        2 => {
            let away = (0..lent.people).find(|&person| !has_bit(&lent.avail, person, slot));
            lent.owners[slot] = away.expect("somebody isn't available") as u8;
        }
        3 => lent.owners[slot] = NOBODY,
        4 => {
            let is = has_bit(&lent.sets, person, slot);
            put_bit(&mut lent.sets, person, slot, !is);
        }
        5 => lent.minutes[person] += 1,
        _ => lent.totals[TOTALS - 1] += 1,
    }
    lent
}

/// A recount that fails by a part at the last place; in the Rust's place one that passes, of the same rota.
pub fn failed_recount(rota: Rota, part: usize) -> Row {
    let rota = kept(rota);
    let side = |fault: bool| Side {
        fresh: Box::new(move || {
            let lent = if fault { with_last_fault(rota, part) } else { rota.lent.clone() };
            (lent, !fault)
        }),
        run: Box::new(|(lent, is_right): &mut (LentRota, bool)| *is_right = lent_recount(black_box(lent))),
        // whether the verdict is the one that is due
        seen: Box::new(move |(_, is_right): &(LentRota, bool)| *is_right != fault),
    };
    row(side(true), side(false))
}

/// Who can cover each unit, as the Rust works it out when a problem is built.
fn rust_domains(problem: &Problem) -> Vec<Vec<usize>> {
    let can = |person: usize, unit: &Range<usize>| unit.clone().all(|slot| problem.is_available(person, slot));
    let domain = |unit| (0..problem.human_count()).filter(|&person| can(person, unit)).collect();
    problem.units.iter().map(domain).collect()
}

/// What a play does before its first draw: the recount, and who can cover which unit.
pub fn no_draws(rota: Rota) -> Row {
    judged(
        kept(rota),
        |rota, lent| lent_play(rota, lent, 0),
        |problem, assignment| rust_recount(problem, assignment) && rust_domains(problem) == problem.unit_domains,
    )
}

// ---- plays

/// The first draws of the list; whether it was accepted.
fn lent_play(rota: &Rota, lent: &mut LentRota, count: usize) -> bool {
    let [draws, firsts, seconds] = &rota.columns;
    let answer = lent::play(
        lent.people,
        lent.starts.len(),
        lent.units,
        count,
        &lent.starts,
        &lent.ends,
        &lent.avail,
        &lent.unit_starts,
        &lent.frozen,
        draws,
        firsts,
        seconds,
        &mut lent.owners,
        &mut lent.sets,
        &mut lent.minutes,
        &mut lent.totals,
        &mut lent.answers,
    );
    answer.is_ok()
}

/// The same draws, lent as structs.
fn lent_play_structs(rota: &Rota, lent: &mut LentRota, draws: usize) -> bool {
    let answer = lent::play_draws(
        lent.people,
        lent.starts.len(),
        lent.units,
        draws,
        &lent.starts,
        &lent.ends,
        &lent.avail,
        &lent.unit_starts,
        &lent.frozen,
        &rota.structs,
        &mut lent.owners,
        &mut lent.sets,
        &mut lent.minutes,
        &mut lent.totals,
        &mut lent.answers,
    );
    answer.is_ok()
}

/// All draws of a rota, played in one of our ways.
fn lent_side(rota: &'static Rota, play: fn(&Rota, &mut LentRota, usize) -> bool) -> Side<LentRota, Seen> {
    Side {
        fresh: Box::new(|| rota.lent.clone()),
        run: Box::new(move |lent: &mut LentRota| assert!(play(rota, black_box(lent), rota.lent.count), "nothing is refused")),
        seen: Box::new(seen_of_lent),
    }
}

/// All draws of a rota.
pub fn play(rota: Rota) -> Row {
    let rota = kept(rota);
    let rust = Side {
        fresh: Box::new(|| (begun(rota), vec![])),
        run: Box::new(|(assignment, answers): &mut (Assignment, Vec<u8>)| {
            *answers = rotas::play(&rota.case.problem, black_box(assignment), &rota.case.draws);
        }),
        seen: Box::new(|(assignment, answers): &(Assignment, Vec<u8>)| seen_of_rust(&rota.case.problem, assignment, answers.clone())),
    };
    row(lent_side(rota, lent_play), rust)
}

/// All draws of a rota as structs; in the Rust's place the same draws as columns.
pub fn structs(rota: Rota) -> Row {
    let rota = kept(rota);
    row(lent_side(rota, lent_play_structs), lent_side(rota, lent_play))
}

/// All draws of a rota, replayed beside the answers that the Rust's moves give them; whether all agree.
fn lent_replay(rota: &Rota, recorded: &[u16], lent: &mut LentRota) -> bool {
    let [draws, firsts, seconds] = &rota.columns;
    let mut place = 0;
    let answer = lent::replay_block(
        lent.people,
        lent.starts.len(),
        lent.units,
        lent.count,
        &lent.starts,
        &lent.ends,
        &lent.avail,
        &lent.unit_starts,
        &lent.frozen,
        draws,
        firsts,
        seconds,
        recorded,
        &mut lent.owners,
        &mut lent.sets,
        &mut lent.minutes,
        &mut lent.totals,
        &mut place,
    );
    answer == Ok(true)
}

/// A replay of all draws of a rota, which agree; in the Rust's place the play of the same draws.
pub fn replay(rota: Rota) -> Row {
    let rota = kept(rota);
    let answers = rotas::play(&rota.case.problem, &mut begun(rota), &rota.case.draws);
    let recorded: Vec<u16> = answers.iter().copied().map(u16::from).collect();
    let ours = Side {
        fresh: Box::new(move || {
            let mut lent = rota.lent.clone();
            lent.answers[..answers.len()].copy_from_slice(&answers);
            lent
        }),
        run: Box::new(move |lent: &mut LentRota| assert!(lent_replay(rota, &recorded, black_box(lent)), "all agree")),
        seen: Box::new(seen_of_lent),
    };
    row(ours, lent_side(rota, lent_play))
}

// ---- runs

/// Everybody's runs, each person's in order.
type Runs = Vec<(usize, usize, usize)>;

/// Where everybody's runs are written.
struct Listed {
    counts: Vec<u16>,
    firsts: Vec<u16>,
    lasts: Vec<u16>,
}

impl Listed {
    fn new(rota: &LentRota) -> Self {
        let room = rota.people * rota.starts.len();
        Self {
            counts: vec![0; rota.people],
            firsts: vec![0; room],
            lasts: vec![0; room],
        }
    }

    /// Works the runs out, and reads each.
    fn each(&mut self, rota: &LentRota, mut read: impl FnMut((usize, usize, usize))) {
        let (people, len) = (rota.people, rota.starts.len());
        let all = lent::every_run(people, len, &rota.sets, &mut self.counts, &mut self.firsts, &mut self.lasts);
        let all = all.expect("nothing is refused");
        let mut ends = self.firsts[..all].iter().zip(&self.lasts[..all]);
        for (person, &count) in self.counts.iter().enumerate() {
            for (&first, &last) in ends.by_ref().take(usize::from(count)) {
                read((person, usize::from(first), usize::from(last)));
            }
        }
    }
}

/// Everybody's runs, each of which is read.
pub fn runs(rota: Rota) -> Row {
    let rota = kept(rota);
    let ours = Side {
        fresh: Box::new(|| (Listed::new(&rota.lent), Runs::new())),
        run: Box::new(|(listed, _)| {
            listed.each(black_box(&rota.lent), |run| {
                black_box(run);
            })
        }),
        seen: Box::new(|_| {
            let mut seen = Runs::new();
            Listed::new(&rota.lent).each(&rota.lent, |run| seen.push(run));
            seen
        }),
    };
    let rust_each = |read: &mut dyn FnMut((usize, usize, usize)), assignment: &Assignment| {
        for person in 0..rota.case.problem.human_count() {
            assignment
                .slots_of(person)
                .runs()
                .for_each(|(first, last)| read((person, first, last)));
        }
    };
    let rust = Side {
        fresh: Box::new(|| begun(rota)),
        run: Box::new(|assignment: &mut Assignment| {
            let assignment = black_box(assignment);
            for person in 0..rota.case.problem.human_count() {
                assignment.slots_of(person).runs().for_each(|(first, last)| {
                    black_box((person, first, last));
                });
            }
        }),
        seen: Box::new(move |assignment: &Assignment| {
            let mut seen = Runs::new();
            rust_each(&mut |run| seen.push(run), assignment);
            seen
        }),
    };
    row(ours, rust)
}
