//! How a search calls the library: it makes a problem and a rota, plays draws block by block, and takes back a block that it doesn't want.
//!
//! The draws are those of the upstream move generator on `examples/nights.txt`, kept in `nights.moves` with the blocks that were taken back
//! and the owners in which the upstream rota ended. Nothing is scored here. It ends with an error where the rota ends otherwise.
//!
//! `cd bindings/rust && ../cargo run --example search`

use std::error::Error;
use std::str::{FromStr, SplitWhitespace};

use boltraven::{Answer, Assignment, Boundary, Draw, Edition, Fairness, Person, Problem, Range, Refusal, Settings, Slot, Weekdays};

const MOVES: &str = include_str!("nights.moves");

fn main() -> Result<(), Box<dyn Error>> {
    let recorded = Recorded::read(MOVES)?;
    let mut problem = Problem::build(recorded.settings, &recorded.base, &recorded.people, &recorded.ranges)?;
    if let Some(instant) = recorded.freeze {
        problem.freeze_before(instant);
    }
    let mut rota = Assignment::from_slots(&problem, &owners_of(&recorded.owners, problem.slot_count()))?;
    show("before", &problem, &rota)?;
    show_a_refusal(&problem, &rota)?;
    for (number, block) in recorded.blocks.iter().enumerate() {
        let kept = rota.clone();
        let answers = rota.play(&problem, &block.draws)?;
        if !block.is_wanted {
            take_back(&problem, &mut rota, &kept)?;
        }
        let acted = answers.iter().filter(|&&answer| answer == Answer::Acted).count();
        let end = if block.is_wanted { "kept" } else { "taken back" };
        println!(
            "block {} of {}: {acted} of {} draws acted, {end}",
            number + 1,
            recorded.blocks.len(),
            answers.len()
        );
    }
    show("after", &problem, &rota)?;
    if rota.slots() != owners_of(&recorded.last, problem.slot_count()) {
        return Err("the upstream moves end in another rota".into());
    }
    println!("the upstream moves end in the same rota");
    Ok(())
}

/// Gives every slot back to whom the kept rota has it. A search that changes much at a time would put the kept copy in its place instead:
/// both come to the same.
fn take_back(problem: &Problem, rota: &mut Assignment, kept: &Assignment) -> Result<(), Box<dyn Error>> {
    for (slot, owner) in kept.slots().into_iter().enumerate() {
        if rota.get(slot)? != owner {
            rota.assign(problem, slot, owner)?;
        }
    }
    if rota != kept {
        return Err("what was taken back is not what was kept".into());
    }
    Ok(())
}

/// A step that the library refuses: the first slot that somebody isn't available for. The rota stays as it is.
fn show_a_refusal(problem: &Problem, rota: &Assignment) -> Result<(), Box<dyn Error>> {
    for slot in 0..problem.slot_count() {
        for person in 0..problem.human_count() {
            if !problem.is_available(person, slot)? {
                let mut tried = rota.clone();
                let refusal = tried.assign(problem, slot, Some(person)).err();
                println!(
                    "slot {slot} to person {person}: {}",
                    refusal.map_or("taken".into(), |one| one.to_string())
                );
                let is_as_due = refusal == Some(Refusal::Unavailable) && tried == *rota;
                return if is_as_due {
                    Ok(())
                } else {
                    Err("12 and the rota as it was are due".into())
                };
            }
        }
    }
    Ok(())
}

/// The owners of each unit's slots, and everybody's minutes beside their target.
fn show(when: &str, problem: &Problem, rota: &Assignment) -> Result<(), Refusal> {
    println!("{when}:");
    for (unit, slots) in problem.units().iter().enumerate() {
        let is_frozen = if problem.is_unit_frozen(unit)? { ", frozen" } else { "" };
        let owner = rota.get(slots.start)?.map_or("nobody".into(), |person| format!("person {person}"));
        println!("  unit {unit}, slots {} to {}{is_frozen}: {owner}", slots.start, slots.end - 1);
    }
    for (person, target) in problem.targets().iter().enumerate() {
        println!("  person {person}: {} minutes of {target}", rota.assigned_minutes(person)?);
    }
    println!("  uncovered: {} minutes", rota.uncovered_minutes(problem)?);
    Ok(())
}

/// Owners of all slots, from those that are named.
fn owners_of(named: &[(usize, Option<usize>)], slots: usize) -> Vec<Option<usize>> {
    let owner = |slot| named.iter().find(|(one, _)| *one == slot).and_then(|(_, owner)| *owner);
    (0..slots).map(owner).collect()
}

// ---- what nights.moves says

/// Draws that are played together, and whether what they bring about is wanted.
struct Block {
    is_wanted: bool,
    draws: Vec<Draw>,
}

/// A job, blocks of draws, and the owners at the end.
#[derive(Default)]
struct Recorded {
    settings: Settings,
    base: Vec<Slot>,
    people: Vec<Person>,
    ranges: Vec<Range>,
    freeze: Option<u32>,
    owners: Vec<(usize, Option<usize>)>,
    blocks: Vec<Block>,
    last: Vec<(usize, Option<usize>)>,
}

impl Recorded {
    fn read(text: &str) -> Result<Self, Box<dyn Error>> {
        let mut recorded = Self::default();
        for line in text.lines().filter(|line| !line.starts_with('#')) {
            recorded.add(line).map_err(|error| format!("'{line}': {error}"))?;
        }
        Ok(recorded)
    }

    fn add(&mut self, line: &str) -> Result<(), Box<dyn Error>> {
        let mut words = line.split_whitespace();
        match words.next() {
            Some("settings") => self.settings = settings(words)?,
            Some("base") => self.base.push(Slot {
                start: number(&mut words)?,
                end: number(&mut words)?,
            }),
            Some("person") => self.people.push(Person {
                capacity: number(&mut words)?,
                prior: number(&mut words)?,
            }),
            Some("range") => {
                let person = number(&mut words)?;
                self.ranges.push(Range {
                    person,
                    start: number(&mut words)?,
                    end: number(&mut words)?,
                });
            }
            Some("freeze") => self.freeze = Some(number(&mut words)?),
            Some("owner") => self.owners.push(owner(&mut words)?),
            Some("block") => self.blocks.push(Block {
                is_wanted: words.next() == Some("keep"),
                draws: vec![],
            }),
            Some("draw") => {
                let draw = Draw {
                    draw: number(&mut words)?,
                    first: number(&mut words)?,
                    second: number(&mut words)?,
                };
                self.blocks.last_mut().ok_or("a draw before the first block")?.draws.push(draw);
            }
            Some("last") => self.last.push(owner(&mut words)?),
            _ => return Err("no such line".into()),
        }
        Ok(())
    }
}

/// The next word as a number.
fn number<N: FromStr>(words: &mut SplitWhitespace) -> Result<N, Box<dyn Error>>
where
    N::Err: Error + 'static,
{
    Ok(words.next().ok_or("a number is missing")?.parse()?)
}

/// A slot and its owner, `-` for nobody.
fn owner(words: &mut SplitWhitespace) -> Result<(usize, Option<usize>), Box<dyn Error>> {
    let slot = number(words)?;
    match words.next() {
        Some("-") => Ok((slot, None)),
        Some(person) => Ok((slot, Some(person.parse()?))),
        None => Err("an owner is missing".into()),
    }
}

/// The settings, each number after its name.
fn settings(words: SplitWhitespace) -> Result<Settings, Box<dyn Error>> {
    let numbers: Vec<u16> = words.skip(1).step_by(2).map(str::parse).collect::<Result<_, _>>()?;
    let [fairness, lock, boundary, value, days, edition] = numbers[..] else {
        return Err("six numbers are due".into());
    };
    Ok(Settings {
        fairness: if fairness == 1 { Fairness::Equal } else { Fairness::Capacity },
        lock: lock == 1,
        boundary: if boundary == 1 {
            Boundary::DayOfWeek(Weekdays::from_mask(value).ok_or("a mask is below 128")?)
        } else {
            Boundary::EverySlots(value)
        },
        edition: if edition == 2 { Edition::Second } else { Edition::First },
        days,
    })
}
