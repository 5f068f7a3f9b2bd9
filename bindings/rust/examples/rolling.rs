//! A rota that rolls over five weeks: it always has two weeks, and at the end of each the past one is retired and a new one comes behind.
//!
//! Twelve hours a day, from Monday to Thursday and from Friday to Sunday held by one person. What nobody holds goes to whoever can cover it
//! and has the fewest minutes, earlier weeks with them. After each week everybody's prior minutes are compared with a count of its own, by
//! the owners that were there, and all minutes that were ever given with those in the priors, those that nobody had and those still held. It
//! ends with an error where they differ. What it writes is kept in `rolling.stdout`.
//!
//! `cd bindings/rust && ../cargo run --example rolling`

use std::error::Error;

use boltraven::{
    publish, retire_column, Answer, Assignment, Boundary, Draw, Person, Problem, Range, Refusal, Retiring, Settings, Slot, Weekday,
    Weekdays,
};

const WEEKS: u32 = 5;
const DAY: u32 = 1440;

fn main() -> Result<(), Box<dyn Error>> {
    let settings = Settings {
        lock: true,
        boundary: Boundary::DayOfWeek(Weekdays::from([Weekday::Monday, Weekday::Friday])),
        days: 7,
        ..Settings::default()
    };
    let mut people = [1.0, 1.0, 0.5].map(|capacity| Person { capacity, prior: 0 });
    let base = [shifts(0), shifts(1)].concat();
    let mut given: u64 = base.iter().map(minutes).sum();
    let mut problem = Problem::build(settings, &base, &people, &[ranges(0), ranges(1)].concat())?;
    let mut rota = Assignment::empty(&problem);
    let mut published = rota.owners().to_vec();
    let (mut retired, mut counted) = (0, [0; 3]);
    for week in 0..WEEKS {
        fill(&problem, &mut rota, &people)?;
        publish(rota.owners(), problem.frozen(), &mut published)?;
        problem.freeze_before(monday(week + 1));
        let past = (problem.slots().clone(), rota.slots());

        let new = shifts(week + 2);
        let went = problem.retire(&mut rota, &mut people, &mut retired, &new, &ranges(week + 2))?;
        retire_column(&mut published, went)?;
        let Retiring::Retired { gone, slots, units } = went else {
            return Err("a week is due to go".into());
        };
        println!("week {week}: {gone} slots went, {slots} in {units} units are there");

        given += new.iter().map(minutes).sum::<u64>();
        for (slot, owner) in past.0.iter().zip(past.1).take(gone) {
            if let Some(person) = owner {
                counted[person] += minutes(&slot);
            }
        }
        let priors = people.map(|person| u64::from(person.prior));
        if priors != counted {
            return Err(format!("the priors are {priors:?}, and {counted:?} by count").into());
        }
        let held = problem.total_demand();
        let sum = priors.iter().sum::<u64>();
        println!("  given {given} = {sum} of people + {retired} of nobody + {held} held");
        if given != sum + retired + held {
            return Err("a minute is lost".into());
        }
        show(&problem, &rota, &people)?;
        if rota.owners() != published {
            return Err("the published owners are others".into());
        }
    }
    println!("over {WEEKS} weeks no minute was lost");
    Ok(())
}

/// The first minute of a week's Monday; week 0 is the first whole one of 1970.
fn monday(week: u32) -> u32 {
    DAY * (4 + 7 * week)
}

/// A week's shifts, from 8 to 20 each day.
fn shifts(week: u32) -> Vec<Slot> {
    let days = (0..7).map(|day| monday(week) + DAY * day);
    days.map(|start| Slot {
        start: start + 480,
        end: start + 1200,
    })
    .collect()
}

/// Who is there in a week: person 0 always but in week 2, person 1 not on a Thursday of an odd week and in week 2 until Friday morning, person
/// 2 until Thursday, in week 3 from Monday noon on, which splits that day's shift.
fn ranges(week: u32) -> Vec<Range> {
    let at = |person: usize, from: u32, to: u32| Range {
        person,
        start: monday(week) + from,
        end: monday(week) + to,
    };
    let (friday, end) = (4 * DAY, 7 * DAY);
    let mut ranges = vec![at(2, if week == 3 { 720 } else { 0 }, friday)];
    match week {
        2 => ranges.push(at(1, 0, friday)),
        _ if week % 2 == 1 => ranges.extend([at(0, 0, end), at(1, 0, 3 * DAY), at(1, friday, end)]),
        _ => ranges.extend([at(0, 0, end), at(1, 0, end)]),
    }
    ranges
}

fn minutes(slot: &Slot) -> u64 {
    u64::from(slot.end - slot.start)
}

/// Plays each unit that nobody holds to the one who can cover it and has the fewest minutes, earlier weeks with them.
fn fill(problem: &Problem, rota: &mut Assignment, people: &[Person]) -> Result<(), Box<dyn Error>> {
    for (unit, slots) in problem.units().iter().enumerate() {
        let mut fewest = None;
        for (place, person) in problem.unit_domain(unit)?.into_iter().enumerate() {
            let minutes = u64::from(people[person].prior) + rota.assigned_minutes(person)?;
            if fewest.map_or(true, |(least, _)| minutes < least) {
                fewest = Some((minutes, place));
            }
        }
        if let (None, Some((_, place))) = (rota.get(slots.start)?, fewest) {
            let draw = Draw {
                draw: 0,
                first: u16::try_from(unit)?,
                second: u16::try_from(place)?,
            };
            if rota.play(problem, &[draw])? != [Answer::Acted] {
                return Err("the draw is due to act".into());
            }
        }
    }
    Ok(())
}

/// Everybody's minutes, and what nobody holds.
fn show(problem: &Problem, rota: &Assignment, people: &[Person]) -> Result<(), Refusal> {
    for (person, (figures, target)) in people.iter().zip(problem.targets()).enumerate() {
        let held = rota.assigned_minutes(person)?;
        println!("  person {person}: {} before, holds {held} of {target}", figures.prior);
    }
    println!("  nobody: holds {}", rota.stored_uncovered_minutes());
    Ok(())
}
