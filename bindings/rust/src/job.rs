//! A whole job: what a rota is made of and the draws to be played, in one file; and its listing.

use crate::draw::Draw;
use crate::lent::{self, NOBODY};
use crate::refusal::Refusal;
use crate::settings::Settings;
use crate::slots::{Range, Slot};
use crate::targets::Person;

/// The room that a listing is asked for, in bytes.
pub const LISTING_MOST: usize = 65_536;

/// The listing of a job file: a line for each slot, person and draw, and one for the uncovered minutes. Refusals 1, 3 to 7, 10 to 13.
///
/// ```
/// assert_eq!(boltraven::run_job(b"no job"), Err(boltraven::Refusal::JobFile));
/// ```
pub fn run_job(file: &[u8]) -> Result<String, Refusal> {
    let mut listing = vec![0; LISTING_MOST];
    let mut length = 0;
    lent::run_job(file, &mut listing, &mut length)?;
    listing.truncate(length as usize);
    Ok(String::from_utf8_lossy(&listing).into_owned())
}

/// What a job file says.
///
/// ```
/// use boltraven::{Draw, Job, Person, Range, Slot, LISTING_MOST};
///
/// let job = Job {
///     base: vec![Slot { start: 0, end: 120 }],
///     people: vec![Person { capacity: 1.0, prior: 0 }; 2],
///     ranges: vec![Range { person: 0, start: 0, end: 120 }, Range { person: 1, start: 60, end: 180 }],
///     owners: vec![(0, Some(0)), (1, Some(0))],
///     draws: vec![Draw { draw: 0, first: 1, second: 1 }],
///     ..Job::default()
/// };
/// assert_eq!(job.file()[..4], [8, 0, 1, 0]); // the settings: a body of 8 bytes, kind 1
/// assert_eq!(job.run()?, "S 0 0 60 0\nS 1 60 120 1\nP 0 60 80\nP 1 60 40\nD 0 A\nU 0\n");
/// assert!(job.run()?.len() <= LISTING_MOST);
/// # Ok::<(), boltraven::Refusal>(())
/// ```
#[derive(Debug, Clone, PartialEq, Default)]
pub struct Job {
    /// Fairness, units and the length of a shift.
    pub settings: Settings,
    /// The base slots.
    pub base: Vec<Slot>,
    /// The people's figures.
    pub people: Vec<Person>,
    /// When people are available.
    pub ranges: Vec<Range>,
    /// The instant at which slots are frozen, if any.
    pub freeze: Option<u32>,
    /// Atomic slots, rising, with their owners; the others have none.
    pub owners: Vec<(usize, Option<usize>)>,
    /// The draws, in order.
    pub draws: Vec<Draw>,
}

/// A number as the file has it. One that doesn't fit is as much too large as the largest that does.
fn narrow(number: usize) -> u16 {
    u16::try_from(number).unwrap_or(u16::MAX)
}

/// An owner as the file has it: 255 is nobody, so person 255, who is unknown, is written as another unknown one.
fn owner_number(owner: Option<usize>) -> u16 {
    match owner.map(narrow) {
        None => u16::from(NOBODY),
        Some(person) if person == u16::from(NOBODY) => person + 1,
        Some(person) => person,
    }
}

/// Adds a record: the length of its body, its kind, its body.
fn record(file: &mut Vec<u8>, kind: u16, body: &[&[u8]]) {
    file.extend(narrow(body.iter().map(|part| part.len()).sum()).to_le_bytes());
    file.extend(kind.to_le_bytes());
    body.iter().for_each(|part| file.extend(*part));
}

impl Job {
    /// The job file. Nothing is judged here: what is too much or wrong is refused when it is run.
    pub fn file(&self) -> Vec<u8> {
        let n = self.settings.numbers();
        let mut file = Vec::new();
        let flags = [n.fairness, n.lock, n.boundary, n.edition];
        record(&mut file, 1, &[&flags, &n.value.to_le_bytes(), &n.days.to_le_bytes()]);
        for slot in &self.base {
            record(&mut file, 2, &[&slot.start.to_le_bytes(), &slot.end.to_le_bytes()]);
        }
        for person in &self.people {
            record(
                &mut file,
                3,
                &[&person.capacity.to_bits().to_le_bytes(), &person.prior.to_le_bytes()],
            );
        }
        for range in &self.ranges {
            let times = [range.start.to_le_bytes(), range.end.to_le_bytes()].concat();
            record(&mut file, 4, &[&narrow(range.person).to_le_bytes(), &times]);
        }
        if let Some(instant) = self.freeze {
            record(&mut file, 5, &[&instant.to_le_bytes()]);
        }
        for &(slot, owner) in &self.owners {
            record(&mut file, 6, &[&narrow(slot).to_le_bytes(), &owner_number(owner).to_le_bytes()]);
        }
        for draw in &self.draws {
            let numbers = [draw.draw, draw.first, draw.second].map(u16::to_le_bytes).concat();
            record(&mut file, 7, &[&numbers]);
        }
        file
    }

    /// The listing of the job: prepared, played and listed in one call. Refusals 1, 3 to 7, 10 to 13.
    pub fn run(&self) -> Result<String, Refusal> {
        run_job(&self.file())
    }
}
