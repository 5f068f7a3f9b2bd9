//! A rota: who holds which slot.

use crate::draw::Draw;
use crate::lent::{self, written, NOBODY, SET_WORDS, TOTALS, UNASSIGNED_SLOTS, UNCOVERED_MINUTES};
use crate::problem::Problem;
use crate::refusal::{checked, Refusal};
use crate::set::SlotSet;

/// What became of a draw.
#[derive(Debug, Clone, Copy, PartialEq, Eq, Hash)]
pub enum Answer {
    /// The rota changed.
    Acted,
    /// There is no such move now; the rota is as it was.
    NoMove,
    /// A number of the draw lies outside what it chooses from; the rota is as it was.
    Outside,
}

impl Answer {
    /// Of the number that stands for it.
    pub(crate) fn of(byte: u8) -> Self {
        match byte {
            0 => Answer::Acted,
            1 => Answer::NoMove,
            _ => Answer::Outside,
        }
    }

    /// As it is recorded.
    fn recorded(self) -> u16 {
        match self {
            Answer::Acted => 0,
            Answer::NoMove => 1,
            Answer::Outside => 2,
        }
    }
}

/// What a replay of recorded draws comes to.
#[derive(Debug, Clone, Copy, PartialEq, Eq, Hash)]
pub enum Replay {
    /// Each draw is answered as it was recorded.
    Agrees,
    /// One isn't. It and the draws before it are played, those after it aren't.
    Differs {
        /// The first such draw, from 0.
        place: usize,
    },
}

/// What a way back comes to.
#[derive(Debug, Clone, PartialEq, Eq, Hash)]
pub enum WayBack {
    /// The draws, one for each unit whose owner differs, ascending: played, each acts, and the remembered owners are back.
    Draws(Vec<Draw>),
    /// There is none by reassigns, nor by any other draws.
    Blocked {
        /// The first unit that no draw gives back: its owner differs, and nobody owned it or it is frozen.
        unit: usize,
    },
}

/// The owners of all slots, with everybody's set of slots and minutes and what nobody owns, which always fit together.
///
/// A method that takes a [`Problem`] is meant for the one that the rota was made for. With another one it is refused, or answers for the
/// slots and people of that one.
///
/// ```
/// use boltraven::{Answer, Assignment, Draw, Person, Problem, Range, Refusal, Replay, Settings, Slot, WayBack};
///
/// let base = [Slot { start: 0, end: 60 }, Slot { start: 60, end: 120 }];
/// let people = [Person { capacity: 1.0, prior: 0 }; 2];
/// let ranges = [Range { person: 0, start: 0, end: 120 }, Range { person: 1, start: 60, end: 120 }];
/// let problem = Problem::build(Settings::default(), &base, &people, &ranges)?;
///
/// let mut rota = Assignment::empty(&problem);
/// rota.assign(&problem, 0, Some(0))?;
/// assert_eq!(rota.assign(&problem, 0, Some(1)), Err(Refusal::Unavailable));
/// assert_eq!((rota.slots(), rota.owners()), (vec![Some(0), None], &[0, 255][..]));
/// assert_eq!(rota.slots_of(0)?.iter().collect::<Vec<_>>(), [0]);
/// assert_eq!(rota.runs(), [vec![(0, 0)], vec![]]);
/// assert_eq!((rota.unassigned_count(), rota.uncovered_minutes(&problem)?), (1, 60));
/// assert_eq!((rota.stored_unassigned_count(), rota.stored_uncovered_minutes()), (1, 60));
///
/// // Both slots of person 0; then the second unit goes to the second of those who can cover it, and there is no tenth.
/// let mut rota = Assignment::from_slots(&problem, &[Some(0), Some(0)])?;
/// let draws = [Draw { draw: 0, first: 1, second: 1 }, Draw { draw: 0, first: 1, second: 9 }];
/// assert_eq!(rota.play(&problem, &draws)?, [Answer::Acted, Answer::Outside]);
/// assert_eq!((rota.get(1)?, rota.assigned_minutes(1)?), (Some(1), 60));
/// assert_eq!(rota.recount(&problem), Ok(()));
///
/// // The way back to where it began.
/// let WayBack::Draws(back) = rota.way_back(&problem, &[Some(0), Some(0)])? else { panic!("there is one") };
/// assert_eq!((rota.play(&problem, &back)?, rota.owners()), (vec![Answer::Acted], &[0, 0][..]));
///
/// // What was recorded is replayed: the second of these draws is answered otherwise, and the third isn't played.
/// let block = [(draws[0], Answer::Acted), (back[0], Answer::NoMove), (draws[0], Answer::Acted)];
/// assert_eq!((rota.replay(&problem, &block[..1])?, rota.owners()), (Replay::Agrees, &[0, 1][..]));
/// assert_eq!((rota.replay(&problem, &block[1..])?, rota.owners()), (Replay::Differs { place: 0 }, &[0, 0][..]));
/// # Ok::<(), Refusal>(())
/// ```
#[derive(Debug, Clone, PartialEq, Eq, Hash)]
pub struct Assignment {
    pub(crate) owners: Vec<u8>,
    pub(crate) sets: Vec<u64>,
    pub(crate) minutes: Vec<u64>,
    pub(crate) totals: [u64; TOTALS],
}

/// An owner as the library takes it. A person whose number doesn't fit is as unknown as the last number that does.
pub(crate) fn owner_byte(owner: Option<usize>) -> u8 {
    match owner {
        None => NOBODY,
        Some(person) => u8::try_from(person).unwrap_or(NOBODY - 1).min(NOBODY - 1),
    }
}

impl Assignment {
    /// A rota of columns that were mended, cut to what counts.
    pub(crate) fn of_columns(
        mut owners: Vec<u8>,
        mut sets: Vec<u64>,
        mut minutes: Vec<u64>,
        totals: [u64; TOTALS],
        slots: usize,
        people: usize,
    ) -> Self {
        owners.truncate(slots);
        sets.truncate(SET_WORDS * people);
        minutes.truncate(people);
        Self {
            owners,
            sets,
            minutes,
            totals,
        }
    }
}

/// An owner in Rust's terms.
fn owner_of(byte: u8) -> Option<usize> {
    (byte != NOBODY).then_some(usize::from(byte))
}

impl Assignment {
    /// A rota in which nobody owns a slot.
    pub fn empty(problem: &Problem) -> Self {
        let (people, slots) = (problem.human_count(), problem.slot_count());
        let mut rota = Self {
            owners: vec![NOBODY; slots],
            sets: vec![0; SET_WORDS * people],
            minutes: vec![0; people],
            totals: [0; TOTALS],
        };
        checked(lent::empty(
            people,
            slots,
            problem.slots().starts(),
            problem.slots().ends(),
            &mut rota.owners,
            &mut rota.sets,
            &mut rota.minutes,
            &mut rota.totals,
        ));
        rota
    }

    /// A rota with these owners, one a slot. Refusals 2 (fewer owners than slots), 11, 12. Owners past the last slot are not looked at.
    pub fn from_slots(problem: &Problem, slots: &[Option<usize>]) -> Result<Self, Refusal> {
        let count = problem.slot_count();
        let mut rota = Self {
            owners: slots.iter().take(count).copied().map(owner_byte).collect(),
            sets: vec![0; SET_WORDS * problem.human_count()],
            minutes: vec![0; problem.human_count()],
            totals: [0; TOTALS],
        };
        lent::from_slots(
            problem.human_count(),
            count,
            problem.slots().starts(),
            problem.slots().ends(),
            problem.availability().words(),
            &rota.owners,
            &mut rota.sets,
            &mut rota.minutes,
            &mut rota.totals,
        )?;
        Ok(rota)
    }

    /// Who owns a slot. Refusal 11.
    pub fn get(&self, slot: usize) -> Result<Option<usize>, Refusal> {
        let owner = lent::owner_of_slot(self.minutes.len(), self.owners.len(), &self.owners, slot)?;
        Ok((owner != usize::from(NOBODY)).then_some(owner))
    }

    /// The owner of each slot.
    pub fn slots(&self) -> Vec<Option<usize>> {
        self.owners.iter().map(|&owner| owner_of(owner)).collect()
    }

    /// The owner of each slot as a byte, 255 for nobody.
    pub fn owners(&self) -> &[u8] {
        &self.owners
    }

    /// The slots that a person owns. Refusal 11.
    pub fn slots_of(&self, person: usize) -> Result<SlotSet, Refusal> {
        SlotSet::from_row(&self.sets, self.minutes.len(), person, self.owners.len())
    }

    /// Everybody's runs of slots, each person's ascending, by the first and the last slot: all of them listed in one call.
    pub fn runs(&self) -> Vec<Vec<(usize, usize)>> {
        let (people, slots) = (self.minutes.len(), self.owners.len());
        let (mut counts, mut firsts, mut lasts) = (vec![0; people], vec![0; people * slots], vec![0; people * slots]);
        checked(lent::every_run(people, slots, &self.sets, &mut counts, &mut firsts, &mut lasts));
        let mut ends = firsts
            .iter()
            .zip(&lasts)
            .map(|(&first, &last)| (usize::from(first), usize::from(last)));
        counts
            .iter()
            .map(|&count| ends.by_ref().take(usize::from(count)).collect())
            .collect()
    }

    /// The minutes of the slots that a person owns. Refusal 11.
    pub fn assigned_minutes(&self, person: usize) -> Result<u64, Refusal> {
        written(|out| lent::minutes_of(self.minutes.len(), &self.minutes, person, out))
    }

    /// Gives a slot to a person, or to nobody. It asks nothing of units or frozen slots: a rota whose units it makes uneven is refused by
    /// the next play. Refusals 10, 11, 12.
    pub fn assign(&mut self, problem: &Problem, slot: usize, owner: Option<usize>) -> Result<(), Refusal> {
        lent::assign(
            problem.human_count(),
            problem.slot_count(),
            problem.slots().starts(),
            problem.slots().ends(),
            problem.availability().words(),
            &mut self.owners,
            &mut self.sets,
            &mut self.minutes,
            &mut self.totals,
            slot,
            owner_byte(owner),
        )
    }

    /// Plays draws in order, and answers each. Refusals 1 (more than 1,024 draws), 10.
    pub fn play(&mut self, problem: &Problem, draws: &[Draw]) -> Result<Vec<Answer>, Refusal> {
        let mut answers = vec![0; draws.len()];
        lent::play_draws(
            problem.human_count(),
            problem.slot_count(),
            problem.unit_count(),
            draws.len(),
            problem.slots().starts(),
            problem.slots().ends(),
            problem.availability().words(),
            problem.units().unit_starts(),
            problem.frozen().words(),
            draws,
            &mut self.owners,
            &mut self.sets,
            &mut self.minutes,
            &mut self.totals,
            &mut answers,
        )?;
        Ok(answers.into_iter().map(Answer::of).collect())
    }

    /// Replays a block of recorded draws: in order, up to and with the first whose answer isn't the recorded one. Refusals 1 (more than 1,024
    /// draws), 10.
    pub fn replay(&mut self, problem: &Problem, block: &[(Draw, Answer)]) -> Result<Replay, Refusal> {
        let column = |number: fn(&(Draw, Answer)) -> u16| block.iter().map(number).collect::<Vec<u16>>();
        let mut place = 0;
        let agrees = lent::replay_block(
            problem.human_count(),
            problem.slot_count(),
            problem.unit_count(),
            block.len(),
            problem.slots().starts(),
            problem.slots().ends(),
            problem.availability().words(),
            problem.units().unit_starts(),
            problem.frozen().words(),
            &column(|(draw, _)| draw.draw),
            &column(|(draw, _)| draw.first),
            &column(|(draw, _)| draw.second),
            &column(|(_, answer)| answer.recorded()),
            &mut self.owners,
            &mut self.sets,
            &mut self.minutes,
            &mut self.totals,
            &mut place,
        )?;
        Ok(if agrees {
            Replay::Agrees
        } else {
            Replay::Differs { place: place as usize }
        })
    }

    /// The draws that bring remembered owners back, one owner a slot. Refusals 2 (fewer owners than slots), 10 (of the rota, or a unit with
    /// two remembered owners), 11, 12. Owners past the last slot are not looked at.
    pub fn way_back(&self, problem: &Problem, remembered: &[Option<usize>]) -> Result<WayBack, Refusal> {
        let slots = problem.slot_count();
        let remembered: Vec<u8> = remembered.iter().take(slots).copied().map(owner_byte).collect();
        let [mut draws, mut firsts, mut seconds] = [(); 3].map(|()| vec![0; slots]);
        let mut told = 0;
        let is_way = lent::way_back(
            problem.human_count(),
            slots,
            problem.unit_count(),
            problem.slots().starts(),
            problem.slots().ends(),
            problem.availability().words(),
            problem.units().unit_starts(),
            problem.frozen().words(),
            &remembered,
            &self.owners,
            &self.sets,
            &self.minutes,
            &self.totals,
            &mut draws,
            &mut firsts,
            &mut seconds,
            &mut told,
        )?;
        let told = told as usize;
        if !is_way {
            return Ok(WayBack::Blocked { unit: told });
        }
        let draw = |k: usize| Draw {
            draw: draws[k],
            first: firsts[k],
            second: seconds[k],
        };
        Ok(WayBack::Draws((0..told).map(draw).collect()))
    }

    /// Whether owners, units, sets, minutes and totals fit together, as a play asks it first. Refusal 10: a unit has two owners, which `assign` can
    /// bring about; the lowest such unit is named.
    pub fn recount(&self, problem: &Problem) -> Result<(), Refusal> {
        lent::recount(
            problem.human_count(),
            problem.slot_count(),
            problem.unit_count(),
            problem.slots().starts(),
            problem.slots().ends(),
            problem.availability().words(),
            problem.units().unit_starts(),
            &self.owners,
            &self.sets,
            &self.minutes,
            &self.totals,
        )
    }

    /// How many slots nobody owns, counted by the owners.
    pub fn unassigned_count(&self) -> usize {
        checked(lent::unassigned_count(self.minutes.len(), self.owners.len(), &self.owners))
    }

    /// The minutes of the slots that nobody owns, added up by the owners. Refusals 2, 11, where the problem is another one.
    pub fn uncovered_minutes(&self, problem: &Problem) -> Result<u64, Refusal> {
        let (people, slots) = (problem.human_count(), problem.slots());
        written(|out| lent::uncovered_minutes(people, slots.len(), slots.starts(), slots.ends(), &self.owners, out))
    }

    /// How many slots nobody owns, as it is kept with the rota: nothing is counted.
    pub fn stored_unassigned_count(&self) -> usize {
        self.totals[UNASSIGNED_SLOTS] as usize
    }

    /// The minutes of the slots that nobody owns, as they are kept with the rota: nothing is added up.
    pub fn stored_uncovered_minutes(&self) -> u64 {
        self.totals[UNCOVERED_MINUTES]
    }
}
