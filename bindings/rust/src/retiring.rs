//! Past weeks retired: a problem and its rota together, and a published column after them.

use crate::assignment::Assignment;
use crate::availability::Availability;
use crate::lent::{self, NOBODY, SLOTS_MOST};
use crate::problem::Problem;
use crate::refusal::{checked, Refusal};
use crate::settings::with_settings;
use crate::slots::{columns, Columns, Range, Slot, Slots};
use crate::targets::{compute_targets, Person};
use crate::units::Units;

/// What retiring came to.
#[derive(Debug, Clone, Copy, PartialEq, Eq, Hash)]
pub enum Retiring {
    /// The leading units of which every slot was frozen are gone.
    Retired {
        /// How many slots went.
        gone: usize,
        /// How many there are now, new ones with them.
        slots: usize,
        /// How many units there are now.
        units: usize,
    },
    /// The first unit has a slot that isn't frozen, so nothing would go; nothing is changed, and no new slot is taken.
    Nothing,
    /// Every slot is frozen, so everything would go; nothing is changed, and no new slot is taken.
    Everything,
}

impl Problem {
    /// Retires past weeks, of the problem and its rota together: the leading units of which every slot is frozen go, and the rest comes to
    /// the front. What each person owned of the slots that go is added to their prior minutes, what nobody owned to `retired`: no minute is
    /// lost. The new base slots, split over the ranges, which are for them alone, come behind with nobody on them and not frozen, in units of
    /// their own by the problem's settings. Rotations are the units where these are locked, else those of the slots now held; targets follow
    /// the slots now held and the new priors. People past the problem's are not looked at.
    ///
    /// Refusals 1 to 7, 9, 10, of which 6 is also a capacity that targets don't take; refused, nothing is changed.
    ///
    /// ```
    /// use boltraven::{Assignment, Boundary, Person, Problem, Range, Refusal, Retiring, Settings, Slot};
    ///
    /// // A shift of eight hours on each of six days, two a unit.
    /// let settings = Settings { lock: true, boundary: Boundary::EverySlots(2), ..Settings::default() };
    /// let base = [0, 1, 2, 3, 4, 5].map(|day| Slot { start: 1440 * day + 480, end: 1440 * day + 960 });
    /// let mut people = [Person { capacity: 1.0, prior: 100 }, Person { capacity: 1.0, prior: 0 }];
    /// let ranges = [0, 1].map(|person| Range { person, start: 0, end: 100_000 });
    /// let mut problem = Problem::build(settings, &base, &people, &ranges)?;
    /// let mut rota = Assignment::from_slots(&problem, &[Some(0), Some(0), None, None, Some(1), Some(1)])?;
    ///
    /// let new = [Slot { start: 8160, end: 8640 }, Slot { start: 9600, end: 10080 }];
    /// let there = [Range { person: 0, start: 8160, end: 8400 }, Range { person: 1, start: 0, end: 100_000 }];
    /// let mut retired = 7;
    /// assert_eq!(problem.retire(&mut rota, &mut people, &mut retired, &new, &there)?, Retiring::Nothing);
    ///
    /// // Five slots are frozen: two units go, and the third stays whole.
    /// problem.freeze_before(6720);
    /// let demand = problem.total_demand();
    /// let went = problem.retire(&mut rota, &mut people, &mut retired, &new, &there)?;
    /// assert_eq!(went, Retiring::Retired { gone: 4, slots: 5, units: 3 });
    /// assert_eq!(rota.slots(), [Some(1), Some(1), None, None, None]);
    /// assert_eq!((people[0].prior, people[1].prior, retired), (1060, 0, 967));
    /// assert_eq!((people[0].prior as u64 - 100) + (retired - 7) + (problem.total_demand() - 960), demand);
    /// assert_eq!((problem.is_available(0, 2)?, problem.is_available(0, 3)?, rota.recount(&problem)), (true, false, Ok(())));
    ///
    /// // A new slot before the end of the last one is refused.
    /// let early = [Slot { start: 10_079, end: 10_100 }];
    /// assert_eq!(problem.retire(&mut rota, &mut people, &mut retired, &early, &[]), Err(Refusal::BaseSlot));
    /// # Ok::<(), Refusal>(())
    /// ```
    pub fn retire(
        &mut self,
        rota: &mut Assignment,
        people: &mut [Person],
        retired: &mut u64,
        base: &[Slot],
        ranges: &[Range],
    ) -> Result<Retiring, Refusal> {
        let (count, before) = (self.human_count(), self.slot_count());
        let (froms, tos) = columns(base);
        let given = Columns::of(ranges);
        let mut priors: Vec<u32> = people.iter().map(|person| person.prior).collect();
        let given_figures = self.targets_of(&self.slots, &self.availability, people);
        // A rota that is too short for the problem stays so, and is refused.
        let (mut starts, mut ends) = (with_room(self.slots.starts(), 0), with_room(self.slots.ends(), 0));
        let mut unit_starts = with_room(self.units.unit_starts(), 0);
        let (mut avail, mut frozen) = (self.availability.words().to_vec(), *self.frozen.words());
        let mut then = rota.clone();
        if then.owners.len() >= before {
            then.owners.resize(SLOTS_MOST, NOBODY);
        }
        let (mut total, mut told) = ([*retired], 0);
        let retiring = with_settings!(
            lent::retire,
            [count, before, self.unit_count(), base.len(), ranges.len()],
            self.settings,
            &froms,
            &tos,
            &given.persons,
            &given.starts,
            &given.ends,
            &mut starts,
            &mut ends,
            &mut avail,
            &mut unit_starts,
            &mut frozen,
            &mut then.owners,
            &mut then.sets,
            &mut then.minutes,
            &mut then.totals,
            &mut priors,
            &mut total,
            &mut told
        );
        // Whatever has a lower number comes before a capacity's 6.
        match retiring {
            Err(refusal) if refusal.number() <= Refusal::Figures.number() => return Err(refusal),
            _ => given_figures?,
        };
        match retiring? {
            lent::Retiring::Nothing => return Ok(Retiring::Nothing),
            lent::Retiring::Everything => return Ok(Retiring::Everything),
            lent::Retiring::Retired => {}
        }
        let number = |from: u32| usize::from((told >> from) as u16);
        let (gone, slots, units) = (number(0), number(16), number(32));
        // What the library leaves past the end goes, so that equal problems and rotas compare as equal.
        for person in 0..count {
            forget(count, before, slots, &mut avail, person);
            forget(count, before, slots, &mut then.sets, person);
        }
        forget(1, before, slots, &mut frozen, 0);
        starts.truncate(slots);
        ends.truncate(slots);
        unit_starts.truncate(units);
        then.owners.truncate(slots);

        people.iter_mut().zip(&priors).for_each(|(person, &prior)| person.prior = prior);
        let (held, availability) = (Slots { starts, ends }, Availability::of_words(count, slots, avail));
        let formed = Units::of_starts(unit_starts, slots);
        self.targets = checked(self.targets_of(&held, &availability, people));
        self.rotations = if self.settings.lock {
            formed.clone()
        } else {
            checked(Units::rotations(self.settings, &held))
        };
        self.target_run = checked(held.target_run_minutes(self.settings));
        self.frozen.set_to(frozen, slots);
        (self.slots, self.availability, self.units) = (held, availability, formed);
        (*rota, *retired) = (then, total[0]);
        Ok(Retiring::Retired { gone, slots, units })
    }

    /// The targets of these slots by the problem's settings, for as many people as it has.
    fn targets_of(&self, slots: &Slots, availability: &Availability, people: &[Person]) -> Result<Vec<i64>, Refusal> {
        let people = &people[..people.len().min(self.human_count())];
        compute_targets(slots, availability, people, self.settings.fairness, self.settings.edition)
    }
}

/// A column with room for as many entries as there can be slots.
fn with_room<N: Copy>(column: &[N], empty: N) -> Vec<N> {
    let mut column = column.to_vec();
    column.resize(SLOTS_MOST, empty);
    column
}

/// Takes the slots that a row had and has no more out of it.
fn forget(people: usize, before: usize, slots: usize, words: &mut [u64], person: usize) {
    if slots < before {
        checked(lent::put_stretch(people, before, words, person, slots, before, false));
    }
}

/// A published column after a retiring, by what that came to: the rest comes to the front, and nobody has the new slots. After nothing and
/// everything it stays as it is. Refusal 1: it has no slots or more than 1,024, fewer than went, or more would be left than there are.
///
/// ```
/// use boltraven::{retire_column, Retiring};
///
/// let mut published = vec![0, 0, 1, 1];
/// retire_column(&mut published, Retiring::Nothing)?;
/// retire_column(&mut published, Retiring::Retired { gone: 2, slots: 3, units: 2 })?;
/// assert_eq!(published, [1, 1, 255]);
/// # Ok::<(), boltraven::Refusal>(())
/// ```
pub fn retire_column(published: &mut Vec<u8>, retired: Retiring) -> Result<(), Refusal> {
    let Retiring::Retired { gone, slots, .. } = retired else {
        return Ok(());
    };
    let before = published.len();
    let mut column = published.clone();
    column.resize(before.max(slots.min(SLOTS_MOST)), NOBODY);
    lent::retire_column(before, gone, slots, &mut column)?;
    column.truncate(slots);
    *published = column;
    Ok(())
}
