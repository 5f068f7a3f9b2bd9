//! Whether a rota made elsewhere may be used.

use std::fmt;

use crate::assignment::owner_byte;
use crate::lent;
use crate::problem::Problem;
use crate::refusal::Refusal;

/// A rule that a rota made elsewhere must keep, by its number.
///
/// ```
/// use boltraven::Rule;
///
/// assert_eq!((Rule::ALL.len(), Rule::ALL[3], Rule::Cap.number()), (5, Rule::Cap, 4));
/// ```
#[derive(Debug, Clone, Copy, PartialEq, Eq, PartialOrd, Ord, Hash)]
#[repr(u8)]
pub enum Rule {
    /// 1: each owner is known and available.
    Owners = 1,
    /// 2: frozen slots are as published.
    Published = 2,
    /// 3: each unit has one owner.
    Units = 3,
    /// 4: no shift is longer than the cap.
    Cap = 4,
    /// 5: no two shifts of one person are closer than the rest.
    Rest = 5,
}

impl Rule {
    /// Every rule, by its number.
    pub const ALL: [Rule; 5] = [Rule::Owners, Rule::Published, Rule::Units, Rule::Cap, Rule::Rest];

    /// Its number, 1 to 5.
    pub const fn number(self) -> u8 {
        self as u8
    }
}

/// The verdict on a rota made elsewhere.
#[derive(Debug, Clone, Copy, PartialEq, Eq, Hash)]
pub enum Verdict {
    /// It may be used.
    Usable,
    /// The first rule that it breaks, and the lowest slot at which it shows.
    Broken {
        /// The rule.
        rule: Rule,
        /// The slot: of a unit the first that differs from the unit's first, of the cap a shift's first, of the rest the later shift's first.
        slot: usize,
    },
}

impl fmt::Display for Verdict {
    fn fmt(&self, f: &mut fmt::Formatter<'_>) -> fmt::Result {
        let (rule, slot) = match *self {
            Verdict::Usable => return write!(f, "The rota may be used."),
            Verdict::Broken { rule, slot } => (rule, slot),
        };
        match rule {
            Rule::Owners => write!(f, "The owner of slot {slot} is unknown or not available for it."),
            Rule::Published => write!(f, "Slot {slot} is frozen and has another owner than the published one."),
            Rule::Units => write!(f, "Slot {slot} has another owner than the first slot of its unit."),
            Rule::Cap => write!(f, "The shift from slot {slot} on is longer than the cap."),
            Rule::Rest => write!(
                f,
                "The shift from slot {slot} on starts too soon after an earlier one of its owner."
            ),
        }
    }
}

impl Problem {
    /// Whether owners that another tool made may be used: each known and available, frozen slots as published, units with one owner each, no
    /// shift longer in wall-clock minutes than `cap`, and no two shifts of one person closer than `rest`. Both lists have an owner a slot;
    /// the published owners of slots that aren't frozen are not looked at. Refusals 2 (a list shorter than the slots), 7 (a cap of 0, or a
    /// figure above 100,000,000).
    ///
    /// ```
    /// use boltraven::{Person, Problem, Range, Refusal, Rule, Settings, Slot, Verdict};
    ///
    /// // Two hours, a break of half an hour, and an hour; person 0 can do all of it.
    /// let base = [Slot { start: 0, end: 60 }, Slot { start: 60, end: 120 }, Slot { start: 150, end: 210 }];
    /// let people = [Person { capacity: 1.0, prior: 0 }; 2];
    /// let ranges = [Range { person: 0, start: 0, end: 210 }, Range { person: 1, start: 60, end: 120 }];
    /// let mut problem = Problem::build(Settings::default(), &base, &people, &ranges)?;
    /// problem.freeze(0)?;
    /// let published = [Some(0), None, None];
    ///
    /// let theirs = [Some(0), Some(1), Some(0)];
    /// assert_eq!(problem.may_be_used(60, 90, &published, &theirs)?, Verdict::Usable);
    /// let verdict = problem.may_be_used(60, 91, &published, &theirs)?;
    /// assert_eq!(verdict, Verdict::Broken { rule: Rule::Rest, slot: 2 });
    /// assert_eq!(verdict.to_string(), "The shift from slot 2 on starts too soon after an earlier one of its owner.");
    ///
    /// // A shift goes on over the break, which counts.
    /// let one_shift = problem.may_be_used(209, 0, &published, &[Some(0); 3])?;
    /// assert_eq!(one_shift, Verdict::Broken { rule: Rule::Cap, slot: 0 });
    /// assert_eq!(problem.may_be_used(210, 0, &published, &[Some(0); 3])?.to_string(), "The rota may be used.");
    /// assert_eq!(problem.may_be_used(0, 0, &published, &theirs), Err(Refusal::Settings));
    /// # Ok::<(), Refusal>(())
    /// ```
    pub fn may_be_used(&self, cap: u32, rest: u32, published: &[Option<usize>], owners: &[Option<usize>]) -> Result<Verdict, Refusal> {
        let bytes = |list: &[Option<usize>]| -> Vec<u8> { list.iter().take(self.slot_count()).copied().map(owner_byte).collect() };
        let mut slot = 0;
        let broken = lent::may_be_used(
            self.human_count(),
            self.slot_count(),
            self.unit_count(),
            cap,
            rest,
            self.slots().starts(),
            self.slots().ends(),
            self.availability().words(),
            self.units().unit_starts(),
            self.frozen().words(),
            &bytes(published),
            &bytes(owners),
            &mut slot,
        )?;
        Ok(match broken {
            None => Verdict::Usable,
            Some(rule) => Verdict::Broken { rule, slot: slot as usize },
        })
    }
}
