//! A set of slots, by value.

use std::fmt;
use std::marker::PhantomData;

use crate::lent::{self, Held, SET_WORDS, SLOTS_MOST};
use crate::refusal::{checked, Refusal};

/// A set of slots below a length of at most 1,024.
///
/// ```
/// use boltraven::{Refusal, Run, SlotSet};
///
/// let mut set = SlotSet::new(70)?;
/// for slot in 60..70 {
///     set.insert(slot)?;
/// }
/// assert_eq!(set.run_bounds(64), Run::Span { first: 60, last: 69 });
/// assert_eq!(set.run_bounds(5), Run::Hole { first: 0, last: 59 });
/// assert_eq!(set.run_bounds(70), Run::Outside);
/// assert_eq!(set.insert(70), Err(Refusal::Unknown));
/// set.remove(65)?;
/// assert_eq!((set.len(), set.count(), set.is_empty(), set.contains(65)), (70, 9, false, false));
/// assert_eq!((set.next_set(65), set.prev_set(65)), (Some(66), Some(64)));
/// assert_eq!((set.next_unset_after(60), set.prev_unset_before(69)), (Some(65), Some(65)));
/// assert_eq!(set.words()[1], 0b11_1101);
///
/// set.remove_stretch(60..68)?;
/// set.insert_stretch(0..2)?;
/// assert_eq!(set, SlotSet::from_members(70, [0, 1, 68, 69])?);
/// assert_eq!(SlotSet::from_row(set.words(), 1, 0, 70)?, set);
/// assert_eq!(SlotSet::new(1025).err(), Some(Refusal::Count));
/// # Ok::<(), Refusal>(())
/// ```
#[derive(Clone, PartialEq, Eq, Hash)]
pub struct SlotSet {
    words: [u64; SET_WORDS],
    len: usize,
}

impl SlotSet {
    /// The empty set of a length. Refusal 1.
    pub fn new(len: usize) -> Result<Self, Refusal> {
        let words = [0; SET_WORDS];
        lent::set_count(len, &words)?;
        Ok(Self { words, len })
    }

    /// The set of a length with these slots. Refusals 1, 11.
    pub fn from_members(len: usize, members: impl IntoIterator<Item = usize>) -> Result<Self, Refusal> {
        let mut set = Self::new(len)?;
        members.into_iter().try_for_each(|slot| set.insert(slot))?;
        Ok(set)
    }

    /// A person's set out of everybody's words. Refusals 1, 2, 11.
    pub fn from_row(words: &[u64], people: usize, person: usize, len: usize) -> Result<Self, Refusal> {
        lent::count(people, len, words, person)?;
        let mut set = Self::new(len)?;
        let (mut at, mut cursor) = (0, 0);
        while lent::next_member(people, len, words, person, cursor as usize, &mut at, &mut cursor)? {
            set.insert(at as usize)?;
        }
        Ok(set)
    }

    /// The length: every member is below it.
    pub fn len(&self) -> usize {
        self.len
    }

    /// The words, bit i mod 64 of word i div 64 for slot i.
    pub fn words(&self) -> &[u64; SET_WORDS] {
        &self.words
    }

    pub(crate) fn words_mut(&mut self) -> &mut [u64; SET_WORDS] {
        &mut self.words
    }

    /// Puts other words in its place, of which none has a bit at or past the length.
    pub(crate) fn set_to(&mut self, words: [u64; SET_WORDS], len: usize) {
        (self.words, self.len) = (words, len);
    }

    /// Whether a slot is a member; past the length none is.
    pub fn contains(&self, slot: usize) -> bool {
        checked(lent::set_contains(self.len, &self.words, slot))
    }

    /// Puts a slot in. Refusal 11.
    pub fn insert(&mut self, slot: usize) -> Result<(), Refusal> {
        lent::insert(1, self.len, &mut self.words, 0, slot)
    }

    /// Takes a slot out. Refusal 11.
    pub fn remove(&mut self, slot: usize) -> Result<(), Refusal> {
        lent::remove(1, self.len, &mut self.words, 0, slot)
    }

    /// Puts in every slot of a stretch. Refusal 11.
    pub fn insert_stretch(&mut self, slots: std::ops::Range<usize>) -> Result<(), Refusal> {
        lent::put_stretch(1, self.len, &mut self.words, 0, slots.start, slots.end, true)
    }

    /// Takes out every slot of a stretch. Refusal 11.
    pub fn remove_stretch(&mut self, slots: std::ops::Range<usize>) -> Result<(), Refusal> {
        lent::put_stretch(1, self.len, &mut self.words, 0, slots.start, slots.end, false)
    }

    /// Whether there is no member.
    pub fn is_empty(&self) -> bool {
        checked(lent::set_is_empty(self.len, &self.words))
    }

    /// How many members there are.
    pub fn count(&self) -> usize {
        checked(lent::set_count(self.len, &self.words))
    }

    /// The first member at or after a slot.
    pub fn next_set(&self, from: usize) -> Option<usize> {
        checked(lent::set_next_set(self.len, &self.words, from))
    }

    /// The last member at or before a slot.
    pub fn prev_set(&self, from: usize) -> Option<usize> {
        checked(lent::set_prev_set(self.len, &self.words, from))
    }

    /// The first slot after `from`, below the length, that is no member.
    pub fn next_unset_after(&self, from: usize) -> Option<usize> {
        checked(lent::set_next_unset_after(self.len, &self.words, from))
    }

    /// The last slot before `from`, below the length, that is no member.
    pub fn prev_unset_before(&self, from: usize) -> Option<usize> {
        checked(lent::set_prev_unset_before(self.len, &self.words, from))
    }

    /// The run or the hole that holds a slot.
    pub fn run_bounds(&self, slot: usize) -> Run {
        let (mut first, mut last) = (0, 0);
        let held = checked(lent::set_run_bounds(self.len, &self.words, slot, &mut first, &mut last));
        let (first, last) = (first as usize, last as usize);
        match held {
            Held::Run => Run::Span { first, last },
            Held::Hole => Run::Hole { first, last },
            Held::Outside => Run::Outside,
        }
    }

    /// The runs, ascending, each as its first and its last slot.
    pub fn runs(&self) -> Runs<'_> {
        let (mut counts, mut firsts, mut lasts) = ([0], [0; SLOTS_MOST], [0; SLOTS_MOST]);
        let end = checked(lent::every_run(1, self.len, &self.words, &mut counts, &mut firsts, &mut lasts));
        Runs {
            firsts,
            lasts,
            at: 0,
            end,
            set: PhantomData,
        }
    }

    /// The members, ascending.
    pub fn iter(&self) -> Members<'_> {
        Members { set: self, cursor: 0 }
    }
}

impl fmt::Debug for SlotSet {
    fn fmt(&self, f: &mut fmt::Formatter<'_>) -> fmt::Result {
        write!(f, "SlotSet({}) ", self.len)?;
        f.debug_set().entries(self).finish()
    }
}

impl<'a> IntoIterator for &'a SlotSet {
    type Item = usize;
    type IntoIter = Members<'a>;

    fn into_iter(self) -> Members<'a> {
        self.iter()
    }
}

/// What holds a slot of a set, by its first and its last slot, both in it.
///
/// A planner who clicks on slot after slot, each behind what the last one showed, sees every slot once:
///
/// ```
/// use boltraven::{Run, SlotSet};
///
/// let set = SlotSet::from_members(9, [2, 3, 8])?;
/// let (mut seen, mut slot) = (Vec::new(), 0);
/// while let Run::Span { first, last } | Run::Hole { first, last } = set.run_bounds(slot) {
///     seen.extend(first..=last);
///     slot = last + 1;
/// }
/// assert_eq!(seen, [0, 1, 2, 3, 4, 5, 6, 7, 8]);
/// # Ok::<(), boltraven::Refusal>(())
/// ```
#[derive(Debug, Clone, Copy, PartialEq, Eq, Hash)]
pub enum Run {
    /// The longest stretch of members around the slot.
    Span {
        /// Its first slot.
        first: usize,
        /// Its last slot.
        last: usize,
    },
    /// The longest stretch of slots below the length around it that are no members.
    Hole {
        /// Its first slot.
        first: usize,
        /// Its last slot.
        last: usize,
    },
    /// Neither: the slot is at or past the length.
    Outside,
}

/// A reader of a set's runs, which were all listed in one call.
///
/// ```
/// use boltraven::{Runs, SlotSet};
///
/// let set = SlotSet::from_members(9, [0, 1, 8])?;
/// let runs: Runs = set.runs();
/// assert_eq!(runs.collect::<Vec<_>>(), [(0, 1), (8, 8)]);
/// # Ok::<(), boltraven::Refusal>(())
/// ```
#[derive(Debug, Clone)]
pub struct Runs<'a> {
    firsts: [u16; SLOTS_MOST],
    lasts: [u16; SLOTS_MOST],
    at: usize,
    end: usize,
    set: PhantomData<&'a SlotSet>,
}

impl Iterator for Runs<'_> {
    type Item = (usize, usize);

    fn next(&mut self) -> Option<(usize, usize)> {
        let at = self.at;
        (at < self.end).then(|| {
            self.at += 1;
            (usize::from(self.firsts[at]), usize::from(self.lasts[at]))
        })
    }
}

/// A reader of a set's members.
///
/// ```
/// use boltraven::{Members, SlotSet};
///
/// let set = SlotSet::from_members(9, [8, 1])?;
/// let members: Members = set.iter();
/// assert_eq!(members.collect::<Vec<_>>(), [1, 8]);
/// # Ok::<(), boltraven::Refusal>(())
/// ```
#[derive(Debug, Clone)]
pub struct Members<'a> {
    set: &'a SlotSet,
    cursor: u64,
}

impl Iterator for Members<'_> {
    type Item = usize;

    fn next(&mut self) -> Option<usize> {
        let set = self.set;
        let mut at = 0;
        let from = self.cursor as usize;
        let is_member = checked(lent::set_next_member(set.len, &set.words, from, &mut at, &mut self.cursor));
        is_member.then_some(at as usize)
    }
}
