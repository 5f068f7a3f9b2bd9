//! The published owners and the draft's side by side.

use crate::lent;
use crate::refusal::{checked, Refusal};
use crate::set::SlotSet;

/// A stretch of one of two owner columns, borrowed from it: an owner byte a slot, 255 for nobody.
///
/// ```
/// use boltraven::Stretch;
///
/// let column = [3, 4, 255];
/// let part = Stretch::Published(&column[1..]);
/// assert!(part.is_published());
/// assert_eq!(part.owners(), [4, 255]);
/// ```
#[derive(Debug, Clone, Copy, PartialEq, Eq, Hash)]
pub enum Stretch<'a> {
    /// Frozen slots, of the published column.
    Published(&'a [u8]),
    /// Slots that aren't frozen, of the draft.
    Draft(&'a [u8]),
}

impl<'a> Stretch<'a> {
    /// The owners of its slots, where they stand.
    pub fn owners(self) -> &'a [u8] {
        match self {
            Stretch::Published(owners) | Stretch::Draft(owners) => owners,
        }
    }

    /// Whether it is of the published column.
    pub fn is_published(self) -> bool {
        matches!(self, Stretch::Published(_))
    }
}

/// Two owner columns over the same slots: a manager reads the published one where a slot is frozen, the draft elsewhere.
///
/// ```
/// use boltraven::{publish, Columns, Refusal, SlotSet, Stretch};
///
/// // Slots 0, 1 and 4 of six are frozen.
/// let frozen = SlotSet::from_members(6, [0, 1, 4])?;
/// let (mut published, draft) = ([0, 1, 2, 3, 0, 1], [9, 9, 1, 1, 255, 9]);
/// let columns = Columns::new(&published, &draft, &frozen)?;
/// assert_eq!(columns.stretch(1)?, Stretch::Published(&[1]));
/// assert_eq!(columns.stretch(2)?, Stretch::Draft(&[1, 1]));
/// assert!(std::ptr::eq(columns.stretch(2)?.owners(), &draft[2..4]));
/// assert_eq!(columns.stretch(6), Err(Refusal::Unknown));
///
/// // The list screen walks them by such stretches, and shows what publishing makes.
/// let shown: Vec<u8> = columns.stretches().flat_map(Stretch::owners).copied().collect();
/// publish(&draft, &frozen, &mut published)?;
/// assert_eq!((shown.as_slice(), published), (&[0, 1, 1, 1, 0, 9][..], [0, 1, 1, 1, 0, 9]));
///
/// // A column that is longer than the other is refused.
/// assert_eq!(Columns::new(&published, &draft[..5], &frozen).err(), Some(Refusal::ShortBuffer));
/// # Ok::<(), Refusal>(())
/// ```
#[derive(Debug, Clone, Copy)]
pub struct Columns<'a> {
    published: &'a [u8],
    draft: &'a [u8],
    frozen: &'a SlotSet,
}

impl<'a> Columns<'a> {
    /// Both columns over the slots of the set of frozen ones. Refusals 1 (no slots), 2 (columns of unequal length, or shorter than that).
    pub fn new(published: &'a [u8], draft: &'a [u8], frozen: &'a SlotSet) -> Result<Self, Refusal> {
        let columns = Self { published, draft, frozen };
        columns.stretch(0).map(|_| columns)
    }

    /// The stretch from a slot up to the next change between frozen and not frozen. Refusal 11.
    pub fn stretch(self, slot: usize) -> Result<Stretch<'a>, Refusal> {
        let (slots, words) = (self.frozen.len(), self.frozen.words());
        let mut length = 0;
        let is_published = lent::stretch(slots, self.published, self.draft, words, slot, &mut length)?;
        let part = slot..slot + length as usize;
        Ok(if is_published {
            Stretch::Published(&self.published[part])
        } else {
            Stretch::Draft(&self.draft[part])
        })
    }

    /// A walk by such stretches from slot 0 on, which shows each slot once.
    pub fn stretches(self) -> Stretches<'a> {
        Stretches { columns: self, at: 0 }
    }
}

/// A walk over two columns, stretch by stretch.
///
/// ```
/// use boltraven::{Columns, SlotSet, Stretches};
///
/// let frozen = SlotSet::from_members(3, [0])?;
/// let walk: Stretches = Columns::new(&[7, 7, 7], &[1, 2, 3], &frozen)?.stretches();
/// assert_eq!(walk.map(|part| part.owners().to_vec()).collect::<Vec<_>>(), [vec![7], vec![2, 3]]);
/// # Ok::<(), boltraven::Refusal>(())
/// ```
#[derive(Debug, Clone)]
pub struct Stretches<'a> {
    columns: Columns<'a>,
    at: usize,
}

impl<'a> Iterator for Stretches<'a> {
    type Item = Stretch<'a>;

    fn next(&mut self) -> Option<Stretch<'a>> {
        if self.at == self.columns.frozen.len() {
            return None;
        }
        let part = checked(self.columns.stretch(self.at));
        self.at += part.owners().len();
        Some(part)
    }
}

/// Publishing: slots that aren't frozen get the draft's owners, frozen ones keep theirs. Refusals 1 (no slots), 2 (columns of unequal length,
/// or shorter than the set of frozen slots). [`Columns`] has an example.
///
/// ```
/// let frozen = boltraven::SlotSet::from_members(2, [1])?;
/// let mut published = [0, 0];
/// boltraven::publish(&[5, 5], &frozen, &mut published)?;
/// assert_eq!(published, [5, 0]);
/// # Ok::<(), boltraven::Refusal>(())
/// ```
pub fn publish(draft: &[u8], frozen: &SlotSet, published: &mut [u8]) -> Result<(), Refusal> {
    lent::publish(frozen.len(), draft, frozen.words(), published)
}
