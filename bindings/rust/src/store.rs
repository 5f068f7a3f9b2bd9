//! A store of settings in a lent area.

use crate::lent::{self, Kept};
use crate::refusal::Refusal;
use crate::settings::{with_settings, Numbers, Settings};

/// What a store keeps under a number.
#[derive(Debug, Clone, Copy, PartialEq, Eq, Hash)]
pub enum Entry {
    /// Settings.
    Settings(Settings),
    /// A record of a kind that is newer than this library: it is kept and counted.
    Newer,
}

/// Settings kept in an area of bytes that the caller owns, up to 128, numbered from 1 in order of saving. The caller keeps the area and its
/// used length; whoever opens it again reads what was saved.
///
/// ```
/// use boltraven::{Edition, Entries, Entry, Refusal, Settings, Store};
///
/// let mut area = [0; 40];
/// let mut store = Store::open(&mut area, 0)?;
/// assert_eq!(store.save(Settings::default())?, 1);
/// let second = Settings { edition: Edition::Second, days: 7, ..Settings::default() };
/// assert_eq!(store.save(second)?, 2);
/// let used = store.used();
/// assert_eq!((used, store.count()), (24, 2));
///
/// let store = Store::open(&mut area, used)?;
/// assert_eq!(store.ask(2)?, Entry::Settings(second));
/// assert_eq!(store.ask(3), Err(Refusal::Unknown));
/// let mut entries: Entries = store.iter();
/// assert_eq!(entries.next(), Some((1, Ok(Entry::Settings(Settings::default())))));
/// assert_eq!((entries.len(), entries.next(), entries.next()), (1, Some((2, Ok(Entry::Settings(second)))), None));
/// # Ok::<(), Refusal>(())
/// ```
#[derive(Debug)]
pub struct Store<'a> {
    area: &'a mut [u8],
    used: usize,
    count: usize,
}

impl<'a> Store<'a> {
    /// The store in the first `used` bytes of an area; of none it is empty. Refusals 2, 13.
    pub fn open(area: &'a mut [u8], used: usize) -> Result<Self, Refusal> {
        let count = lent::count_settings(area, used)?;
        Ok(Self { area, used, count })
    }

    /// How many bytes of the area are used: what the caller keeps beside it.
    pub fn used(&self) -> usize {
        self.used
    }

    /// How many records there are.
    pub fn count(&self) -> usize {
        self.count
    }

    /// Saves settings, and answers their number. Refusals 5, 7.
    pub fn save(&mut self, settings: Settings) -> Result<usize, Refusal> {
        let (mut number, mut used) = (0, 0);
        with_settings!(lent::save_settings, [self.area, self.used], settings, &mut number, &mut used)?;
        (self.used, self.count) = (used as usize, number as usize);
        Ok(self.count)
    }

    /// What was saved under a number. Refusals 7, 11.
    pub fn ask(&self, number: usize) -> Result<Entry, Refusal> {
        let mut n = Numbers::default();
        let kept = lent::ask_settings(
            self.area,
            self.used,
            number,
            &mut n.fairness,
            &mut n.lock,
            &mut n.boundary,
            &mut n.edition,
            &mut n.value,
            &mut n.days,
        )?;
        Ok(match kept {
            Kept::Figures => Entry::Settings(n.settings()),
            Kept::Newer => Entry::Newer,
        })
    }

    /// The entries with their numbers, from 1 on.
    pub fn iter(&self) -> Entries<'_> {
        Entries { store: self, next: 1 }
    }
}

/// The entries of a store, each with its number. A record whose figures are outside their limits is a refusal by 7.
#[derive(Debug, Clone)]
pub struct Entries<'a> {
    store: &'a Store<'a>,
    next: usize,
}

impl Iterator for Entries<'_> {
    type Item = (usize, Result<Entry, Refusal>);

    fn next(&mut self) -> Option<Self::Item> {
        let number = self.next;
        if number > self.store.count {
            return None;
        }
        self.next += 1;
        Some((number, self.store.ask(number)))
    }

    fn size_hint(&self) -> (usize, Option<usize>) {
        let left = self.store.count + 1 - self.next;
        (left, Some(left))
    }
}

impl ExactSizeIterator for Entries<'_> {}

impl<'a> IntoIterator for &'a Store<'_> {
    type Item = (usize, Result<Entry, Refusal>);
    type IntoIter = Entries<'a>;

    fn into_iter(self) -> Entries<'a> {
        self.iter()
    }
}
