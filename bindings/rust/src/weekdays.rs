//! Weekdays, and sets of them.

use std::error::Error;
use std::fmt;
use std::str::FromStr;

/// A day of the week.
///
/// ```
/// use boltraven::{date_of, weekday_of, Weekday};
///
/// assert_eq!(weekday_of(date_of(0)), Weekday::Thursday);
/// assert_eq!(Weekday::ALL[0], Weekday::Monday);
/// assert_eq!("thu".parse(), Ok(Weekday::Thursday));
/// assert_eq!(Weekday::Thursday.to_string(), "thu");
/// ```
#[derive(Debug, Clone, Copy, PartialEq, Eq, Hash, PartialOrd, Ord)]
pub enum Weekday {
    /// The first.
    Monday,
    /// The second.
    Tuesday,
    /// The third.
    Wednesday,
    /// The fourth.
    Thursday,
    /// The fifth.
    Friday,
    /// The sixth.
    Saturday,
    /// The last.
    Sunday,
}

impl Weekday {
    /// The week, from Monday on.
    pub const ALL: [Weekday; 7] = [
        Weekday::Monday,
        Weekday::Tuesday,
        Weekday::Wednesday,
        Weekday::Thursday,
        Weekday::Friday,
        Weekday::Saturday,
        Weekday::Sunday,
    ];

    /// As a job's text has it.
    const fn name(self) -> &'static str {
        ["mon", "tue", "wed", "thu", "fri", "sat", "sun"][self as usize]
    }

    /// The weekday of the library's number, 0 for Monday.
    pub(crate) fn of_number(number: u32) -> Self {
        Self::ALL[number as usize % 7]
    }
}

impl fmt::Display for Weekday {
    fn fmt(&self, f: &mut fmt::Formatter<'_>) -> fmt::Result {
        f.write_str(self.name())
    }
}

impl FromStr for Weekday {
    type Err = NoWeekday;

    fn from_str(word: &str) -> Result<Self, NoWeekday> {
        let named = Self::ALL.into_iter().find(|day| day.name() == word);
        named.ok_or_else(|| NoWeekday(word.to_string()))
    }
}

/// Days of the week on which rotations may begin, at most one of each.
///
/// ```
/// use boltraven::{NoWeekday, Weekday, Weekdays};
///
/// let twice = Weekdays::from([Weekday::Monday, Weekday::Thursday]);
/// assert!(twice.contains(Weekday::Thursday) && !twice.contains(Weekday::Friday));
/// assert_eq!(twice.iter().count(), 2);
/// assert_eq!(twice.mask(), 0b1001);
/// assert_eq!(Weekdays::from_mask(0b1001), Some(twice));
/// assert_eq!(Weekdays::from_mask(128), None);
/// assert_eq!(("mon,thu".parse(), twice.to_string().as_str()), (Ok(twice), "mon,thu"));
/// assert_eq!("none".parse(), Ok(Weekdays::NONE));
/// assert_eq!("mon,noon".parse::<Weekdays>(), Err(NoWeekday("noon".into())));
/// assert_eq!(Weekday::ALL.into_iter().collect::<Weekdays>(), Weekdays::ALL);
/// assert_eq!(Weekdays::from(Weekday::Sunday).with(Weekday::Monday).mask(), 0b100_0001);
/// ```
#[derive(Debug, Clone, Copy, PartialEq, Eq, Hash, Default)]
pub struct Weekdays(u8);

impl Weekdays {
    /// No day.
    pub const NONE: Self = Self(0);

    /// Every day.
    pub const ALL: Self = Self(127);

    /// The days of a mask, bit 0 for Monday; none where a bit past Sunday's is set.
    pub const fn from_mask(mask: u16) -> Option<Self> {
        if mask < 128 {
            Some(Self(mask as u8))
        } else {
            None
        }
    }

    /// As the library takes them: bit 0 for Monday.
    pub const fn mask(self) -> u16 {
        self.0 as u16
    }

    /// These days and another one.
    pub const fn with(self, day: Weekday) -> Self {
        Self(self.0 | 1 << day as u8)
    }

    /// Whether a day is among them.
    pub const fn contains(self, day: Weekday) -> bool {
        self.0 >> day as u8 & 1 == 1
    }

    /// The days, from Monday on.
    pub fn iter(self) -> impl Iterator<Item = Weekday> {
        Weekday::ALL.into_iter().filter(move |&day| self.contains(day))
    }
}

impl FromIterator<Weekday> for Weekdays {
    fn from_iter<I: IntoIterator<Item = Weekday>>(days: I) -> Self {
        days.into_iter().fold(Self::NONE, Self::with)
    }
}

impl<const COUNT: usize> From<[Weekday; COUNT]> for Weekdays {
    fn from(days: [Weekday; COUNT]) -> Self {
        days.into_iter().collect()
    }
}

impl From<Weekday> for Weekdays {
    fn from(day: Weekday) -> Self {
        Self::NONE.with(day)
    }
}

impl fmt::Display for Weekdays {
    fn fmt(&self, f: &mut fmt::Formatter<'_>) -> fmt::Result {
        if *self == Self::NONE {
            return f.write_str("none");
        }
        let names: Vec<&str> = self.iter().map(Weekday::name).collect();
        f.write_str(&names.join(","))
    }
}

impl FromStr for Weekdays {
    type Err = NoWeekday;

    fn from_str(text: &str) -> Result<Self, NoWeekday> {
        match text {
            "none" => Ok(Self::NONE),
            days => days.split(',').map(str::parse::<Weekday>).collect(),
        }
    }
}

/// A word that names no weekday: those are `mon` to `sun`.
///
/// ```
/// let wrong = "noon".parse::<boltraven::Weekday>().unwrap_err();
/// assert_eq!(wrong.to_string(), "'noon' is no weekday of mon tue wed thu fri sat sun");
/// ```
#[derive(Debug, Clone, PartialEq, Eq, Hash)]
pub struct NoWeekday(pub String);

impl fmt::Display for NoWeekday {
    fn fmt(&self, f: &mut fmt::Formatter<'_>) -> fmt::Result {
        write!(f, "'{}' is no weekday of", self.0)?;
        Weekday::ALL.iter().try_for_each(|day| write!(f, " {day}"))
    }
}

impl Error for NoWeekday {}
