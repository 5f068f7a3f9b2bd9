//! A job out of the readable text that `tools/job` takes.

use std::error::Error;
use std::fmt;
use std::str::{FromStr, SplitWhitespace};

use crate::draw::Draw;
use crate::job::Job;
use crate::settings::{Boundary, Edition, Fairness, Settings};
use crate::slots::{Range, Slot};
use crate::targets::Person;
use crate::weekdays::Weekdays;

/// A text that is no job's: the line, counted from 1, and what is wrong with it.
///
/// ```
/// use boltraven::{Job, JobTextError};
///
/// let wrong = "settings fairness 0 lock 0 every 1 days 1\nbase 0 noon".parse::<Job>().unwrap_err();
/// assert_eq!(wrong, JobTextError { line: 2, what: "a time is to be a number, not 'noon'".into() });
/// assert_eq!(wrong.to_string(), "line 2: a time is to be a number, not 'noon'");
/// ```
#[derive(Debug, Clone, PartialEq, Eq, Hash)]
pub struct JobTextError {
    /// The line.
    pub line: usize,
    /// What is wrong with it.
    pub what: String,
}

impl fmt::Display for JobTextError {
    fn fmt(&self, f: &mut fmt::Formatter<'_>) -> fmt::Result {
        write!(f, "line {}: {}", self.line, self.what)
    }
}

impl Error for JobTextError {}

/// The records in the file's order.
const ORDER: [&str; 7] = ["settings", "base", "person", "range", "freeze", "owner", "draw"];

/// Times are minutes, or dates like 1970-01-04T22:00; what follows `#` is a comment. Counts and sense are not judged here: a run does that.
///
/// ```
/// use boltraven::Job;
///
/// let job: Job = "
///     settings fairness 0 lock 0 every 1 days 1
///     base 1970-01-01T00:00 1970-01-01T02:00   # two hours
///     person 1 0
///     person 1 0
///     range 0 0 120
///     range 1 60 180
///     owner 0 0
///     owner 1 0
///     draw 0 1 1
/// "
/// .parse()?;
/// assert_eq!(job.run()?, "S 0 0 60 0\nS 1 60 120 1\nP 0 60 80\nP 1 60 40\nD 0 A\nU 0\n");
/// # Ok::<(), Box<dyn std::error::Error>>(())
/// ```
impl FromStr for Job {
    type Err = JobTextError;

    fn from_str(text: &str) -> Result<Self, JobTextError> {
        let mut job = Job::default();
        let mut reached = None;
        let text = text.strip_prefix('\u{feff}').unwrap_or(text);
        for (at, line) in text.lines().enumerate() {
            let said = line.split('#').next().unwrap_or_default();
            add_line(&mut job, &mut reached, said).map_err(|what| JobTextError { line: at + 1, what })?;
        }
        match reached {
            Some(_) => Ok(job),
            None => Err(JobTextError {
                line: 1,
                what: "a job begins with its settings".into(),
            }),
        }
    }
}

/// The same as [`str::parse`].
///
/// ```
/// use boltraven::Job;
///
/// assert_eq!(Job::try_from("settings fairness 1 lock 0 every 1 days 1")?.base, []);
/// # Ok::<(), boltraven::JobTextError>(())
/// ```
impl TryFrom<&str> for Job {
    type Error = JobTextError;

    fn try_from(text: &str) -> Result<Self, JobTextError> {
        text.parse()
    }
}

/// Adds what a line says; `reached` is the place in the order that the lines before it reached.
fn add_line(job: &mut Job, reached: &mut Option<usize>, line: &str) -> Result<(), String> {
    let mut words = Words(line.split_whitespace());
    let Some(kind) = words.0.next() else {
        return Ok(());
    };
    let place = ORDER.iter().position(|&name| name == kind);
    let place = place.ok_or_else(|| format!("no record of a job is called '{kind}'"))?;
    match *reached {
        None if place > 0 => return Err("a job begins with its settings".into()),
        Some(before) if place < before => return Err(format!("'{kind}' stands after '{}'", ORDER[before])),
        Some(before) if place == before && (kind == "settings" || kind == "freeze") => return Err(format!("'{kind}' is given twice")),
        _ => *reached = Some(place),
    }
    add_record(job, kind, &mut words)?;
    match words.0.next() {
        None => Ok(()),
        Some(word) => Err(format!("'{word}' is too much")),
    }
}

fn add_record(job: &mut Job, kind: &str, words: &mut Words) -> Result<(), String> {
    match kind {
        "settings" => job.settings = words.settings()?,
        "base" => job.base.push(Slot {
            start: words.time()?,
            end: words.time()?,
        }),
        "person" => job.people.push(Person {
            capacity: words.capacity()?,
            prior: words.number("prior minutes")?,
        }),
        "range" => job.ranges.push(Range {
            person: words.narrow("a person")?,
            start: words.time()?,
            end: words.time()?,
        }),
        "freeze" => job.freeze = Some(words.time()?),
        "owner" => job.owners.push((words.narrow("a slot")?, words.owner()?)),
        _ => job.draws.push(Draw {
            draw: words.number("a draw's number")?,
            first: words.number("a draw's number")?,
            second: words.number("a draw's number")?,
        }),
    }
    Ok(())
}

/// The words of a line.
struct Words<'a>(SplitWhitespace<'a>);

/// A number, decimal or hexadecimal.
fn parsed<N: TryFrom<u64>>(word: &str, what: &str) -> Result<N, String> {
    let read = match word.strip_prefix("0x") {
        Some(digits) => u64::from_str_radix(digits, 16),
        None => word.parse(),
    };
    let number = read.map_err(|_| format!("{what} is to be a number, not '{word}'"))?;
    N::try_from(number).map_err(|_| format!("{what} is too large: {word}"))
}

impl<'a> Words<'a> {
    fn word(&mut self, what: &str) -> Result<&'a str, String> {
        self.0.next().ok_or_else(|| format!("{what} is missing"))
    }

    fn number<N: TryFrom<u64>>(&mut self, what: &str) -> Result<N, String> {
        parsed(self.word(what)?, what)
    }

    /// A number of the file's two bytes.
    fn narrow(&mut self, what: &str) -> Result<usize, String> {
        self.number::<u16>(what).map(usize::from)
    }

    fn time(&mut self) -> Result<u32, String> {
        let word = self.word("a time")?;
        match word.split_once('T') {
            None => parsed(word, "a time"),
            Some((date, clock)) => minutes(date, clock).ok_or_else(|| format!("'{word}' is no date like 1970-01-04T22:00")),
        }
    }

    fn capacity(&mut self) -> Result<f64, String> {
        match self.word("a capacity")? {
            "bits" => self.number("the pattern").map(f64::from_bits),
            word => word.parse().map_err(|_| format!("a capacity is to be a number, not '{word}'")),
        }
    }

    fn owner(&mut self) -> Result<Option<usize>, String> {
        match self.word("an owner")? {
            "-" => Ok(None),
            word => parsed::<u16>(word, "an owner").map(|person| (person != 255).then_some(usize::from(person))),
        }
    }

    /// Settings, as pairs of a name and a value.
    fn settings(&mut self) -> Result<Settings, String> {
        let mut given = Given::default();
        while let Some(name) = self.0.next() {
            match name {
                "fairness" => once(&mut given.fairness, name, self.flag(name)?)?,
                "lock" => once(&mut given.lock, name, self.flag(name)?)?,
                "every" => once(&mut given.boundary, "every or weekdays", Boundary::EverySlots(self.number(name)?))?,
                "weekdays" => once(&mut given.boundary, "every or weekdays", Boundary::DayOfWeek(self.weekdays()?))?,
                "days" => once(&mut given.days, name, self.number(name)?)?,
                "edition" => once(&mut given.edition, name, self.edition()?)?,
                _ => return Err(format!("settings have no '{name}'")),
            }
        }
        let lacking = |name: &str| format!("settings lack {name}");
        Ok(Settings {
            fairness: match given.fairness.ok_or_else(|| lacking("fairness"))? {
                false => Fairness::Capacity,
                true => Fairness::Equal,
            },
            lock: given.lock.ok_or_else(|| lacking("lock"))?,
            boundary: given.boundary.ok_or_else(|| lacking("every or weekdays"))?,
            edition: given.edition.unwrap_or_default(),
            days: given.days.ok_or_else(|| lacking("days"))?,
        })
    }

    /// 0 or 1.
    fn flag(&mut self, what: &str) -> Result<bool, String> {
        match self.word(what)? {
            "0" => Ok(false),
            "1" => Ok(true),
            word => Err(format!("{what} is to be 0 or 1, not '{word}'")),
        }
    }

    /// 1 or 2.
    fn edition(&mut self) -> Result<Edition, String> {
        match self.word("edition")? {
            "1" => Ok(Edition::First),
            "2" => Ok(Edition::Second),
            word => Err(format!("edition is to be 1 or 2, not '{word}'")),
        }
    }

    /// Names, or a mask.
    fn weekdays(&mut self) -> Result<Weekdays, String> {
        let word = self.word("the weekdays")?;
        if word.starts_with(|first: char| first.is_ascii_digit()) {
            let mask = parsed(word, "the weekdays")?;
            return Weekdays::from_mask(mask).ok_or_else(|| format!("the weekdays are to be below 128, not {word}"));
        }
        word.parse().map_err(|error: crate::weekdays::NoWeekday| error.to_string())
    }
}

/// Settings as far as they are given.
#[derive(Default)]
struct Given {
    fairness: Option<bool>,
    lock: Option<bool>,
    boundary: Option<Boundary>,
    days: Option<u16>,
    edition: Option<Edition>,
}

fn once<T>(place: &mut Option<T>, name: &str, value: T) -> Result<(), String> {
    match place.replace(value) {
        None => Ok(()),
        Some(_) => Err(format!("{name} is given twice")),
    }
}

/// Minutes from 1970-01-01 00:00 to a date like 1970-01-04 and a time of day like 22:00.
fn minutes(date: &str, clock: &str) -> Option<u32> {
    let figures = |text: &str, width: usize| -> Option<u32> {
        let is_plain = text.len() == width && text.bytes().all(|byte| byte.is_ascii_digit());
        is_plain.then(|| text.parse().ok()).flatten()
    };
    let mut parts = date.split('-');
    let (year, month, day) = (figures(parts.next()?, 4)?, figures(parts.next()?, 2)?, figures(parts.next()?, 2)?);
    let (hour, minute) = clock.split_once(':')?;
    let (hour, minute) = (figures(hour, 2)?, figures(minute, 2)?);
    let is_leap = |year: u32| year % 4 == 0 && (year % 100 != 0 || year % 400 == 0);
    let month_days = |month: u32| match month {
        2 => 28 + u32::from(is_leap(year)),
        4 | 6 | 9 | 11 => 30,
        _ => 31,
    };
    let is_date = parts.next().is_none() && year >= 1970 && (1..=12).contains(&month) && (1..=month_days(month)).contains(&day);
    if !is_date || hour > 23 || minute > 59 {
        return None;
    }
    let years: u32 = (1970..year).map(|year| 365 + u32::from(is_leap(year))).sum();
    let days = years + (1..month).map(month_days).sum::<u32>() + day - 1;
    days.checked_mul(1440)?.checked_add(hour * 60 + minute)
}
