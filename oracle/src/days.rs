//! The calendar: the date of a minute and its weekday, against chrono.

use chrono::{Datelike, Duration, NaiveDate, NaiveDateTime};

use crate::call::{Arg, Question};
use crate::limits::MINUTES_MOST;
use crate::seed::Seed;

/// The instant of a minute: minute 0 is 1970-01-01 00:00.
pub fn instant(minute: i64) -> NaiveDateTime {
    epoch() + Duration::minutes(minute)
}

/// The minute of an instant.
pub fn minute_of(instant: NaiveDateTime) -> i64 {
    (instant - epoch()).num_minutes()
}

fn epoch() -> NaiveDateTime {
    NaiveDate::from_ymd_opt(1970, 1, 1)
        .and_then(|day| day.and_hms_opt(0, 0, 0))
        .expect("it is a date")
}

/// What chrono says of a minute: its date, in days from 1970-01-01 on, and its weekday, 0 for Monday.
fn date_and_weekday(minute: i64) -> (i64, i64) {
    let date = instant(minute).date();
    ((date - epoch().date()).num_days(), i64::from(date.weekday().num_days_from_monday()))
}

/// The first, the second and the last minute of a day of the range.
fn minutes_of_day(day: i64) -> impl Iterator<Item = i64> {
    let minutes = [0, 1, 1439].map(|within| day * 1440 + within);
    minutes.into_iter().filter(|&minute| minute <= MINUTES_MOST)
}

/// The library's date and weekday of a day.
fn day_questions(day: i64) -> Vec<Question> {
    let question = |function, argument: i64, due: i64| Question::number(function, vec![Arg::Number(argument as u64)], due as u64);
    let mut asked: Vec<Question> = minutes_of_day(day)
        .map(|minute| question("boltraven_date_of", minute, date_and_weekday(minute).0))
        .collect();
    let (date, weekday) = date_and_weekday(day * 1440);
    asked.push(question("boltraven_weekday_of", date, weekday));
    asked
}

/// Any day, by its seed.
pub fn questions(case_seed: u64) -> Vec<Question> {
    day_questions(Seed::new(case_seed).below(MINUTES_MOST as u64 / 1440 + 1) as i64)
}

/// Every day from minute 0 to 100,000,000.
pub fn every_day() -> Vec<Question> {
    (0..=MINUTES_MOST / 1440).flat_map(day_questions).collect()
}

/// The same by the rule itself, with no library: minute div 1440, and that plus 3 modulo 7. Answers how many minutes agree, or the first
/// that does not.
pub fn compare_rule() -> Result<u64, i64> {
    let mut agreed = 0;
    for minute in (0..=MINUTES_MOST / 1440).flat_map(minutes_of_day) {
        let day = minute / 1440;
        if date_and_weekday(minute) != (day, (day + 3) % 7) {
            return Err(minute);
        }
        agreed += 1;
    }
    Ok(agreed)
}

#[cfg(test)]
mod tests {
    #[test]
    fn every_day_agrees() {
        assert_eq!(super::compare_rule(), Ok(208_334));
    }
}
