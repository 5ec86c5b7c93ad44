//! Settled months, dates and day numbers. Which dates there are, which of them are working days and what number each has, the library says.

use std::fmt;

use crate::calls::name_in;
use crate::library;

/// The years of the calendar, and the highest day number.
const YEARS: std::ops::RangeInclusive<u64> = 2020..=2059;
pub const MOST_DAY: u64 = 400;

/// Weekdays 1 to 7.
const WEEKDAYS: [&str; 7] = [
    "Monday",
    "Tuesday",
    "Wednesday",
    "Thursday",
    "Friday",
    "Saturday",
    "Sunday",
];

/// A month, written `2026-10`.
#[derive(Clone, Copy, PartialEq)]
pub struct Month {
    year: u64,
    month: u64,
}

/// A date, written `2026-11-12`.
#[derive(Clone, Copy, PartialEq, PartialOrd)]
pub struct Date {
    year: u64,
    month: u64,
    day: u64,
}

/// The number of a refusal, and which of its cases it is.
pub struct Refused {
    pub number: u64,
    pub why: String,
}

impl fmt::Display for Month {
    fn fmt(&self, out: &mut fmt::Formatter) -> fmt::Result {
        write!(out, "{:04}-{:02}", self.year, self.month)
    }
}

impl fmt::Display for Date {
    fn fmt(&self, out: &mut fmt::Formatter) -> fmt::Result {
        write!(out, "{:04}-{:02}-{:02}", self.year, self.month, self.day)
    }
}

impl fmt::Display for Refused {
    fn fmt(&self, out: &mut fmt::Formatter) -> fmt::Result {
        write!(out, "refused, {}: {}", self.number, self.why)
    }
}

/// The numbers of a word with dashes between them, each of so many digits.
fn dashed<const N: usize>(word: &str, digits: [usize; N]) -> Option<[u64; N]> {
    let parts: Vec<&str> = word.split('-').collect();
    let mut numbers = [0; N];
    if parts.len() != N {
        return None;
    }
    for at in 0..N {
        let plain = parts[at].bytes().all(|byte| byte.is_ascii_digit());
        if !plain || parts[at].len() != digits[at] {
            return None;
        }
        numbers[at] = parts[at].parse().ok()?;
    }
    Some(numbers)
}

impl Date {
    /// A word that is written as a date is; there may be no such date.
    pub fn read(word: &str) -> Option<Date> {
        dashed(word, [4, 2, 2]).map(|[year, month, day]| Date { year, month, day })
    }

    /// Of year x 10,000 + month x 100 + day.
    fn of(number: u64) -> Date {
        Date {
            year: number / 10_000,
            month: number / 100 % 100,
            day: number % 100,
        }
    }

    /// The weekday's name, where there is such a date.
    pub fn weekday(self) -> Option<&'static str> {
        let number = library::weekday(self.year, self.month, self.day);
        (number != 0).then(|| name_in(&WEEKDAYS, number))
    }

    /// With its weekday: `2026-11-12, a Thursday`.
    pub fn whole(self) -> String {
        self.weekday()
            .map_or(self.to_string(), |weekday| format!("{self}, a {weekday}"))
    }
}

impl Month {
    /// A word that is written as a month is; there may be no such month.
    pub fn read(word: &str) -> Option<Month> {
        dashed(word, [4, 2]).map(|[year, month]| Month { year, month })
    }

    fn bare_date(self, day: u64) -> Result<Date, u64> {
        library::date(self.year, self.month, day).map(Date::of)
    }

    /// The month, where the calendar has it.
    pub fn known(self) -> Result<Month, Refused> {
        let why = |number| Refused {
            number,
            why: format!("{self} is no month of 2020 to 2059"),
        };
        self.bare_date(0).map(|_| self).map_err(why)
    }

    /// The first date with this number after the month.
    pub fn date(self, day: u64) -> Result<Date, Refused> {
        self.known()?;
        let why = |number| Refused {
            number,
            why: self.no_date(day),
        };
        self.bare_date(day).map_err(why)
    }

    fn no_date(self, day: u64) -> String {
        let last = (0..=MOST_DAY)
            .rev()
            .find_map(|day| Some((day, self.bare_date(day).ok()?)));
        match last {
            Some((last, date)) if day <= MOST_DAY => format!(
                "day {day} after {self} would lie behind 2059; the last one is day {last}, {date}"
            ),
            _ => format!("day numbers go up to {MOST_DAY}"),
        }
    }

    /// The number of a date after the month.
    pub fn day(self, date: Date) -> Result<u64, Refused> {
        self.known()?;
        let why = |number| Refused {
            number,
            why: self.no_day(date),
        };
        library::day(self.year, self.month, date.year, date.month, date.day).map_err(why)
    }

    fn no_day(self, date: Date) -> String {
        if !YEARS.contains(&date.year) {
            return format!("{date} lies outside 2020 to 2059");
        }
        if date.weekday().is_none() {
            return format!("there is no date {date}");
        }
        match (self.bare_date(0), self.bare_date(MOST_DAY)) {
            (Ok(end), _) if date < end => {
                format!("{date} lies before {end}, the last day of {self}")
            }
            (_, Ok(last)) => format!(
                "{date} would have a number above {MOST_DAY}; day {MOST_DAY} after {self} is {last}"
            ),
            _ => format!("{date} would have a number above {MOST_DAY}"),
        }
    }
}

/// The date of a number, where the month is known and the number has one.
pub fn dated(month: Option<Month>, day: u64) -> Option<Date> {
    month.and_then(|month| month.bare_date(day).ok())
}

/// A day as it is shown: its number, and its date in brackets.
pub fn told(day: u64, date: Option<Date>) -> String {
    date.map_or(day.to_string(), |date| format!("{day} ({date})"))
}

/// A day by its number.
pub fn shown(month: Option<Month>, day: u64) -> String {
    told(day, dated(month, day))
}
