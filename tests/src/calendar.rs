//! The calendar of document 02, Change 1: the working days of 2020 to 2059, and the numbers of dates after a settled
//! month. Weekdays are by Zeller's rule, Easter by the anonymous Gregorian computation; dates are walked day by day.

use std::fmt;
use std::ops::RangeInclusive;
use std::sync::OnceLock;

/// The years that have dates.
pub const YEARS: RangeInclusive<u64> = 2020..=2059;

/// Largest day number.
pub const MOST: u64 = 400;

/// The answer where there is no number or no date.
pub const REFUSAL: u64 = 36;

/// Days off on the same date in every year: public holidays, 24 and 31 December.
const EVERY_YEAR: [(u64, u64); 13] = [
    (1, 1),
    (1, 6),
    (3, 8),
    (5, 1),
    (8, 15),
    (9, 20),
    (10, 3),
    (10, 31),
    (11, 1),
    (12, 24),
    (12, 25),
    (12, 26),
    (12, 31),
];

/// Years in which 8 May is a public holiday.
const EIGHTH_OF_MAY: [u64; 2] = [2020, 2025];

/// Holidays so many days after Easter: Easter Monday, Easter + 39, + 50 and + 60.
const AFTER_EASTER: [u64; 4] = [1, 39, 50, 60];

const WEDNESDAY: u64 = 3;
const FRIDAY: u64 = 5;

/// Year and month, or any two numbers.
#[derive(Clone, Copy, Debug, PartialEq, Eq, PartialOrd, Ord)]
pub struct Month(pub u64, pub u64);

/// Year, month and day, or any three numbers.
#[derive(Clone, Copy, Debug, PartialEq, Eq, PartialOrd, Ord)]
pub struct Date(pub u64, pub u64, pub u64);

impl fmt::Display for Month {
    fn fmt(&self, f: &mut fmt::Formatter) -> fmt::Result {
        write!(f, "{}-{:02}", self.0, self.1)
    }
}

impl fmt::Display for Date {
    fn fmt(&self, f: &mut fmt::Formatter) -> fmt::Result {
        write!(f, "{}-{:02}-{:02}", self.0, self.1, self.2)
    }
}

fn leap(year: u64) -> bool {
    match (year % 4, year % 100, year % 400) {
        (_, _, 0) => true,
        (_, 0, _) => false,
        (rest, ..) => rest == 0,
    }
}

fn length(Month(year, month): Month) -> u64 {
    match month {
        4 | 6 | 9 | 11 => 30,
        2 if leap(year) => 29,
        2 => 28,
        _ => 31,
    }
}

/// Whether the month lies in the years.
fn month_exists(Month(year, month): Month) -> bool {
    YEARS.contains(&year) && (1..=12).contains(&month)
}

/// Whether the date exists and lies in the years.
pub fn exists(Date(year, month, day): Date) -> bool {
    let month = Month(year, month);
    month_exists(month) && (1..=length(month)).contains(&day)
}

/// The last day of a month of the years.
pub fn last_day(month: Month) -> Option<Date> {
    month_exists(month).then(|| Date(month.0, month.1, length(month)))
}

/// The date after one of the years; after the last it is 1 January 2060.
pub fn next(Date(year, month, day): Date) -> Date {
    let same_year = [Date(year, month, day + 1), Date(year, month + 1, 1)];
    let found = same_year.into_iter().find(|&date| exists(date));
    found.unwrap_or(Date(year + 1, 1, 1))
}

/// The date so many days after another.
fn after(date: Date, days: u64) -> Date {
    (0..days).fold(date, |date, _| next(date))
}

/// 1 for Monday to 7 for Sunday, by Zeller's rule; 0 where the date does not exist.
pub fn weekday(date: Date) -> u64 {
    if !exists(date) {
        return 0;
    }
    let Date(year, month, day) = date;
    let (year, month) = match month {
        1 | 2 => (year - 1, month + 12),
        _ => (year, month),
    };
    let (century, rest) = (year / 100, year % 100);
    let from_saturday =
        (day + 13 * (month + 1) / 5 + rest + rest / 4 + century / 4 + 5 * century) % 7;
    (from_saturday + 5) % 7 + 1
}

/// Easter Sunday, by the anonymous Gregorian computation.
pub fn easter(year: u64) -> Date {
    let (a, b, c) = (year % 19, year / 100, year % 100);
    let (d, e) = (b / 4, b % 4);
    let f = (b + 8) / 25;
    let g = (b - f + 1) / 3;
    let h = (19 * a + b - d - g + 15) % 30;
    let (i, k) = (c / 4, c % 4);
    let l = (32 + 2 * e + 2 * i - h - k) % 7;
    let m = (a + 11 * h + 22 * l) / 451;
    let n = h + l + 114 - 7 * m;
    Date(year, n / 31, n % 31 + 1)
}

/// The last Wednesday before 23 November.
pub fn wednesday_of_november(year: u64) -> Date {
    let before = (1..23).rev().map(|day| Date(year, 11, day));
    let mut wednesdays = before.filter(|&date| weekday(date) == WEDNESDAY);
    wednesdays.next().expect("a Wednesday")
}

/// Whether a date is a public holiday of any federal state, or 24 or 31 December.
fn holiday(date: Date) -> bool {
    let Date(year, month, day) = date;
    let easter = easter(year);
    EVERY_YEAR.contains(&(month, day))
        || (EIGHTH_OF_MAY.contains(&year) && (month, day) == (5, 8))
        // Good Friday
        || after(date, 2) == easter
        || AFTER_EASTER.iter().any(|&days| after(easter, days) == date)
        || date == wednesday_of_november(year)
}

/// Whether a date exists and is a working day.
pub fn working(date: Date) -> bool {
    exists(date) && weekday(date) <= FRIDAY && !holiday(date)
}

/// A date, and the working days from the first date up to and including it.
struct Day {
    date: Date,
    worked: u64,
}

/// Every date of the years in its order.
fn days() -> &'static [Day] {
    static DAYS: OnceLock<Vec<Day>> = OnceLock::new();
    DAYS.get_or_init(|| {
        let (mut days, mut worked) = (Vec::new(), 0);
        let mut date = Date(*YEARS.start(), 1, 1);
        while exists(date) {
            worked += u64::from(working(date));
            days.push(Day { date, worked });
            date = next(date);
        }
        days
    })
}

/// Every date of the years in its order.
pub fn dates() -> impl Iterator<Item = Date> {
    days().iter().map(|day| day.date)
}

/// Every month of the years in its order.
pub fn months() -> impl Iterator<Item = Month> {
    YEARS.flat_map(|year| (1..=12).map(move |month| Month(year, month)))
}

/// The dates from one on.
fn days_from(date: Date) -> Option<&'static [Day]> {
    let place = days().binary_search_by_key(&date, |day| day.date).ok()?;
    Some(&days()[place..])
}

/// The dates from the settled month's last day on.
fn days_of(settled: Month) -> Option<&'static [Day]> {
    days_from(last_day(settled)?)
}

/// The working days after the settled month up to and including a date; none for 36.
pub fn number(settled: Month, date: Date) -> Option<u64> {
    let end = &days_of(settled)?[0];
    let day = &days_from(date)?[0];
    if day.date < end.date {
        return None;
    }
    let number = day.worked - end.worked;
    (number <= MOST).then_some(number)
}

/// The first date with a number, for 0 the settled month's last day; none for 36.
pub fn date(settled: Month, number: u64) -> Option<Date> {
    let days = days_of(settled)?;
    if number > MOST {
        return None;
    }
    let has = |day: &&Day| day.worked - days[0].worked == number;
    days.iter().find(has).map(|day| day.date)
}

/// For each month of the years the working days before its first day, counted from the first date.
pub fn table() -> Vec<u64> {
    let before = |Month(year, month): Month| {
        let first = Date(year, month, 1);
        let earlier = days().iter().take_while(|day| day.date < first);
        earlier.last().map_or(0, |day| day.worked)
    };
    months().map(before).collect()
}
