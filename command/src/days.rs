//! `desk day`, `desk date` and `desk calendar`: questions to the calendar.

use std::ffi::OsString;

use crate::arguments::{Form, Wanted};
use crate::calendar::{Date, Month, Refused, MOST_DAY};
use crate::numbers::quoted;
use crate::output::{self, Failure};
use crate::sheet::{Cell, Column, Sheet};
use crate::{ACCEPTED, REFUSED};

/// Why there is no answer: the calendar refuses, or the words make no question.
enum Trouble {
    Refused(Refused),
    Failure(Failure),
}

impl From<Refused> for Trouble {
    fn from(refused: Refused) -> Trouble {
        Trouble::Refused(refused)
    }
}

impl From<Failure> for Trouble {
    fn from(failure: Failure) -> Trouble {
        Trouble::Failure(failure)
    }
}

fn month_of(word: &OsString) -> Result<Month, Failure> {
    let word = word.to_string_lossy();
    Month::read(&word)
        .ok_or_else(|| Failure::new(format!("a month is written YYYY-MM: {}", quoted(&word))))
}

fn date_of(word: &OsString) -> Result<Date, Failure> {
    let word = word.to_string_lossy();
    Date::read(&word)
        .ok_or_else(|| Failure::new(format!("a date is written YYYY-MM-DD: {}", quoted(&word))))
}

/// A whole number; one with too many digits is as large as can be.
fn whole(word: &str) -> Option<u64> {
    let plain = !word.is_empty() && word.bytes().all(|byte| byte.is_ascii_digit());
    plain.then(|| word.parse().unwrap_or(u64::MAX))
}

fn number_of(word: &OsString) -> Result<u64, Failure> {
    let word = word.to_string_lossy();
    whole(&word).ok_or_else(|| {
        Failure::new(format!(
            "a day number is a whole number from 0 to {MOST_DAY}: {}",
            quoted(&word)
        ))
    })
}

fn number(number: u64) -> Cell<'static> {
    i64::try_from(number).map_or(Cell::Nothing, Cell::Number)
}

fn perhaps<T>(part: Option<T>, cell: impl FnOnce(T) -> Cell<'static>) -> Cell<'static> {
    part.map_or(Cell::Nothing, cell)
}

/// The answer to one question: a line of words, or a list with one row. A refusal is told on standard error beside a list.
fn answered(
    form: Form,
    words: &str,
    refused: Option<&Refused>,
    sheet: Sheet,
) -> Result<i32, Failure> {
    match (form, refused) {
        (Form::Text, None) => output::write(format!("{words}\n").as_bytes())?,
        (Form::Text, Some(refused)) => output::write(format!("{refused}\n").as_bytes())?,
        (_, refused) => {
            if let Some(refused) = refused {
                output::warn(&refused.to_string());
            }
            output::write(sheet.end().as_bytes())?;
        }
    }
    Ok(refused.map_or(ACCEPTED, |_| REFUSED))
}

const DAY: &[Column] = &[
    Column("month", 0),
    Column("date", 0),
    Column("weekday", 0),
    Column("day", 0),
    Column("first_date", 0),
    Column("refused", 0),
];

/// A date and its number; `first` is the first date with that number.
fn day_words(month: Month, date: Date, day: u64, first: Date) -> String {
    match (date == first, day) {
        (true, 0) => format!("{}, is day 0 after {month}: its last day", date.whole()),
        (true, _) => format!("{}, is day {day} after {month}", date.whole()),
        (false, 0) => format!(
            "{}, is a day off and has the number of {}, the last day of {month}: day 0",
            date.whole(),
            first.whole()
        ),
        (false, _) => format!(
            "{}, is a day off and has the number of {}: day {day} after {month}",
            date.whole(),
            first.whole()
        ),
    }
}

/// `desk day`.
pub fn day(wanted: &Wanted) -> Result<i32, Failure> {
    let (month, date) = (month_of(&wanted.words[0])?, date_of(&wanted.words[1])?);
    let day = month.day(date);
    let both = day
        .as_ref()
        .ok()
        .and_then(|day| Some((*day, month.date(*day).ok()?)));
    let [asked, given] = [month.to_string(), date.to_string()];
    let first = both.map_or(String::new(), |(_, first)| first.to_string());
    let refused = day.err();
    let mut sheet = Sheet::new(wanted.form, DAY);
    sheet.row(&[
        Cell::Word(&asked),
        Cell::Word(&given),
        perhaps(date.weekday(), Cell::Word),
        perhaps(both, |(day, _)| number(day)),
        both.map_or(Cell::Nothing, |_| Cell::Word(&first)),
        perhaps(refused.as_ref(), |refused| number(refused.number)),
    ]);
    let words = both.map_or(String::new(), |(day, first)| {
        day_words(month, date, day, first)
    });
    answered(wanted.form, &words, refused.as_ref(), sheet)
}

const DATE: &[Column] = &[
    Column("month", 0),
    Column("day", 0),
    Column("date", 0),
    Column("weekday", 0),
    Column("refused", 0),
];

/// `desk date`.
pub fn date(wanted: &Wanted) -> Result<i32, Failure> {
    let (month, day) = (month_of(&wanted.words[0])?, number_of(&wanted.words[1])?);
    let date = month.date(day);
    let found = date.as_ref().ok().copied();
    let asked = month.to_string();
    let shown = found.map_or(String::new(), |date| date.to_string());
    let refused = date.err();
    let mut sheet = Sheet::new(wanted.form, DATE);
    sheet.row(&[
        Cell::Word(&asked),
        number(day),
        found.map_or(Cell::Nothing, |_| Cell::Word(&shown)),
        perhaps(found.and_then(Date::weekday), Cell::Word),
        perhaps(refused.as_ref(), |refused| number(refused.number)),
    ]);
    let end = if day == 0 { ": its last day" } else { "" };
    let words = found.map_or(String::new(), |date| {
        format!("day {day} after {month} is {}{end}", date.whole())
    });
    answered(wanted.form, &words, refused.as_ref(), sheet)
}

/// The deadlines, with their marks.
const DEADLINES: [(&str, &str); 3] = [
    ("F", "first delivery"),
    ("C", "clearing"),
    ("K", "correction"),
];
/// The last day that a deadline may be.
const MOST_DEADLINE: u64 = 399;

/// A deadline's number, by a number or a date. It has a date.
fn deadline(month: Month, word: &OsString) -> Result<u64, Trouble> {
    let text = word.to_string_lossy();
    let day = match Date::read(&text) {
        Some(date) => Some(month.day(date)?),
        None => whole(&text),
    };
    match day {
        Some(day) if (1..=MOST_DEADLINE).contains(&day) => Ok(month.date(day).map(|_| day)?),
        _ => Err(Trouble::Failure(Failure::new(format!(
            "a deadline is a day number from 1 to {MOST_DEADLINE}, or a date that has one: {}",
            quoted(&text)
        )))),
    }
}

/// The deadlines that are given, rising.
fn deadlines(month: Month, words: &[Option<OsString>; 3]) -> Result<[Option<u64>; 3], Trouble> {
    let mut days = [None; 3];
    for (day, word) in days.iter_mut().zip(words) {
        *day = word
            .as_ref()
            .map(|word| deadline(month, word))
            .transpose()?;
    }
    let given: Vec<u64> = days.iter().flatten().copied().collect();
    if given.windows(2).all(|two| two[0] < two[1]) {
        return Ok(days);
    }
    let shown: Vec<String> = given.iter().map(u64::to_string).collect();
    Err(Trouble::Failure(Failure::new(format!(
        "deadlines {} do not rise",
        shown.join(", ")
    ))))
}

const CALENDAR: &[Column] = &[
    Column("day", 3),
    Column("date", -10),
    Column("weekday", -9),
    Column("mark", -4),
    Column("deadline", -14),
];

/// The working days after a month up to a number, and a word where the calendar ends before it.
fn listed(
    month: Month,
    marked: &[Option<u64>; 3],
    last: u64,
    form: Form,
) -> (Sheet, Option<String>) {
    let mut sheet = Sheet::new(form, CALENDAR);
    for day in 1..=last {
        let Ok(date) = month.date(day) else {
            let days = match day - 1 {
                0 => "no working day".to_string(),
                1 => "1 working day".to_string(),
                days => format!("{days} working days"),
            };
            return (
                sheet,
                Some(format!(
                    "the calendar ends with 2059: it has {days} after {month}"
                )),
            );
        };
        let mark = DEADLINES
            .iter()
            .zip(marked)
            .find(|(_, deadline)| **deadline == Some(day))
            .map(|(mark, _)| *mark);
        sheet.row(&[
            number(day),
            Cell::Word(&date.to_string()),
            perhaps(date.weekday(), Cell::Word),
            perhaps(mark, |(letter, _)| Cell::Word(letter)),
            perhaps(mark, |(_, name)| Cell::Word(name)),
        ]);
    }
    (sheet, None)
}

fn asked(wanted: &Wanted) -> Result<(Month, [Option<u64>; 3]), Trouble> {
    let month = month_of(&wanted.words[0])?.known()?;
    Ok((month, deadlines(month, &wanted.deadlines)?))
}

/// `desk calendar`.
pub fn calendar(wanted: &Wanted) -> Result<i32, Failure> {
    let (month, marked) = match asked(wanted) {
        Ok(asked) => asked,
        Err(Trouble::Failure(failure)) => return Err(failure),
        Err(Trouble::Refused(refused)) => {
            let sheet = Sheet::new(wanted.form, CALENDAR);
            return answered(wanted.form, "", Some(&refused), sheet);
        }
    };
    let last = marked[2].unwrap_or(MOST_DAY);
    let last = wanted.last.map_or(last, |asked| asked.min(last));
    let (sheet, end) = listed(month, &marked, last, wanted.form);
    let mut text = sheet.end();
    match end {
        Some(end) if wanted.form == Form::Text => text.push_str(&format!("{end}\n")),
        Some(end) => output::warn(&end),
        None => {}
    }
    output::write(text.as_bytes())?;
    Ok(ACCEPTED)
}
