//! Dates in a text: the month that its `month` line or `--month` names, and the numbers of the dates behind it.

use crate::calendar::{Date, Month};
use crate::calls::{is_day, DaysOff};
use crate::numbers::quoted;

/// What is known of the month while a text is read.
pub struct Dates {
    /// The line that is read.
    pub at: usize,
    asked: Option<Month>,
    /// The line that names the month; no month where it could not be read.
    named: Option<(usize, Option<Month>)>,
    /// The first line with a date.
    first: Option<usize>,
    /// The lines with a date that have no month in front.
    loose: Vec<usize>,
    /// The dates of the line that is read that are days off.
    days_off: DaysOff,
}

/// The month of a `month` line.
fn month_of(words: &[&str]) -> Result<Month, String> {
    let [word] = words else {
        return Err("a month is named by `month YYYY-MM` and nothing else".to_string());
    };
    let month =
        Month::read(word).ok_or_else(|| format!("a month is written YYYY-MM: {}", quoted(word)))?;
    month
        .known()
        .map_err(|refused| format!("the month is {refused}"))
}

impl Dates {
    /// With the month that `--month` names.
    pub fn new(asked: Option<Month>) -> Dates {
        Dates {
            at: 0,
            asked,
            named: None,
            first: None,
            loose: Vec::new(),
            days_off: Vec::new(),
        }
    }

    /// The month, as far as the text is read.
    pub fn month(&self) -> Option<Month> {
        self.named.map_or(self.asked, |(_, month)| month)
    }

    /// A `month` line: the words behind the first.
    pub fn name(&mut self, words: &[&str]) -> Result<(), String> {
        if let Some((line, _)) = self.named {
            return Err(format!("the month stands twice: line {line} names it"));
        }
        let month = month_of(words);
        self.named = Some((self.at, month.as_ref().ok().copied()));
        let month = month?;
        if let Some(line) = self.first {
            return Err(format!(
                "the month stands behind line {line}, which has a date; put it in front of the first date"
            ));
        }
        match self.asked {
            Some(asked) if asked != month => {
                Err(format!("the month is {month}, and --month says {asked}"))
            }
            _ => Ok(()),
        }
    }

    /// The number of a date in a field that takes one; None where the word is no date. Where the month is missing or could not be read
    /// that is told elsewhere, and the number does not matter.
    pub fn number(&mut self, field: &'static str, word: &str) -> Option<Result<u64, String>> {
        let date = Date::read(word).filter(|_| is_day(field))?;
        self.first.get_or_insert(self.at);
        if let Some(month) = self.month() {
            let day = month.day(date);
            let first = day.as_ref().ok().and_then(|day| month.date(*day).ok());
            if first.is_some_and(|first| first != date) {
                self.days_off.push((field, date));
            }
            let told = |refused| format!("{field} is {refused}");
            return Some(day.map_err(told));
        }
        if self.named.is_none() && self.loose.last() != Some(&self.at) {
            self.loose.push(self.at);
        }
        Some(Ok(0))
    }

    /// The line's dates on days off, taken away.
    pub fn take_days_off(&mut self) -> DaysOff {
        std::mem::take(&mut self.days_off)
    }

    /// The lines with a date that have no month in front, told at the first.
    pub fn complaint(&self) -> Option<(usize, String)> {
        let first = *self.loose.first()?;
        let others = match self.loose.len() {
            1 => String::new(),
            lines => format!(", as {lines} lines have"),
        };
        Some((
            first,
            format!("has a date{others}, and no month is named in front: put `month YYYY-MM` there, or give --month YYYY-MM"),
        ))
    }
}
