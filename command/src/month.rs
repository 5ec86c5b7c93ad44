//! A month that was run.

use crate::arguments::Wanted;
use crate::calendar::{self, Date};
use crate::calls::{Call, ACTIVATE, NOTICE, SUBMIT};
use crate::input::{self, Month};
use crate::library::{self, LogRow, Point, Replay};
use crate::output::{self, Failure};
use crate::{causes, ACCEPTED, NOTHING, REFUSED};

/// The calls as they were given, and what the library made of them.
pub struct Ran {
    pub month: Month,
    pub replay: Replay,
    /// The places of accepted calls that have dates on days off.
    days_off: Vec<usize>,
}

/// Runs the file that is asked for.
pub fn run(wanted: &Wanted) -> Result<Ran, Failure> {
    let month = input::month(wanted)?;
    // One answer more than there are calls, so that a damaged file is told as such.
    let replay = library::replay(&month.file, month.calls.len() + 1);
    let calls = month.calls.iter().zip(&replay.answers).enumerate();
    let days_off = calls.filter(|(_, (call, answer))| **answer == 0 && !call.days_off().is_empty());
    let days_off = days_off.map(|(at, _)| at).collect();
    let ran = Ran {
        month,
        replay,
        days_off,
    };
    if ran.status() == NOTHING {
        return Err(Failure::new(format!(
            "{}: {}",
            ran.month.name,
            ran.damage().unwrap_or_default()
        )));
    }
    Ok(ran)
}

impl Ran {
    /// The day of a call as it is shown: its number, and its date where the month is known.
    pub fn day_of(&self, call: &Call) -> String {
        call.day("day", self.month.settled)
    }

    /// The date of a call's day as lists show it; empty where there is none.
    pub fn date_of(&self, call: &Call) -> String {
        let date = call.date("day", self.month.settled);
        date.map_or(String::new(), |date| date.to_string())
    }

    /// The accepted calls.
    pub fn accepted(&self) -> impl DoubleEndedIterator<Item = &Call> {
        let calls = self.month.calls.iter().zip(&self.replay.answers);
        let accepted = calls.filter(|(_, answer)| **answer == 0);
        accepted.map(|(call, _)| call)
    }

    /// The desk's day with its date, as the call has it that set it.
    fn desk_date(&self) -> Option<Date> {
        let by = self.accepted().rfind(|call| call.has_day());
        by.map_or_else(
            || calendar::dated(self.month.settled, self.replay.day),
            |call| call.date("day", self.month.settled),
        )
    }

    /// The desk's day as it is shown.
    pub fn desk_day(&self) -> String {
        calendar::told(self.replay.day, self.desk_date())
    }

    /// The desk's day as a text may have it: its date where there is one, else its number.
    pub fn today(&self) -> String {
        let date = self.desk_date();
        date.map_or(self.replay.day.to_string(), |date| date.to_string())
    }

    /// The accepted call that closed or issued a run.
    pub fn call_on(&self, kind: u64, run: u64) -> Option<&Call> {
        let mut calls = self.accepted();
        calls.find(|call| call.kind == kind && call.field("run") == run)
    }

    /// The date of a day that an accepted call set: as it was typed where that is a day off.
    fn date_by(&self, day: u64, is_setter: impl Fn(&Call) -> bool) -> Option<Date> {
        let typed = self.days_off.iter().rev().map(|at| &self.month.calls[*at]);
        let mut typed = typed.filter(|call| call.field("day") == day);
        typed.find(|call| is_setter(call)).map_or_else(
            || calendar::dated(self.month.settled, day),
            |call| call.date("day", self.month.settled),
        )
    }

    /// The date of a row of the log, which a submission or a positive notice made.
    pub fn log_date(&self, row: &LogRow) -> Option<Date> {
        self.date_by(row.day, |call| {
            let selects = match call.kind {
                SUBMIT => true,
                NOTICE => call.field("verdict") == 1,
                _ => false,
            };
            selects && call.field("point") == row.point && call.field("version") == row.version
        })
    }

    /// The date of a point's activation.
    pub fn since_date(&self, point: &Point) -> Option<Date> {
        self.date_by(point.since, |call| {
            call.kind == ACTIVATE && call.field("point") == point.number
        })
    }

    /// What is wrong with the file.
    pub fn damage(&self) -> Option<String> {
        let (number, offset) = (self.replay.ending, self.replay.offset);
        let after = self.replay.answers.len();
        (number != 0).then(|| {
            format!(
                "damaged behind call {after}, at offset {offset}: refused, {number}: {}",
                causes::meaning(number)
            )
        })
    }

    pub fn status(&self) -> i32 {
        match (
            self.replay.ending,
            self.replay.answers.len(),
            self.replay.refused,
        ) {
            (0, _, 0) => ACCEPTED,
            (0, _, _) => REFUSED,
            (_, 0, _) => NOTHING,
            _ => REFUSED,
        }
    }

    /// A word on standard error where a list comes from a month that was not accepted whole.
    pub fn warn(&self) {
        let (name, calls, refused) = (
            &self.month.name,
            self.replay.answers.len(),
            self.replay.refused,
        );
        if refused > 0 {
            output::warn(&format!(
                "{name}: {refused} of {calls} calls were refused; `desk run` says which and why"
            ));
        }
        if let Some(damage) = self.damage() {
            output::warn(&format!("{name}: {damage}"));
        }
        if self.replay.quarters == 0 {
            output::warn(&format!("{name}: no call opened the desk"));
        }
    }
}
