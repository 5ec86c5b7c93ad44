//! The calls of a month up to a refused one, by what the library made of them.

use std::collections::HashMap;

use crate::calendar::{self, Month};
use crate::calls::{Call, ACTIVATE, CLOSE, DEACTIVATE, ISSUE, NOTICE, OPEN, SUBMIT};

/// A refused call, with its number and the call that it comes from, where there is one.
pub struct Failed<'a> {
    pub call: &'a Call,
    pub number: u64,
    root: Option<&'a Call>,
}

/// The calls that the library accepted so far, by what they set, and those that it refused.
#[derive(Default)]
pub struct Before<'a> {
    /// Which month it is, where that is known.
    pub month: Option<Month>,
    pub opened: Option<&'a Call>,
    /// The call that set the desk's day.
    pub day: Option<&'a Call>,
    /// The first call of each day that the desk has had.
    days: Vec<&'a Call>,
    pub active: HashMap<u64, &'a Call>,
    pub freed: HashMap<u64, &'a Call>,
    pub submitted: HashMap<(u64, u64), &'a Call>,
    pub noticed: HashMap<(u64, u64), &'a Call>,
    pub closed: HashMap<u64, &'a Call>,
    pub issued: HashMap<u64, &'a Call>,
    /// The last refused call of a kind on a point and a version, or of a run.
    refused: HashMap<(u64, u64, u64), Failed<'a>>,
}

/// A call's point and version, where it has them; the run that is closed or issued; elsewhere 0.
pub fn about(call: &Call) -> (u64, u64) {
    match call.kind {
        CLOSE | ISSUE => (call.field("run"), 0),
        _ => (call.field("point"), call.field("version")),
    }
}

impl<'a> Before<'a> {
    pub fn new(month: Option<Month>) -> Before<'a> {
        Before {
            month,
            ..Before::default()
        }
    }

    pub fn accept(&mut self, call: &'a Call) {
        let (point, version) = about(call);
        match call.kind {
            OPEN => self.opened = Some(call),
            ACTIVATE => {
                self.active.insert(point, call);
            }
            DEACTIVATE => {
                self.active.remove(&point);
                self.freed.insert(point, call);
            }
            SUBMIT => {
                self.submitted.insert((point, version), call);
            }
            NOTICE if call.field("verdict") == 1 => {
                self.noticed.insert((point, version), call);
            }
            CLOSE => {
                self.closed.insert(call.field("run"), call);
            }
            ISSUE => {
                self.issued.insert(call.field("run"), call);
            }
            _ => {}
        }
        if call.has_day() {
            if self.desk_day() < call.field("day") {
                self.days.push(call);
            }
            self.day = Some(call);
        }
    }

    /// A refused call, and the one that it comes from.
    pub fn refuse(&mut self, call: &'a Call, number: u64, root: Option<&'a Call>) {
        let (point, version) = about(call);
        let failed = Failed { call, number, root };
        self.refused.insert((call.kind, point, version), failed);
    }

    /// The last refused call of a kind on a point and a version, or of a run.
    pub fn failed(&self, kind: u64, point: u64, version: u64) -> Option<&Failed<'a>> {
        self.refused.get(&(kind, point, version))
    }

    /// The call that a refusal comes from: where the one named was refused too, the one that that came from.
    pub fn root(&self, by: &'a Call) -> &'a Call {
        let (point, version) = about(by);
        let failed = self.failed(by.kind, point, version);
        let same = failed.filter(|failed| failed.call.place.number == by.place.number);
        same.and_then(|failed| failed.root).unwrap_or(by)
    }

    /// The number of the desk's day.
    pub fn desk_day(&self) -> u64 {
        self.day.map_or(0, |by| by.field("day"))
    }

    /// The first accepted call of a day behind this one.
    pub fn first_behind(&self, day: u64) -> Option<&'a Call> {
        let mut days = self.days.iter().copied();
        days.find(|call| call.field("day") > day)
    }

    /// A field of the opening.
    pub fn opening(&self, field: &str) -> u64 {
        self.opened.map_or(0, |call| call.field(field))
    }

    /// A deadline of the opening as it is shown.
    pub fn deadline(&self, field: &str) -> String {
        let opened = self.opened;
        opened.map_or(String::new(), |call| call.day(field, self.month))
    }

    /// A deadline with the line that set it: `30 (2026-09-11, line 1)`.
    pub fn noted_deadline(&self, field: &str) -> String {
        let date = self.opened.and_then(|call| call.date(field, self.month));
        let date = date.map(|date| date.to_string());
        let notes: Vec<String> = date.into_iter().chain([self.opening_place()]).collect();
        format!("{} ({})", self.opening(field), notes.join(", "))
    }

    /// A day by its number, as it is shown.
    pub fn shown(&self, day: u64) -> String {
        calendar::shown(self.month, day)
    }

    /// The day of a call as it is shown.
    pub fn day_of(&self, call: &Call) -> String {
        call.day("day", self.month)
    }

    pub fn opening_place(&self) -> String {
        self.opened.map_or(String::new(), |call| call.place.short())
    }

    /// The highest version of a point that was submitted.
    pub fn highest(&self, point: u64) -> Option<&'a Call> {
        self.submitted
            .values()
            .filter(|call| call.field("point") == point)
            .max_by_key(|call| call.field("version"))
            .copied()
    }

    /// Whether a submitted version waits for its positive notice.
    pub fn is_check_data(&self, submitted: &Call) -> bool {
        submitted.field("day") > self.opening("first")
            && !self.noticed.contains_key(&about(submitted))
    }
}
