//! Why a call was refused, in words, and what would mend it: by the calls before it that the library accepted.

use crate::before::{about, Before};
use crate::calls::{Call, ACTIVATE, CLOSE, OPEN, SUBMIT};
use crate::causes;
use crate::library::VERSIONS;
use crate::series::Files;

/// A refusal's words: why, what would mend it, the call that it comes from.
pub type Words<'a> = (String, String, Option<&'a Call>);

impl<'a> Before<'a> {
    /// The words for a refused call. `energies` are those of a submission, and `files` has its series.
    pub fn words(&self, call: &'a Call, number: u64, energies: &[i64], files: &Files) -> Words<'a> {
        let fallback = || (causes::meaning(number), causes::mend(number), None);
        match number {
            1 => self.not_open(),
            3 => self.bad_field(call, energies, files),
            4 => self.bad_opening(call),
            5 => self.past_day(call),
            11 | 26 | 27 => self.bad_day(call, number),
            6 => (
                format!("{} opened the desk", self.opening_place()),
                causes::mend(6),
                self.opened,
            ),
            21 | 22 | 12 | 23 | 13 => self.bad_point(call, number).unwrap_or_else(fallback),
            14 | 15 => self.bad_version(call, number).unwrap_or_else(fallback),
            24 | 37 | 25 => self.bad_notice(call, number).unwrap_or_else(fallback),
            28 | 39 => self.done_already(call, number).unwrap_or_else(fallback),
            29 => self.not_closed(1, call),
            38 => self.not_closed(call.field("run"), call),
            // The command lends room for as many as a desk holds.
            16 => (
                format!("{VERSIONS} versions are held, as many as a desk holds"),
                causes::mend(16),
                None,
            ),
            _ => fallback(),
        }
    }

    /// A run that is closed a second time (28), or issued (39).
    fn done_already(&self, call: &Call, number: u64) -> Option<Words<'a>> {
        let run = call.field("run");
        let (calls, done) = if number == 28 {
            (&self.closed, "closed")
        } else {
            (&self.issued, "issued")
        };
        let by = calls.get(&run).copied()?;
        let why = format!("{} {done} run {run}", by.place.short());
        Some((why, causes::mend(number), Some(by)))
    }

    /// A run that a call needs closed, and that is not.
    fn not_closed(&self, run: u64, call: &Call) -> Words<'a> {
        match self.failed(CLOSE, run, 0) {
            Some(close) => {
                let (place, number) = (close.call.place.short(), close.number);
                (
                    format!("run {run} is not closed: its close in {place} was refused, {number}"),
                    format!("correct {place}"),
                    Some(close.call),
                )
            }
            None => (
                format!("run {run} is not closed yet"),
                self.to_close(run, call),
                None,
            ),
        }
    }

    /// What closes a run in front of a call, run 1 before run 2, and from which day on.
    fn to_close(&self, run: u64, call: &Call) -> String {
        let missing = (1..=run).filter(|run| !self.closed.contains_key(run));
        let closes: Vec<String> = missing.map(|run| format!("`close run={run}`")).collect();
        let behind = self.opening(deadline_of(run).0) + 1;
        let least = self.desk_day().max(behind);
        // The call's own day is then too early as well.
        let on = match (call.field("day") < least, closes.len()) {
            (false, _) => "on",
            (true, 1) => "both on",
            _ => "all on",
        };
        let (closes, least) = (closes.join(" and "), self.shown(least));
        format!("put {closes} in front of it, {on} day {least} or later")
    }

    fn not_open(&self) -> Words<'a> {
        match self.failed(OPEN, 0, 0) {
            Some(open) => {
                let (place, number) = (open.call.place.short(), open.number);
                (
                    format!("the desk is not open: the opening of {place} was refused, {number}"),
                    format!("correct {place}"),
                    Some(open.call),
                )
            }
            None => (
                "the desk is not open: no opening stands in front".to_string(),
                "put an `open` line in front of all others".to_string(),
                None,
            ),
        }
    }

    /// A day that lies behind a deadline (11, 26), or does not lie behind it (27).
    fn bad_day(&self, call: &Call, number: u64) -> Words<'a> {
        // 26 is an assignment's: a file carries no lodging, whose deadline is clearing.
        let (deadline, name) = match number {
            27 => deadline_of(call.field("run")),
            _ => deadline_of(2),
        };
        let (given, last) = (self.day_of(call), self.noted_deadline(deadline));
        if number == 27 {
            let why = format!("day {given} does not lie behind the {name}, day {last}");
            let next = self.shown(self.opening(deadline) + 1);
            let run = call.field("run");
            return (why, format!("close run {run} on day {next} or later"), None);
        }
        let why = format!("day {given} lies behind the {name}, day {last}");
        let mend = format!(
            "the last day for it is {}; correct the day, or leave the call out",
            self.deadline(deadline)
        );
        (why, mend, None)
    }

    fn bad_point(&self, call: &'a Call, number: u64) -> Option<Words<'a>> {
        let point = call.field("point");
        let by = self.active.get(&point).copied();
        Some(match number {
            21 => {
                let place = by?.place.short();
                (
                    format!("point {point} is active since {place}"),
                    "take a free point, or deactivate it first".to_string(),
                    by,
                )
            }
            22 => self.same_series(call)?,
            12 => self.not_active(point),
            23 => {
                let kept = self.highest(point)?;
                let why = format!(
                    "point {point} has version {} ({})",
                    kept.field("version"),
                    kept.place.short()
                );
                (why, causes::mend(23), Some(kept))
            }
            _ => {
                let since = by?.field("day");
                let why = format!(
                    "day {} lies less than two days after day {}, on which {} activated point {point}",
                    self.day_of(call),
                    self.day_of(by?),
                    by?.place.short()
                );
                let least = self.shown(since + 2);
                (why, format!("submit on day {least} or later"), by)
            }
        })
    }

    fn same_series(&self, call: &Call) -> Option<Words<'a>> {
        let series = |call: &Call| ["kind", "area", "partner"].map(|name| call.field(name));
        let mut active = self.active.values().copied();
        let same = active.find(|other| series(other) == series(call))?;
        let (other, place) = (same.field("point"), same.place.short());
        Some((
            format!("point {other} has the same kind, area and partner ({place})"),
            format!("use point {other}, or correct kind, area or partner"),
            Some(same),
        ))
    }

    fn not_active(&self, point: u64) -> Words<'a> {
        if let Some(by) = self.freed.get(&point) {
            let place = by.place.short();
            return (
                format!("point {point} is free: {place} deactivated it"),
                "activate it again, or correct the point".to_string(),
                Some(by),
            );
        }
        if let Some(activation) = self.failed(ACTIVATE, point, 0) {
            let (place, number) = (activation.call.place.short(), activation.number);
            let why = format!(
                "point {point} is not active: its activation in {place} was refused, {number}"
            );
            return (why, format!("correct {place}"), Some(activation.call));
        }
        (
            format!("point {point} is not active: no call in front activates it"),
            format!("put `activate point={point} ..` in front, or correct the point"),
            None,
        )
    }

    fn bad_version(&self, call: &'a Call, number: u64) -> Option<Words<'a>> {
        let (point, version) = about(call);
        let highest = self.highest(point)?;
        let next = highest.field("version") + 1;
        if number == 14 {
            let by = self.submitted.get(&(point, version)).copied()?;
            let why = format!(
                "point {point} has version {version} already ({})",
                by.place.short()
            );
            let mend = format!("take version {next} or higher, or leave the call out");
            return Some((why, mend, Some(by)));
        }
        let why = format!(
            "version {version} lies below version {}, which {} submitted",
            highest.field("version"),
            highest.place.short()
        );
        let mend = format!("take version {next} or higher");
        Some((why, mend, Some(highest)))
    }

    fn bad_notice(&self, call: &'a Call, number: u64) -> Option<Words<'a>> {
        let (point, version) = about(call);
        let highest = self.highest(point);
        match number {
            24 => Some(self.no_version(point, version, highest)),
            37 => Some(self.notice_below(version, highest?)),
            _ => self.no_check_data(point, version),
        }
    }

    /// What mends a notice on a version below the point's highest.
    fn for_highest(&self, highest: &Call) -> String {
        let version = highest.field("version");
        if self.is_check_data(highest) {
            format!("give the notice for version {version}, the highest, or leave the call out")
        } else {
            format!("leave the call out: version {version}, the highest, counts already")
        }
    }

    fn no_version(&self, point: u64, version: u64, highest: Option<&'a Call>) -> Words<'a> {
        if let Some(submission) = self.failed(SUBMIT, point, version) {
            let (place, number) = (submission.call.place.short(), submission.number);
            let why = format!("point {point} has no version {version}: its submission in {place} was refused, {number}");
            return (why, format!("correct {place}"), Some(submission.call));
        }
        let Some(highest) = highest else {
            return (
                format!("point {point} has no version {version}: it has no version at all"),
                format!("submit version {version} first, or leave the call out"),
                None,
            );
        };
        let last = highest.field("version");
        let why = format!(
            "point {point} has no version {version}: its highest is {last}, of {}",
            highest.place.short()
        );
        let mend = if version < last {
            self.for_highest(highest)
        } else if self.is_check_data(highest) {
            format!("give the notice for version {last}, or submit version {version} first")
        } else {
            format!("submit version {version} first, or leave the call out")
        };
        (why, mend, None)
    }

    fn notice_below(&self, version: u64, highest: &'a Call) -> Words<'a> {
        let why = format!(
            "version {version} lies below version {}, the point's highest, which {} submitted on day {}",
            highest.field("version"),
            highest.place.short(),
            self.day_of(highest)
        );
        (why, self.for_highest(highest), Some(highest))
    }

    fn no_check_data(&self, point: u64, version: u64) -> Option<Words<'a>> {
        if let Some(notice) = self.noticed.get(&(point, version)) {
            let why = format!(
                "version {version} is no check data: {} gave it its positive notice",
                notice.place.short()
            );
            return Some((why, "nothing: it counts already".to_string(), Some(notice)));
        }
        let by = self.submitted.get(&(point, version)).copied()?;
        let why = format!(
            "version {version} is no check data: {} submitted it on day {}, and the first delivery lasts to day {}",
            by.place.short(),
            self.day_of(by),
            self.deadline("first")
        );
        let mend = "nothing: it counts without a notice".to_string();
        Some((why, mend, Some(by)))
    }
}

/// A run's deadline: its field in an opening, and its name.
pub fn deadline_of(run: u64) -> (&'static str, &'static str) {
    match run {
        2 => ("correction", "correction deadline"),
        _ => ("clearing", "clearing deadline"),
    }
}
