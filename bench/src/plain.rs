//! The plain desk: it keeps the accepted calls and amends nothing. At each call it goes through them from the first
//! one, and after an accepted one it works all figures of the book out from the selected versions.

use crate::buffers::Buffers;
use crate::cause::{
    are_deadlines, are_energies, is_point, is_version, refuse_if, Cause, LAST_DAY, LOG_ROW, POINTS,
    QUARTERS, VERSIONS,
};
use crate::replay::{self, Ended, Stores};
use crate::row;
use crate::series::{is_group, is_series, sides, AREAS, BOOK_ROWS, DELTAS, GROUPS, ROWS};
use emorizugu_tests::message::{Call, MOST_FIELDS};

/// An accepted call, and the lengths of values, book, log and schedules.
struct Accepted {
    kind: u64,
    fields: [u64; MOST_FIELDS],
    series: Vec<u64>,
    lengths: [usize; 4],
}

/// A submitted series: its number, its status from 1 to 5, and the point's version before it.
struct Version<'a> {
    number: u64,
    status: u64,
    series: &'a [u64],
    before: Option<usize>,
}

/// An active point: its last version, run 1's selection and run 2's own, as places among the versions.
#[derive(Clone, Copy)]
struct Point {
    since: u64,
    series: (u64, u64, u64),
    last: Option<usize>,
    first: Option<usize>,
    second: Option<usize>,
}

/// What the list says.
struct Month<'a> {
    quarters: u64,
    deadlines: [u64; 3],
    lengths: [usize; 4],
    day: u64,
    /// The delta groups of each run.
    groups: [[u64; DELTAS]; 2],
    points: [Option<Point>; POINTS],
    versions: Vec<Version<'a>>,
    closed: [bool; 2],
    issued: [bool; 2],
    log: Vec<[u64; LOG_ROW]>,
}

impl<'a> Month<'a> {
    /// Goes through the accepted calls from the first one, which is an opening; none where there are none.
    fn of(list: &'a [Accepted]) -> Option<Month<'a>> {
        let (opening, later) = list.split_first()?;
        let mut month = Month::opened(opening);
        for call in later {
            month.take(call);
        }
        Some(month)
    }

    fn opened(opening: &Accepted) -> Month<'a> {
        let fields = &opening.fields;
        let mut groups = [0; DELTAS];
        groups.copy_from_slice(&fields[4..]);
        Month {
            quarters: fields[0],
            deadlines: [fields[1], fields[2], fields[3]],
            lengths: opening.lengths,
            day: 0,
            groups: [groups; 2],
            points: [None; POINTS],
            versions: Vec::with_capacity(VERSIONS),
            closed: [false; 2],
            issued: [false; 2],
            log: Vec::with_capacity(VERSIONS),
        }
    }

    /// One accepted call more.
    fn take(&mut self, call: &'a Accepted) {
        let f = &call.fields;
        match call.kind {
            2 => {
                self.points[f[0] as usize - 1] = Some(Point {
                    since: f[4],
                    series: (f[1], f[2], f[3]),
                    last: None,
                    first: None,
                    second: None,
                });
                self.day = f[4];
            }
            3 => {
                self.points[f[0] as usize - 1] = None;
                self.day = f[1];
            }
            4 => {
                self.day = f[2];
                let at = self.versions.len();
                let point = self.active(f[0]);
                let before = point.last.replace(at);
                self.versions.push(Version {
                    number: f[1],
                    status: self.submitted_status(f[2]),
                    series: &call.series,
                    before,
                });
                self.select(f[0], at);
            }
            5 => {
                self.day = f[3];
                let at = self.held(f[0], f[1]).expect("a version");
                if f[2] == 1 {
                    self.versions[at].status = self.confirmed_status(f[3]);
                    self.select(f[0], at);
                }
            }
            6 => {
                let first = usize::from(f[2] > self.deadlines[1]);
                for groups in &mut self.groups[first..] {
                    groups[f[0] as usize] = f[1];
                }
                self.day = f[2];
            }
            7 => {
                self.closed[f[0] as usize - 1] = true;
                self.day = f[1];
            }
            _ => {
                self.issue(f[0]);
                self.day = f[1];
            }
        }
    }

    fn active(&mut self, point: u64) -> &mut Point {
        let point = self.points[point as usize - 1].as_mut();
        point.expect("an active point")
    }

    /// A version whose status was set: where it becomes a run's selection or its own, the log gains a row.
    fn select(&mut self, point: u64, at: usize) {
        let Version { number, status, .. } = self.versions[at];
        if let Some(run) = self.turn(point, number, status) {
            let picked = self.active(point);
            match run {
                1 => picked.first = Some(at),
                _ => picked.second = Some(at),
            }
            self.log.push([self.day, point, run, number]);
        }
    }

    /// The run whose selection, or whose own, changes to a version of this number and status.
    fn turn(&self, point: u64, number: u64, status: u64) -> Option<u64> {
        let point = self.points[point as usize - 1]?;
        let (run, pick) = match status {
            1 => return None,
            2 | 3 => (1, point.first),
            _ => (2, point.second),
        };
        let higher = pick.is_none_or(|at| self.versions[at].number < number);
        higher.then_some(run)
    }

    fn issue(&mut self, run: u64) {
        self.issued[run as usize - 1] = true;
        for point in self.points.iter().flatten() {
            let (pick, status) = match run {
                1 => (point.first, 3),
                _ => (point.second, 5),
            };
            if let Some(at) = pick {
                self.versions[at].status = status;
            }
        }
    }

    /// Where a version of a point stands.
    fn held(&self, point: u64, number: u64) -> Option<usize> {
        let mut at = self.points[point as usize - 1]?.last;
        while let Some(version) = at.map(|at| &self.versions[at]) {
            if version.number == number {
                break;
            }
            at = version.before;
        }
        at
    }

    fn submitted_status(&self, day: u64) -> u64 {
        if day <= self.deadlines[0] {
            2
        } else {
            1
        }
    }

    fn confirmed_status(&self, day: u64) -> u64 {
        if day <= self.deadlines[1] {
            2
        } else {
            4
        }
    }

    /// Every figure of the book, from the selected versions.
    fn work_out(&self, book: &mut [u64]) {
        let quarters = self.quarters as usize;
        book.fill(0);
        let (first, second) = book.split_at_mut(ROWS * quarters);
        let [groups, other_groups] = &self.groups;
        for point in self.points.iter().flatten() {
            for (run, groups, pick) in [
                (&mut *first, groups, point.first),
                (&mut *second, other_groups, point.second.or(point.first)),
            ] {
                let Some(at) = pick else {
                    continue;
                };
                let series = self.versions[at].series;
                let (kind, area, partner) = point.series;
                let [to, from] = sides(kind, area, partner);
                for k in to.rows(groups) {
                    row::add(&mut run[k * quarters..][..quarters], series);
                }
                for k in from.rows(groups) {
                    row::subtract(&mut run[k * quarters..][..quarters], series);
                }
            }
        }
    }

    /// The checks of the table, in their order.
    fn check(&self, call: &Accepted) -> Result<(), Cause> {
        let f = &call.fields;
        match call.kind {
            1 => Err(Cause::OpenAgain),
            2 => self.check_activate(f[0], (f[1], f[2], f[3]), f[4]),
            3 => {
                refuse_if(!(is_point(f[0]) && f[1] <= LAST_DAY), Cause::BadField)?;
                self.check_day(f[1])?;
                let point = self.points[f[0] as usize - 1].ok_or(Cause::NotActive)?;
                refuse_if(point.last.is_some(), Cause::HasVersion)
            }
            4 => self.check_submit(f[0], f[1], f[2], call),
            5 => self.check_notice(f[0], f[1], f[2], f[3], call),
            6 => {
                let other = call.lengths[1] != self.lengths[1];
                refuse_if(other, Cause::WrongLength)?;
                let fits = f[0] <= AREAS && is_group(f[1]) && f[2] <= LAST_DAY;
                refuse_if(!fits, Cause::BadField)?;
                refuse_if(f[2] < self.day, Cause::PastDay)?;
                refuse_if(f[2] > self.deadlines[2], Cause::TooLate)
            }
            7 => self.check_close(f[0], f[1]),
            _ => self.check_issue(f[0], f[1]),
        }
    }

    fn check_day(&self, day: u64) -> Result<(), Cause> {
        refuse_if(day < self.day, Cause::PastDay)?;
        refuse_if(day > self.deadlines[2], Cause::AfterCorrection)
    }

    fn check_activate(&self, point: u64, series: (u64, u64, u64), day: u64) -> Result<(), Cause> {
        let fits = is_point(point) && is_series(series.0, series.1, series.2) && day <= LAST_DAY;
        refuse_if(!fits, Cause::BadField)?;
        self.check_day(day)?;
        let active = self.points[point as usize - 1].is_some();
        refuse_if(active, Cause::PointActive)?;
        let taken = self.points.iter().flatten().any(|p| p.series == series);
        refuse_if(taken, Cause::SameSeries)
    }

    fn check_submit(
        &self,
        point: u64,
        number: u64,
        day: u64,
        call: &Accepted,
    ) -> Result<(), Cause> {
        let other = call.lengths[..3] != self.lengths[..3];
        refuse_if(other, Cause::WrongLength)?;
        let fits = is_point(point)
            && is_version(number)
            && day <= LAST_DAY
            && call.series.len() as u64 == self.quarters
            && are_energies(&call.series);
        refuse_if(!fits, Cause::BadField)?;
        self.check_day(day)?;
        let active = self.points[point as usize - 1].ok_or(Cause::NotActive)?;
        refuse_if(day < active.since + 2, Cause::TooEarly)?;
        let present = self.held(point, number).is_some();
        refuse_if(present, Cause::VersionPresent)?;
        let last = active.last.map_or(0, |at| self.versions[at].number);
        refuse_if(number < last, Cause::VersionBelow)?;
        let rows = self.versions.len() + 1;
        let no_row = rows > VERSIONS || rows as u64 * self.quarters > self.lengths[0] as u64;
        refuse_if(no_row, Cause::NoRow)?;
        self.check_log(point, number, self.submitted_status(day))
    }

    fn check_notice(
        &self,
        point: u64,
        number: u64,
        verdict: u64,
        day: u64,
        call: &Accepted,
    ) -> Result<(), Cause> {
        let other = call.lengths[..3] != self.lengths[..3];
        refuse_if(other, Cause::WrongLength)?;
        let fits = is_point(point) && is_version(number) && verdict <= 1 && day <= LAST_DAY;
        refuse_if(!fits, Cause::BadField)?;
        self.check_day(day)?;
        let active = self.points[point as usize - 1].ok_or(Cause::NotActive)?;
        let at = self.held(point, number).ok_or(Cause::NoVersion)?;
        refuse_if(active.last != Some(at), Cause::NoticeBelow)?;
        refuse_if(self.versions[at].status != 1, Cause::NotCheckData)?;
        match verdict {
            0 => Ok(()),
            _ => self.check_log(point, number, self.confirmed_status(day)),
        }
    }

    fn check_log(&self, point: u64, number: u64, status: u64) -> Result<(), Cause> {
        let full = self.log.len() == self.lengths[2] / LOG_ROW;
        let due = self.turn(point, number, status).is_some();
        refuse_if(due && full, Cause::NoLogRow)
    }

    /// Causes 3 and 5 of a close or an issue.
    fn check_run(&self, run: u64, day: u64) -> Result<(), Cause> {
        let fits = (1..=2).contains(&run) && day <= LAST_DAY;
        refuse_if(!fits, Cause::BadField)?;
        refuse_if(day < self.day, Cause::PastDay)
    }

    fn check_close(&self, run: u64, day: u64) -> Result<(), Cause> {
        self.check_run(run, day)?;
        let deadline = self.deadlines[run as usize];
        refuse_if(day <= deadline, Cause::CloseTooEarly)?;
        let closed = self.closed[run as usize - 1];
        refuse_if(closed, Cause::AlreadyClosed)?;
        refuse_if(run == 2 && !self.closed[0], Cause::FirstRunOpen)
    }

    fn check_issue(&self, run: u64, day: u64) -> Result<(), Cause> {
        self.check_run(run, day)?;
        refuse_if(!self.closed[run as usize - 1], Cause::NotClosed)?;
        refuse_if(self.issued[run as usize - 1], Cause::AlreadyIssued)
    }
}

/// Causes 4 and, for what is no opening, 1.
fn check_unopened(call: &Accepted) -> Result<(), Cause> {
    refuse_if(call.kind != 1, Cause::NotOpen)?;
    let f = &call.fields;
    let [_, book, log, schedules] = call.lengths;
    let fits = (1..=QUARTERS).contains(&f[0])
        && are_deadlines([f[1], f[2], f[3]])
        && f[4..].iter().all(|&group| is_group(group))
        && book as u64 == BOOK_ROWS as u64 * f[0]
        && log.is_multiple_of(LOG_ROW)
        && schedules as u64 == GROUPS * f[0];
    refuse_if(!fits, Cause::BadOpening)
}

/// The accepted calls.
#[derive(Default)]
struct Desk {
    list: Vec<Accepted>,
}

impl Desk {
    /// A call: where it is accepted, the book is worked out, and the call joins the list. No call of a file lodges a schedule.
    fn call(&mut self, call: Accepted, stores: &mut Stores) -> Result<(), Cause> {
        let month = match Month::of(&self.list) {
            None => {
                check_unopened(&call)?;
                stores.schedules.fill(0);
                Month::opened(&call)
            }
            Some(mut month) => {
                month.check(&call)?;
                month.take(&call);
                month
            }
        };
        month.work_out(stores.book);
        self.list.push(call);
        Ok(())
    }
}

impl replay::Desk for Desk {
    fn quarters(&self) -> u64 {
        self.list.first().map_or(0, |opening| opening.fields[0])
    }

    fn handed(&mut self, call: &Call, series: &[u64], stores: &mut Stores) -> u64 {
        let asked = Accepted {
            kind: call.kind,
            fields: call.fields,
            series: series.to_vec(),
            lengths: stores.lengths(),
        };
        let answer = self.call(asked, stores);
        answer.map_or_else(|cause| cause as u64, |()| 0)
    }

    fn ended(&self, values: &mut [u64], log: &mut [u64], statuses: &mut [u64]) -> Ended {
        let Some(month) = Month::of(&self.list) else {
            return Ended::default();
        };
        for (place, row) in log.chunks_exact_mut(LOG_ROW).zip(&month.log) {
            place.copy_from_slice(row);
        }
        for (place, version) in statuses.iter_mut().zip(&month.versions) {
            *place = version.status;
        }
        let quarters = replay::Desk::quarters(self) as usize;
        for (place, version) in values.chunks_exact_mut(quarters).zip(&month.versions) {
            place.copy_from_slice(version.series);
        }
        Ended {
            used: month.log.len(),
            held: month.versions.len(),
            groups: month.groups,
        }
    }
}

/// A whole message file through a fresh desk: 0, or the number of the refusal that ended it. Values and log are written
/// once, at the end.
pub fn replay(file: &[u8], buffers: &mut Buffers) -> u64 {
    replay::replay(Desk::default(), file, buffers)
}
