//! The amending desk: it amends its state, the book and the log through `&mut`, and allocates nothing.
//!
//! Each call makes the checks of the table in their order. The first one, the limits of the state, stands in three forms:
//!
//! - tested at each call (`replay`), as document 01 asks of a desk that is handed its state from outside: one walk over the
//!   points and one over the versions held, which find out all else that a call asks of them;
//! - not tested at all (`replay_untested`), as a careful engineer would have it here: the desk is made in `replay`, nobody
//!   else has its state, and no accepted call leaves the limits, so that only the missing opening is left of cause 1. A table
//!   is walked only where the call asks for it;
//! - not tested, and the versions of a point in a chain (`replay_chained`), so that a call goes through those of its own point
//!   alone.

use crate::buffers::Buffers;
use crate::cause::{
    are_deadlines, are_energies, is_point, is_version, refuse_if, Cause, LAST_DAY, LOG_ROW, POINTS,
    QUARTERS, VERSIONS,
};
use crate::replay::{self, Ended, Stores};
use crate::row;
use crate::script;
use crate::series::{
    group_row, is_group, is_series, sides, Side, AREAS, BOOK_ROWS, DELTAS, GROUPS, ROWS,
};
use emorizugu_tests::message::Call;

/// An active point.
#[derive(Clone, Copy)]
struct Active {
    since: u16,
    kind: u8,
    area: u8,
    partner: u8,
}

impl Active {
    fn series(self) -> (u64, u64, u64) {
        (self.kind.into(), self.area.into(), self.partner.into())
    }

    fn fits(self) -> bool {
        let (kind, area, partner) = self.series();
        u64::from(self.since) <= LAST_DAY && is_series(kind, area, partner)
    }

    fn sides(self) -> [Side; 2] {
        let (kind, area, partner) = self.series();
        sides(kind, area, partner)
    }
}

/// The status of a version.
#[derive(Clone, Copy, PartialEq, Eq)]
enum Status {
    Check = 1,
    Settlement,
    Settled,
    Correction,
    CorrectionSettled,
}

impl Status {
    /// The run whose selection, or whose own, a version of this status can be.
    fn run(self) -> Option<Run> {
        match self {
            Status::Check => None,
            Status::Settlement | Status::Settled => Some(Run::First),
            Status::Correction | Status::CorrectionSettled => Some(Run::Second),
        }
    }
}

/// A run.
#[derive(Clone, Copy, PartialEq, Eq)]
enum Run {
    First = 1,
    Second = 2,
}

/// A version held: its number, point, row of values and status.
#[derive(Clone, Copy)]
struct Version {
    number: u64,
    point: u16,
    row: u16,
    status: Status,
    /// The point's version before it.
    before: Option<u16>,
}

impl Version {
    /// Past the count, where nothing is looked at.
    const NONE: Version = Version {
        number: 0,
        point: 0,
        row: 0,
        status: Status::Check,
        before: None,
    };

    fn fits(&self, rows: u64) -> bool {
        is_point(self.point.into()) && is_version(self.number) && u64::from(self.row) < rows
    }
}

/// What the opening fixes; no quarter hours in an unopened desk.
#[derive(Clone, Copy)]
struct Opening {
    quarters: u64,
    deadlines: [u64; 3],
    /// Those of values, book, log and schedules.
    lengths: [usize; 4],
}

impl Opening {
    fn fits(&self) -> bool {
        let [_, book, log, schedules] = self.lengths;
        (1..=QUARTERS).contains(&self.quarters)
            && are_deadlines(self.deadlines)
            && book as u64 == BOOK_ROWS as u64 * self.quarters
            && log.is_multiple_of(LOG_ROW)
            && schedules as u64 == GROUPS * self.quarters
    }
}

/// A version of the table that is selected.
#[derive(Clone, Copy)]
struct Pick {
    at: usize,
    number: u64,
}

/// Whether a version is picked in the place of the highest one so far.
fn is_higher(pick: Option<Pick>, number: u64) -> bool {
    pick.is_none_or(|pick| pick.number < number)
}

/// What the two walks find of a point, a version and a series.
struct Look {
    /// Whether an active point has the series.
    taken: bool,
    /// Where the version stands.
    held: Option<usize>,
    /// The point's highest version, or 0.
    highest: u64,
    /// Run 1's selection for the point.
    first: Option<Pick>,
    /// Run 2's own.
    second: Option<Pick>,
}

/// How a call looks at the tables.
const TESTED: u8 = 0;
const UNTESTED: u8 = 1;
const CHAINED: u8 = 2;

/// The desk's state, whose limits are tested at each call or not at all.
struct Desk<const LOOK: u8> {
    opening: Opening,
    day: u64,
    /// The delta groups of each run.
    groups: [[u64; DELTAS]; 2],
    used: usize,
    closed: [bool; 2],
    issued: [bool; 2],
    points: [Option<Active>; POINTS],
    /// The last version of each point.
    last: [Option<u16>; POINTS],
    count: usize,
    versions: [Version; VERSIONS],
}

impl<const LOOK: u8> Desk<LOOK> {
    fn opened(opening: Opening, groups: [u64; DELTAS]) -> Self {
        Desk {
            opening,
            day: 0,
            groups: [groups; 2],
            used: 0,
            closed: [false; 2],
            issued: [false; 2],
            points: [None; POINTS],
            last: [None; POINTS],
            count: 0,
            versions: [Version::NONE; VERSIONS],
        }
    }

    fn fresh() -> Self {
        let unopened = Opening {
            quarters: 0,
            deadlines: [0; 3],
            lengths: [0; 4],
        };
        Self::opened(unopened, [0; DELTAS])
    }

    /// The limits of all but the two tables.
    fn frame_fits(&self) -> bool {
        let Opening {
            quarters,
            lengths: [values, _, log, _],
            ..
        } = self.opening;
        self.opening.fits()
            && self.day <= LAST_DAY
            && self.groups.iter().flatten().all(|&group| is_group(group))
            && self.count <= VERSIONS
            && self.count * quarters as usize <= values
            && self.used <= log / LOG_ROW
    }

    /// What the call asks of the two tables, with the limits of the state where they are tested.
    fn look(&self, point: u64, number: u64, series: (u64, u64, u64)) -> Result<Look, Cause> {
        if LOOK == TESTED {
            return self.tested(point, number, series);
        }
        refuse_if(self.opening.quarters == 0, Cause::NotOpen)?;
        let mut look = Look::NOTHING;
        if series.0 != 0 {
            let mut active = self.points.iter().flatten();
            look.taken = active.any(|active| active.series() == series);
        } else if LOOK == UNTESTED {
            self.walk(point, number, &mut look);
        } else {
            self.go_back(point, number, &mut look);
        }
        Ok(look)
    }

    /// All versions are walked over for those of the point.
    fn walk(&self, point: u64, number: u64, look: &mut Look) {
        if is_point(point) {
            for (at, version) in self.versions[..self.count].iter().enumerate() {
                if u64::from(version.point) == point {
                    look.meet(at, version, number);
                }
            }
        }
    }

    /// The versions of the point, from the last one back.
    fn go_back(&self, point: u64, number: u64, look: &mut Look) {
        let mut next = None;
        if is_point(point) {
            next = self.last[point as usize - 1];
        }
        while let Some(at) = next {
            let version = &self.versions[at as usize];
            look.meet(at.into(), version, number);
            next = version.before;
        }
    }

    fn tested(&self, point: u64, number: u64, series: (u64, u64, u64)) -> Result<Look, Cause> {
        refuse_if(!self.frame_fits(), Cause::NotOpen)?;
        let mut fit = true;
        let mut look = Look::NOTHING;
        for active in self.points.iter().flatten() {
            fit &= active.fits();
            look.taken |= active.series() == series;
        }
        let rows = self.opening.lengths[0] as u64 / self.opening.quarters;
        for (at, version) in self.versions[..self.count].iter().enumerate() {
            fit &= version.fits(rows);
            if u64::from(version.point) == point {
                look.meet(at, version, number);
            }
        }
        refuse_if(!fit, Cause::NotOpen)?;
        Ok(look)
    }

    fn point(&self, point: u64) -> Option<Active> {
        self.points[point as usize - 1]
    }

    fn open(&mut self, fields: &[u64], stores: &mut Stores) -> Result<(), Cause> {
        refuse_if(self.opening.quarters != 0, Cause::OpenAgain)?;
        let opening = Opening {
            quarters: fields[0],
            deadlines: [fields[1], fields[2], fields[3]],
            lengths: stores.lengths(),
        };
        let mut groups = [0; DELTAS];
        groups.copy_from_slice(&fields[4..]);
        let fits = opening.fits() && groups.iter().all(|&group| is_group(group));
        refuse_if(!fits, Cause::BadOpening)?;
        stores.book.fill(0);
        stores.schedules.fill(0);
        *self = Self::opened(opening, groups);
        Ok(())
    }

    fn activate(
        &mut self,
        point: u64,
        (kind, area, partner): (u64, u64, u64),
        day: u64,
    ) -> Result<(), Cause> {
        let look = self.look(point, 0, (kind, area, partner))?;
        let fits = is_point(point) && is_series(kind, area, partner) && day <= LAST_DAY;
        refuse_if(!fits, Cause::BadField)?;
        self.in_time(day)?;
        refuse_if(self.point(point).is_some(), Cause::PointActive)?;
        refuse_if(look.taken, Cause::SameSeries)?;
        self.points[point as usize - 1] = Some(Active {
            since: day as u16,
            kind: kind as u8,
            area: area as u8,
            partner: partner as u8,
        });
        self.day = day;
        Ok(())
    }

    fn deactivate(&mut self, point: u64, day: u64) -> Result<(), Cause> {
        let look = self.look(point, 0, (0, 0, 0))?;
        refuse_if(!(is_point(point) && day <= LAST_DAY), Cause::BadField)?;
        self.in_time(day)?;
        refuse_if(self.point(point).is_none(), Cause::NotActive)?;
        refuse_if(look.highest != 0, Cause::HasVersion)?;
        self.points[point as usize - 1] = None;
        self.day = day;
        Ok(())
    }

    fn submit(
        &mut self,
        point: u64,
        number: u64,
        day: u64,
        series: &[u64],
        stores: &mut Stores,
    ) -> Result<(), Cause> {
        let look = self.look(point, number, (0, 0, 0))?;
        self.same_lengths(stores)?;
        let quarters = self.opening.quarters as usize;
        let fits = is_point(point)
            && is_version(number)
            && day <= LAST_DAY
            && series.len() == quarters
            && are_energies(series);
        refuse_if(!fits, Cause::BadField)?;
        self.in_time(day)?;
        let active = self.point(point).ok_or(Cause::NotActive)?;
        refuse_if(day < u64::from(active.since) + 2, Cause::TooEarly)?;
        refuse_if(look.held.is_some(), Cause::VersionPresent)?;
        refuse_if(number < look.highest, Cause::VersionBelow)?;
        let start = self.count * quarters;
        let no_row = self.count == VERSIONS || start + quarters > stores.values.len();
        refuse_if(no_row, Cause::NoRow)?;
        let [first, _, _] = self.opening.deadlines;
        let status = if day <= first {
            Status::Settlement
        } else {
            Status::Check
        };
        let turn = look.turn(status, number);
        self.room_for(turn)?;

        stores.values[start..start + quarters].copy_from_slice(series);
        let at = self.count;
        self.versions[at] = Version {
            number,
            point: point as u16,
            row: at as u16,
            status,
            before: self.last[point as usize - 1],
        };
        self.last[point as usize - 1] = Some(at as u16);
        self.count += 1;
        self.day = day;
        self.follow(turn, active, at, &look, stores);
        Ok(())
    }

    fn notice(
        &mut self,
        point: u64,
        number: u64,
        verdict: u64,
        day: u64,
        stores: &mut Stores,
    ) -> Result<(), Cause> {
        let look = self.look(point, number, (0, 0, 0))?;
        self.same_lengths(stores)?;
        let fits = is_point(point) && is_version(number) && verdict <= 1 && day <= LAST_DAY;
        refuse_if(!fits, Cause::BadField)?;
        self.in_time(day)?;
        let active = self.point(point).ok_or(Cause::NotActive)?;
        let at = look.held.ok_or(Cause::NoVersion)?;
        refuse_if(number < look.highest, Cause::NoticeBelow)?;
        let before = self.versions[at].status;
        refuse_if(before != Status::Check, Cause::NotCheckData)?;
        let [_, clearing, _] = self.opening.deadlines;
        let status = match verdict {
            0 => before,
            _ if day <= clearing => Status::Settlement,
            _ => Status::Correction,
        };
        let turn = look.turn(status, number);
        self.room_for(turn)?;

        self.versions[at].status = status;
        self.day = day;
        self.follow(turn, active, at, &look, stores);
        Ok(())
    }

    fn assign(
        &mut self,
        area: u64,
        group: u64,
        day: u64,
        stores: &mut Stores,
    ) -> Result<(), Cause> {
        self.look(0, 0, (0, 0, 0))?;
        let [_, book, _, _] = self.opening.lengths;
        refuse_if(stores.book.len() != book, Cause::WrongLength)?;
        let fits = area <= AREAS && is_group(group) && day <= LAST_DAY;
        refuse_if(!fits, Cause::BadField)?;
        refuse_if(day < self.day, Cause::PastDay)?;
        let [_, clearing, correction] = self.opening.deadlines;
        refuse_if(day > correction, Cause::TooLate)?;

        let first = usize::from(day > clearing);
        for run in first..2 {
            self.move_delta(run, area, group, stores.book);
        }
        self.day = day;
        Ok(())
    }

    /// A delta to another group of a run, counted from 0.
    fn move_delta(&mut self, run: usize, area: u64, group: u64, book: &mut [u64]) {
        let quarters = self.opening.quarters as usize;
        let run_rows = &mut book[run * ROWS * quarters..][..ROWS * quarters];
        let (groups, deltas) = run_rows.split_at_mut(GROUPS as usize * quarters);
        let delta = &deltas[area as usize * quarters..][..quarters];
        let before = &mut self.groups[run][area as usize];
        row::subtract(
            &mut groups[group_row(*before) * quarters..][..quarters],
            delta,
        );
        row::add(
            &mut groups[group_row(group) * quarters..][..quarters],
            delta,
        );
        *before = group;
    }

    /// The run of a close or an issue, with causes 1, 3 and 5.
    fn run(&self, run: u64, day: u64) -> Result<Run, Cause> {
        self.look(0, 0, (0, 0, 0))?;
        let run = match run {
            1 => Run::First,
            2 => Run::Second,
            _ => return Err(Cause::BadField),
        };
        refuse_if(day > LAST_DAY, Cause::BadField)?;
        refuse_if(day < self.day, Cause::PastDay)?;
        Ok(run)
    }

    fn close(&mut self, run: u64, day: u64) -> Result<(), Cause> {
        let run = self.run(run, day)?;
        let deadline = self.opening.deadlines[run as usize];
        refuse_if(day <= deadline, Cause::CloseTooEarly)?;
        refuse_if(self.closed[run as usize - 1], Cause::AlreadyClosed)?;
        let too_soon = run == Run::Second && !self.closed[0];
        refuse_if(too_soon, Cause::FirstRunOpen)?;
        self.closed[run as usize - 1] = true;
        self.day = day;
        Ok(())
    }

    fn issue(&mut self, run: u64, day: u64) -> Result<(), Cause> {
        let run = self.run(run, day)?;
        refuse_if(!self.closed[run as usize - 1], Cause::NotClosed)?;
        refuse_if(self.issued[run as usize - 1], Cause::AlreadyIssued)?;
        let status = match run {
            Run::First => Status::Settled,
            Run::Second => Status::CorrectionSettled,
        };
        let mut highest = [0; POINTS];
        let versions = &mut self.versions[..self.count];
        for version in versions.iter().filter(|v| v.status.run() == Some(run)) {
            let highest = &mut highest[version.point as usize - 1];
            *highest = version.number.max(*highest);
        }
        for version in versions {
            let selected = version.number == highest[version.point as usize - 1];
            if selected && version.status.run() == Some(run) {
                version.status = status;
            }
        }
        self.issued[run as usize - 1] = true;
        self.day = day;
        Ok(())
    }

    /// Causes 5 and 11.
    fn in_time(&self, day: u64) -> Result<(), Cause> {
        let [_, _, correction] = self.opening.deadlines;
        refuse_if(day < self.day, Cause::PastDay)?;
        refuse_if(day > correction, Cause::AfterCorrection)
    }

    /// Cause 2 for a call that takes values, book and log.
    fn same_lengths(&self, stores: &Stores) -> Result<(), Cause> {
        let other = stores.lengths()[..3] != self.opening.lengths[..3];
        refuse_if(other, Cause::WrongLength)
    }

    /// Cause 17.
    fn room_for(&self, turn: Option<Run>) -> Result<(), Cause> {
        let full = self.used == self.opening.lengths[2] / LOG_ROW;
        refuse_if(turn.is_some() && full, Cause::NoLogRow)
    }

    /// Book and log after a version became the selection of a run, or its own. Run 2 follows run 1 where it has none.
    fn follow(
        &mut self,
        turn: Option<Run>,
        active: Active,
        at: usize,
        look: &Look,
        stores: &mut Stores,
    ) {
        let Some(run) = turn else {
            return;
        };
        match (run, look.second) {
            (Run::First, None) => {
                self.amend(Run::First, active, look.first, at, stores);
                self.amend(Run::Second, active, look.first, at, stores);
            }
            (Run::First, Some(_)) => self.amend(Run::First, active, look.first, at, stores),
            (Run::Second, own) => self.amend(run, active, own.or(look.first), at, stores),
        }
        let Version { number, point, .. } = self.versions[at];
        let row = [self.day, point.into(), run as u64, number];
        stores.log[LOG_ROW * self.used..][..LOG_ROW].copy_from_slice(&row);
        self.used += 1;
    }

    /// The rows of a run after another version of an active point is selected.
    fn amend(&self, run: Run, active: Active, old: Option<Pick>, at: usize, stores: &mut Stores) {
        let quarters = self.opening.quarters as usize;
        let values = &*stores.values;
        let series = |at: usize| {
            let start = self.versions[at].row as usize * quarters;
            &values[start..start + quarters]
        };
        let new = series(at);
        let old = old.map(|pick| series(pick.at));
        let book = &mut stores.book[(run as usize - 1) * ROWS * quarters..][..ROWS * quarters];
        let groups = &self.groups[run as usize - 1];
        let mut post = |side: Side, out: Option<&[u64]>, into: Option<&[u64]>| {
            for row in side.rows(groups) {
                row::change(&mut book[row * quarters..][..quarters], out, into);
            }
        };
        let [to, from] = active.sides();
        post(to, old, Some(new));
        post(from, Some(new), old);
    }

    /// A call that was read, with its energies: 0, or the number of its refusal.
    fn call(&mut self, call: &Call, series: &[u64], stores: &mut Stores) -> u64 {
        let f = &call.fields;
        let answer = match call.kind {
            1 => self.open(f, stores),
            2 => self.activate(f[0], (f[1], f[2], f[3]), f[4]),
            3 => self.deactivate(f[0], f[1]),
            4 => self.submit(f[0], f[1], f[2], series, stores),
            5 => self.notice(f[0], f[1], f[2], f[3], stores),
            6 => self.assign(f[0], f[1], f[2], stores),
            7 => self.close(f[0], f[1]),
            _ => self.issue(f[0], f[1]),
        };
        answer.map_or_else(|cause| cause as u64, |()| 0)
    }
}

impl Look {
    const NOTHING: Look = Look {
        taken: false,
        held: None,
        highest: 0,
        first: None,
        second: None,
    };

    /// A version of the point.
    fn meet(&mut self, at: usize, version: &Version, number: u64) {
        if version.number == number && self.held.is_none() {
            self.held = Some(at);
        }
        self.highest = self.highest.max(version.number);
        let pick = match version.status.run() {
            None => return,
            Some(Run::First) => &mut self.first,
            Some(Run::Second) => &mut self.second,
        };
        if is_higher(*pick, version.number) {
            let number = version.number;
            *pick = Some(Pick { at, number });
        }
    }

    /// The run whose selection, or whose own, changes to a version of this status and number.
    fn turn(&self, status: Status, number: u64) -> Option<Run> {
        status.run().filter(|run| {
            let pick = match run {
                Run::First => self.first,
                Run::Second => self.second,
            };
            is_higher(pick, number)
        })
    }
}

impl<const LOOK: u8> replay::Desk for Desk<LOOK> {
    fn quarters(&self) -> u64 {
        self.opening.quarters
    }

    fn handed(&mut self, call: &Call, series: &[u64], stores: &mut Stores) -> u64 {
        self.call(call, series, stores)
    }

    fn ended(&self, _: &mut [u64], _: &mut [u64], statuses: &mut [u64]) -> Ended {
        let held = &self.versions[..self.count];
        for (place, version) in statuses.iter_mut().zip(held) {
            *place = version.status as u64;
        }
        Ended {
            used: self.used,
            held: self.count,
            groups: self.groups,
        }
    }
}

impl<const LOOK: u8> script::Desk for Desk<LOOK> {
    fn lodge(
        &mut self,
        group: u64,
        day: u64,
        energies: &[u64],
        schedules: &mut [u64],
    ) -> Result<(), Cause> {
        self.look(0, 0, (0, 0, 0))?;
        let [_, _, _, length] = self.opening.lengths;
        refuse_if(schedules.len() != length, Cause::WrongLength)?;
        let quarters = self.opening.quarters as usize;
        let fits = is_group(group)
            && day <= LAST_DAY
            && energies.len() == quarters
            && are_energies(energies);
        refuse_if(!fits, Cause::BadField)?;
        refuse_if(day < self.day, Cause::PastDay)?;
        let [_, clearing, _] = self.opening.deadlines;
        refuse_if(day > clearing, Cause::TooLate)?;
        schedules[group_row(group) * quarters..][..quarters].copy_from_slice(energies);
        self.day = day;
        Ok(())
    }

    fn report(
        &self,
        run: u64,
        group: u64,
        book: &[u64],
        schedules: &[u64],
    ) -> Result<[u64; 2], Cause> {
        self.look(0, 0, (0, 0, 0))?;
        let [_, figures, _, planned] = self.opening.lengths;
        let other = (book.len(), schedules.len()) != (figures, planned);
        refuse_if(other, Cause::WrongLength)?;
        refuse_if(
            !((1..=2).contains(&run) && is_group(group)),
            Cause::BadField,
        )?;
        let quarters = self.opening.quarters as usize;
        let row = (run as usize - 1) * ROWS + group_row(group);
        let figures = &book[row * quarters..][..quarters];
        let schedule = &schedules[group_row(group) * quarters..][..quarters];
        let pairs = schedule.iter().copied().zip(figures.iter().copied());
        Ok(row::deviations(pairs))
    }
}

/// A whole message file through a fresh desk that tests cause 1 at each call: 0, or the number of the refusal that ended it.
pub fn replay(file: &[u8], buffers: &mut Buffers) -> u64 {
    replay::replay(Desk::<TESTED>::fresh(), file, buffers)
}

/// The same through a desk that tests of cause 1 the missing opening alone.
pub fn replay_untested(file: &[u8], buffers: &mut Buffers) -> u64 {
    replay::replay(Desk::<UNTESTED>::fresh(), file, buffers)
}

/// The same with the versions of each point in a chain.
pub fn replay_chained(file: &[u8], buffers: &mut Buffers) -> u64 {
    replay::replay(Desk::<CHAINED>::fresh(), file, buffers)
}

/// A script through a fresh desk that tests cause 1 at each call: how many places of the output are filled.
pub fn script(script: &[u64], buffers: &mut Buffers, out: &mut [u64]) -> usize {
    script::run(Desk::<TESTED>::fresh(), script, buffers, out)
}

/// The same through a desk that tests of cause 1 the missing opening alone.
pub fn script_untested(script: &[u64], buffers: &mut Buffers, out: &mut [u64]) -> usize {
    script::run(Desk::<UNTESTED>::fresh(), script, buffers, out)
}
