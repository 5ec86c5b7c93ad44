//! `desk figures`, `desk log`, `desk points`, `desk runs` and `desk deltas`. Each list has one order in every form: figures by run, quarter hour and group; the
//! log as it was written; points by number, and a point's versions by version; runs by number; deltas by run and area. What is picked stays in that order.

use crate::arguments::Wanted;
use crate::calendar::Date;
use crate::calls::{name_in, yes, Call, CLOSE, ISSUE, SERIES, STATUSES};
use crate::deltas;
use crate::library::{Point, Version, GROUPS};
use crate::month::{self, Ran};
use crate::output::{self, Failure};
use crate::sheet::{Cell, Column, Sheet};

/// Writes a list of a month, with a word where the month was not accepted whole.
fn told(ran: &Ran, sheet: Sheet) -> Result<i32, Failure> {
    ran.warn();
    output::write(sheet.end().as_bytes())?;
    Ok(ran.status())
}

fn number(number: u64) -> Cell<'static> {
    Cell::Number(number as i64)
}

const FIGURES: &[Column] = &[
    Column("run", 3),
    Column("quarter", 7),
    Column("group", 5),
    Column("figure", 16),
];

/// Figures that are not 0, or all with `--all`.
pub fn figures(wanted: &Wanted) -> Result<i32, Failure> {
    let ran = month::run(wanted)?;
    let mut sheet = Sheet::new(wanted.form, FIGURES);
    let groups = || (1..=GROUPS).filter(|group| wanted.group.is_none_or(|asked| asked == *group));
    for run in (1..=2).filter(|run| wanted.run.is_none_or(|asked| asked == *run)) {
        for quarter in 1..=ran.replay.quarters {
            for group in groups() {
                let figure = ran.replay.figure(run, group, quarter);
                if figure != 0 || wanted.all {
                    sheet.row(&[
                        number(run),
                        number(quarter as u64),
                        number(group),
                        Cell::Number(figure),
                    ]);
                }
            }
        }
    }
    told(&ran, sheet)
}

/// A date as lists show it; empty where there is none.
pub fn shown(date: Option<Date>) -> String {
    date.map_or(String::new(), |date| date.to_string())
}

/// The date of a day; nothing where there is none.
fn date(date: &str) -> Cell<'_> {
    if date.is_empty() {
        Cell::Nothing
    } else {
        Cell::Word(date)
    }
}

const LOG: &[Column] = &[
    Column("row", 4),
    Column("day", 3),
    Column("date", -10),
    Column("point", 5),
    Column("run", 3),
    Column("version", 14),
];

/// Whether a point is asked for: with `--group` those whose series is that group's sum.
fn picked(wanted: &Wanted, point: &Point) -> bool {
    wanted
        .group
        .is_none_or(|asked| point.group() == Some(asked))
}

/// A word on standard error where deltas are booked to the group that is asked for: the points behind them are not picked.
fn deltas_apart(wanted: &Wanted, ran: &Ran) {
    let Some(group) = wanted.group.filter(|_| ran.replay.quarters > 0) else {
        return;
    };
    let booked = deltas::booked(&ran.replay, group, wanted.run);
    if !booked.is_empty() {
        output::warn(&format!(
            "{}: deltas are booked to group {group} ({}); the points behind them are not listed here, and `desk deltas` has the deltas",
            ran.month.name,
            booked.join(", ")
        ));
    }
}

/// The rows of the log in their own order. A point of the log has a version, so it is active.
pub fn log(wanted: &Wanted) -> Result<i32, Failure> {
    let ran = month::run(wanted)?;
    let mut sheet = Sheet::new(wanted.form, LOG);
    let of_group = |number: u64| {
        let mut points = ran.replay.points.iter();
        points.any(|point| point.number == number && picked(wanted, point))
    };
    for (at, row) in ran.replay.log.iter().enumerate() {
        if wanted.run.is_none_or(|asked| asked == row.run) && of_group(row.point) {
            sheet.row(&[
                number(at as u64 + 1),
                number(row.day),
                date(&shown(ran.log_date(row))),
                number(row.point),
                number(row.run),
                number(row.version),
            ]);
        }
    }
    deltas_apart(wanted, &ran);
    told(&ran, sheet)
}

const POINTS: &[Column] = &[
    Column("point", 5),
    Column("kind", -14),
    Column("area", 4),
    Column("partner", 7),
    Column("since", 5),
    Column("since_date", -10),
    Column("version", 14),
    Column("status", -26),
    Column("run_1", -5),
    Column("run_2", -5),
    Column("settled", -7),
];

/// What a version is: its number and status, whether run 1 and run 2 select it, whether it is settled.
fn version_cells(point: &Point, version: &Version) -> [Cell<'static>; 5] {
    let whether = |holds: bool| Cell::Word(yes(holds));
    [
        number(version.version),
        Cell::Word(name_in(&STATUSES, version.status)),
        whether(point.selects(1, version)),
        whether(point.selects(2, version)),
        whether(version.is_settled()),
    ]
}

fn point_row(sheet: &mut Sheet, ran: &Ran, point: &Point, version: Option<&Version>) {
    let nothing = [const { Cell::Nothing }; 5];
    let [version, status, first, second, settled] =
        version.map_or(nothing, |version| version_cells(point, version));
    sheet.row(&[
        number(point.number),
        Cell::Word(name_in(&SERIES, point.kind)),
        number(point.area),
        number(point.partner),
        number(point.since),
        date(&shown(ran.since_date(point))),
        version,
        status,
        first,
        second,
        settled,
    ]);
}

/// Each active point's series with its versions, whether they count in run 1 and run 2, and whether they are settled.
pub fn points(wanted: &Wanted) -> Result<i32, Failure> {
    let ran = month::run(wanted)?;
    let mut sheet = Sheet::new(wanted.form, POINTS);
    for point in ran
        .replay
        .points
        .iter()
        .filter(|point| picked(wanted, point))
    {
        let counts = |version: &&Version| match wanted.run {
            Some(run) => point.selects(run, version),
            None => true,
        };
        let mut versions = ran.replay.versions_of(point.number).peekable();
        if versions.peek().is_none() && wanted.run.is_none() {
            point_row(&mut sheet, &ran, point, None);
        }
        versions
            .filter(counts)
            .for_each(|version| point_row(&mut sheet, &ran, point, Some(version)));
    }
    deltas_apart(wanted, &ran);
    told(&ran, sheet)
}

const RUNS: &[Column] = &[
    Column("run", 3),
    Column("closed", -6),
    Column("closed_day", 10),
    Column("closed_date", -11),
    Column("issued", -6),
    Column("issued_day", 10),
    Column("issued_date", -11),
    Column("selected", 8),
    Column("settled", 7),
];

fn run_row(sheet: &mut Sheet, ran: &Ran, run: u64) {
    let (replay, at) = (&ran.replay, run as usize - 1);
    let selected = || replay.points.iter().filter_map(|point| point.selected[at]);
    let settled = selected().filter(Version::is_settled);
    let [closed, issued] = [CLOSE, ISSUE].map(|kind| ran.call_on(kind, run));
    let [closed_date, issued_date] =
        [closed, issued].map(|call| call.map_or(String::new(), |call| ran.date_of(call)));
    let day = |call: Option<&Call>| call.map_or(Cell::Nothing, |call| number(call.field("day")));
    sheet.row(&[
        number(run),
        Cell::Word(yes(replay.closed[at])),
        day(closed),
        date(&closed_date),
        Cell::Word(yes(replay.issued[at])),
        day(issued),
        date(&issued_date),
        number(selected().count() as u64),
        number(settled.count() as u64),
    ]);
}

/// Each run of a desk that is open: whether and when it was closed and issued, how many versions it selects, how many of them are settled.
pub fn runs(wanted: &Wanted) -> Result<i32, Failure> {
    let ran = month::run(wanted)?;
    let mut sheet = Sheet::new(wanted.form, RUNS);
    let is_asked = |run: &u64| wanted.run.is_none_or(|asked| asked == *run);
    for run in (1..=2).filter(is_asked).filter(|_| ran.replay.quarters > 0) {
        run_row(&mut sheet, &ran, run);
    }
    told(&ran, sheet)
}

const DELTAS: &[Column] = &[
    Column("run", 3),
    Column("area", 4),
    Column("group", 5),
    Column("other_run_group", 15),
    Column("delta", 22),
];

fn delta_row(sheet: &mut Sheet, ran: &Ran, run: u64, delta: u64) {
    let replay = &ran.replay;
    let other = replay.delta_group(3 - run, delta);
    sheet.row(&[
        number(run),
        number(delta),
        number(replay.delta_group(run, delta)),
        if replay.is_moved(delta) {
            number(other)
        } else {
            Cell::Nothing
        },
        Cell::Sum(replay.sum(run, deltas::row(delta))),
    ]);
}

/// The group that each run of a desk that is open books each delta to, and the delta over the month: those that have something to show, or all with `--all`.
pub fn deltas(wanted: &Wanted) -> Result<i32, Failure> {
    let ran = month::run(wanted)?;
    let replay = &ran.replay;
    let mut sheet = Sheet::new(wanted.form, DELTAS);
    let is_asked = |run: &u64| wanted.run.is_none_or(|asked| asked == *run);
    for run in (1..=2).filter(is_asked).filter(|_| replay.quarters > 0) {
        let is_booked = |delta: &u64| {
            let group = replay.delta_group(run, *delta);
            wanted.group.is_none_or(|asked| asked == group)
        };
        deltas::all()
            .filter(is_booked)
            .filter(|delta| wanted.all || deltas::is_shown(replay, *delta))
            .for_each(|delta| delta_row(&mut sheet, &ran, run, delta));
    }
    told(&ran, sheet)
}
