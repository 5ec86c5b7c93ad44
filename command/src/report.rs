//! `desk report`: by how much each group's schedule lies above and below what it took, over the month. The reports are the library's. That they add up is
//! worked out apart from them: by the schedules of the text and the series of the month.

use std::ffi::OsStr;

use crate::arguments::{Form, Wanted};
use crate::calls::yes;
use crate::causes;
use crate::library::{Replay, Report, GROUPS};
use crate::month::{self, Ran};
use crate::output::{self, Failure};
use crate::schedules::{self, Schedules};
use crate::sheet::{Cell, Column, Sheet};
use crate::summary::grouped;
use crate::REFUSED;

/// Both sides of a run's sum over all groups, in watt-hours: surplus less shortfall is the schedules less the outside exchange.
pub struct Sides {
    pub deviation: i128,
    pub schedules: i128,
    pub outside: i128,
}

impl Sides {
    /// The schedules less the outside exchange.
    pub fn expected(&self) -> i128 {
        self.schedules - self.outside
    }
}

/// The reports of every run and group of a month, by its schedules.
pub struct Reports {
    pub schedules: Schedules,
    reports: [Vec<Report>; 2],
    pub sides: [Sides; 2],
}

/// The reports of a run, by group.
fn reports_of(replay: &Replay, run: u64) -> Result<Vec<Report>, Failure> {
    let refused = |group: u64, number: u64| {
        let meaning = causes::meaning(number);
        Failure::new(format!(
            "the report of run {run} and group {group}: refused, {number}: {meaning}"
        ))
    };
    let report = |group| {
        let report = replay.report(run, group);
        report.map_err(|number| refused(group, number))
    };
    (1..=GROUPS).map(report).collect()
}

fn sides(replay: &Replay, schedules: &Schedules, run: u64, reports: &[Report]) -> Sides {
    let deviation = |report: &Report| i128::from(report.surplus) - i128::from(report.shortfall);
    Sides {
        deviation: reports.iter().map(deviation).sum(),
        schedules: schedules.total(),
        outside: replay.outside(run),
    }
}

/// Lodges the schedules of a text in a month that was run, and reports on them.
pub fn of(ran: &mut Ran, name: &OsStr) -> Result<Reports, Failure> {
    let schedules = schedules::read(name, ran.replay.quarters)?;
    for group in 1..=GROUPS {
        if let Some(energies) = schedules.of(group) {
            ran.replay.lodge(group, energies);
        }
    }
    let reports = [reports_of(&ran.replay, 1)?, reports_of(&ran.replay, 2)?];
    let sides = [1, 2].map(|run| sides(&ran.replay, &schedules, run, &reports[run as usize - 1]));
    Ok(Reports {
        schedules,
        reports,
        sides,
    })
}

impl Reports {
    /// The report of a run and a group, both counted from 1.
    pub fn report(&self, run: u64, group: u64) -> Report {
        self.reports[run as usize - 1][group as usize - 1]
    }

    /// Whether a group has a schedule, or a figure other than 0.
    pub fn concerns(&self, replay: &Replay, group: u64) -> bool {
        self.schedules.of(group).is_some() || replay.has_figure(group)
    }

    /// The runs whose sides differ, in words.
    pub fn differing(&self) -> Vec<String> {
        let told = |(sides, run): (&Sides, u64)| {
            let by = sides.deviation - sides.expected();
            (by != 0).then(|| {
                format!(
                    "run {run}: surplus less shortfall is not schedules less outside exchange, by {} Wh; do not use these reports",
                    grouped(by)
                )
            })
        };
        self.sides.iter().zip(1..).filter_map(told).collect()
    }

    /// A word on standard error where the sides of a run differ; the exit status then.
    pub fn judged(&self, ran: &Ran) -> i32 {
        let differing = self.differing();
        for line in &differing {
            output::warn(&format!("{}: {line}", ran.month.name));
        }
        if differing.is_empty() {
            ran.status()
        } else {
            REFUSED
        }
    }
}

const REPORT: &[Column] = &[
    Column("run", 3),
    Column("group", 5),
    Column("lodged", -6),
    Column("schedule", 22),
    Column("figure", 22),
    Column("surplus", 22),
    Column("shortfall", 22),
];

/// The runs asked for.
fn runs(wanted: &Wanted) -> impl Iterator<Item = u64> {
    let asked = wanted.run;
    (1..=2).filter(move |run| asked.is_none_or(|asked| asked == *run))
}

/// The list: a group that is asked for, or those that have a schedule or a figure, or all with `--all`.
fn list(wanted: &Wanted, ran: &Ran, reports: &Reports) -> String {
    let mut sheet = Sheet::new(wanted.form, REPORT);
    let replay = &ran.replay;
    let is_shown = |group: &u64| match wanted.group {
        Some(asked) => asked == *group,
        None => wanted.all || reports.concerns(replay, *group),
    };
    let groups: Vec<u64> = (1..=GROUPS).filter(is_shown).collect();
    for run in runs(wanted) {
        for group in &groups {
            let report = reports.report(run, *group);
            sheet.row(&[
                Cell::Number(run as i64),
                Cell::Number(*group as i64),
                Cell::Word(yes(reports.schedules.of(*group).is_some())),
                Cell::Sum(reports.schedules.sum(*group)),
                Cell::Sum(replay.sum(run, group - 1)),
                Cell::Sum(report.surplus),
                Cell::Sum(report.shortfall),
            ]);
        }
    }
    sheet.end()
}

/// Both sides of the sum over all groups, a column a run, and whether they are equal.
fn sums(wanted: &Wanted, reports: &Reports) -> String {
    let line = |label: &str, cell: &dyn Fn(u64) -> String| {
        let cells: String = runs(wanted)
            .map(|run| format!("  {:>24}", cell(run)))
            .collect();
        format!("{label:<32}{cells}\n")
    };
    let number = |number: fn(&Sides) -> i128| {
        move |run: u64| grouped(number(&reports.sides[run as usize - 1]))
    };
    let differing = reports.differing();
    let verdict = if differing.is_empty() {
        "both sides are equal in run 1 and in run 2".to_string()
    } else {
        differing.join("\n")
    };
    [
        "\n".to_string(),
        line("over all groups, Wh", &|run| format!("run {run}")),
        line("surplus less shortfall", &number(|sides| sides.deviation)),
        line("schedules less outside exchange", &number(Sides::expected)),
        line("    schedules", &number(|sides| sides.schedules)),
        line("    outside exchange", &number(|sides| sides.outside)),
        format!("{verdict}\n"),
    ]
    .concat()
}

/// `desk report`.
pub fn report(wanted: &Wanted) -> Result<i32, Failure> {
    let mut ran = month::run(wanted)?;
    if ran.replay.quarters == 0 {
        ran.warn();
        output::write(Sheet::new(wanted.form, REPORT).end().as_bytes())?;
        return Ok(ran.status());
    }
    let reports = of(&mut ran, wanted.schedules.as_deref().unwrap_or_default())?;
    let mut text = list(wanted, &ran, &reports);
    if wanted.form == Form::Text {
        text.push_str(&sums(wanted, &reports));
    }
    ran.warn();
    let status = reports.judged(&ran);
    output::write(text.as_bytes())?;
    Ok(status)
}
