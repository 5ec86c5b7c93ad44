//! The page's part on surplus and shortfall, where schedules are given: a chart, a row a group, and both sides of the sum over all groups.

use crate::calls::yes;
use crate::library::{Replay, GROUPS};
use crate::page::{escaped, filled, number, word};
use crate::report::{Reports, Sides};
use crate::summary::grouped;

const PART: &str = include_str!("deviation.html");

/// The groups that have a schedule or a figure.
fn groups<'a>(replay: &'a Replay, reports: &'a Reports) -> impl Iterator<Item = u64> + 'a {
    (1..=GROUPS).filter(|group| reports.concerns(replay, *group))
}

/// A group's row of the table. A click on it shows the curve, where there is one.
fn row(replay: &Replay, reports: &Reports, group: u64) -> String {
    let sums: String = [1, 2]
        .map(|run| reports.report(run, group))
        .map(|report| number(report.surplus) + &number(report.shortfall))
        .concat();
    let click = if replay.has_figure(group) {
        format!(" data-group=\"{group}\"")
    } else {
        String::new()
    };
    format!(
        "<tr{click}>{}{}{}{sums}</tr>\n",
        number(group as i64),
        word(yes(reports.schedules.of(group).is_some())),
        number(reports.schedules.sum(group))
    )
}

/// Watt-hours that stay on one line.
fn energy(number: i128) -> String {
    format!("{} Wh", grouped(number)).replace(' ', "&nbsp;")
}

/// Both sides of a run's sum.
fn sum((sides, run): (&Sides, u64)) -> String {
    format!(
        "<p>run {run}, over all groups: surplus less shortfall is {}; schedules, {}, less outside exchange, {}, is {}.</p>\n",
        energy(sides.deviation),
        energy(sides.schedules),
        energy(sides.outside),
        energy(sides.expected())
    )
}

/// The part of the page.
pub fn part(replay: &Replay, reports: &Reports) -> String {
    let rows = groups(replay, reports).map(|group| row(replay, reports, group));
    let differing = reports
        .differing()
        .iter()
        .map(|line| format!("<p class=\"bad\"><strong>{}</strong></p>\n", escaped(line)))
        .collect::<String>();
    let verdict = if differing.is_empty() {
        "<p class=\"good\">Both sides are equal in each run.</p>\n".to_string()
    } else {
        differing
    };
    let sums: String = reports.sides.iter().zip(1..).map(sum).collect();
    filled(
        PART,
        &[
            ("name", escaped(&reports.schedules.name)),
            ("rows", rows.collect()),
            ("sums", sums + &verdict),
        ],
    )
}

/// The sums for the script, as words: a number of json is not exact where it is large.
pub fn data(replay: &Replay, reports: &Reports) -> String {
    let run = |run: u64, group: u64| {
        let report = reports.report(run, group);
        format!("[\"{}\",\"{}\"]", report.surplus, report.shortfall)
    };
    let group = |group: u64| {
        let [first, second] = [run(1, group), run(2, group)];
        format!("{{\"group\":{group},\"runs\":[{first},{second}]}}")
    };
    let groups: Vec<String> = groups(replay, reports).map(group).collect();
    format!("[{}]", groups.join(",\n"))
}
