//! What each run selects at each point, with its status, and whether that is settled; which runs are closed and issued: for `desk run` and the page.
//! Versions and statuses are the library's; run 2's selection is its own where its status is one of a correction, else run 1's.

use crate::calls::{counted, name_in, CLOSE, ISSUE, SERIES, STATUSES};
use crate::library::{Point, Replay, Version};
use crate::month::Ran;

/// A point's series: its kind, with area and partner as that kind has them.
pub fn series(point: &Point) -> String {
    let (kind, area, partner) = (
        name_in(&SERIES, point.kind),
        format!("area {}", point.area),
        point.partner,
    );
    match point.kind {
        1 if partner == 0 => format!("{kind} {area} with outside"),
        1 => format!("{kind} {area} with area {partner}"),
        2 => format!("{kind} {area} group {partner}"),
        4 => format!("{kind} group {partner}"),
        _ => format!("{kind} {area}"),
    }
}

/// Whether a run has what it selects from run 1: run 2, where it has none of its own.
fn is_taken(run: u64, version: &Version) -> bool {
    run == 2 && !version.is_correction()
}

/// A version with its status: `7 settled`.
fn shown(version: &Version) -> String {
    format!("{} {}", version.version, name_in(&STATUSES, version.status))
}

/// The status of what a run selects, with a mark where run 2 has it from run 1.
pub fn status(run: u64, version: &Version) -> String {
    let mark = if is_taken(run, version) {
        ", as run 1"
    } else {
        ""
    };
    format!("{}{mark}", name_in(&STATUSES, version.status))
}

/// In which runs the version that is selected is settled; a dash where no run selects one.
pub fn settled(point: &Point) -> &'static str {
    let settled = |at: usize| point.selected[at].is_some_and(|version| version.is_settled());
    match (settled(0), settled(1)) {
        (true, true) => "both",
        (true, false) => "run 1",
        (false, true) => "run 2",
        _ if point.selected.iter().all(Option::is_none) => "-",
        _ => "no",
    }
}

/// The versions of a point that no run selects, the highest first.
pub fn others<'a>(replay: &'a Replay, point: &Point) -> Vec<&'a Version> {
    replay
        .versions_of(point.number)
        .rev()
        .filter(|version| !point.selects(1, version) && !point.selects(2, version))
        .collect()
}

/// Versions one by one, each with its status.
pub fn listed(versions: &[&Version]) -> String {
    let words: Vec<String> = versions.iter().map(|version| shown(version)).collect();
    words.join(", ")
}

/// How many versions there are of each status.
fn tallied(versions: &[&Version]) -> String {
    let of = |status: u64| {
        let many = versions.iter().filter(|version| version.status == status);
        match many.count() {
            0 => None,
            many => Some(format!("{} ({many})", name_in(&STATUSES, status))),
        }
    };
    let words: Vec<String> = (1..=STATUSES.len() as u64).filter_map(of).collect();
    words.join(", ")
}

/// Whether a run is closed and issued, in words; one that is issued is closed.
pub fn state(replay: &Replay, run: u64) -> &'static str {
    let at = run as usize - 1;
    match (replay.closed[at], replay.issued[at]) {
        (true, true) => "issued",
        (true, false) => "closed, not issued",
        _ => "not closed",
    }
}

/// Whether a run is closed and issued, and how much of what it selects is settled.
pub fn share(replay: &Replay, run: u64) -> String {
    let at = run as usize - 1;
    let selected: Vec<Version> = replay
        .points
        .iter()
        .filter_map(|point| point.selected[at])
        .collect();
    let start = format!("run {run} is {}", state(replay, run));
    if selected.is_empty() {
        return format!("{start}: no version selected");
    }
    let settled = selected.iter().filter(|version| version.is_settled());
    let all = counted(selected.len(), "selected version", "", "s");
    format!(
        "{start}: {} of {all} settled{}{}",
        settled.count(),
        sources(run, &selected),
        missing(replay.points.len() - selected.len())
    )
}

/// When a run was closed and issued, and what is next where it is closed alone; nothing where it is not closed.
pub fn note(ran: &Ran, run: u64) -> Option<String> {
    let day_of = |kind| ran.call_on(kind, run).map(|call| ran.day_of(call));
    let closed = day_of(CLOSE)?;
    let rest = match day_of(ISSUE) {
        Some(issued) => format!(", issued on day {issued}"),
        None => format!(
            "; to send its statuses: issue run={run} day={}, or a later day",
            ran.today()
        ),
    };
    Some(format!("closed on day {closed}{rest}"))
}

/// How many of run 2's selected versions are its own.
fn sources(run: u64, selected: &[Version]) -> String {
    if run == 1 {
        return String::new();
    }
    let own = selected.iter().filter(|version| version.is_correction());
    let own = own.count();
    format!("; {own} its own, {} as run 1", selected.len() - own)
}

/// How many points have no selected version.
fn missing(points: usize) -> String {
    if points == 0 {
        return String::new();
    }
    format!("; {}", counted(points, "point", " has none", "s have none"))
}

/// A line of the table for people: its cells.
pub type Line = [String; 6];

const HEAD: [&str; 6] = [
    "point",
    "series",
    "settled",
    "run 1",
    "run 2",
    "other versions",
];
/// How wide a line may become by versions that stand one by one.
const WIDTH: usize = 120;

/// A point's line, without its other versions.
fn line(point: &Point) -> Line {
    let selected = |run: u64| match &point.selected[run as usize - 1] {
        None => "none".to_string(),
        Some(version) if is_taken(run, version) => "as run 1".to_string(),
        Some(version) => shown(version),
    };
    [
        format!("{:>5}", point.number),
        series(point),
        settled(point).to_string(),
        selected(1),
        selected(2),
        String::new(),
    ]
}

/// Versions one by one where there is room for them, else by status.
fn fitted(versions: &[&Version], room: usize) -> String {
    let whole = listed(versions);
    if whole.len() <= room {
        whole
    } else {
        tallied(versions)
    }
}

/// The table for people: its head, then a line a point. Each cell but the last is as wide as the longest of its column.
pub fn table(replay: &Replay) -> Vec<Line> {
    let mut lines = vec![HEAD.map(str::to_string)];
    lines.extend(replay.points.iter().map(line));
    let widths: [usize; 5] = std::array::from_fn(|column| {
        let lengths = lines.iter().map(|line| line[column].len());
        lengths.max().unwrap_or(0)
    });
    let before = widths.iter().map(|width| width + 2).sum();
    let room = WIDTH.saturating_sub(before).max(HEAD[5].len());
    for (line, point) in lines[1..].iter_mut().zip(&replay.points) {
        line[5] = fitted(&others(replay, point), room);
    }
    for line in &mut lines {
        for (cell, width) in line.iter_mut().zip(widths) {
            *cell = format!("{cell:<width$}");
        }
    }
    lines
}
