//! What the compared calls and selected versions were: how often each answer and each status came up, and how often each case
//! that is easy to get wrong.

use crate::acts::{self, ISSUED};
use crate::call::{Call, Lengths};
use crate::desk::{other_lengths, Answer, Desk, LOG_ROW, MOST_VERSIONS};
use crate::groups::{self, is_on_one_row};
use crate::notices;
use crate::replay::Run;
use crate::schedules;
use crate::tally::Tally;
use crate::worked::{Month, Point, Version};

/// Gives a call to the plain desk, and counts it.
pub fn called(tally: &mut Tally, desk: &mut Desk, call: &Call, lent: Lengths) -> Answer {
    let calls = desk.list().len();
    let answer = desk.call(call, lent);
    let before = Month::of(&desk.list()[..calls]);
    if let Some(before) = &before {
        let list = &desk.list()[..calls];
        schedules::count(tally, list, before, (call, lent), &answer);
        let number = match answer {
            Answer::Status(_) => 0,
            _ => answer.number(),
        };
        acts::count(tally, list, before, call, number);
        groups::count(tally, list, before, call, number);
    }
    match (&answer, &before) {
        (Answer::Refused(number), None) => {
            count_unopened(tally, call, *number);
            schedules::count_unopened(tally, call, lent, *number);
        }
        (Answer::Refused(number), Some(before)) => {
            tally.add(call.name(), *number);
            notices::count(tally, before, call, *number);
            count_refused(tally, before, call, lent, *number);
        }
        (Answer::Status(status), _) => tally.add("status given", *status),
        (_, None) => tally.add(call.name(), 0),
        (_, Some(before)) => {
            tally.add(call.name(), 0);
            let after = desk.month().expect("an open desk");
            notices::count(tally, before, call, 0);
            notices::assert_followed(before, &after, call);
            acts::assert_followed(desk.list(), before, &after);
            groups::count_accepted(tally, before, &after, call);
            groups::assert_followed(desk.list(), before, &after);
            count_accepted(tally, before, &after, call);
        }
    }
    answer
}

fn count_unopened(tally: &mut Tally, call: &Call, number: u64) {
    match call {
        Call::Open { .. } => tally.add(call.name(), number),
        _ => {
            tally.add("desk not open", number);
            tally.add("call to a desk not open", call.number());
        }
    }
}

fn count_refused(tally: &mut Tally, before: &Month, call: &Call, lent: Lengths, number: u64) {
    match number {
        2 => match other_lengths(call, lent, before.lengths)[..] {
            [0] => tally.add("values of another length", 2),
            [1] => tally.add("book of another length", 2),
            [2] => tally.add("log of another length", 2),
            [3] => tally.add("schedules of another length", 2),
            _ => tally.add("stores of another length", 2),
        },
        16 if before.rows.len() == MOST_VERSIONS => tally.add("512 versions held", 16),
        16 => tally.add("next row exceeds values", 16),
        _ => {}
    }
}

fn count_accepted(tally: &mut Tally, before: &Month, after: &Month, call: &Call) {
    let point = call.point().and_then(|point| after.points.get(&point));
    let gained = after.log.len() > before.log.len();
    match (call, point) {
        (Call::Activate { .. }, _) if after.points.len() == 256 => {
            tally.add("256 points active", 0);
        }
        (Call::Submit { .. }, Some(point)) => {
            tally.add("kind of the series submitted", point.kind);
            count_selection(tally, after, point, gained);
        }
        (Call::Notice { .. }, Some(point)) => count_selection(tally, after, point, gained),
        (Call::Assign { area, .. }, _) if before.figures(1) != after.figures(1) => {
            tally.add("assign that moves a delta", u64::from(*area > 0));
        }
        (Call::Close { run, .. }, _) => tally.add("run closed", *run),
        (Call::Issue { run, .. }, _) => tally.add("run issued", *run),
        _ => {}
    }
}

/// A submission or a notice, by what it makes of its point's selection.
fn count_selection(tally: &mut Tally, after: &Month, point: &Point, gained: bool) {
    let full = LOG_ROW * after.log.len() as u64 == after.lengths.log;
    if full && !gained {
        tally.add("log full and no row due", 0);
    }
    if gained && (1..=2).any(|run| is_on_one_row(after, run, point)) {
        tally.add("both sides on one row", point.kind);
    }
}

/// Who selects a version, with the statuses that it can have.
pub const STATUSES: [(&str, &[u64]); 3] = [
    ("selected by run 1", &[2, 3]),
    ("selected by run 2, its own", &[4, 5]),
    ("selected by run 2, as by run 1", &[2, 3]),
];

/// Cases in which the status of a selected version is easy to get wrong, with the numbers that they are counted by: the
/// status or the run.
pub const SELECTIONS: [(&str, &[u64]); 5] = [
    ("as by run 1, and run 2 is issued", &[2, 3]),
    ("not settled, and the run closed", &[2, 4]),
    ("not settled, behind the deadline", &[2, 4]),
    ("below a version of another status", &[1, 2]),
    ("above a version of another status", &[1, 2]),
];

/// Counts the selected versions of both runs, by `STATUSES` and `SELECTIONS`.
pub fn count_selected(tally: &mut Tally, month: &Month) {
    for run in 1..=2 {
        for (_, point, version) in month.selected(run) {
            let fallback = run == 2 && point.own(2).is_none();
            let what = match (run, fallback) {
                (1, _) => "selected by run 1",
                (_, false) => "selected by run 2, its own",
                (_, true) => "selected by run 2, as by run 1",
            };
            tally.add(what, version.status);
            if fallback && acts::state(month, 2) == ISSUED {
                tally.add("as by run 1, and run 2 is issued", version.status);
            }
            count_status(tally, month, version);
            count_beside(tally, run, point, version);
        }
    }
}

/// A status that no issue has changed yet although the run is closed, or its day has come.
fn count_status(tally: &mut Tally, month: &Month, version: &Version) {
    let (closed, behind) = match version.status {
        2 => (month.closed[0], month.day > month.clearing),
        4 => (month.closed[1], month.day > month.correction),
        _ => (false, false),
    };
    if closed {
        tally.add("not settled, and the run closed", version.status);
    }
    if behind {
        tally.add("not settled, behind the deadline", version.status);
    }
}

/// A selected version beside others of its point that have another status.
fn count_beside(tally: &mut Tally, run: u64, point: &Point, selected: &Version) {
    let others = || {
        point
            .versions
            .iter()
            .filter(|v| v.status != selected.status)
    };
    if others().any(|other| other.number > selected.number) {
        tally.add("below a version of another status", run);
    }
    if others().any(|other| other.number < selected.number) {
        tally.add("above a version of another status", run);
    }
}

/// Counts the notices, assignments, closes and issues of a file that was run, and asserts what comes of its accepted calls.
pub fn count_run(tally: &mut Tally, run: &Run) {
    let (list, mut accepted) = (run.desk.list(), 0);
    for (call, answer) in &run.answered {
        let before = Month::of(&list[..accepted]);
        let earlier = &list[..accepted];
        accepted += usize::from(*answer == 0);
        let after = Month::of(&list[..accepted]);
        let (Some(before), Some(after)) = (before, after) else {
            continue;
        };
        notices::count(tally, &before, call, *answer);
        acts::count(tally, earlier, &before, call, *answer);
        groups::count(tally, earlier, &before, call, *answer);
        if *answer == 0 {
            notices::assert_followed(&before, &after, call);
            acts::assert_followed(&list[..accepted], &before, &after);
            groups::count_accepted(tally, &before, &after, call);
            groups::assert_followed(&list[..accepted], &before, &after);
        }
    }
    acts::count_ended(tally, run);
}
