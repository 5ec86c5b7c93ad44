//! The two acts by which a run is settled, close and issue: which cases the compared ones were, and what comes of accepted
//! calls on a desk that was fresh.

use crate::call::{Call, Lengths};
use crate::desk::in_range;
use crate::replay::Run;
use crate::tally::Tally;
use crate::worked::{Month, Version};

/// A run that is not closed.
pub const OPEN: u64 = 0;

/// A run that is closed and not issued.
pub const CLOSED: u64 = 1;

/// A run that is closed and issued.
pub const ISSUED: u64 = 2;

/// Cases of closes and issues to an open desk, with the numbers that they are counted by: the answer, or the one that 5 came
/// before, the run or day where the case names those, the status of a version, how many versions, 0 and 1 for no and yes; of a
/// run [`OPEN`], [`CLOSED`] or [`ISSUED`]. While run 1 is open the desk's day is not behind K, so that 29 is answered on later
/// days alone, and run 2 is open too.
pub const CASES: [(&str, &[u64]); 29] = [
    ("close of run 1 on day C", &[27]),
    ("close of run 1 on day C + 1", &[0, 28]),
    ("close of run 2 on day K", &[27]),
    ("close of run 2 on day K + 1", &[0, 28, 29]),
    ("close on the desk's day", &[0, 27, 28]),
    ("close a day before the desk's", &[5]),
    ("close, 5 before", &[0, 27, 28]),
    ("close, ends of the range, run", &[0, 1, 2, 3]),
    ("close, ends of the range, day", &[0, 400, 401]),
    ("close of run 2, run 1 is", &[CLOSED, ISSUED]),
    ("close of run 2, 27, run 1 is", &[OPEN, CLOSED, ISSUED]),
    ("close of run 1, 28, it is", &[CLOSED, ISSUED]),
    ("close of run 2, 28, it is", &[CLOSED, ISSUED]),
    ("issue on the desk's day", &[0, 38, 39]),
    ("issue a day before the desk's", &[5]),
    ("issue, 5 before", &[0, 38, 39]),
    ("issue, ends of the range, run", &[0, 1, 2, 3]),
    ("issue, ends of the range, day", &[0, 400, 401]),
    ("issue of run 1, run 2 is", &[OPEN, CLOSED, ISSUED]),
    ("issue of run 2, run 1 is", &[CLOSED, ISSUED]),
    ("issue of run 1, 38, run 2 is", &[OPEN]),
    ("issue of run 2, 38, run 1 is", &[OPEN, CLOSED, ISSUED]),
    ("issue of run 1, 39, run 2 is", &[OPEN, CLOSED, ISSUED]),
    ("issue of run 2, 39, run 1 is", &[CLOSED, ISSUED]),
    ("issue on the day of the close", &[0, 1]),
    ("issue of run 1, versions up to 2", &[0, 1, 2]),
    ("issue of run 2, versions up to 2", &[0, 1, 2]),
    ("left by issue of run 1, status", &[1, 2, 4, 5]),
    ("left by issue of run 2, status", &[1, 2, 3, 4]),
];

/// Calls between the close and the issue of a run, by their numbers: accepted ones, and those refused with 26 or 11.
pub const BETWEEN: [(&str, &[u64]); 5] = [
    (
        "run 1 not issued yet, call",
        &[2, 3, 4, 5, 6, 7, 8, 9, 11, 12],
    ),
    ("run 1 not issued yet, 26, call", &[6, 10]),
    ("run 2 not issued yet, call", &[7, 8, 11, 12]),
    ("run 2 not issued yet, 11, call", &[2, 3, 4, 5]),
    ("run 2 not issued yet, 26, call", &[6, 10]),
];

/// The same of the calls that a file carries.
pub const BETWEEN_OF_FILES: [(&str, &[u64]); 5] = [
    ("run 1 not issued yet, call", &[2, 3, 4, 5, 6, 9, 12]),
    ("run 1 not issued yet, 26, call", &[6]),
    ("run 2 not issued yet, call", &[12]),
    ("run 2 not issued yet, 11, call", &[2, 3, 4, 5]),
    ("run 2 not issued yet, 26, call", &[6]),
];

/// The states of both runs at the end of a file, as two digits.
pub const STATES: (&str, &[u64]) = ("states of run 1 and run 2", &[0, 10, 11, 12, 20, 21, 22]);

/// A file without an issue, as older ones are: the statuses of what its closed runs have of their own.
pub const OLDER: (&str, &[u64]) = ("closed, and no issue, status", &[2, 4]);

/// Whether a run is open, closed or issued.
pub fn state(month: &Month, run: u64) -> u64 {
    let at = run as usize - 1;
    u64::from(month.closed[at]) + u64::from(month.issued[at])
}

/// Counts a call to an open desk, whose list of accepted calls was this one before, and which was answered so; an accepted
/// status counts as answered 0.
pub fn count(
    tally: &mut Tally,
    list: &[(Call, Lengths)],
    before: &Month,
    call: &Call,
    answer: u64,
) {
    count_between(tally, before, call, answer);
    match *call {
        Call::Close { run, day } => count_close(tally, before, run, day, answer),
        Call::Issue { run, day } => count_issue(tally, list, before, (run, day), answer),
        _ => {}
    }
}

fn count_between(tally: &mut Tally, before: &Month, call: &Call, answer: u64) {
    for run in [1, 2]
        .into_iter()
        .filter(|&run| state(before, run) == CLOSED)
    {
        let what = match (run, answer) {
            (1, 0) => "run 1 not issued yet, call",
            (1, 26) => "run 1 not issued yet, 26, call",
            (2, 0) => "run 2 not issued yet, call",
            (2, 11) => "run 2 not issued yet, 11, call",
            (2, 26) => "run 2 not issued yet, 26, call",
            _ => continue,
        };
        tally.add(what, call.number());
    }
}

fn count_close(tally: &mut Tally, before: &Month, run: u64, day: u64, answer: u64) {
    let ends = [
        "close, ends of the range, run",
        "close, ends of the range, day",
    ];
    count_ends(tally, ends, before, &Call::Close { run, day }, answer);
    match answer {
        3 => return,
        5 => {
            if day + 1 == before.day {
                tally.add("close a day before the desk's", 5);
            }
            tally.add("close, 5 before", behind_5(before, run, day));
            return;
        }
        _ => {}
    }
    if day == before.day {
        tally.add("close on the desk's day", answer);
    }
    let days = [
        ("close of run 1 on day C", 1, before.clearing),
        ("close of run 1 on day C + 1", 1, before.clearing + 1),
        ("close of run 2 on day K", 2, before.correction),
        ("close of run 2 on day K + 1", 2, before.correction + 1),
    ];
    for (what, _, _) in days.into_iter().filter(|d| (d.1, d.2) == (run, day)) {
        tally.add(what, answer);
    }
    let what = match (run, answer) {
        (2, 0) => ("close of run 2, run 1 is", 1),
        (2, 27) => ("close of run 2, 27, run 1 is", 1),
        (1, 28) => ("close of run 1, 28, it is", 1),
        (2, 28) => ("close of run 2, 28, it is", 2),
        _ => return,
    };
    tally.add(what.0, state(before, what.1));
}

/// What a close on a day before the desk's would be answered on the desk of an earlier day.
fn behind_5(before: &Month, run: u64, day: u64) -> u64 {
    let deadline = [before.clearing, before.correction][run as usize - 1];
    match state(before, run) {
        _ if day <= deadline => 27,
        OPEN if run == 2 && state(before, 1) == OPEN => 29,
        OPEN => 0,
        _ => 28,
    }
}

fn count_issue(
    tally: &mut Tally,
    list: &[(Call, Lengths)],
    before: &Month,
    (run, day): (u64, u64),
    answer: u64,
) {
    let ends = [
        "issue, ends of the range, run",
        "issue, ends of the range, day",
    ];
    count_ends(tally, ends, before, &Call::Issue { run, day }, answer);
    match answer {
        3 => return,
        5 => {
            if day + 1 == before.day {
                tally.add("issue a day before the desk's", 5);
            }
            let answers = [38, 0, 39];
            let answer = answers[state(before, run) as usize];
            tally.add("issue, 5 before", answer);
            return;
        }
        _ => {}
    }
    if day == before.day {
        tally.add("issue on the desk's day", answer);
    }
    let what = match (run, answer) {
        (1, 0) => "issue of run 1, run 2 is",
        (1, 38) => "issue of run 1, 38, run 2 is",
        (1, _) => "issue of run 1, 39, run 2 is",
        (_, 0) => "issue of run 2, run 1 is",
        (_, 38) => "issue of run 2, 38, run 1 is",
        _ => "issue of run 2, 39, run 1 is",
    };
    tally.add(what, state(before, 3 - run));
    if answer == 0 {
        let (close, _) = &list[closed_at(list, run)];
        let is_same = close.day() == Some(day);
        tally.add("issue on the day of the close", is_same.into());
        count_restated(tally, before, run);
    }
}

/// Counts a run or a day that is in its range, or that alone is out of it.
fn count_ends(
    tally: &mut Tally,
    [of_run, of_day]: [&'static str; 2],
    before: &Month,
    call: &Call,
    answer: u64,
) {
    let fields = call.fields();
    let right = |at: usize, number: u64| {
        let mut fields = fields.clone();
        fields[at] = number;
        in_range(
            &Call::of(call.number(), &fields).expect("a call"),
            before.quarters,
        )
    };
    let (run, day) = (fields[0], fields[1]);
    if run <= 3 && (answer != 3 || ([0, 3].contains(&run) && right(0, 1))) {
        tally.add(of_run, run);
    }
    if (day == 401 && right(1, 400)) || (answer != 3 && [0, 400].contains(&day)) {
        tally.add(of_day, day);
    }
}

/// The place of a run's close in a list that has one.
fn closed_at(list: &[(Call, Lengths)], run: u64) -> usize {
    let closes =
        |(call, _): &(Call, Lengths)| matches!(call, Call::Close { run: of, .. } if *of == run);
    list.iter().position(closes).expect("a close")
}

/// Counts what an accepted issue restates, and what it leaves at the points where it restates a version.
fn count_restated(tally: &mut Tally, before: &Month, run: u64) {
    let (versions, left) = match run {
        1 => (
            "issue of run 1, versions up to 2",
            "left by issue of run 1, status",
        ),
        _ => (
            "issue of run 2, versions up to 2",
            "left by issue of run 2, status",
        ),
    };
    let mut restated = 0;
    for point in before.points.values() {
        let Some(own) = point.own(run) else {
            continue;
        };
        restated += 1;
        for other in point.versions.iter().filter(|v| v.number != own.number) {
            tally.add(left, other.status);
        }
    }
    tally.add(versions, restated.min(2));
}

/// Counts how a file that opened the desk left the runs.
pub fn count_ended(tally: &mut Tally, run: &Run) {
    let Some(month) = run.desk.month() else {
        return;
    };
    tally.add(STATES.0, 10 * state(&month, 1) + state(&month, 2));
    let is_issue = |(call, _): &(Call, u64)| matches!(call, Call::Issue { .. });
    if run.answered.iter().any(is_issue) {
        return;
    }
    for closed in [1, 2].into_iter().filter(|&run| state(&month, run) != OPEN) {
        for own in month.points.values().filter_map(|point| point.own(closed)) {
            tally.add(OLDER.0, own.status);
        }
    }
}

/// What comes of an accepted call on a desk that was fresh, whose list it joined last. A close changes no status. An issue gives
/// 3 or 5 to what the run has of its own, which is what it had at the close, and changes no other. Neither changes a figure or
/// the log. And a status tells of its run whether it is issued.
pub fn assert_followed(list: &[(Call, Lengths)], before: &Month, after: &Month) {
    let (call, _) = list.last().expect("a call");
    if let Call::Close { run, .. } | Call::Issue { run, .. } = *call {
        let issues = matches!(call, Call::Issue { .. });
        assert_eq!(after.log, before.log, "{call}");
        for run in 1..=2 {
            assert_eq!(after.figures(run), before.figures(run), "{call}");
        }
        let closed = Month::of(&list[..=closed_at(list, run)]).expect("an open desk");
        for (number, point) in &before.points {
            let own = point.own(run).map(|v| v.number);
            let status = |v: &Version| match own {
                Some(own) if issues && own == v.number => 1 + 2 * run,
                _ => v.status,
            };
            let statuses: Vec<u64> = point.versions.iter().map(status).collect();
            let given = after.points[number].versions.iter().map(|v| v.status);
            assert_eq!(
                given.collect::<Vec<_>>(),
                statuses,
                "point {number}, {call}"
            );
            let at_close = closed.points.get(number).and_then(|p| p.own(run));
            assert_eq!(at_close.map(|v| v.number), own, "point {number}, {call}");
        }
    }
    for point in after.points.values() {
        for run in 1..=2 {
            if let Some(own) = point.own(run) {
                let issued = after.issued[run as usize - 1];
                assert_eq!(own.status == 1 + 2 * run, issued, "run {run}, {call}");
            }
        }
    }
}
