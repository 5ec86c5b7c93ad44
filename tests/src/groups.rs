//! The delta groups of each run: which cases the compared assignments were, and the submissions and notices at points whose
//! deltas have another group in run 2; what comes of accepted calls on a desk that was fresh; and what brings a desk's delta
//! groups out.

use crate::acts::{state, CLOSED, ISSUED, OPEN};
use crate::call::{Call, Lengths, DELTAS};
use crate::desk::in_range;
use crate::script::{Damage, Record, Write};
use crate::tally::Tally;
use crate::worked::{Month, Point, GROUPS, ROWS};

/// Assignments of T and of an area by their day, with their answers. A day before the desk's is left out.
pub const DAYS: [(&str, &[u64]); 12] = [
    ("assign of T on day C - 1", &[0]),
    ("assign of T on day C", &[0]),
    ("assign of T on day C + 1", &[0]),
    ("assign of T on day K - 1", &[0]),
    ("assign of T on day K", &[0]),
    ("assign of T on day K + 1", &[26]),
    ("assign of an area on day C - 1", &[0]),
    ("assign of an area on day C", &[0]),
    ("assign of an area on day C + 1", &[0]),
    ("assign of an area on day K - 1", &[0]),
    ("assign of an area on day K", &[0]),
    ("assign of an area on day K + 1", &[26]),
];

/// Other cases of assignments to an open desk, with the numbers that they are counted by: the answer, or the one that 5 came
/// before; the area, group or day where the case names those; 0 for T and 1 for an area; of the runs in which figures changed
/// 0 none, 2 run 2 alone, 3 both; of a run [`OPEN`], [`CLOSED`] or [`ISSUED`].
pub const CASES: [(&str, &[u64]); 20] = [
    ("assign on the desk's day", &[0, 26]),
    ("assign a day before the desk's", &[5]),
    ("assign, 5 before", &[0, 26]),
    ("assign, ends of the range, area", &[0, 16, 17]),
    ("assign, ends of the range, group", &[0, 1, 64, 65]),
    ("assign, ends of the range, day", &[0, 400, 401]),
    ("assign on day C - 1, runs moved", &[0, 3]),
    ("assign on day C, runs moved", &[0, 3]),
    ("assign on day C + 1, runs moved", &[0, 2]),
    ("assign on day K - 1, runs moved", &[0, 2]),
    ("assign on day K, runs moved", &[0, 2]),
    ("assign of T after C, runs moved", &[0, 2]),
    ("assign after C, run 1 is", &[OPEN, CLOSED, ISSUED]),
    ("assign, 26, run 1 is", &[OPEN, CLOSED, ISSUED]),
    ("assign, 26, run 2 is", &[OPEN, CLOSED, ISSUED]),
    ("assign again after C", &[0, 1]),
    ("assign, groups apart", &[0, 1]),
    ("assign, groups alike again", &[0, 1]),
    ("assign after C of run 1's group", &[0, 1]),
    ("deltas apart, up to 3", &[0, 1, 2, 3]),
];

/// Accepted submissions and notices at points one of whose deltas has another group in run 2 than in run 1, by the series: its
/// kind, and 6 for an exchange with an area. What is confirmed there has status 4. Last what run 2 had selected before a
/// confirmation: 0 nothing, 1 what run 1 selects, 2 its own.
pub const APART: [(&str, &[u64]); 7] = [
    ("submitted, groups apart", &[1, 2, 3, 4, 5, 6]),
    ("negative notice, groups apart", &[1, 2, 3, 4, 5, 6]),
    ("confirmed, groups apart", &[1, 2, 3, 4, 5, 6]),
    ("confirmed, the area's group apart", &[1, 2, 3, 5, 6]),
    ("confirmed, the partner's group apart", &[6]),
    ("confirmed, T's group apart", &[3, 4, 5]),
    ("confirmed, apart, run 2 had", &[0, 1, 2]),
];

/// The same of series with two sides: both deltas have another group in run 2; both sides are on one row in one of the runs.
pub const SIDES: [(&str, &[u64]); 2] = [
    ("confirmed, both groups apart", &[3, 5, 6]),
    ("confirmed, one row in one run alone", &[2, 3, 4, 5, 6]),
];

/// Calls that no file carries: shows and reports of a group that has other figures in the other run although both runs select
/// the same versions, by their run; and lodgings on C + 1 where an assignment was accepted on that day, by their answer.
pub const ASKED: [(&str, &[u64]); 3] = [
    ("show, apart by the groups alone", &[1, 2]),
    ("report, apart by the groups alone", &[1, 2]),
    ("lodge on C + 1, as an assignment", &[26]),
];

/// The deltas of a series, T being 0: that of its area, that of its partner where this is an area, that of T.
pub(crate) fn deltas(point: &Point) -> Vec<usize> {
    let (area, partner) = (point.area as usize, point.partner as usize);
    match point.kind {
        1 if partner > 0 => vec![area, partner],
        1 | 2 => vec![area],
        3 | 5 => vec![area, 0],
        _ => vec![0],
    }
}

/// The number of a series: its kind, and 6 for an exchange with an area.
fn series(point: &Point) -> u64 {
    match (point.kind, point.partner) {
        (1, 1..) => 6,
        (kind, _) => kind,
    }
}

/// Whether a delta has another group in run 2 than in run 1.
pub(crate) fn is_apart(month: &Month, delta: usize) -> bool {
    month.groups[0][delta] != month.groups[1][delta]
}

/// Counts a call to an open desk, whose list of accepted calls was this one before, and which was answered so.
pub fn count(
    tally: &mut Tally,
    list: &[(Call, Lengths)],
    before: &Month,
    call: &Call,
    answer: u64,
) {
    match *call {
        Call::Assign { area, group, day } => {
            count_ends(tally, before, call, answer);
            if [0, 26].contains(&answer) {
                count_day(tally, before, area, day, answer);
            }
            match answer {
                0 => count_groups(tally, list, before, (area, group, day)),
                5 => count_past(tally, before, day),
                26 => {
                    tally.add("assign, 26, run 1 is", state(before, 1));
                    tally.add("assign, 26, run 2 is", state(before, 2));
                }
                _ => {}
            }
        }
        Call::Lodge { day, .. } if day == before.clearing + 1 && [0, 26].contains(&answer) => {
            let mut assigned = assigned(list);
            if assigned.any(|(_, of)| of == day) {
                tally.add("lodge on C + 1, as an assignment", answer);
            }
        }
        Call::Show { run, group } if answer == 0 && is_by_groups(before, group) => {
            tally.add("show, apart by the groups alone", run);
        }
        Call::Report { run, group } if answer == 0 && is_by_groups(before, group) => {
            tally.add("report, apart by the groups alone", run);
        }
        _ => {}
    }
}

/// Counts an area, a group or a day that is in its range, or that alone is out of it and next to it.
fn count_ends(tally: &mut Tally, before: &Month, call: &Call, answer: u64) {
    let cases: [(&str, &[u64], &[u64], u64); 3] = [
        ("assign, ends of the range, area", &[0, 16], &[17], 1),
        ("assign, ends of the range, group", &[1, 64], &[0, 65], 1),
        ("assign, ends of the range, day", &[0, 400], &[401], 400),
    ];
    let fields = call.fields();
    for (at, (what, inside, beyond, right)) in cases.into_iter().enumerate() {
        let mut mended = fields.clone();
        mended[at] = right;
        let mended = Call::of(call.number(), &mended).expect("an assignment");
        let is_alone = answer == 3 && in_range(&mended, before.quarters);
        let counted = match answer {
            3 => is_alone && beyond.contains(&fields[at]),
            _ => inside.contains(&fields[at]),
        };
        if counted {
            tally.add(what, fields[at]);
        }
    }
}

/// An assignment that is accepted or answered 26, by its day.
fn count_day(tally: &mut Tally, before: &Month, area: u64, day: u64, answer: u64) {
    let Month {
        clearing,
        correction,
        ..
    } = *before;
    if day == before.day {
        tally.add("assign on the desk's day", answer);
    }
    let days = [clearing - 1, clearing, clearing + 1];
    let days = days
        .into_iter()
        .chain([correction - 1, correction, correction + 1]);
    let of_t = if area == 0 { 0 } else { 6 };
    for ((what, _), _) in DAYS[of_t..].iter().zip(days).filter(|(_, of)| *of == day) {
        tally.add(what, answer);
    }
}

/// An assignment on a day before the desk's.
fn count_past(tally: &mut Tally, before: &Month, day: u64) {
    if day + 1 == before.day {
        tally.add("assign a day before the desk's", 5);
    }
    let late = if day > before.correction { 26 } else { 0 };
    tally.add("assign, 5 before", late);
}

/// The accepted assignments, each by its area and day.
fn assigned(list: &[(Call, Lengths)]) -> impl Iterator<Item = (u64, u64)> + '_ {
    list.iter().filter_map(|(call, _)| match *call {
        Call::Assign { area, day, .. } => Some((area, day)),
        _ => None,
    })
}

/// An accepted assignment after C, by what it makes of the two groups.
fn count_groups(
    tally: &mut Tally,
    list: &[(Call, Lengths)],
    before: &Month,
    (area, group, day): (u64, u64, u64),
) {
    if day <= before.clearing {
        return;
    }
    let of_area = u64::from(area > 0);
    tally.add("assign after C, run 1 is", state(before, 1));
    let mut late = assigned(list).filter(|(_, day)| *day > before.clearing);
    if late.any(|(of, _)| of == area) {
        tally.add("assign again after C", of_area);
    }
    let is_alike = group == before.groups[0][area as usize];
    let what = match (is_apart(before, area as usize), is_alike) {
        (_, false) => "assign, groups apart",
        (true, true) => "assign, groups alike again",
        (false, true) => "assign after C of run 1's group",
    };
    tally.add(what, of_area);
}

/// Whether a group has other figures in the other run although both runs select the same versions.
fn is_by_groups(month: &Month, group: u64) -> bool {
    let quarters = month.quarters as usize;
    let row = |run| {
        let start = (group - 1) as usize * quarters;
        month.figures(run)[start..start + quarters].to_vec()
    };
    numbers(month, 1) == numbers(month, 2) && row(1) != row(2)
}

/// The numbers of the versions that a run selects, with their points.
fn numbers(month: &Month, run: u64) -> Vec<(u64, u64)> {
    let selected = month.selected(run);
    selected.map(|(point, _, v)| (point, v.number)).collect()
}

/// Counts a call that an open desk accepted.
pub fn count_accepted(tally: &mut Tally, before: &Month, after: &Month, call: &Call) {
    match *call {
        Call::Assign { area, day, .. } => count_moved(tally, before, after, area, day),
        Call::Submit { point, .. } => count_apart(tally, before, &before.points[&point], None),
        Call::Notice { point, verdict, .. } => {
            count_apart(tally, before, &before.points[&point], Some(verdict));
        }
        _ => {}
    }
    if after.day > after.clearing {
        let apart = (0..DELTAS).filter(|&delta| is_apart(after, delta));
        tally.add("deltas apart, up to 3", apart.count().min(3) as u64);
    }
}

/// An accepted assignment by the runs in which it changes figures.
fn count_moved(tally: &mut Tally, before: &Month, after: &Month, area: u64, day: u64) {
    let is_moved = |run| before.figures(run) != after.figures(run);
    let moved = u64::from(is_moved(1)) + 2 * u64::from(is_moved(2));
    let (c, k) = (before.clearing, before.correction);
    let days = [
        ("assign on day C - 1, runs moved", c - 1),
        ("assign on day C, runs moved", c),
        ("assign on day C + 1, runs moved", c + 1),
        ("assign on day K, runs moved", k),
    ];
    for (what, _) in days.into_iter().filter(|(_, of)| *of == day) {
        tally.add(what, moved);
    }
    if day + 1 == k && day > c {
        tally.add("assign on day K - 1, runs moved", moved);
    }
    if area == 0 && day > c {
        tally.add("assign of T after C, runs moved", moved);
    }
}

/// A submission, or a notice with its verdict, at a point of which a delta has another group in run 2.
fn count_apart(tally: &mut Tally, before: &Month, point: &Point, verdict: Option<u64>) {
    let apart: Vec<usize> = deltas(point)
        .into_iter()
        .filter(|&delta| is_apart(before, delta))
        .collect();
    if apart.is_empty() {
        return;
    }
    let series = series(point);
    match verdict {
        None => tally.add("submitted, groups apart", series),
        Some(0) => tally.add("negative notice, groups apart", series),
        Some(_) => count_confirmed(tally, before, point, &apart),
    }
}

/// A confirmation at a point of which these deltas have another group in run 2.
fn count_confirmed(tally: &mut Tally, before: &Month, point: &Point, apart: &[usize]) {
    let series = series(point);
    tally.add("confirmed, groups apart", series);
    for &delta in apart {
        let what = match delta as u64 {
            0 => "confirmed, T's group apart",
            of if of == point.area => "confirmed, the area's group apart",
            _ => "confirmed, the partner's group apart",
        };
        tally.add(what, series);
    }
    if apart.len() == 2 {
        tally.add("confirmed, both groups apart", series);
    }
    let [first, second] = [1, 2].map(|run| is_on_one_row(before, run, point));
    if first != second {
        tally.add("confirmed, one row in one run alone", series);
    }
    let had = match (point.own(1), point.own(2)) {
        (_, Some(_)) => 2,
        (Some(_), None) => 1,
        (None, None) => 0,
    };
    tally.add("confirmed, apart, run 2 had", had);
}

/// Whether a point adds its value to one row of a run twice.
pub fn is_on_one_row(month: &Month, run: u64, point: &Point) -> bool {
    let rows = month.rows_of(run, point);
    (1..rows.len()).any(|at| rows[..at].iter().any(|row| row.0 == rows[at].0))
}

/// What comes of an accepted call on a desk that was fresh, whose list it joined last. After day C what run 1 selects, its delta
/// groups and its figures stand still, after day K those of run 2. An assignment moves a delta from the group that it had to the
/// one that it has then, up to C in both runs and after C in run 2. And the totals of a run do not depend on the delta groups.
pub fn assert_followed(list: &[(Call, Lengths)], before: &Month, after: &Month) {
    let (call, _) = list.last().expect("a call");
    for (run, deadline) in [(1, after.clearing), (2, after.correction)] {
        if after.day > deadline {
            let groups = [before, after].map(|month| month.groups[run as usize - 1]);
            assert_eq!(groups[0], groups[1], "run {run}, {call}");
            assert_eq!(
                numbers(before, run),
                numbers(after, run),
                "run {run}, {call}"
            );
            assert_eq!(before.figures(run), after.figures(run), "run {run}, {call}");
        }
    }
    if let Call::Assign { area, group, day } = *call {
        let first = if day <= before.clearing { 1 } else { 2 };
        for run in first..=2 {
            assert_moved(before, after, run, (area, group));
        }
    }
    let others = with_other_groups(list.iter().map(|(call, lent)| (call, *lent)));
    let other = Month::of(&others).expect("an open desk");
    for run in 1..=2 {
        assert_eq!(totals(after, run), totals(&other, run), "run {run}, {call}");
    }
}

/// The figures and the delta groups of a run after a delta went to a group: its figures are taken from its group before and added
/// to the other one, and no others change.
fn assert_moved(before: &Month, after: &Month, run: u64, (area, group): (u64, u64)) {
    let quarters = before.quarters as usize;
    let old = before.groups[run as usize - 1][area as usize];
    let mut figures = before.figures(run);
    let delta = (GROUPS + area) as usize * quarters;
    for quarter in 0..quarters {
        let moved = figures[delta + quarter];
        figures[(old - 1) as usize * quarters + quarter] -= moved;
        figures[(group - 1) as usize * quarters + quarter] += moved;
    }
    assert_eq!(figures, after.figures(run), "run {run}, area {area}");
    let mut groups = before.groups[run as usize - 1];
    groups[area as usize] = group;
    let given = after.groups[run as usize - 1];
    assert_eq!(groups, given, "run {run}, area {area}");
}

/// The sums of the groups' figures in a run, for each quarter hour.
pub fn totals(month: &Month, run: u64) -> Vec<i128> {
    let quarters = month.quarters as usize;
    let mut totals = vec![0; quarters];
    for row in month.figures(run).chunks(quarters).take(GROUPS as usize) {
        for (total, figure) in totals.iter_mut().zip(row) {
            *total += figure;
        }
    }
    totals
}

/// The same calls with other delta groups at the opening, and assignments of other areas to other groups. What is outside its
/// range stays.
pub fn with_other_groups<'a>(
    calls: impl Iterator<Item = (&'a Call, Lengths)>,
) -> Vec<(Call, Lengths)> {
    let other = |group: u64, at: u64| match group {
        1..=GROUPS => 1 + (5 * group + 11 * at) % GROUPS,
        _ => group,
    };
    let changed = |(at, (call, lent)): (usize, (&Call, Lengths))| {
        let mut call = call.clone();
        match &mut call {
            Call::Open { groups, .. } => {
                for (delta, group) in groups.iter_mut().enumerate() {
                    *group = other(*group, delta as u64);
                }
            }
            Call::Assign { area, group, .. } => {
                if *area < DELTAS as u64 {
                    *area = (*area + at as u64) % DELTAS as u64;
                }
                *group = other(*group, at as u64);
            }
            _ => {}
        }
        (call, lent)
    };
    calls.enumerate().map(changed).collect()
}

/// What brings the delta groups of an open desk out, and makes of its book what they say: somebody else writes a number of its own
/// in the row of each delta in each run and sets the day to 0, and each delta is assigned to group 1.
pub fn brought_out(month: &Month, book: &mut [u64]) -> Vec<Record> {
    let quarters = month.quarters as usize;
    let mut records = vec![Record::Damage(Damage {
        which: 8,
        place: 0,
        to: [0; 4],
    })];
    for delta in 0..DELTAS {
        for run in 0..2 {
            let start = run * ROWS * quarters;
            let row = start + (GROUPS as usize + delta) * quarters;
            let number = 1 << (2 * delta + run);
            records.push(Record::Write(Write {
                store: 1,
                place: row as u64,
                number,
            }));
            book[row] = number;
            let old = month.groups[run][delta] as usize - 1;
            for quarter in 0..quarters {
                let moved = book[row + quarter];
                let place = &mut book[start + old * quarters + quarter];
                *place = place.wrapping_sub(moved);
                let place = &mut book[start + quarter];
                *place = place.wrapping_add(moved);
            }
        }
        let assigned = Call::Assign {
            area: delta as u64,
            group: 1,
            day: 0,
        };
        records.push(Record::Call(assigned, month.lengths));
    }
    records
}
