//! Lodgings and reports: which cases the compared ones were, and what the deviations of all groups add up to.

use crate::acts::{self, CLOSED, ISSUED, OPEN};
use crate::call::{Call, Lengths};
use crate::desk::{in_range, other_lengths, Answer, Desk};
use crate::pick::LARGEST;
use crate::report::deviation;
use crate::tally::Tally;
use crate::worked::{signed, Month, GROUPS};

/// Cases of lodgings and reports to an open desk, and of other calls beside them, with the numbers that they are counted by: the
/// answer, the call's number where the case names calls, the group or the run where it names those, or 0 and 1 for no and yes.
/// Of energies and lengths beside the right ones 0 is the one below and 1 the one above; of a report's run 0 is open, 1 closed,
/// 2 issued.
pub const CASES: [(&str, &[u64]); 28] = [
    ("lodge on day C", &[0]),
    ("lodge on day C + 1", &[26]),
    ("lodge on day K", &[26]),
    ("lodge on day K + 1", &[26]),
    ("lodged in the place of another", &[0, 1]),
    ("lodge refused, another stays", &[2, 3, 5, 26]),
    (
        "5 by a lodging's day alone, call",
        &[2, 3, 4, 5, 6, 9, 10, 12],
    ),
    ("lodge, schedules of another length", &[2]),
    ("report, schedules of another length", &[2]),
    ("report, book of another length", &[2]),
    ("schedules too short at an opening", &[4]),
    ("schedules too long at an opening", &[4]),
    ("other stores at a lodging", &[0]),
    ("other values or log at a report", &[0]),
    (
        "other schedules, not taken, call",
        &[2, 3, 4, 5, 6, 7, 9, 12],
    ),
    ("report of a group that lodged", &[0, 1, 2, 3]),
    ("report of a group that never lodged", &[0, 1, 2, 3]),
    ("report, its run", &[OPEN, CLOSED, ISSUED]),
    ("report, other sums in the other run", &[0, 1]),
    ("lodge, ends of the range, group", &[0, 1, 64, 65]),
    ("report, ends of the range, group", &[0, 1, 64, 65]),
    ("report, ends of the range, run", &[0, 1, 2, 3]),
    ("lodge, an energy at the end", &[0, 1]),
    ("lodge, an energy one beyond the end", &[0, 1]),
    ("lodge, one energy too few or many", &[0, 1]),
    ("lodge, schedules one short or long", &[0, 1]),
    ("report, schedules one short or long", &[0, 1]),
    ("opening, schedules one short or long", &[0, 1]),
];

/// Cases of reports on stores that somebody else wrote in, with the numbers that they are counted by: for a difference beyond 64
/// bits 0 where surplus and shortfall are 0, 1 where it is a surplus, 2 where it is a shortfall; for a sum 0 surplus, 1 shortfall.
pub const WRAPS: [(&str, &[u64]); 2] = [
    ("difference beyond 64 bits", &[0, 1, 2]),
    ("sum beyond 64 bits", &[0, 1]),
];

/// Counts an opening that is refused for its schedules alone.
pub fn count_unopened(tally: &mut Tally, call: &Call, lent: Lengths, answer: u64) {
    let Call::Open { quarters, .. } = *call else {
        return;
    };
    let schedules = GROUPS.saturating_mul(quarters);
    let right = Lengths { schedules, ..lent };
    if answer != 4 || Desk::new().call(call, right).number() != 0 {
        return;
    }
    if lent.schedules < schedules {
        tally.add("schedules too short at an opening", 4);
    } else {
        tally.add("schedules too long at an opening", 4);
    }
    let what = "opening, schedules one short or long";
    count_beside(tally, what, lent.schedules, schedules);
}

/// Counts a number that is one below the right one, or one above.
fn count_beside(tally: &mut Tally, what: &'static str, number: u64, right: u64) {
    if number + 1 == right {
        tally.add(what, 0);
    } else if number == right + 1 {
        tally.add(what, 1);
    }
}

/// Counts a call to an open desk, whose list of accepted calls was this one before.
pub fn count(
    tally: &mut Tally,
    list: &[(Call, Lengths)],
    before: &Month,
    asked: (&Call, Lengths),
    answer: &Answer,
) {
    let (call, lent) = asked;
    match call {
        Call::Lodge { group, day, .. } => {
            let number = answer.number();
            count_day(tally, before, *day, number);
            let is_lodged = before.lodged.contains_key(group);
            match number {
                0 => tally.add("lodged in the place of another", is_lodged.into()),
                _ if is_lodged => tally.add("lodge refused, another stays", number),
                _ => {}
            }
        }
        Call::Report { run, group } => {
            if let Answer::Sums(sums) = answer {
                count_sums(tally, before, (*run, *group), *sums);
            }
        }
        _ => {}
    }
    if answer.number() == 5 && is_by_lodging(list, call) {
        tally.add("5 by a lodging's day alone, call", call.number());
    }
    count_lengths(tally, before, call, lent, answer);
    match answer.number() {
        0 => count_ends(tally, call),
        3 => count_beyond(tally, before.quarters, call),
        _ => {}
    }
}

/// An accepted lodging or report with a number at an end of its range.
fn count_ends(tally: &mut Tally, call: &Call) {
    let is_end = |group: &u64| [1, GROUPS].contains(group);
    match call {
        Call::Lodge { group, series, .. } => {
            if is_end(group) {
                tally.add("lodge, ends of the range, group", *group);
            }
            for (end, at) in [-LARGEST, LARGEST].into_iter().zip(0..) {
                if series.contains(&(end as u64)) {
                    tally.add("lodge, an energy at the end", at);
                }
            }
        }
        Call::Report { run, group } => {
            tally.add("report, ends of the range, run", *run);
            if is_end(group) {
                tally.add("report, ends of the range, group", *group);
            }
        }
        _ => {}
    }
}

/// A lodging or a report of which one number alone is out of its range, and next to it.
fn count_beyond(tally: &mut Tally, quarters: u64, call: &Call) {
    let right = |call: Call| in_range(&call, quarters);
    let beside = [0, GROUPS + 1];
    match call {
        Call::Lodge { group, day, series } => {
            let lodge = |group: u64, series: Vec<u64>| Call::Lodge {
                group,
                day: *day,
                series,
            };
            if beside.contains(group) && right(lodge(1, series.clone())) {
                tally.add("lodge, ends of the range, group", *group);
            }
            if right(lodge(*group, vec![0; quarters as usize])) {
                count_energies(tally, quarters, series);
            }
        }
        Call::Report { run, group } => {
            let report = |run: u64, group: u64| Call::Report { run, group };
            if beside.contains(group) && right(report(*run, 1)) {
                tally.add("report, ends of the range, group", *group);
            }
            if [0, 3].contains(run) && right(report(1, *group)) {
                tally.add("report, ends of the range, run", *run);
            }
        }
        _ => {}
    }
}

/// Energies that a lodging is refused for: one too few or too many, or each that is too large by one.
fn count_energies(tally: &mut Tally, quarters: u64, series: &[u64]) {
    let energies = series.len() as u64;
    let what = "lodge, one energy too few or many";
    count_beside(tally, what, energies, quarters);
    let large = |word: &&u64| signed(**word).abs() > LARGEST.into();
    let large: Vec<i128> = series
        .iter()
        .filter(large)
        .map(|&word| signed(word))
        .collect();
    for (end, at) in [-LARGEST - 1, LARGEST + 1].into_iter().zip(0..) {
        if energies == quarters && large.iter().all(|&energy| energy == end.into()) {
            tally.add("lodge, an energy one beyond the end", at);
        }
    }
}

/// A lodging that is in range and not before the desk's day, by its day.
fn count_day(tally: &mut Tally, before: &Month, day: u64, answer: u64) {
    let days = [
        ("lodge on day C", before.clearing),
        ("lodge on day C + 1", before.clearing + 1),
        ("lodge on day K", before.correction),
        ("lodge on day K + 1", before.correction + 1),
    ];
    for (what, _) in days.into_iter().filter(|(_, of)| *of == day) {
        if [0, 26].contains(&answer) {
            tally.add(what, answer);
        }
    }
}

/// Whether the call's day lies before the desk's since lodgings set it, and would not without them.
fn is_by_lodging(list: &[(Call, Lengths)], call: &Call) -> bool {
    let others = list.iter().map(|(call, _)| call);
    let others = others.filter(|call| !matches!(call, Call::Lodge { .. }));
    let last = others.filter_map(Call::day).next_back();
    call.day() >= Some(last.unwrap_or(0))
}

/// An accepted report, by which of its sums are not 0.
fn count_sums(tally: &mut Tally, month: &Month, (run, group): (u64, u64), sums: [i128; 2]) {
    let is = u64::from(sums[0] > 0) + 2 * u64::from(sums[1] > 0);
    match month.lodged.contains_key(&group) {
        true => tally.add("report of a group that lodged", is),
        false => tally.add("report of a group that never lodged", is),
    }
    tally.add("report, its run", acts::state(month, run));
    let other = month.report(&month.figures(3 - run), group);
    tally.add(
        "report, other sums in the other run",
        (other != sums).into(),
    );
}

/// A call by the stores that it is lent in another length than at the opening.
fn count_lengths(tally: &mut Tally, before: &Month, call: &Call, lent: Lengths, answer: &Answer) {
    let opened = before.lengths;
    if answer.number() == 2 {
        match (call, &other_lengths(call, lent, opened)[..]) {
            (Call::Lodge { .. }, _) => {
                tally.add("lodge, schedules of another length", 2);
                let what = "lodge, schedules one short or long";
                count_beside(tally, what, lent.schedules, opened.schedules);
            }
            (Call::Report { .. }, [3]) => {
                tally.add("report, schedules of another length", 2);
                let what = "report, schedules one short or long";
                count_beside(tally, what, lent.schedules, opened.schedules);
            }
            (Call::Report { .. }, [1]) => tally.add("report, book of another length", 2),
            _ => {}
        }
    } else if answer.number() == 0 && lent != opened {
        match call {
            Call::Lodge { .. } => tally.add("other stores at a lodging", 0),
            Call::Report { .. } => tally.add("other values or log at a report", 0),
            _ if lent.schedules != opened.schedules => {
                tally.add("other schedules, not taken, call", call.number())
            }
            _ => {}
        }
    }
}

/// Counts what wraps in a report on stores that somebody else wrote in.
pub fn count_wraps(tally: &mut Tally, schedule: &[u64], figures: &[u64]) {
    let beyond = |number: i128| i64::try_from(number).is_err();
    let mut sums = [0; 2];
    for (&schedule, &figure) in schedule.iter().zip(figures) {
        let deviation = deviation(schedule, figure);
        let exact = signed(schedule) - signed(figure);
        if beyond(exact) || beyond(-exact) {
            let side = deviation.iter().position(|&word| word > 0);
            let side = side.map_or(0, |side| side as u64 + 1);
            tally.add("difference beyond 64 bits", side);
        }
        sums = [0, 1].map(|side| sums[side] + i128::from(deviation[side]));
    }
    for (side, _) in (0..).zip(sums).filter(|(_, sum)| beyond(*sum)) {
        tally.add("sum beyond 64 bits", side);
    }
}

/// Document 02: "in each run and quarter hour surplus minus shortfall, added over all groups, is the schedules' sum minus the
/// outside exchange".
pub fn assert_adds_up(month: &Month, run: u64, figures: &[i128]) {
    let mut more = month.outside(run);
    for group in 1..=GROUPS {
        let schedule = month.schedule(group);
        let deviations = month.deviations(figures, group);
        for (quarter, [surplus, shortfall]) in deviations.into_iter().enumerate() {
            more[quarter] += surplus - shortfall - schedule[quarter];
        }
    }
    assert!(more.iter().all(|&more| more == 0), "run {run}: {more:?}");
}
