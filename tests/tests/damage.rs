//! Cause 1: each field of the desk's state at the last value inside its limits and at the first outside them; notices on
//! versions that somebody else wrote; closes and issues of runs whose flags somebody else wrote; and figures by delta groups that
//! somebody else wrote.

use emorizugu_tests::call::{Call, Lengths, DELTAS};
use emorizugu_tests::compare::{compare, expected, Step, Trial};
use emorizugu_tests::damage::{undone, Field, FIELDS};
use emorizugu_tests::desk::Desk;
use emorizugu_tests::groups::brought_out;
use emorizugu_tests::script::{self, Damage, Outcome, Record};
use emorizugu_tests::tally::Tally;
use emorizugu_tests::worked::{Month, ROWS};
use std::slice;

/// The stores' lengths: four rows of values and a place more, five rows of the log.
const LENT: Lengths = Lengths {
    values: 9,
    book: 324,
    log: 20,
    schedules: 128,
};

/// The calls of the month.
const CALLS: [&[u64]; 21] = [
    &[
        1, 2, 10, 30, 150, 4, 1, 2, 3, 3, 3, 3, 3, 3, 3, 3, 3, 3, 3, 3, 3, 3,
    ],
    &[2, 1, 1, 1, 0, 0],
    &[2, 256, 2, 1, 5, 0],
    &[2, 3, 4, 0, 6, 1],
    &[4, 1, 5, 3, 100, 200],
    &[4, 256, 7, 10, 30, 40],
    &[4, 256, 9, 11, 31, 41],
    &[4, 1, 6, 12, 101, 201],
    &[6, 1, 5, 12],
    &[10, 5, 12, 60, 90],
    &[5, 256, 9, 1, 30],
    &[7, 1, 5],
    &[5, 1, 6, 1, 31],
    &[9, 1, 31],
    &[12, 1, 32],
    &[6, 1, 9, 33],
    &[7, 2, 5],
    &[11, 2, 5],
    &[9, 2, 151],
    &[12, 2, 151],
    &[8, 1, 6],
];

fn call(numbers: &[u64]) -> Call {
    Call::of(numbers[0], &numbers[1..]).expect("a call")
}

fn month() -> Trial {
    Trial {
        places: LENT,
        seed: 11,
        steps: CALLS.iter().map(|c| Step::Call(call(c), LENT)).collect(),
    }
}

/// One call of each sort, such as the desk accepts at one time or another; and a second opening.
fn every_call(month: &Month) -> Vec<(Call, Lengths)> {
    let day = month.day;
    let calls: [&[u64]; 12] = [
        CALLS[0],
        &[2, 9, 3, 1, 0, day],
        &[3, 3, day],
        &[4, 256, 12, day, 1, 2],
        &[5, 256, 9, 1, day],
        &[6, 0, 7, day],
        &[7, 1, 5],
        &[8, 1, 5],
        &[9, 1, 400],
        &[10, 7, day, 3, 4],
        &[11, 1, 5],
        &[12, 1, day],
    ];
    calls.iter().map(|c| (call(c), LENT)).collect()
}

/// The desk after the first calls of the month.
fn desk(calls: usize) -> Desk {
    let mut desk = Desk::new();
    for numbers in &CALLS[..calls] {
        desk.call(&call(numbers), LENT);
    }
    desk
}

/// A field damaged after each call of the month in turn. Outside its limits: every call is answered 1, an opening 6.
/// Inside: a status, a show and a report are not answered 1. The damage is undone, and the month goes on as without it.
fn limits(name: &str) {
    let field = Field::named(name);
    let position = FIELDS.iter().position(|f| f.name == name);
    let (mut tally, mut inside) = (Tally::new(), Tally::new());
    for calls in 1..=CALLS.len() {
        let desk = desk(calls);
        let opened = desk.month().expect("an open desk");
        let limits = (field.limits)(&opened);
        for choice in 0..limits.outside.len() {
            let damaged = Step::Damaged {
                field: position.expect("a field"),
                choice,
                calls: every_call(&opened),
            };
            let mut trial = month();
            trial.steps.insert(calls, damaged);
            compare(&trial, &mut tally);
        }
        for damages in &limits.inside {
            for answer in answers_inside(&opened, calls, damages) {
                inside.add("inside the limits", answer);
            }
        }
    }
    if tally.all(name) > 0 {
        tally.print_one(name);
        tally.demand(field.name, &[1, 6], 1);
    }
    inside.print();
    assert!(inside.all("inside the limits") > 0);
}

/// The answers to a status, a show and a report of a desk that is damaged after so many calls. The answers of the others and
/// the stores are as without the damage.
fn answers_inside(opened: &Month, calls: usize, damages: &[Damage]) -> [u64; 3] {
    let trial = month();
    let plain = expected(&trial, &mut Tally::new());
    let asked = [
        Call::Status {
            point: 200,
            version: 77,
        },
        Call::Show { run: 1, group: 5 },
        Call::Report { run: 1, group: 5 },
    ];
    let damage = |damage: &Damage| Record::Damage(*damage);
    let block = damages.iter().map(damage);
    let block = block.chain(asked.clone().map(|call| Record::Call(call, LENT)));
    let undone = damages.iter().map(|d| Record::Damage(undone(opened, d)));
    let block: Vec<Record> = block.chain(undone).collect();
    let mut records = plain.records.clone();
    records.splice(calls..calls, block);
    let mut linked = script::run(&records, trial.stores());
    let given = asked.map(|_| linked.answers.remove(calls)[0]);
    assert_eq!(linked, plain.outcome, "after {calls} calls and {damages:?}");
    assert!(!given.contains(&1), "after {calls} calls and {damages:?}");
    given
}

/// A test for each field.
macro_rules! fields {
    ($($test:ident $name:literal)*) => {
        $(
            #[test]
            fn $test() {
                limits($name);
            }
        )*

        #[test]
        fn every_field_has_its_test() {
            let names = FIELDS.map(|field| field.name);
            assert_eq!(names.as_slice(), [$($name),*]);
        }
    };
}

fields! {
    quarters "quarters"
    first_delivery "first delivery"
    clearing "clearing"
    correction "correction"
    length_of_values "length of values"
    length_of_book "length of book"
    length_of_log "length of log"
    length_of_schedules "length of schedules"
    day "day"
    delta_group_of_run_1 "delta group of run 1"
    delta_group_of_run_2 "delta group of run 2"
    version_count "version count"
    log_rows_used "log rows used"
    run_closed "run closed"
    run_issued "run issued"
    points_day "point's day"
    points_kind "point's kind"
    points_area "point's area"
    points_partner "point's partner"
    versions_number "version's number"
    versions_point "version's point"
    versions_row "version's row"
    versions_status "version's status"
    unused_version "unused version"
}

/// A desk without quarter hours is not open, whatever else it holds: a refused opening leaves it as it is, and an
/// accepted one makes it wholly new.
#[test]
fn no_quarters() {
    let set = |which, place, to| Record::Damage(Damage { which, place, to });
    let refused = call(&{
        let mut fields = CALLS[0].to_vec();
        fields[2] = 0;
        fields
    });
    for calls in 1..=CALLS.len() {
        let desk = desk(calls);
        let opened = desk.month().expect("an open desk");
        let trial = month();
        let plain = expected(&trial, &mut Tally::new());
        let others = every_call(&opened).split_off(1);
        let others: Vec<Record> = others
            .into_iter()
            .map(|(c, l)| Record::Call(c, l))
            .collect();
        let damaged = [
            vec![set(1, 0, [0; 4])],
            vec![set(1, 0, [0; 4]), set(6, 0, [0; 4]), set(17, 0, [0; 4])],
        ];
        for damage in damaged {
            let back =
                [(1, 2), (6, 324), (17, 128)].map(|(which, to)| set(which, 0, [to, 0, 0, 0]));
            let block = damage.into_iter().chain(others.iter().cloned());
            let block = block
                .chain([Record::Call(refused.clone(), LENT)])
                .chain(back);
            let mut records = plain.records.clone();
            records.splice(calls..calls, block);
            let mut linked = script::run(&records, trial.stores());
            let answers: Vec<Vec<u64>> = linked.answers.drain(calls..calls + 12).collect();
            for (answer, call) in answers.iter().zip(&others) {
                assert_eq!(answer[0], 1, "{call} after {calls} calls");
            }
            assert_eq!(answers[11], [4], "a refused opening after {calls} calls");
            assert_eq!(linked, plain.outcome, "after {calls} calls");
        }

        let garbage = (2..=19).map(|which| set(which, 3, [u64::MAX; 4]));
        let garbage = garbage.chain([set(9, 20, [u64::MAX; 4])]);
        let mut records = plain.records[..calls].to_vec();
        records.extend(garbage.chain([set(1, 0, [0; 4])]));
        records.extend(plain.records.iter().cloned());
        let anew = script::run(&records, trial.stores());
        assert_eq!(anew.answers[calls..], plain.outcome.answers);
        assert_eq!(anew.stores, plain.outcome.stores);
    }
}

/// A version overwritten: its place in the table, and its number, point, row and status.
type Written = (u64, [u64; 4]);

/// A notice's point and version, and its answer where the log has rows.
type Noticed = (u64, u64, u64);

/// Versions 5 and 6 of point 1 and 7 of point 256, all check data, overwritten; and what notices are answered then.
const NOTICES: [(&str, &[Written], &[Noticed]); 7] = [
    (
        "as the calls left them",
        &[],
        &[(1, 5, 37), (1, 6, 0), (1, 7, 24), (256, 7, 0)],
    ),
    (
        "the highest stands first in the table",
        &[(0, [9, 1, 0, 1])],
        &[(1, 9, 0), (1, 6, 37), (1, 5, 24)],
    ),
    (
        "the highest stands first, confirmed",
        &[(0, [9, 1, 0, 4])],
        &[(1, 9, 25), (1, 6, 37)],
    ),
    (
        "the last one is of the same point",
        &[(2, [7, 1, 2, 3])],
        &[(1, 5, 37), (1, 6, 37), (1, 7, 25), (256, 7, 24)],
    ),
    (
        "the second one is of the other point",
        &[(1, [6, 256, 1, 1])],
        &[(1, 5, 0), (1, 6, 24), (256, 6, 37), (256, 7, 0)],
    ),
    (
        "a number and its like at the other point",
        &[(1, [7, 1, 1, 2])],
        &[(1, 5, 37), (1, 7, 25), (256, 7, 0)],
    ),
    (
        "a record past the count",
        &[(3, [8, 1, 3, 1])],
        &[(1, 6, 0), (1, 8, 24)],
    ),
];

/// The answer to a notice on day 20, by C, on such a desk with so many log rows used.
fn noticed(written: &[Written], rows: u64, (point, version, verdict): (u64, u64, u64)) -> u64 {
    let calls: [&[u64]; 5] = [
        CALLS[1],
        CALLS[2],
        &[4, 1, 5, 11, 100, 200],
        &[4, 1, 6, 11, 101, 201],
        &[4, 256, 7, 11, 30, 40],
    ];
    let set = |which, place, to| Record::Damage(Damage { which, place, to });
    let record = |numbers: &[u64]| Record::Call(call(numbers), LENT);
    let mut records = vec![record(CALLS[0])];
    records.extend(calls.map(record));
    records.extend(written.iter().map(|&(place, to)| set(16, place, to)));
    records.push(set(11, 0, [rows, 0, 0, 0]));
    records.push(record(&[5, point, version, verdict, 20]));
    let answers = script::run(&records, month().stores()).answers;
    answers.last().expect("answers")[0]
}

/// A notice whose answer is 0 where the log has rows is positive or negative; where it has none, a positive one gets 17.
fn assert_noticed(why: &str, written: &[Written], (point, version, answer): Noticed) {
    let full = if answer == 0 { 17 } else { answer };
    for (rows, verdict, answer) in [(0, 0, answer), (0, 1, answer), (5, 0, answer), (5, 1, full)] {
        let given = noticed(written, rows, (point, version, verdict));
        let notice = format!("point {point} version {version} verdict {verdict}");
        assert_eq!(given, answer, "{why}: {notice}, {rows} rows used");
    }
}

#[test]
fn notices_on_versions_that_somebody_else_wrote() {
    for (why, written, notices) in NOTICES {
        for &notice in notices {
            assert_noticed(why, written, notice);
        }
    }
}

/// An older version is answered 37 whatever the statuses are, the highest by its own: also where no desk that was fresh has
/// them on a day up to K.
#[test]
fn notices_on_versions_of_every_status() {
    for older in 1..=5 {
        for highest in 1..=5 {
            let written = [(0, [5, 1, 0, older]), (1, [6, 1, 1, highest])];
            let why = format!("statuses {older} and {highest}");
            assert_noticed(&why, &written, (1, 5, 37));
            let answer = if highest == 1 { 0 } else { 25 };
            assert_noticed(&why, &written, (1, 6, answer));
        }
    }
}

/// What somebody else wrote: whether run 1 and run 2 are closed, whether run 1 and run 2 are issued.
type Flags = [[bool; 2]; 2];

fn every_flags() -> impl Iterator<Item = Flags> {
    (0..16).map(|bits| {
        let flag = |bit: u64| bits >> bit & 1 == 1;
        [[flag(0), flag(1)], [flag(2), flag(3)]]
    })
}

/// The answers to calls on a desk of day 11 with such flags; then the statuses of versions 5 and 6 of point 1, status 2 and 1, and
/// of version 7 of point 256, whose status somebody else made 4. C is 30, K is 150.
fn acted([closed, issued]: Flags, asked: &[[u64; 3]]) -> (Vec<u64>, [u64; 3]) {
    let calls: [&[u64]; 6] = [
        CALLS[0],
        CALLS[1],
        CALLS[2],
        &[4, 1, 5, 3, 100, 200],
        &[4, 256, 7, 10, 30, 40],
        &[4, 1, 6, 11, 101, 201],
    ];
    let set = |which, place, to| Record::Damage(Damage { which, place, to });
    let flag = |which, value: bool| set(which, 0, [value.into(), 0, 0, 0]);
    let record = |numbers: &[u64]| Record::Call(call(numbers), LENT);
    let mut records: Vec<Record> = calls.map(record).to_vec();
    records.push(set(16, 1, [7, 256, 1, 4]));
    records.extend([flag(12, closed[0]), flag(13, closed[1])]);
    records.extend([flag(18, issued[0]), flag(19, issued[1])]);
    records.extend(asked.iter().map(|numbers| record(numbers)));
    records.extend([[8, 1, 5], [8, 1, 6], [8, 256, 7]].map(|numbers| record(&numbers)));
    let answers = script::run(&records, month().stores()).answers.concat();
    let answers = &answers[calls.len()..];
    let (answers, statuses) = answers.split_at(asked.len());
    let status = |at: usize| statuses[at] - script::STATUS_FROM;
    (answers.to_vec(), [0, 1, 2].map(status))
}

/// An issue is answered by its own run's flags alone: 38 where it is not closed, issued or not; 39 where it is issued; else it is
/// accepted on every day from the desk's on, C and K included, and restates its own run's version alone.
#[test]
fn issue_goes_by_the_flags_of_its_run_alone() {
    for flags in every_flags() {
        let [closed, issued] = flags;
        for run in 1..=2 {
            let at = run as usize - 1;
            let (answer, statuses) = match (closed[at], issued[at], run) {
                (false, _, _) => (38, [2, 1, 4]),
                (true, true, _) => (39, [2, 1, 4]),
                (true, false, 1) => (0, [3, 1, 4]),
                (true, false, _) => (0, [2, 1, 5]),
            };
            for day in [11, 30, 31, 150, 151, 400] {
                let given = acted(flags, &[[12, run, day]]);
                let why = format!("run {run}, day {day}, {flags:?}");
                assert_eq!(given, (vec![answer], statuses), "{why}");
            }
            let before = [
                ([12, run, 10], 5),
                ([12, run, 401], 3),
                ([12, run + 2, 10], 3),
            ];
            for (asked, answer) in before {
                let given = acted(flags, &[asked]);
                assert_eq!(given, (vec![answer], [2, 1, 4]), "{asked:?}, {flags:?}");
            }
        }
    }
}

/// A close is answered by its day and by what is closed: 27 up to the deadline, 28 where the run is closed, 29 for run 2 where run
/// 1 is not; what is issued counts for nothing. It changes no status.
#[test]
fn close_goes_by_its_day_and_by_what_is_closed() {
    for flags in every_flags() {
        let [closed, _] = flags;
        for (run, deadline) in [(1, 30), (2, 150)] {
            let answer = match (run, closed) {
                (1, [true, _]) | (2, [_, true]) => 28,
                (2, [false, false]) => 29,
                _ => 0,
            };
            let days = [
                (10, 5),
                (11, 27),
                (deadline, 27),
                (deadline + 1, answer),
                (400, answer),
                (401, 3),
            ];
            for (day, answer) in days {
                let given = acted(flags, &[[9, run, day]]);
                let why = format!("run {run}, day {day}, {flags:?}");
                assert_eq!(given, (vec![answer], [2, 1, 4]), "{why}");
            }
        }
    }
}

/// What an accepted close and an accepted issue write: the flag of the run, which the next of each asks for, and the day.
#[test]
fn close_and_issue_set_a_flag_and_the_day() {
    let none = [[false; 2]; 2];
    let asked = [
        [9, 1, 40],
        [12, 1, 39],
        [9, 1, 40],
        [12, 2, 40],
        [12, 1, 41],
        [12, 1, 40],
        [12, 1, 41],
        [9, 1, 41],
    ];
    let answers = vec![0, 5, 28, 38, 0, 5, 39, 28];
    assert_eq!(acted(none, &asked), (answers, [3, 1, 4]));
    let asked = [
        [9, 1, 151],
        [9, 2, 151],
        [12, 2, 152],
        [12, 1, 151],
        [9, 2, 152],
        [12, 2, 152],
        [12, 1, 152],
    ];
    let answers = vec![0, 0, 0, 5, 28, 39, 0];
    assert_eq!(acted(none, &asked), (answers, [3, 1, 5]));
    let issued = [[false; 2], [true, false]];
    let asked = [
        [12, 1, 31],
        [9, 1, 31],
        [12, 1, 31],
        [9, 2, 151],
        [12, 2, 151],
    ];
    let answers = vec![38, 0, 39, 0, 0];
    assert_eq!(acted(issued, &asked), (answers, [2, 1, 5]));
}

fn delta_group(place: u64, group: u64) -> Record {
    Record::Damage(Damage {
        which: 9,
        place,
        to: [group, 0, 0, 0],
    })
}

/// The book of the month when its delta groups are brought out behind the first calls, and what is put in front of that; and the
/// book that it has to be by these groups.
fn groups_told(calls: usize, put: &[Record], groups: [[u64; DELTAS]; 2]) -> [Vec<u64>; 2] {
    let mut trial = month();
    trial.steps.truncate(calls);
    let plain = expected(&trial, &mut Tally::new());
    let mut opened = plain.desk.month().expect("an open desk");
    opened.groups = groups;
    let mut book = plain.outcome.stores.book.clone();
    let told = brought_out(&opened, &mut book);
    let records = [&plain.records[..], put, &told].concat();
    [script::run(&records, trial.stores()).stores.book, book]
}

/// Each place of the 34 is the group of one delta in one run: it has what somebody else wrote, and the others stay.
#[test]
fn each_delta_group_has_a_place_of_its_own() {
    for calls in [1, 9, 16, CALLS.len()] {
        let desk = desk(calls);
        let groups = desk.month().expect("an open desk").groups;
        let [_, before] = groups_told(calls, &[], groups);
        for place in 0..2 * DELTAS {
            for group in [33, 64] {
                let mut written = groups;
                written[place / DELTAS][place % DELTAS] = group;
                let damage = delta_group(place as u64, group);
                let [linked, book] = groups_told(calls, &[damage], written);
                assert_eq!(linked, book, "after {calls} calls, place {place}");
                assert_ne!(linked, before, "after {calls} calls, place {place}");
            }
        }
    }
}

/// A number at place 34 or behind it is none of the desk: every call is answered as without it, and the delta groups stay.
#[test]
fn there_are_34_delta_groups() {
    for calls in 1..=CALLS.len() {
        let trial = month();
        let plain = expected(&trial, &mut Tally::new());
        let desk = desk(calls);
        let groups = desk.month().expect("an open desk").groups;
        for place in [34, 35, 50, 51, 289, 1 << 32, 1 << 63, u64::MAX] {
            for group in [0, 33, 65, u64::MAX] {
                let damage = delta_group(place, group);
                let mut records = plain.records.clone();
                records.insert(calls, damage.clone());
                let linked = script::run(&records, trial.stores());
                assert_eq!(linked, plain.outcome, "after {calls} calls, {damage}");
                let [linked, book] = groups_told(calls, slice::from_ref(&damage), groups);
                assert_eq!(linked, book, "after {calls} calls, {damage}");
            }
        }
    }
}

/// A series: kind, area and partner; the deltas that it adds to, T being 0, each with the sign; and the group.
type Series = ([u64; 3], &'static [(usize, i64)], Option<usize>);

const EACH_SERIES: [Series; 6] = [
    ([1, 5, 0], &[(5, 1)], None),
    ([1, 5, 2], &[(5, 1), (2, -1)], None),
    ([2, 5, 61], &[(5, -1)], Some(61)),
    ([3, 5, 0], &[(5, -1), (0, 1)], None),
    ([4, 0, 61], &[(0, -1)], Some(61)),
    ([5, 5, 0], &[(5, 1), (0, -1)], None),
];

/// Run 1 has group 1 for T and 2 to 17 for the areas, run 2 has 21 for T and 22 to 37, as somebody else wrote.
fn written_groups() -> [[u64; DELTAS]; 2] {
    [1, 21].map(|first| std::array::from_fn(|delta| first + delta as u64))
}

/// The book of two quarter hours where a series has 100 and -7 in these runs.
fn book_of((_, deltas, group): Series, groups: [[u64; DELTAS]; 2], runs: [bool; 2]) -> Vec<u64> {
    let mut book = vec![0; 4 * ROWS];
    let mut add = |run: usize, row: usize, sign: i64| {
        for (quarter, energy) in [100, -7].into_iter().enumerate() {
            let place = &mut book[2 * (run * ROWS + row) + quarter];
            *place = (*place as i64 + sign * energy) as u64;
        }
    };
    for run in (0..2).filter(|&run| runs[run]) {
        for &(delta, sign) in deltas {
            add(run, 64 + delta, sign);
            add(run, groups[run][delta] as usize - 1, sign);
        }
        if let Some(group) = group {
            add(run, group - 1, 1);
        }
    }
    book
}

/// The book of the linked desk behind an opening, damage to its 34 delta groups, the activation of point 1 and calls.
fn book_behind(series: [u64; 3], calls: &[&[u64]]) -> Vec<u64> {
    let [kind, area, partner] = series;
    let record = |numbers: &[u64]| Record::Call(call(numbers), LENT);
    let mut records = vec![record(CALLS[0])];
    let written = (0..).zip(written_groups().concat());
    records.extend(written.map(|(place, group)| delta_group(place, group)));
    records.push(record(&[2, 1, kind, area, partner, 0]));
    records.extend(calls.iter().map(|numbers| record(numbers)));
    let Outcome { answers, stores } = script::run(&records, month().stores());
    assert!(
        answers.concat().iter().all(|&answer| answer == 0),
        "{calls:?}"
    );
    stores.book
}

/// Submissions by F and notices by C change both runs, each by its own groups, which no desk that was fresh has apart then; a notice
/// after C changes run 2 by its own.
#[test]
fn each_series_goes_to_the_groups_of_its_run() {
    let minus_7 = (-7_i64) as u64;
    let by_first: &[&[u64]] = &[&[4, 1, 1, 10, 100, minus_7]];
    let by_clearing: &[&[u64]] = &[&[4, 1, 1, 11, 100, minus_7], &[5, 1, 1, 1, 30]];
    let after_clearing: &[&[u64]] = &[&[4, 1, 1, 11, 100, minus_7], &[5, 1, 1, 1, 31]];
    let replaced: &[&[u64]] = &[
        &[4, 1, 1, 10, 5, 6],
        &[4, 1, 2, 11, 100, minus_7],
        &[5, 1, 2, 1, 30],
    ];
    for series in EACH_SERIES {
        for (calls, runs) in [
            (by_first, [true, true]),
            (by_clearing, [true, true]),
            (after_clearing, [false, true]),
            (replaced, [true, true]),
        ] {
            let book = book_of(series, written_groups(), runs);
            let why = format!("{:?}, {calls:?}", series.0);
            assert_eq!(book_behind(series.0, calls), book, "{why}");
        }
    }
}

/// An assignment takes the delta from the group that it has in each run: up to C from both, after it from run 2's.
#[test]
fn an_assignment_goes_by_the_groups_of_its_run() {
    let submitted: &[u64] = &[4, 1, 1, 10, 100, (-7_i64) as u64];
    for series in EACH_SERIES {
        for &(delta, _) in series.1 {
            for (day, runs) in [
                (30, [true, true]),
                (31, [false, true]),
                (150, [false, true]),
            ] {
                let mut groups = written_groups();
                for run in (0..2).filter(|&run| runs[run]) {
                    groups[run][delta] = 60;
                }
                let assigned = [6, delta as u64, 60, day];
                let book = book_of(series, groups, [true, true]);
                let why = format!("{:?}, {assigned:?}", series.0);
                let given = book_behind(series.0, &[submitted, &assigned]);
                assert_eq!(given, book, "{why}");
            }
        }
    }
}

/// What is closed and issued counts for nothing, and the deadline goes by the day alone: an assignment with any flags is accepted up
/// to K and 26 behind it.
#[test]
fn an_assignment_goes_by_its_day_alone() {
    for [closed, issued] in every_flags() {
        for (day, answer) in [
            (11, 0),
            (30, 0),
            (31, 0),
            (150, 0),
            (151, 26),
            (400, 26),
            (10, 5),
        ] {
            for area in [0, 1, 16] {
                let given = assigned_with([closed, issued], [6, area, 7, day]);
                assert_eq!(
                    given, answer,
                    "area {area}, day {day}, {closed:?}, {issued:?}"
                );
            }
        }
    }
}

/// The answer to an assignment on a desk of day 11 with such flags.
fn assigned_with([closed, issued]: Flags, assigned: [u64; 4]) -> u64 {
    let flag = |(which, value): (u64, bool)| {
        Record::Damage(Damage {
            which,
            place: 0,
            to: [value.into(), 0, 0, 0],
        })
    };
    let flags = [12, 13, 18, 19].into_iter().zip([closed, issued].concat());
    let record = |numbers: &[u64]| Record::Call(call(numbers), LENT);
    let mut records = vec![record(CALLS[0]), record(&[2, 1, 1, 1, 0, 11])];
    records.extend(flags.map(flag));
    records.push(record(&assigned));
    let answers = script::run(&records, month().stores()).answers;
    answers.last().expect("answers")[0]
}
