//! Close and issue, written out by hand from document 02: lists of calls with what each is answered, the statuses asked for
//! between them, with the plain desk and the linked one; and message files with byte 8 and without it, through the plain replay,
//! the linked one and the desk program.

use emorizugu_tests::call::{Call, Lengths};
use emorizugu_tests::compare::{difference, expected, Step, Trial};
use emorizugu_tests::files;
use emorizugu_tests::linked;
use emorizugu_tests::message;
use emorizugu_tests::numbers;
use emorizugu_tests::program;
use emorizugu_tests::replay::{self, Lent, POINTS, SUMMARY, VERSIONS};
use emorizugu_tests::script;
use emorizugu_tests::tally::Tally;
use std::env;

/// The stores of a month of one quarter hour.
const LENT: Lengths = Lengths {
    values: 12,
    book: 162,
    log: 40,
    schedules: 64,
};

/// The stores are longer than what is lent of them.
const PLACES: Lengths = Lengths {
    values: 14,
    book: 170,
    log: 48,
    schedules: 70,
};

/// A call, its number and its fields.
type Numbers = &'static [u64];

/// A call and what it is answered; an accepted status has 100 added.
type Line = (Numbers, u64);

/// Q 1, F 10, C 30, K 150; delta groups T 4, area 1: 1, area 2: 2, others 3.
const OPEN: Numbers = &[
    1, 1, 10, 30, 150, 4, 1, 2, 3, 3, 3, 3, 3, 3, 3, 3, 3, 3, 3, 3, 3, 3,
];

/// Calls that are all accepted. Point 1 has versions 1 and 2 of status 2; point 2 has version 1 of status 2, and 2 and 3 of status
/// 4; point 3 has version 1 of status 1. The day is 31, the first behind C.
const MONTH: [Numbers; 12] = [
    OPEN,
    &[2, 1, 1, 1, 0, 0],
    &[2, 2, 2, 1, 5, 0],
    &[2, 3, 3, 1, 0, 0],
    &[4, 1, 1, 2, 100],
    &[4, 1, 2, 3, 200],
    &[4, 2, 1, 4, 10],
    &[4, 2, 2, 11, 20],
    &[5, 2, 2, 1, 31],
    &[4, 2, 3, 31, 30],
    &[5, 2, 3, 1, 31],
    &[4, 3, 1, 31, 7],
];

/// The status of each version of the month is asked for.
const ASKED: [Numbers; 6] = [
    &[8, 1, 1],
    &[8, 1, 2],
    &[8, 2, 1],
    &[8, 2, 2],
    &[8, 2, 3],
    &[8, 3, 1],
];

/// The statuses that the month leaves.
const LEFT: [u64; 6] = [2, 2, 2, 4, 4, 1];

fn call(numbers: &[u64]) -> Call {
    Call::of(numbers[0], &numbers[1..]).expect("a call")
}

/// The questions for every status, with these answers.
fn asked(statuses: [u64; 6]) -> Vec<Line> {
    let answers = statuses.map(|status| script::STATUS_FROM + status);
    ASKED.into_iter().zip(answers).collect()
}

/// Behind the calls of a start, which are accepted, both desks give these answers, each call lent these stores; and they leave
/// the same stores and delta groups.
fn assert_lent(start: &[Numbers], lines: &[(Numbers, Lengths, u64)]) {
    let start = start.iter().map(|&numbers| (numbers, LENT, 0));
    let lines: Vec<(Numbers, Lengths, u64)> = start.chain(lines.iter().copied()).collect();
    let step = |(numbers, lent, _): &(Numbers, Lengths, u64)| Step::Call(call(numbers), *lent);
    let trial = Trial {
        places: PLACES,
        seed: 31,
        steps: lines.iter().map(step).collect(),
    };
    let plain = expected(&trial, &mut Tally::new());
    let linked = script::run(&plain.records, trial.stores());
    for (desk, outcome) in [("plain", &plain.outcome), ("linked", &linked)] {
        for (at, (numbers, _, answer)) in lines.iter().enumerate() {
            let given = outcome.answers.get(at).map(|answer| answer[0]);
            let why = format!("{desk} desk, call {}: {}", at + 1, call(numbers));
            assert_eq!(given, Some(*answer), "{why}");
        }
    }
    assert_eq!(linked, plain.outcome);
    assert_eq!(difference(&trial, &plain), None);
}

/// The same with the stores of the month.
fn assert_answered(start: &[Numbers], lines: &[Line]) {
    let lent = |&(numbers, answer): &Line| (numbers, LENT, answer);
    let lines: Vec<(Numbers, Lengths, u64)> = lines.iter().map(lent).collect();
    assert_lent(start, &lines);
}

#[test]
fn close_leaves_every_status() {
    let lines = [
        asked(LEFT),
        vec![(&[9, 1, 31], 0)],
        asked(LEFT),
        vec![(&[9, 2, 151], 0)],
        asked(LEFT),
    ];
    assert_answered(&MONTH, &lines.concat());
}

/// Between the acts submissions are check data and notices give 4 up to K, and both meet 11 behind it.
#[test]
fn issue_restates_what_was_selected_at_close() {
    let lines = [
        vec![
            (&[9, 1, 31][..], 0),
            (&[4, 1, 3, 32, 300], 0),
            (&[8, 1, 3], 101),
            (&[5, 1, 3, 1, 33], 0),
            (&[8, 1, 3], 104),
            (&[6, 1, 5, 33], 0),
            (&[10, 5, 33, 1], 26),
        ],
        asked(LEFT),
        vec![(&[12, 1, 34], 0), (&[8, 1, 3], 104)],
        asked([2, 3, 3, 4, 4, 1]),
        vec![
            (&[5, 3, 1, 1, 150], 0),
            (&[9, 2, 151], 0),
            (&[4, 1, 4, 151, 400], 11),
            (&[5, 3, 1, 0, 151], 11),
            (&[8, 1, 3], 104),
        ],
        asked([2, 3, 3, 4, 4, 4]),
        vec![(&[12, 2, 152], 0), (&[8, 1, 3], 105)],
        asked([2, 3, 3, 4, 5, 5]),
    ];
    assert_answered(&MONTH, &lines.concat());
}

#[test]
fn issue_of_run_2_asks_nothing_of_run_1() {
    let lines = [
        vec![(&[9, 1, 31][..], 0), (&[9, 2, 151], 0), (&[12, 2, 151], 0)],
        asked([2, 2, 2, 4, 5, 1]),
        vec![(&[12, 2, 151], 39), (&[12, 1, 151], 0)],
        asked([2, 3, 3, 4, 5, 1]),
        vec![(&[12, 1, 151], 39), (&[12, 2, 151], 39)],
    ];
    assert_answered(&MONTH, &lines.concat());
}

#[test]
fn issue_of_run_1_asks_nothing_of_run_2() {
    let open = [(&[9, 1, 31][..], 0), (&[12, 1, 31], 0)];
    let closed = [(&[9, 1, 31][..], 0), (&[9, 2, 151], 0), (&[12, 1, 151], 0)];
    for lines in [&open[..], &closed] {
        let lines = [lines.to_vec(), asked([2, 3, 3, 4, 4, 1])];
        assert_answered(&MONTH, &lines.concat());
    }
}

#[test]
fn close_of_run_2_asks_that_run_1_is_closed_and_not_that_it_is_issued() {
    let lines = [
        (&[9, 2, 151][..], 29),
        (&[9, 1, 31], 0),
        (&[9, 2, 151], 0),
        (&[12, 1, 151], 0),
        (&[12, 2, 151], 0),
    ];
    assert_answered(&MONTH, &lines);
    let lines = [
        (&[9, 1, 31][..], 0),
        (&[12, 1, 31], 0),
        (&[9, 2, 151], 0),
        (&[12, 2, 151], 0),
    ];
    assert_answered(&MONTH, &lines);
}

/// The deadlines from both sides, and the order 1, 3, 5, 27, 28, 29.
#[test]
fn close_keeps_27_28_and_29() {
    assert_answered(&[], &[(&[9, 3, 401], 1), (&[9, 1, 31], 1)]);
    let lines = [
        (&[9, 0, 29][..], 3),
        (&[9, 3, 29], 3),
        (&[9, 1, 401], 3),
        (&[9, 1, 30], 5),
        (&[9, 2, 150], 27),
        (&[9, 2, 151], 29),
        (&[9, 2, 400], 29),
        (&[9, 1, 31], 0),
        (&[9, 1, 30], 5),
        (&[9, 1, 31], 28),
        (&[9, 1, 400], 28),
        (&[9, 2, 150], 27),
        (&[9, 2, 151], 0),
        (&[9, 2, 150], 5),
        (&[9, 2, 151], 28),
        (&[9, 1, 151], 28),
    ];
    assert_answered(&MONTH, &lines);
    let lines = [
        (&[9, 1, 0][..], 27),
        (&[9, 1, 30], 27),
        (&[9, 2, 30], 27),
        (&[9, 1, 31], 0),
    ];
    assert_answered(&[OPEN], &lines);
}

/// The order 1, 3, 5, 38, 39; no deadline.
#[test]
fn issue_is_refused_with_38_and_then_39() {
    assert_answered(&[], &[(&[12, 3, 401], 1), (&[12, 1, 31], 1)]);
    let lines = [
        (&[12, 0, 29][..], 3),
        (&[12, 3, 29], 3),
        (&[12, 1, 401], 3),
        (&[12, 1, 30], 5),
        (&[12, 1, 31], 38),
        (&[12, 2, 31], 38),
        (&[12, 2, 400], 38),
        (&[9, 1, 31], 0),
        (&[12, 2, 31], 38),
        (&[12, 1, 30], 5),
        (&[12, 1, 31], 0),
        (&[12, 1, 30], 5),
        (&[12, 1, 31], 39),
        (&[12, 1, 400], 39),
        (&[12, 2, 151], 38),
        (&[9, 2, 151], 0),
        (&[12, 2, 150], 5),
        (&[12, 2, 400], 0),
        (&[12, 2, 399], 5),
        (&[12, 2, 400], 39),
        (&[12, 1, 400], 39),
    ];
    assert_answered(&MONTH, &lines);
    let lines = [(&[12, 1, 0][..], 38), (&[12, 2, 30], 38)];
    assert_answered(&[OPEN], &lines);
}

/// A refused one moves no day, sets no flag and restates nothing.
#[test]
fn a_refused_close_or_issue_changes_nothing() {
    let lines = [
        vec![
            (&[12, 1, 200][..], 38),
            (&[9, 2, 200], 29),
            (&[9, 2, 150], 27),
            (&[2, 9, 5, 1, 0, 31], 0),
            (&[12, 2, 31], 38),
            (&[9, 1, 31], 0),
            (&[9, 1, 200], 28),
            (&[2, 10, 5, 2, 0, 31], 0),
        ],
        asked(LEFT),
        vec![
            (&[12, 1, 31], 0),
            (&[12, 1, 200], 39),
            (&[2, 11, 5, 3, 0, 31], 0),
        ],
        asked([2, 3, 3, 4, 4, 1]),
    ];
    assert_answered(&MONTH, &lines.concat());
}

/// Each store lent in another length, and none at all.
#[test]
fn close_and_issue_take_no_store_and_set_the_day() {
    let others = [
        Lengths { values: 11, ..LENT },
        Lengths { book: 161, ..LENT },
        Lengths { log: 39, ..LENT },
        Lengths {
            schedules: 65,
            ..LENT
        },
        Lengths::default(),
        PLACES,
    ];
    for lent in others {
        let lines: [(Numbers, Lengths, u64); 9] = [
            (&[9, 1, 40], lent, 0),
            (&[2, 9, 5, 1, 0, 39], LENT, 5),
            (&[12, 1, 41], lent, 0),
            (&[2, 9, 5, 1, 0, 40], LENT, 5),
            (&[2, 9, 5, 1, 0, 41], LENT, 0),
            (&[9, 2, 151], lent, 0),
            (&[2, 8, 5, 2, 0, 150], LENT, 5),
            (&[12, 2, 152], lent, 0),
            (&[12, 2, 151], lent, 5),
        ];
        assert_lent(&MONTH, &lines);
    }
}

/// The bytes of calls that a file carries.
fn file(calls: &[Numbers]) -> Vec<u8> {
    let carried = |numbers: &Numbers| files::carried(&call(numbers)).expect("a call of a file");
    let calls: Vec<_> = calls.iter().map(carried).collect();
    files::whole(&calls).concat()
}

/// What a replay of a file tells: its number, its answers, the summary's places of both acts, and the statuses of the versions.
fn told(file: &[u8], is_linked: bool) -> (u64, Vec<u64>, [u64; 4], Vec<u64>) {
    let mut lent = Lent::filled(LENT, 1, 24, [SUMMARY, POINTS, VERSIONS], 32);
    let number = if is_linked {
        let stores = lent.stores.each_mut();
        let [summary, points, versions] = &mut lent.tables;
        let (series, answers) = (&mut lent.series, &mut lent.answers);
        linked::replay(file, stores, series, answers, [summary, points, versions])
    } else {
        let run = replay::replay(file, &mut lent).expect("tables with their places");
        run.ending.number()
    };
    let [summary, _, versions] = &lent.tables;
    let versions = versions.chunks(4).take(summary[4] as usize);
    (
        number,
        lent.answers[..summary[0] as usize].to_vec(),
        [8, 9, 10, 11].map(|place: usize| summary[place]),
        versions.map(|version| version[2]).collect(),
    )
}

/// Both replays run the whole file, accept each call, and tell this of both acts and of the statuses.
fn assert_told(file: &[u8], calls: usize, acts: [u64; 4], statuses: [u64; 6]) {
    for is_linked in [false, true] {
        let given = told(file, is_linked);
        let wanted = (0, vec![0; calls], acts, statuses.to_vec());
        assert_eq!(given, wanted, "linked: {is_linked}");
    }
}

/// The settle of an older file is kind 7 with run and day.
#[test]
fn an_older_files_settle_leaves_2_and_4() {
    let month = file(&MONTH);
    let settles = [0x07, 0x01, 0x1f, 0x07, 0x02, 0x97, 0x01];
    let older = [&month[..], &settles].concat();
    assert_told(&older, 14, [1, 1, 0, 0], LEFT);
    let issues = [0x08, 0x02, 0x97, 0x01, 0x08, 0x01, 0x97, 0x01];
    let newer = [&older[..], &issues].concat();
    assert_told(&newer, 16, [1, 1, 1, 1], [2, 3, 3, 4, 5, 1]);
}

/// The acts of both runs in the orders that there are, and the summary's last four places behind each act.
#[test]
fn a_summary_tells_both_acts_of_both_runs() {
    let [close_1, close_2]: [Numbers; 2] = [&[9, 1, 31], &[9, 2, 151]];
    let [issue_1, issue_2]: [Numbers; 2] = [&[12, 1, 151], &[12, 2, 151]];
    let orders: [[(Numbers, [u64; 4]); 4]; 3] = [
        [
            (close_1, [1, 0, 0, 0]),
            (&[12, 1, 31], [1, 0, 1, 0]),
            (close_2, [1, 1, 1, 0]),
            (issue_2, [1, 1, 1, 1]),
        ],
        [
            (close_1, [1, 0, 0, 0]),
            (close_2, [1, 1, 0, 0]),
            (issue_1, [1, 1, 1, 0]),
            (issue_2, [1, 1, 1, 1]),
        ],
        [
            (close_1, [1, 0, 0, 0]),
            (close_2, [1, 1, 0, 0]),
            (issue_2, [1, 1, 0, 1]),
            (issue_1, [1, 1, 1, 1]),
        ],
    ];
    for order in orders {
        let mut calls = MONTH.to_vec();
        assert_told(&file(&calls), calls.len(), [0; 4], LEFT);
        for (act, acts) in order {
            calls.push(act);
            let [mut first, mut second] = [2, 4];
            if acts[2] == 1 {
                first = 3;
            }
            if acts[3] == 1 {
                second = 5;
            }
            let statuses = [2, first, first, 4, second, 1];
            assert_told(&file(&calls), calls.len(), acts, statuses);
        }
    }
}

/// 38 and 39 as answers of calls in a file, which goes on behind them.
#[test]
fn a_file_goes_on_behind_38_and_39() {
    let mut calls = MONTH.to_vec();
    calls.extend([
        &[12, 1, 31][..],
        &[9, 1, 31],
        &[12, 1, 31],
        &[12, 1, 31],
        &[12, 2, 31],
    ]);
    let mut answers = vec![0; MONTH.len()];
    answers.extend([38, 0, 0, 39, 38]);
    let wanted = (0, answers, [1, 0, 1, 0], vec![2, 3, 3, 4, 4, 1]);
    for is_linked in [false, true] {
        assert_eq!(told(&file(&calls), is_linked), wanted);
    }
}

/// A number in its shortest form.
fn spelled(mut number: u64) -> Vec<u8> {
    let mut bytes = Vec::new();
    while number > 127 {
        bytes.push(number as u8 | 128);
        number >>= 7;
    }
    bytes.push(number as u8);
    bytes
}

/// Kinds up to 300, and such as have the low bytes of kind 8 alone.
fn kinds() -> impl Iterator<Item = u64> {
    let high = [16, 32, 48, 62].map(|bit| (1 << bit) + 8);
    (0..=300).chain(high).chain([(1 << 63) - 1])
}

/// The reader and the host's verdict on a file of one call of each kind, with enough numbers behind it.
#[test]
fn byte_8_is_a_call_and_0_9_and_10_are_33() {
    for kind in kinds() {
        let is_call = (1..=8).contains(&kind);
        let call = [spelled(kind), vec![1; 30]].concat();
        let (number, offset) = match message::fields_of(kind) {
            Some(fields) => (0, 1 + fields as u64 + 2 * u64::from(kind == 4)),
            None => (33, 0),
        };
        assert_eq!(number == 0, is_call, "kind {kind}");
        let file = if is_call {
            &call[..offset as usize]
        } else {
            &call
        };
        let linked = (linked::file_refusal(file), linked::file_offset(file));
        for verdict in [numbers::verdict(file), linked] {
            assert_eq!(verdict, (number, offset), "kind {kind}");
        }
        for read in [numbers::read, linked::read] {
            let (mut series, mut answer) = ([9; 1], [9; numbers::ANSWER]);
            let given = read(file, 0, &mut series, &mut answer);
            let (next, kind_read) = if is_call { (offset, kind) } else { (9, 9) };
            let wanted = (number, next, kind_read);
            assert_eq!((given, answer[0], answer[1]), wanted, "kind {kind}");
        }
        for read_offset in [numbers::read_offset, linked::read_offset] {
            assert_eq!(read_offset(file, 0, 1), offset, "kind {kind}");
        }
    }
}

/// The writer's answer to each kind, and what it writes of an issue.
#[test]
fn the_writer_takes_kinds_1_to_8() {
    for write in [numbers::write, linked::write] {
        for kind in kinds().chain([1 << 63, u64::MAX]) {
            let (mut output, mut length) = ([0xee; 40], [9]);
            let number = write(kind, &[], &[], &mut output, &mut length);
            let is_call = (1..=8).contains(&kind);
            assert_eq!(number, if is_call { 0 } else { 33 }, "kind {kind}");
            assert_eq!(length != [9], is_call, "kind {kind}");
            assert_eq!(output != [0xee; 40], is_call, "kind {kind}");
        }
        let (mut output, mut length) = ([0xee; 6], [9]);
        let number = write(8, &[2, 151, 7], &[5], &mut output, &mut length);
        let written = [0x08, 0x02, 0x97, 0x01, 0xee, 0xee];
        assert_eq!((number, length, output), (0, [4], written));
    }
}

/// What is printed of a file: the plain desk's text, and the program's.
fn printed(file: &[u8]) -> [String; 2] {
    let named = env::var_os("EMORIZUGU_PROGRAM").expect("EMORIZUGU_PROGRAM");
    let output = program::output(&named, file, file.len()).expect("a program that runs");
    let text = String::from_utf8(output.stdout).expect("text");
    [program::printed(&program::run(file)), text]
}

#[test]
#[ignore = "EMORIZUGU_PROGRAM names the desk program"]
fn the_program_takes_byte_8_and_reads_an_older_file() {
    let open = file(&[OPEN]);
    for (byte, line) in [
        (0, "F 33 23"),
        (7, "2 27"),
        (8, "2 38"),
        (9, "F 33 23"),
        (10, "F 33 23"),
    ] {
        let calls = [&open[..], &[byte, 1, 30]].concat();
        for text in printed(&calls) {
            assert_eq!(text.lines().nth(1), Some(line), "byte {byte}");
        }
    }
    let mut calls = MONTH.to_vec();
    calls.extend([&[9, 1, 31][..], &[9, 2, 151]]);
    let lines = |first: u64, second: u64| {
        format!("S 1 1 2 {first}\nS 1 2 1 {first}\nS 2 1 2 {first}\nS 2 2 3 {second}\n")
    };
    for text in printed(&file(&calls)) {
        assert!(text.ends_with(&lines(2, 4)), "{text}");
    }
    calls.extend([&[12, 2, 151][..], &[12, 1, 151]]);
    for text in printed(&file(&calls)) {
        assert!(text.ends_with(&lines(3, 5)), "{text}");
    }
}
