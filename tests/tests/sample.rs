//! The plain desk alone against document 01: its sample month, its example, its traps and its decided points; and against
//! document 02: the status that comes with a selected version, and notices on the highest version only (tests/schedules.rs has
//! its schedules).

use emorizugu_tests::call::{Call, Lengths};
use emorizugu_tests::desk::{Answer, Desk};
use emorizugu_tests::message;

/// The stores of the sample month, Q 2.
const LENT: Lengths = Lengths {
    values: 200,
    book: 324,
    log: 400,
    schedules: 128,
};

/// Largest energy.
const LARGEST: u64 = 1_000_000_000_000;

/// Open with the sample month's deadlines and groups: T 4, area 1: 1, area 2: 2, others 3.
const OPEN: [u64; 22] = [
    1, 2, 10, 30, 150, 4, 1, 2, 3, 3, 3, 3, 3, 3, 3, 3, 3, 3, 3, 3, 3, 3,
];

/// The sample month's points: activations on day 0.
const ACTIVATIONS: [[u64; 6]; 6] = [
    [2, 1, 1, 1, 0, 0],
    [2, 2, 1, 2, 1, 0],
    [2, 3, 2, 1, 5, 0],
    [2, 4, 3, 1, 0, 0],
    [2, 5, 4, 0, 6, 0],
    [2, 6, 5, 2, 0, 0],
];

/// The sample month's submissions, day 2.
const SUBMISSIONS: [[i64; 6]; 6] = [
    [4, 1, 1, 2, 100_000, 80_000],
    [4, 2, 1, 2, 30_000, 20_000],
    [4, 3, 1, 2, 50_000, 45_000],
    [4, 4, 1, 2, 9_000, 8_000],
    [4, 5, 1, 2, 8_500, 8_200],
    [4, 6, 1, 2, 200, -100],
];

/// Gives a call, its number and its fields, to the desk.
fn lent(desk: &mut Desk, numbers: &[u64], lent: Lengths) -> Answer {
    let call = Call::of(numbers[0], &numbers[1..]).expect("a call");
    desk.call(&call, lent)
}

/// The answer's number, with the sample month's stores.
fn give(desk: &mut Desk, numbers: &[u64]) -> u64 {
    lent(desk, numbers, LENT).number()
}

/// The desk after calls that it accepts.
fn after(calls: &[&[u64]]) -> Desk {
    let mut desk = Desk::new();
    for call in calls {
        assert_eq!(give(&mut desk, call), 0, "{call:?}");
    }
    desk
}

/// The desk with the sample month's points.
fn activated() -> Desk {
    let mut calls = vec![&OPEN[..]];
    calls.extend(ACTIVATIONS.iter().map(|call| &call[..]));
    after(&calls)
}

/// The desk after the sample month's submissions.
fn sample() -> Desk {
    let mut desk = activated();
    for call in SUBMISSIONS {
        assert_eq!(give(&mut desk, &call.map(|number| number as u64)), 0);
    }
    desk
}

/// A row of a run.
fn row(desk: &Desk, run: u64, row: usize) -> Vec<i128> {
    let month = desk.month().expect("an open desk");
    let quarters = month.quarters as usize;
    month.figures(run)[row * quarters..][..quarters].to_vec()
}

/// The sums of the groups' figures in a run, which are its outside exchange.
fn totals(desk: &Desk, run: u64) -> Vec<i128> {
    let month = desk.month().expect("an open desk");
    let quarters = month.quarters as usize;
    let figures = month.figures(run);
    let total = |quarter| (0..64).map(|row| figures[row * quarters + quarter]).sum();
    let totals = (0..quarters).map(total).collect();
    assert_eq!(totals, month.outside(run));
    totals
}

/// The versions that both runs select at a point, each with its status.
fn selected(desk: &Desk, point: u64) -> [Option<(u64, u64)>; 2] {
    let month = desk.month().expect("an open desk");
    let point = &month.points[&point];
    [1, 2].map(|run| point.selected(run).map(|v| (v.number, v.status)))
}

fn status(desk: &mut Desk, point: u64, version: u64) -> Answer {
    lent(desk, &[8, point, version], LENT)
}

#[test]
fn p1_to_p4_deltas_and_totals() {
    let desk = sample();
    for run in 1..=2 {
        assert_eq!(row(&desk, run, 65), [11_000, 7_000], "P1");
        assert_eq!(row(&desk, run, 66), [30_200, 19_900], "P2");
        assert_eq!(row(&desk, run, 64), [300, -100], "P3");
        assert_eq!(totals(&desk, run), [100_000, 80_000], "P4");
        let groups = [
            (1, [11_000, 7_000]),
            (2, [30_200, 19_900]),
            (3, [0, 0]),
            (4, [300, -100]),
            (5, [50_000, 45_000]),
            (6, [8_500, 8_200]),
        ];
        for (group, figures) in groups {
            assert_eq!(row(&desk, run, group - 1), figures, "group {group}");
            let show = lent(&mut desk.clone(), &[7, run, group as u64], LENT);
            assert_eq!(show, Answer::Row(figures.to_vec()), "group {group}");
        }
    }
}

#[test]
fn p5_to_p8_statuses() {
    let mut desk = sample();
    assert_eq!(give(&mut desk, &[4, 1, 2, 10, 1, 2]), 0);
    assert_eq!(status(&mut desk, 1, 2), Answer::Status(2), "P5");
    let mut desk = sample();
    assert_eq!(give(&mut desk, &[4, 1, 2, 11, 1, 2]), 0);
    assert_eq!(status(&mut desk, 1, 2), Answer::Status(1), "P6");
    let mut on_time = desk.clone();
    assert_eq!(give(&mut on_time, &[5, 1, 2, 1, 30]), 0);
    assert_eq!(status(&mut on_time, 1, 2), Answer::Status(2), "P7");
    assert_eq!(give(&mut desk, &[5, 1, 2, 1, 31]), 0);
    assert_eq!(status(&mut desk, 1, 2), Answer::Status(4), "P8");
}

#[test]
fn p9_to_p11_refusals() {
    let mut desk = activated();
    assert_eq!(give(&mut desk, &[4, 1, 1, 1, 5, 5]), 13, "P9");
    assert_eq!(give(&mut desk, &[4, 1, 1, 151, 5, 5]), 11, "P10");
    assert_eq!(
        give(&mut desk, &[4, 99, 1, 151, 5, 5]),
        11,
        "P10, free point"
    );
    let largest = LARGEST;
    for (energy, number) in [
        (largest, 0),
        (largest + 1, 3),
        (largest.wrapping_neg(), 0),
        (largest.wrapping_neg() - 1, 3),
        (u64::MAX / 2, 3),
        (1 << 63, 3),
    ] {
        let numbers = [4, 1, 1, 2, 0, energy];
        assert_eq!(give(&mut activated(), &numbers), number, "P11, {energy}");
    }
}

/// "Hexadecimal input" and "Output" of document 01, with the lines that the case gains by document 02.
#[test]
fn the_example_has_the_documents_output() {
    let mut file = vec![0x01, 0x01, 0x0a, 0x1e, 0x96, 0x01, 0x04, 0x01, 0x02];
    file.extend([0x03; 14]);
    file.extend([0x02, 0x01, 0x01, 0x01, 0x00, 0x00]);
    for _ in 0..2 {
        file.extend([0x04, 0x01, 0x07, 0x02, 0x01, 0xd0, 0x0f]);
    }
    let figures = "G 1 1 1 1000\nT 1 1 1000\nG 2 1 1 1000\nT 2 1 1000\n";
    let selected = "S 1 1 7 2\nS 2 1 7 2\n";
    let output = format!("1 0\n2 0\n3 0\n4 14\n{figures}{selected}");
    assert_eq!(program(&file), output);
}

/// What the desk program prints of a file that the reader takes, and whose openings have Q up to 8.
fn program(file: &[u8]) -> String {
    let (mut desk, mut text, mut start) = (Desk::new(), String::new(), 0);
    let mut series = vec![0; message::MOST_ENERGIES];
    let mut calls = 0;
    while let Some(read) = message::read(file, start, &mut series).expect("a call") {
        let used = message::fields_of(read.kind).expect("a kind");
        let mut fields = read.fields[..used].to_vec();
        fields.extend(&series[..read.count]);
        let number = match read.kind {
            7 => 9,
            8 => 12,
            kind => kind,
        };
        let call = Call::of(number, &fields).expect("a call");
        let quarters = match call {
            Call::Open { quarters, .. } => quarters,
            _ => desk.month().map_or(0, |month| month.quarters),
        };
        let lent = Lengths {
            values: 4_096,
            book: 162 * quarters,
            log: 2_048,
            schedules: 64 * quarters,
        };
        calls += 1;
        let answer = desk.call(&call, lent).number();
        text += &format!("{calls} {answer}\n");
        start = read.next;
    }
    let quarters = desk.month().map_or(0, |month| month.quarters as usize);
    for run in 1..=2 {
        for quarter in 1..=quarters {
            for group in 1..=64 {
                let figure = row(&desk, run, group - 1)[quarter - 1];
                if figure != 0 {
                    text += &format!("G {run} {quarter} {group} {figure}\n");
                }
            }
            let sum = totals(&desk, run)[quarter - 1];
            text += &format!("T {run} {quarter} {sum}\n");
        }
    }
    for run in 1..=2 {
        for point in desk.month().iter().flat_map(|month| month.points.keys()) {
            if let Some((version, status)) = selected(&desk, *point)[run - 1] {
                text += &format!("S {run} {point} {version} {status}\n");
            }
        }
    }
    text
}

/// "Taking the version confirmed last instead of the highest one of status 2 or 3": an older one is not confirmed, so that
/// both are the same.
#[test]
fn the_version_confirmed_last_is_the_highest() {
    let mut desk = activated();
    for call in [[4, 1, 1, 11, 10, 10], [4, 1, 2, 11, 20, 20]] {
        assert_eq!(give(&mut desk, &call), 0);
    }
    assert_eq!(row(&desk, 1, 65), [0, 0], "check data adds nothing");
    assert_eq!(give(&mut desk, &[5, 1, 2, 1, 20]), 0);
    assert_eq!(give(&mut desk, &[5, 1, 1, 1, 21]), 37);
    assert_eq!(status(&mut desk, 1, 1), Answer::Status(1));
    assert_eq!(give(&mut desk, &[4, 1, 3, 20, 30, 30]), 0);
    for run in 1..=2 {
        assert_eq!(row(&desk, run, 65), [20, 20]);
    }
    assert_eq!(give(&mut desk, &[5, 1, 3, 1, 20]), 0);
    for run in 1..=2 {
        assert_eq!(row(&desk, run, 65), [30, 30]);
    }
    let month = desk.month().expect("an open desk");
    assert_eq!(month.log, [[20, 1, 1, 2], [20, 1, 1, 3]]);
    assert_eq!(month.day, 20);
}

/// "A notice counts only for the highest version that a point has", checked after 24 and before 25.
#[test]
fn a_notice_counts_for_the_highest_version_only() {
    let mut desk = activated();
    let other = Lengths { log: 396, ..LENT };
    let calls: [(&[u64], u64, &str); 14] = [
        (&[4, 1, 5, 11, 5, 5], 0, ""),
        (&[4, 1, 7, 11, 7, 7], 0, ""),
        (&[4, 2, 9, 11, 9, 9], 0, "another point"),
        (&[5, 1, 6, 1, 20], 24, "24 before 37"),
        (&[5, 1, 5, 1, 20], 37, "an older version"),
        (&[5, 1, 5, 0, 20], 37, "a negative notice"),
        (&[5, 1, 7, 0, 12], 0, "the highest, on an earlier day"),
        (&[5, 1, 7, 1, 13], 0, "a positive notice"),
        (&[5, 1, 5, 1, 13], 37, "the highest has status 2"),
        (&[5, 1, 7, 1, 13], 25, "the highest itself"),
        (&[4, 1, 8, 13, 8, 8], 0, ""),
        (&[5, 1, 7, 1, 13], 37, "37 before 25"),
        (&[5, 1, 8, 1, 31], 0, ""),
        (&[5, 2, 9, 1, 31], 0, ""),
    ];
    for (call, number, why) in calls {
        assert_eq!(give(&mut desk, call), number, "{why} {call:?}");
    }
    assert_eq!(lent(&mut desk, &[5, 1, 5, 1, 31], other).number(), 2);
    for (version, given) in [(5, 1), (7, 2), (8, 4)] {
        assert_eq!(status(&mut desk, 1, version), Answer::Status(given));
    }
    assert_eq!(selected(&desk, 1), [Some((7, 2)), Some((8, 4))]);
    let log = [[13, 1, 1, 7], [31, 1, 2, 8], [31, 2, 2, 9]];
    assert_eq!(desk.month().expect("an open desk").log, log);
}

/// "One side of an exchange from the old version".
#[test]
fn both_sides_of_an_exchange_are_of_one_version() {
    let mut desk = sample();
    assert_eq!(give(&mut desk, &[4, 2, 2, 3, 1_000, 2_000]), 0);
    for run in 1..=2 {
        assert_eq!(row(&desk, run, 65), [40_000, 25_000]);
        assert_eq!(row(&desk, run, 66), [1_200, 1_900]);
        assert_eq!(totals(&desk, run), [100_000, 80_000]);
    }
}

/// "Run 2 falling back to 0 instead of run 1".
#[test]
fn run_2_selects_its_own_or_what_run_1_selects() {
    let mut desk = activated();
    assert_eq!(give(&mut desk, &[4, 1, 1, 11, 10, 10]), 0);
    assert_eq!(selected(&desk, 1), [None, None], "check data");
    assert_eq!(give(&mut desk, &[5, 1, 1, 1, 30]), 0);
    assert_eq!(row(&desk, 2, 65), [10, 10]);
    assert_eq!(selected(&desk, 1), [Some((1, 2)), Some((1, 2))]);
    assert_eq!(give(&mut desk, &[4, 1, 2, 30, 20, 20]), 0);
    assert_eq!(selected(&desk, 1), [Some((1, 2)), Some((1, 2))]);
    assert_eq!(give(&mut desk, &[5, 1, 2, 1, 31]), 0);
    assert_eq!(selected(&desk, 1), [Some((1, 2)), Some((2, 4))]);
    assert_eq!(status(&mut desk, 1, 2), Answer::Status(4));
    assert_eq!(row(&desk, 1, 65), [10, 10]);
    assert_eq!(row(&desk, 2, 65), [20, 20]);
    let log = [[30, 1, 1, 1], [31, 1, 2, 2]];
    assert_eq!(desk.month().expect("an open desk").log, log);
    assert_eq!(give(&mut desk, &[9, 1, 31]), 0);
    assert_eq!(selected(&desk, 1), [Some((1, 2)), Some((2, 4))]);
    assert_eq!(give(&mut desk, &[12, 1, 31]), 0);
    assert_eq!(status(&mut desk, 1, 1), Answer::Status(3));
    assert_eq!(status(&mut desk, 1, 2), Answer::Status(4));
    assert_eq!(selected(&desk, 1), [Some((1, 3)), Some((2, 4))]);
    assert_eq!(give(&mut desk, &[9, 2, 151]), 0);
    assert_eq!(selected(&desk, 1), [Some((1, 3)), Some((2, 4))]);
    assert_eq!(give(&mut desk, &[12, 2, 151]), 0);
    assert_eq!(status(&mut desk, 1, 2), Answer::Status(5));
    assert_eq!(selected(&desk, 1), [Some((1, 3)), Some((2, 5))]);
    assert_eq!(desk.month().expect("an open desk").log, log);
}

/// "A refused call that moves the day".
#[test]
fn a_refused_call_does_not_move_the_day() {
    let mut desk = sample();
    let calls: [(&[u64], u64); 9] = [
        (&[4, 1, 1, 9, 5, 5], 14),
        (&[4, 99, 1, 9, 5, 5], 12),
        (&[3, 1, 9], 23),
        (&[2, 1, 1, 16, 0, 9], 21),
        (&[2, 9, 1, 1, 0, 9], 22),
        (&[9, 1, 9], 27),
        (&[12, 1, 9], 38),
        (&[6, 1, 1, 151], 26),
        (&[10, 1, 31, 5, 5], 26),
    ];
    for (call, number) in calls {
        assert_eq!(give(&mut desk, call), number, "{call:?}");
        assert_eq!(desk.month().expect("an open desk").day, 2);
    }
    assert_eq!(give(&mut desk, &[6, 1, 1, 2]), 0);
}

/// The order of the checks, the first that holds decides.
#[test]
fn checks_go_down_the_table() {
    let mut desk = Desk::new();
    assert_eq!(give(&mut desk, &[7, 3, 99]), 1, "1 before 3");
    let mut nothing = OPEN;
    nothing[1] = 0;
    assert_eq!(give(&mut desk, &nothing), 4);
    assert_eq!(give(&mut desk, &OPEN), 0);
    assert_eq!(give(&mut desk, &nothing), 6, "6 before 4");
    let other = Lengths { book: 325, ..LENT };
    assert_eq!(
        lent(&mut desk, &[7, 3, 99], other).number(),
        2,
        "2 before 3"
    );
    assert_eq!(lent(&mut desk, &[8, 1, 1], other).number(), 12, "no store");
    let calls: [(&[u64], u64, &str); 8] = [
        (&[2, 1, 1, 1, 0, 7], 0, "day 7"),
        (&[2, 1, 1, 1, 0, 401], 3, "3 before 5 and 21"),
        (&[2, 1, 1, 1, 0, 6], 5, "5 before 21"),
        (&[2, 1, 1, 1, 0, 151], 11, "11 before 21"),
        (&[2, 1, 1, 1, 0, 7], 21, "21 before 22"),
        (&[2, 2, 1, 1, 0, 7], 22, "22"),
        (&[9, 2, 8], 27, "27 before 29"),
        (&[9, 2, 151], 29, "29"),
    ];
    for (call, number, why) in calls {
        assert_eq!(give(&mut desk, call), number, "{why}");
    }
    let calls: [(&[u64], u64, &str); 13] = [
        (&[12, 1, 6], 5, "5 before 38"),
        (&[12, 3, 6], 3, "3 before 5"),
        (&[12, 1, 8], 38, "38"),
        (&[9, 1, 31], 0, ""),
        (&[9, 1, 31], 28, "28"),
        (&[9, 2, 150], 27, "27"),
        (&[12, 2, 151], 38, "38 for each run"),
        (&[12, 1, 31], 0, "no deadline of its own"),
        (&[12, 1, 30], 5, "5 before 39"),
        (&[12, 1, 31], 39, "39"),
        (&[9, 2, 151], 0, ""),
        (&[12, 2, 151], 0, ""),
        (&[12, 2, 151], 39, "39 for each run"),
    ];
    for (call, number, why) in calls {
        assert_eq!(give(&mut desk, call), number, "{why}");
    }
}

/// Rows of values and of the log run out.
#[test]
fn stores_run_out() {
    let short = Lengths {
        values: 7,
        log: 4,
        ..LENT
    };
    let mut desk = Desk::new();
    let calls: [(&[u64], u64, &str); 13] = [
        (&OPEN, 0, ""),
        (&[2, 1, 1, 1, 0, 0], 0, ""),
        (&[2, 2, 3, 1, 0, 0], 0, ""),
        (&[4, 1, 1, 2, 5, 5], 0, "one row of the log"),
        (&[4, 2, 1, 10, 5, 5], 17, "a row is due"),
        (&[4, 2, 1, 11, 5, 5], 0, "no row is due"),
        (&[5, 2, 1, 1, 11], 17, "by a notice"),
        (&[4, 2, 2, 11, 5, 5], 0, "no row is due"),
        (&[4, 2, 3, 11, 5, 5], 16, "values of 7 have three rows"),
        (&[5, 2, 1, 1, 12], 37, "37 before 17"),
        (&[5, 2, 2, 0, 12], 0, "a negative notice, no row is due"),
        (&[5, 2, 2, 1, 12], 17, "a positive one"),
        (&[5, 1, 1, 0, 12], 25, "25 for negative notices too"),
    ];
    for (call, number, why) in calls {
        assert_eq!(
            lent(&mut desk, call, short).number(),
            number,
            "{why} {call:?}"
        );
    }
    assert_eq!(desk.month().expect("an open desk").day, 12);
}

/// A series that ends in one row with both sides, and an assign that moves a delta.
#[test]
fn sides_on_one_row_and_an_assign() {
    let mut desk = after(&[&OPEN, &[2, 1, 2, 1, 1, 0], &[4, 1, 1, 2, 7, 8]]);
    assert_eq!(
        row(&desk, 1, 0),
        [0, 0],
        "group 1 is the delta group of area 1"
    );
    assert_eq!(row(&desk, 1, 65), [-7, -8]);
    assert_eq!(give(&mut desk, &[6, 1, 9, 30]), 0);
    for run in 1..=2 {
        assert_eq!(row(&desk, run, 0), [7, 8]);
        assert_eq!(row(&desk, run, 8), [-7, -8]);
        assert_eq!(row(&desk, run, 65), [-7, -8]);
        assert_eq!(totals(&desk, run), [0, 0]);
    }
}
