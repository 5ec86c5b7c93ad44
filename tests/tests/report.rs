//! Reports on books and schedules of bytes, whatever they hold; and on what desks leave, where the deviations of all groups add
//! up.

use emorizugu_tests::compare::{expected, Step};
use emorizugu_tests::generator::{self, Random};
use emorizugu_tests::months::{self, Size};
use emorizugu_tests::report::{bytes, words};
use emorizugu_tests::schedules::{count_wraps, WRAPS};
use emorizugu_tests::script::{self, Stores};
use emorizugu_tests::tally::Tally;
use emorizugu_tests::worked::{signed, Month, GROUPS};
use emorizugu_tests::{linked, report};

/// How often each answer is to have been compared at least.
const LEAST: u64 = 1_000;

/// Numbers far outside every range.
const FAR: [u64; 4] = [1 << 32, 1 << 63, u64::MAX - 1, u64::MAX];

/// One report with both: its refusal and its sums.
fn compare(tally: &mut Tally, book: &[u8], schedules: &[u8], numbers: [u64; 3]) -> (u64, [u64; 2]) {
    let [quarters, run, group] = numbers;
    let refusal = report::refusal(book, schedules, quarters, run, group);
    let sums = report::of_bytes(book, schedules, quarters, run, group);
    let linked = (
        linked::report_refusal(book, schedules, quarters, run, group),
        linked::report(book, schedules, quarters, run, group),
    );
    let lengths = (book.len(), schedules.len());
    let what = format!("{numbers:?} of a book and schedules of {lengths:?} bytes");
    assert_eq!((refusal, sums), linked, "{what}");
    tally.add("report", refusal);
    if refusal == 0 {
        let rows = report::rows(schedules, book, 8 * quarters as usize, run, group);
        let [schedule, figures] = rows.map(words);
        count_wraps(tally, &schedule, &figures);
    }
    (refusal, sums)
}

/// Lengths in bytes about the right one for so many quarter hours, so many bytes each.
fn lengths(quarters: usize, each: usize) -> [usize; 8] {
    let right = each * quarters;
    [
        right,
        0,
        right - each,
        right - 8,
        right - 1,
        right + 1,
        right + 8,
        right + each,
    ]
}

/// Every run and group in range, just outside it and far outside it, and other quarters than those of the book.
fn every_number(tally: &mut Tally, book: &[u8], schedules: &[u8], quarters: u64) {
    let upto = |last: u64| (0..=last + 1).chain(FAR);
    for run in upto(2) {
        for group in upto(GROUPS) {
            let (refusal, _) = compare(tally, book, schedules, [quarters, run, group]);
            if !(1..=2).contains(&run) {
                tally.add("run", refusal);
            }
            if !(1..=GROUPS).contains(&group) {
                tally.add("group", refusal);
            }
            for other in [0, 2_981].into_iter().chain(FAR) {
                let (refusal, _) = compare(tally, book, schedules, [other, run, group]);
                tally.add("quarters", refusal);
            }
        }
    }
}

#[test]
fn small_books_agree_at_every_number() {
    let (mut random, mut tally) = (Random::new(23), Tally::new());
    for quarters in 1..=5 {
        // An odd place in memory, too.
        let book = generator::book(&mut random, quarters + 2);
        let schedules = generator::schedules(&mut random, quarters + 2);
        for shift in [0, 3] {
            let (book, schedules) = (&book[shift..], &schedules[shift..]);
            for length in lengths(quarters, 1_296) {
                for other in lengths(quarters, 512) {
                    let (book, schedules) = (&book[..length], &schedules[..other]);
                    every_number(&mut tally, book, schedules, quarters as u64);
                }
            }
        }
    }
    tally.print();
    tally.demand("report", &[0, 2, 3], LEAST);
    for what in ["quarters", "run", "group"] {
        tally.demand(what, &[3], LEAST);
    }
}

#[test]
fn books_of_any_numbers_agree() {
    let (mut random, mut tally) = (Random::new(26), Tally::new());
    for _ in 0..500 {
        let quarters = 1 + random.below(5);
        let book = generator::book(&mut random, quarters);
        let schedules = generator::schedules(&mut random, quarters);
        for run in 1..=2 {
            for group in 1..=GROUPS {
                let numbers = [quarters as u64, run, group];
                compare(&mut tally, &book, &schedules, numbers);
            }
        }
    }
    tally.print();
    tally.demand("report", &[0], 64_000);
    for (what, numbers) in WRAPS {
        tally.demand(what, numbers, LEAST);
    }
}

#[test]
fn large_books_agree() {
    let (mut random, mut tally) = (Random::new(24), Tally::new());
    for quarters in [95, 96, 672, 2_876, 2_976, 2_979, 2_980] {
        let book = generator::book(&mut random, quarters + 1);
        let schedules = generator::schedules(&mut random, quarters + 1);
        let last = quarters as u64;
        for run in 0..=3 {
            for group in 0..=65 {
                let (book, schedules) = (&book[..1_296 * quarters], &schedules[..512 * quarters]);
                compare(&mut tally, book, schedules, [last, run, group]);
            }
        }
        for length in lengths(quarters, 1_296) {
            for other in lengths(quarters, 512) {
                let (book, schedules) = (&book[..length], &schedules[..other]);
                compare(&mut tally, book, schedules, [last, 2, 64]);
            }
        }
    }
    tally.print();
    tally.demand("report", &[0, 2, 3], 400);
    for (what, numbers) in WRAPS {
        tally.demand(what, numbers, 50);
    }
}

/// Why, a schedule, figures, and both sums.
type Written = (&'static str, &'static [i64], &'static [i64], [u64; 2]);

/// Rows of schedules and figures with their sums, written out: the surplus is the larger of 0 and the signed word of schedule
/// minus figure, the shortfall that of figure minus schedule.
const WRITTEN: [Written; 16] = [
    ("over", &[7], &[5], [2, 0]),
    ("under", &[5], &[7], [0, 2]),
    ("as planned", &[5], &[5], [0, 0]),
    ("below 0", &[-7], &[-5], [0, 2]),
    ("over and under do not cancel", &[7, 5], &[5, 7], [2, 2]),
    (
        "nor over three quarter hours",
        &[9, 0, 4],
        &[2, 3, 4],
        [7, 3],
    ),
    (
        "2^63 - 1 less -1: both wrap to -2^63",
        &[i64::MAX],
        &[-1],
        [0, 0],
    ),
    (
        "-2^63 less 0: 0 less -2^63 wraps",
        &[i64::MIN],
        &[0],
        [0, 0],
    ),
    ("0 less -2^63 wraps", &[0], &[i64::MIN], [0, 0]),
    ("the largest surplus", &[i64::MAX], &[0], [(1 << 63) - 1, 0]),
    (
        "the largest shortfall",
        &[0],
        &[i64::MAX],
        [0, (1 << 63) - 1],
    ),
    (
        "2^63 - 1 less -2: a shortfall",
        &[i64::MAX],
        &[-2],
        [0, (1 << 63) - 1],
    ),
    (
        "-2^63 less 1: a surplus",
        &[i64::MIN],
        &[1],
        [(1 << 63) - 1, 0],
    ),
    (
        "2^64 - 1 apart: a shortfall of 1",
        &[i64::MAX],
        &[i64::MIN],
        [0, 1],
    ),
    (
        "a sum is a word of 64 bits",
        &[i64::MAX, 1, 0],
        &[0, 0, 3],
        [1 << 63, 3],
    ),
    (
        "and wraps behind it",
        &[i64::MAX, i64::MAX, 3, -1],
        &[0, 0, 0, i64::MAX - 1],
        [1, i64::MAX as u64],
    ),
];

/// A book and schedules in which a group's rows are these, and all else is 1.
fn stores(run: u64, group: u64, schedule: &[i64], figures: &[i64]) -> (Vec<u8>, Vec<u8>) {
    let quarters = schedule.len();
    let (mut book, mut schedules) = (vec![1; 162 * quarters], vec![1; 64 * quarters]);
    let row = (run as usize - 1) * 81 + group as usize - 1;
    for quarter in 0..quarters {
        book[row * quarters + quarter] = figures[quarter] as u64;
        schedules[(group as usize - 1) * quarters + quarter] = schedule[quarter] as u64;
    }
    (bytes(&book), bytes(&schedules))
}

#[test]
fn sums_written_out() {
    let mut tally = Tally::new();
    for (why, schedule, figures, sums) in WRITTEN {
        let quarters = schedule.len() as u64;
        for run in 1..=2 {
            for group in [1, 2, 63, 64] {
                let (book, schedules) = stores(run, group, schedule, figures);
                let numbers = [quarters, run, group];
                let given = compare(&mut tally, &book, &schedules, numbers);
                assert_eq!(given, (0, sums), "{why}");
                let other = compare(&mut tally, &book, &schedules, [quarters, run, 65 - group]);
                assert_eq!(other, (0, [0, 0]), "another group");
            }
        }
    }
    tally.demand("report", &[0], 250);
}

/// The numbers of one quarter hour in a store of rows.
fn column(store: &[u64], quarters: usize, quarter: usize) -> Vec<u64> {
    store.chunks(quarters).map(|row| row[quarter]).collect()
}

/// The schedules' sum minus the outside exchange, and surplus minus shortfall added over all groups by the entries, in one
/// quarter hour of what a desk left.
fn sides(month: &Month, run: u64, stores: &Stores, quarter: usize) -> [i128; 2] {
    let quarters = month.quarters as usize;
    let book = column(&stores.book[..162 * quarters], quarters, quarter);
    let schedules = column(&stores.schedules[..64 * quarters], quarters, quarter);
    let planned: i128 = schedules.iter().map(|&word| signed(word)).sum();
    let (book, schedules) = (bytes(&book), bytes(&schedules));
    let deviation = |group| {
        let [surplus, shortfall] = linked::report(&book, &schedules, 1, run, group).map(signed);
        surplus - shortfall
    };
    let outside = month.outside(run)[quarter];
    [planned - outside, (1..=GROUPS).map(deviation).sum()]
}

/// "In each run and quarter hour surplus minus shortfall, added over all groups, is the schedules' sum minus the outside
/// exchange": the linked desk's stores by the linked entries.
#[test]
fn deviations_of_all_groups_add_up() {
    let (mut random, mut tally) = (Random::new(25), Tally::new());
    for _ in 0..2_000 {
        let mut month = months::month(&mut random, Size::Short);
        month.steps.retain(|step| !matches!(step, Step::Write(_)));
        let plain = expected(&month, &mut Tally::new());
        let linked = script::run(&plain.records, month.stores());
        let Some(month) = plain.desk.month() else {
            continue;
        };
        for run in 1..=2 {
            for quarter in 0..month.quarters as usize {
                let [planned, deviations] = sides(&month, run, &linked.stores, quarter);
                assert_eq!(planned, deviations, "run {run}");
                tally.add("planned and outside differ", (planned != 0).into());
                tally.add(
                    "outside exchange not 0",
                    (month.outside(run)[quarter] != 0).into(),
                );
            }
        }
    }
    tally.print();
    tally.demand("planned and outside differ", &[0, 1], 100);
    tally.demand("outside exchange not 0", &[0, 1], LEAST);
}
