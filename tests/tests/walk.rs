//! Walks over version tables, whatever they hold: with the limits of each record and without, one pass each.

use emorizugu_tests::generator::Random;
use emorizugu_tests::linked;
use emorizugu_tests::tally::Tally;
use emorizugu_tests::walk::{self, Record, Walk, NUMBERS, RECORDS};

/// How many numbers `drive_walk` gives: those of both walks, and whether the records held fit.
const OUT: usize = 2 * NUMBERS + 1;

/// What stands in an output before a walk.
const UNWRITTEN: u64 = 0xdead_beef;

/// A table as `drive_walk` takes it.
fn numbers(table: &[Record]) -> Vec<u64> {
    table.iter().flat_map(Record::numbers).collect()
}

/// A walk with each implementation; what is asked are count, rows, point and version.
fn compare(table: &[Record], asked: [u64; 4]) -> (Walk, bool) {
    let [count, rows, point, version] = asked;
    let mut out = [UNWRITTEN; OUT + 1];
    linked::walk(&numbers(table), asked, &mut out);
    let [plain, tested] = [&out[..NUMBERS], &out[NUMBERS..2 * NUMBERS]];
    assert_eq!(plain, tested, "both passes, asked {asked:?}");
    let walk = walk::walk(table, count, point, version);
    let fit = walk::fit(table, count, rows);
    let expected = (&walk.numbers()[..], u64::from(fit));
    assert_eq!((plain, out[OUT - 1]), expected, "asked {asked:?}");
    assert_eq!(out[OUT], UNWRITTEN, "behind the output");
    (walk, fit)
}

/// What a record holds that no case below names: another point's version, within its limits.
const OTHER: [u64; 4] = [7, 200, 0, 2];

/// Why; the records, each with its index, by version, point, row and status; count, rows, point and version asked for; the
/// numbers of the walk; whether the records held fit.
type Written = (
    &'static str,
    &'static [(usize, [u64; 4])],
    [u64; 4],
    [u64; NUMBERS],
    bool,
);

/// The last version.
const LAST: u64 = 99_999_999_999_999;

/// Walks written out. The numbers are: present, index; highest; run 1's status, version, index; run 2's own; read.
const WRITTEN: [Written; 39] = [
    (
        "nothing held, and record 0 would match",
        &[(0, [5, 3, 0, 2])],
        [0, 1, 3, 5],
        [0, 0, 0, 0, 0, 0, 0, 0, 0, 0],
        true,
    ),
    (
        "nothing held, no row, and record 0 would not fit",
        &[(0, [0, 0, 0, 1])],
        [0, 0, 0, 0],
        [0, 0, 0, 0, 0, 0, 0, 0, 0, 0],
        true,
    ),
    (
        "asked for in the first record, a higher one in the last",
        &[(0, [5, 3, 0, 2]), (511, [9, 3, 0, 3])],
        [512, 1, 3, 5],
        [1, 0, 9, 3, 9, 511, 0, 0, 0, 512],
        true,
    ),
    (
        "asked for in the last record, a higher one in the first",
        &[(0, [9, 3, 0, 2]), (511, [5, 3, 0, 3])],
        [512, 1, 3, 5],
        [1, 511, 9, 2, 9, 0, 0, 0, 0, 512],
        true,
    ),
    (
        "one record held, which is asked for",
        &[(0, [5, 3, 0, 2]), (1, [9, 3, 0, 2])],
        [1, 1, 3, 5],
        [1, 0, 5, 2, 5, 0, 0, 0, 0, 1],
        true,
    ),
    (
        "a higher version of another point",
        &[(0, [5, 3, 0, 2]), (1, [9, 4, 0, 2])],
        [2, 1, 3, 5],
        [1, 0, 5, 2, 5, 0, 0, 0, 0, 2],
        true,
    ),
    (
        "another point has the version",
        &[(0, [5, 4, 0, 2]), (1, [6, 3, 0, 2])],
        [2, 1, 3, 5],
        [0, 0, 6, 2, 6, 1, 0, 0, 0, 2],
        true,
    ),
    (
        "512 held, and none is the point's",
        &[],
        [512, 1, 3, 7],
        [0, 0, 0, 0, 0, 0, 0, 0, 0, 512],
        true,
    ),
    (
        "512 held, and all are the point's one version",
        &[],
        [512, 1, 200, 7],
        [1, 0, 7, 2, 7, 0, 0, 0, 0, 512],
        true,
    ),
    (
        "asked for just behind the count",
        &[(4, [5, 3, 0, 2])],
        [4, 1, 3, 5],
        [0, 0, 0, 0, 0, 0, 0, 0, 0, 4],
        true,
    ),
    (
        "asked for just before it",
        &[(4, [5, 3, 0, 2])],
        [5, 1, 3, 5],
        [1, 4, 5, 2, 5, 4, 0, 0, 0, 5],
        true,
    ),
    (
        "a higher one just behind the count",
        &[(0, [5, 3, 0, 2]), (4, [9, 3, 0, 2])],
        [4, 1, 3, 5],
        [1, 0, 5, 2, 5, 0, 0, 0, 0, 4],
        true,
    ),
    (
        "511 held, asked for in the last record",
        &[(511, [5, 3, 0, 4])],
        [511, 1, 3, 5],
        [0, 0, 0, 0, 0, 0, 0, 0, 0, 511],
        true,
    ),
    (
        "a count of 513",
        &[(511, [5, 3, 0, 4])],
        [513, 1, 3, 5],
        [1, 511, 5, 0, 0, 0, 4, 5, 511, 512],
        true,
    ),
    (
        "a count with two low bytes of 0",
        &[(511, [5, 3, 0, 4])],
        [1 << 16, 1, 3, 5],
        [1, 511, 5, 0, 0, 0, 4, 5, 511, 512],
        true,
    ),
    (
        "a count with four low bytes of 0",
        &[(511, [5, 3, 0, 4])],
        [1 << 32, 1, 3, 5],
        [1, 511, 5, 0, 0, 0, 4, 5, 511, 512],
        true,
    ),
    (
        "the largest count",
        &[(511, [5, 3, 0, 4])],
        [u64::MAX, 1, 3, 5],
        [1, 511, 5, 0, 0, 0, 4, 5, 511, 512],
        true,
    ),
    (
        "all of the point is check data",
        &[(1, [5, 3, 0, 1]), (2, [9, 3, 0, 1])],
        [3, 1, 3, 5],
        [1, 1, 9, 0, 0, 0, 0, 0, 0, 3],
        true,
    ),
    (
        "check data above both selections",
        &[(0, [9, 3, 0, 1]), (1, [5, 3, 0, 2]), (2, [6, 3, 0, 4])],
        [3, 1, 3, 9],
        [1, 0, 9, 2, 5, 1, 4, 6, 2, 3],
        true,
    ),
    (
        "five statuses, the numbers rising",
        &[
            (0, [1, 3, 0, 1]),
            (1, [2, 3, 0, 2]),
            (2, [3, 3, 0, 3]),
            (3, [4, 3, 0, 4]),
            (4, [5, 3, 0, 5]),
        ],
        [5, 1, 3, 3],
        [1, 2, 5, 3, 3, 2, 5, 5, 4, 5],
        true,
    ),
    (
        "four statuses, the numbers falling",
        &[
            (0, [5, 3, 0, 3]),
            (1, [4, 3, 0, 2]),
            (2, [3, 3, 0, 5]),
            (3, [2, 3, 0, 4]),
        ],
        [4, 1, 3, 2],
        [1, 3, 5, 3, 5, 0, 5, 3, 2, 4],
        true,
    ),
    (
        "one version twice: the first answers",
        &[(1, [5, 3, 0, 2]), (3, [5, 3, 0, 3])],
        [4, 1, 3, 5],
        [1, 1, 5, 2, 5, 1, 0, 0, 0, 4],
        true,
    ),
    (
        "one version twice in run 2",
        &[(1, [5, 3, 0, 5]), (3, [5, 3, 0, 4])],
        [4, 1, 3, 5],
        [1, 1, 5, 0, 0, 0, 5, 5, 1, 4],
        true,
    ),
    (
        "one version twice, the first check data",
        &[(1, [5, 3, 0, 1]), (3, [5, 3, 0, 2])],
        [4, 1, 3, 5],
        [1, 1, 5, 2, 5, 3, 0, 0, 0, 4],
        true,
    ),
    (
        "version 0, present by its number",
        &[(2, [0, 3, 0, 2])],
        [3, 1, 3, 0],
        [1, 2, 0, 2, 0, 2, 0, 0, 0, 3],
        false,
    ),
    (
        "version 0 asked for, and the point has none",
        &[(2, [1, 3, 0, 2])],
        [3, 1, 3, 0],
        [0, 0, 1, 2, 1, 2, 0, 0, 0, 3],
        true,
    ),
    (
        "the last version",
        &[(0, [LAST, 3, 0, 2])],
        [1, 1, 3, LAST],
        [1, 0, LAST, 2, LAST, 0, 0, 0, 0, 1],
        true,
    ),
    (
        "one behind the last version",
        &[(0, [LAST + 1, 3, 0, 2])],
        [1, 1, 3, LAST],
        [0, 0, LAST + 1, 2, LAST + 1, 0, 0, 0, 0, 1],
        false,
    ),
    (
        "the largest number as a version",
        &[(0, [u64::MAX, 3, 0, 4]), (1, [1, 3, 0, 5])],
        [2, 1, 3, u64::MAX],
        [1, 0, u64::MAX, 0, 0, 0, 4, u64::MAX, 0, 2],
        false,
    ),
    (
        "the last point",
        &[(0, [5, 256, 0, 2])],
        [1, 1, 256, 5],
        [1, 0, 5, 2, 5, 0, 0, 0, 0, 1],
        true,
    ),
    (
        "one behind the last point",
        &[(0, [5, 257, 0, 2])],
        [1, 1, 257, 5],
        [1, 0, 5, 2, 5, 0, 0, 0, 0, 1],
        false,
    ),
    (
        "point 0",
        &[(0, [5, 0, 0, 2])],
        [1, 1, 0, 5],
        [1, 0, 5, 2, 5, 0, 0, 0, 0, 1],
        false,
    ),
    (
        "a point asked for that has point 3's two low bytes",
        &[(0, [5, 3, 0, 2])],
        [1, 1, 65_539, 5],
        [0, 0, 0, 0, 0, 0, 0, 0, 0, 1],
        true,
    ),
    (
        "no row",
        &[(0, [5, 3, 0, 2])],
        [1, 0, 3, 5],
        [1, 0, 5, 2, 5, 0, 0, 0, 0, 1],
        false,
    ),
    (
        "the last row",
        &[(0, [5, 3, 3, 2])],
        [1, 4, 3, 5],
        [1, 0, 5, 2, 5, 0, 0, 0, 0, 1],
        true,
    ),
    (
        "one behind the last row",
        &[(0, [5, 3, 3, 2])],
        [1, 3, 3, 5],
        [1, 0, 5, 2, 5, 0, 0, 0, 0, 1],
        false,
    ),
    (
        "another point's record outside its limits",
        &[(0, [5, 3, 0, 2]), (1, [0, 4, 0, 2]), (2, [6, 3, 0, 2])],
        [3, 1, 3, 5],
        [1, 0, 6, 2, 6, 2, 0, 0, 0, 3],
        false,
    ),
    (
        "the last record outside its limits",
        &[(511, [0, 0, 0, 1])],
        [512, 1, 3, 5],
        [0, 0, 0, 0, 0, 0, 0, 0, 0, 512],
        false,
    ),
    (
        "outside its limits just behind the count",
        &[(511, [0, 0, 0, 1])],
        [511, 1, 3, 5],
        [0, 0, 0, 0, 0, 0, 0, 0, 0, 511],
        true,
    ),
];

fn record([version, point, row, status]: [u64; 4]) -> Record {
    let short = |number: u64| u16::try_from(number).expect("two bytes");
    Record::of(version, short(point), short(row), status)
}

#[test]
fn written_tables_agree() {
    let mut tally = Tally::new();
    for (why, records, asked, numbers, fit) in WRITTEN {
        let mut table = vec![record(OTHER); RECORDS];
        for &(at, numbers) in records {
            table[at] = record(numbers);
        }
        let (walk, fits) = compare(&table, asked);
        assert_eq!((walk.numbers(), fits), (numbers, fit), "{why}");
        tally.add("walk written out, present", numbers[0]);
        tally.add("walk written out, fits", fit.into());
    }
    tally.print();
}

#[test]
fn other_lengths_change_nothing() {
    let table = numbers(&vec![record(OTHER); RECORDS + 1]);
    let whole = 4 * RECORDS;
    let lengths = [0, 1, whole - 4, whole - 1, whole + 1, whole + 4];
    let lengths = lengths.into_iter().map(|length| (length, OUT));
    for (length, places) in lengths.chain((0..OUT).map(|places| (whole, places))) {
        let mut out = vec![UNWRITTEN; places];
        linked::walk(&table[..length], [512, 1, 200, 7], &mut out);
        let what = format!("{length} numbers, {places} places");
        assert_eq!(out, vec![UNWRITTEN; places], "{what}");
    }
    let mut out = [UNWRITTEN; OUT];
    linked::walk(&table[..whole], [512, 1, 200, 7], &mut out);
    assert!(!out.contains(&UNWRITTEN), "{whole} numbers, {OUT} places");
}

/// Numbers outside the limits of a version, and of a point.
const FOREIGN: ([u64; 3], [u16; 3]) = ([0, LAST + 1, u64::MAX], [0, 257, u16::MAX]);

/// A table with few or many points and versions, each record on one of so many rows. In one of two tables some records are
/// outside the limits of a version or a point; in one of four point 1 has no version but 0.
fn table(random: &mut Random, rows: usize) -> Vec<Record> {
    let points = 1 + random.bits(8) as usize;
    let versions = 1 + random.bits(10) as usize;
    let is_spoiled = random.once_in(2);
    let has_zeros = random.once_in(4);
    let mut record = |_| {
        let mut record = Record {
            version: 1 + random.below(versions) as u64,
            point: 1 + random.below(points) as u16,
            row: random.below(rows) as u16,
            status: 1 + random.below(5) as u64,
        };
        if has_zeros && record.point == 1 {
            record.version = 0;
        }
        match random.below(200) {
            0 if is_spoiled => record.version = random.of(&FOREIGN.0),
            1 if is_spoiled => record.point = random.of(&FOREIGN.1),
            _ => {}
        }
        record
    };
    (0..RECORDS).map(&mut record).collect()
}

/// What is above the low bytes of a number.
const HIGH: [u64; 3] = [1 << 16, 1 << 32, 1 << 48];

/// A count about an end of the table, one below it, any above it, or one above it with the low bytes of one below.
fn count(random: &mut Random) -> u64 {
    match random.below(8) {
        0 | 1 => random.of(&[0, 1, 2, 510, 511, 512, 513, 514]),
        2..=4 => random.below(RECORDS) as u64,
        5 | 6 => RECORDS as u64 + random.bits(63),
        _ => random.of(&HIGH) + random.below(RECORDS) as u64,
    }
}

/// The point and the version of one record, of two, or any; or a point with the low bytes of one.
fn wanted(random: &mut Random, table: &[Record]) -> (u64, u64) {
    let [one, other] = [random.of(table), random.of(table)];
    let point = u64::from(one.point);
    match random.below(8) {
        0 | 1 => (point, other.version),
        2 => (random.below(300) as u64, random.bits(64)),
        3 => (random.of(&HIGH) + point, one.version),
        _ => (point, one.version),
    }
}

/// What the walks of a sample were, with the numbers that they are counted by.
const CASES: [(&str, &[u64]); 15] = [
    ("version asked for: present", &[0, 1]),
    ("highest: none, 0 held, above 0", &[0, 1, 2]),
    ("count: below 512, at it, above", &[0, 1, 2]),
    ("records read: none, some, 512", &[0, 1, 2]),
    ("records held fit", &[0, 1]),
    ("512 records held fit", &[0, 1]),
    ("outside the limits, and present", &[0, 1]),
    ("run 1's selection, its status", &[0, 2, 3]),
    ("run 2's own, its status", &[0, 4, 5]),
    ("highest: present, before, behind", &[0, 1, 2]),
    ("present twice, status: same, other", &[0, 1]),
    ("selected twice, run", &[1, 2]),
    ("selection below the highest, run", &[1, 2]),
    ("behind the count: present, highest", &[0, 1]),
    ("low bytes alone: count, point", &[0, 1]),
];

/// Counts a walk, by `CASES`.
fn tell(tally: &mut Tally, table: &[Record], asked: [u64; 4], walk: &Walk, fit: bool) {
    let [count, _, point, version] = asked;
    let (held, unread) = table.split_at(walk::held(table, count).len());
    let is_of = |record: &Record| u64::from(record.point) == point;
    let indexed = held.iter().enumerate();
    let of_point: Vec<_> = indexed.filter(|(_, record)| is_of(record)).collect();
    let is_present = walk.held.is_some();
    let full = RECORDS as u64;
    tally.add("version asked for: present", is_present.into());
    let above = u64::from(!of_point.is_empty()) + u64::from(walk.highest > 0);
    tally.add("highest: none, 0 held, above 0", above);
    let side = u64::from(count >= full) + u64::from(count > full);
    tally.add("count: below 512, at it, above", side);
    let part = u64::from(walk.read > 0) + u64::from(walk.read == full);
    tally.add("records read: none, some, 512", part);
    tally.add("records held fit", fit.into());
    if walk.read == full {
        tally.add("512 records held fit", fit.into());
    }
    if !fit {
        tally.add("outside the limits, and present", is_present.into());
    }
    let mut unread = unread.iter().filter(|record| is_of(record));
    if unread.clone().any(|record| record.version == version) && !is_present {
        tally.add("behind the count: present, highest", 0);
    }
    if unread.any(|record| record.version > walk.highest) {
        tally.add("behind the count: present, highest", 1);
    }
    tell_present(tally, &of_point, walk);
    tell_selected(tally, &of_point, walk);
    tell_low(tally, held, count, point);
}

/// Counts a version that is present: where the point's highest stands, and whether a later record has its number.
fn tell_present(tally: &mut Tally, of_point: &[(usize, &Record)], walk: &Walk) {
    let Some((at, present)) = walk.held else {
        return;
    };
    let mut all = of_point.iter();
    let highest = all.find(|(_, record)| record.version == walk.highest);
    let (top, _) = highest.expect("the highest of what is present");
    let place = u64::from(*top != at) + u64::from(*top > at);
    tally.add("highest: present, before, behind", place);
    let mut later = of_point.iter().filter(|(other, _)| *other > at);
    if let Some((_, again)) = later.find(|(_, record)| record.version == present.version) {
        let is_other = again.status != present.status;
        tally.add("present twice, status: same, other", is_other.into());
    }
}

/// Counts a count above 512 whose two low bytes are below it, and a point that no record has, but whose two low bytes are those
/// of one.
fn tell_low(tally: &mut Tally, held: &[Record], count: u64, point: u64) {
    if count > u16::MAX.into() && usize::from(count as u16) < RECORDS {
        tally.add("low bytes alone: count, point", 0);
    }
    let has_low = |record: &Record| record.point == point as u16;
    if point > u16::MAX.into() && held.iter().any(has_low) {
        tally.add("low bytes alone: count, point", 1);
    }
}

/// Counts what both runs select: its status, whether it is the point's highest, and whether a later record has its number.
fn tell_selected(tally: &mut Tally, of_point: &[(usize, &Record)], walk: &Walk) {
    let status = |found: walk::Found| found.map_or(0, |(_, record)| record.status);
    tally.add("run 1's selection, its status", status(walk.first));
    tally.add("run 2's own, its status", status(walk.second));
    for (run, found, statuses) in [(1, walk.first, [2, 3]), (2, walk.second, [4, 5])] {
        let Some((at, selected)) = found else {
            continue;
        };
        if selected.version < walk.highest {
            tally.add("selection below the highest, run", run);
        }
        let is_again = |(other, record): &(usize, &Record)| {
            *other > at && record.version == selected.version && statuses.contains(&record.status)
        };
        if of_point.iter().any(is_again) {
            tally.add("selected twice, run", run);
        }
    }
}

#[test]
fn tables_of_any_records_agree() {
    let (mut random, mut tally) = (Random::new(27), Tally::new());
    for _ in 0..10_000 {
        let rows = random.of(&[1, 4, 512, 65_536]);
        let table = table(&mut random, rows);
        for _ in 0..10 {
            let (point, version) = wanted(&mut random, &table);
            let few = random.below(rows + 1);
            let rows = random.of(&[rows as u64, rows as u64, few as u64, u64::MAX]);
            let asked = [count(&mut random), rows, point, version];
            let (walk, fit) = compare(&table, asked);
            tell(&mut tally, &table, asked, &walk, fit);
        }
    }
    tally.print();
    for (what, numbers) in CASES {
        tally.demand(what, numbers, 1_000);
    }
}
