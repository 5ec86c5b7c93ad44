//! The replay of a whole message file: the linked one and the second one on files of months, with stores, series
//! buffers, answers and summaries of many lengths, everything compared whole.

use emorizugu_tests::acts;
use emorizugu_tests::call::{Call, Lengths};
use emorizugu_tests::compare::shortest_list;
use emorizugu_tests::counts;
use emorizugu_tests::desk::{Desk, MOST_VERSIONS};
use emorizugu_tests::files::{self, Parts};
use emorizugu_tests::generator::{Random, Shape};
use emorizugu_tests::groups;
use emorizugu_tests::linked;
use emorizugu_tests::message::{self, MOST_ENERGIES};
use emorizugu_tests::months::{self, Size, SPARE};
use emorizugu_tests::notices;
use emorizugu_tests::numbers::SHORT;
use emorizugu_tests::replay::{
    self, Ending, Lent, Run, BOOK_ROWS, NAMES, POINTS, SUMMARY, VERSIONS,
};
use emorizugu_tests::tally::Tally;
use emorizugu_tests::worked::GROUPS;

/// Files that are compared.
const FILES: u64 = 24_000;

/// How often each ending and each case is to have been compared at least.
const LEAST: u64 = 100;

/// How often each status of a selected version is to have been compared at least.
const LEAST_STATUS: u64 = 500;

/// How often each case of assignments, and of calls where the runs have other delta groups, is to have been compared at least.
const LEAST_GROUPS: u64 = 200;

/// Words on both sides of a lent store.
const FENCE: [u64; 4] = [0x5eed_5eed_5eed_5eed; 4];

/// The answers of each call of a file. A replay lends no store in another length than that of the opening.
const ANSWERS: [(&str, &[u64]); 8] = [
    ("open", &[0, 4, 6]),
    ("activate", &[0, 1, 3, 5, 11, 21, 22]),
    ("deactivate", &[0, 1, 3, 5, 11, 12, 23]),
    ("submit", &[0, 1, 3, 5, 11, 12, 13, 14, 15, 16, 17]),
    ("notice", &[0, 1, 3, 5, 11, 12, 17, 24, 25, 37]),
    ("assign", &[0, 1, 3, 5, 26]),
    ("close", &[0, 1, 3, 5, 27, 28, 29]),
    ("issue", &[0, 1, 3, 5, 38, 39]),
];

/// A file, and what a replay of it is lent.
#[derive(Clone)]
struct Case {
    parts: Parts,
    lengths: Lengths,
    series: usize,
    answers: usize,
    tables: [usize; 3],
    seed: u64,
}

/// Summary, points and versions with their places, and no more.
const TABLES: [usize; 3] = [SUMMARY, POINTS, VERSIONS];

impl Case {
    fn file(&self) -> Vec<u8> {
        self.parts.concat()
    }

    fn lent(&self) -> Lent {
        let Case {
            lengths,
            series,
            answers,
            tables,
            seed,
            ..
        } = *self;
        Lent::filled(lengths, series, answers, tables, seed)
    }

    /// The run of the second replay, and where the linked one differs from it, as text.
    fn compared(&self) -> (Option<Run>, Option<String>) {
        let (file, mut plain) = (self.file(), self.lent());
        let run = replay::replay(&file, &mut plain);
        let number = run.as_ref().map_or(SHORT, |run| run.ending.number());
        let (other, stores) = linked_replay(&file, &self.lent());
        if number != other {
            return (run, Some(format!("{number}, linked {other}")));
        }
        let stores = NAMES.iter().zip(plain.each()).zip(&stores);
        let differences = stores.filter_map(|((name, plain), linked)| {
            let fenced = [&FENCE, plain, &FENCE].concat();
            let at = (0..fenced.len()).find(|&at| fenced[at] != linked[at])?;
            let place = at as i64 - FENCE.len() as i64;
            let (one, other) = (fenced[at] as i64, linked[at] as i64);
            Some(format!("{name} at {place}: {one}, linked {other}"))
        });
        let differences: Vec<String> = differences.collect();
        (run, differences.first().cloned())
    }

    /// The calls one a line, each with the answers of both, and where the replays differ.
    fn text(&self) -> String {
        let (file, mut plain) = (self.file(), self.lent());
        replay::replay(&file, &mut plain);
        let (_, stores) = linked_replay(&file, &self.lent());
        let Case {
            lengths,
            series,
            answers,
            tables,
            ..
        } = self;
        let mut text = format!(
            "the replays differ: {lengths}, series {series}, answers {answers}, tables {tables:?}\n"
        );
        for (at, line) in files::lines(&file, *series).iter().enumerate() {
            let answer = plain.answers.get(at).map(|&answer| answer as i64);
            let other = stores[5][FENCE.len()..].get(at);
            let other = other.filter(|_| at < *answers).map(|&other| other as i64);
            text += &format!("{:4} {line}: {answer:?}, linked {other:?}\n", at + 1);
        }
        text + &self.compared().1.unwrap_or_default()
    }

    /// Compares, and counts. Where the replays differ, the panic's text has the shortest list of calls that still
    /// differs.
    fn compare(&self, tally: &mut Tally) -> Option<Run> {
        let (run, difference) = self.compared();
        if difference.is_some() {
            let with = |parts: &[Vec<u8>]| Case {
                parts: parts.to_vec(),
                ..self.clone()
            };
            let shortest = shortest_list(self.parts.clone(), |parts| {
                with(parts).compared().1.is_some()
            });
            panic!("{}\n\nshortest: {}", self.text(), with(&shortest).text());
        }
        self.count(run.as_ref(), tally);
        run
    }

    fn count(&self, run: Option<&Run>, tally: &mut Tally) {
        let number = run.map_or(SHORT, |run| run.ending.number());
        tally.add("replay", number);
        let names = ["summary's places", "points' places", "versions' places"];
        for (name, places) in names.into_iter().zip(self.tables) {
            tally.add(name, places as u64);
        }
        let Some(run) = run else { return };
        let what = match run.ending {
            Ending::Full => "the answers are full",
            Ending::Refused(_) if number == 35 => "count above the series buffer",
            Ending::Refused(_) => "file refused",
            Ending::End(_) => "whole file run",
        };
        tally.add(what, number);
        if self.series >= MOST_ENERGIES && run.ending != Ending::Full {
            let file = self.file();
            let verdict = (linked::file_refusal(&file), linked::file_offset(&file));
            assert_eq!((number, run.ending.offset()), verdict, "{}", self.text());
            tally.add("as the file's verdict", number);
        }
        for (call, answer) in &run.answered {
            tally.add(call.name(), *answer);
        }
        counts::count_run(tally, run);
        self.count_opening(run, tally);
        self.count_answers(run, tally);
    }

    /// What became of the openings, and of the desk.
    fn count_opening(&self, run: &Run, tally: &mut Tally) {
        let number = run.ending.number();
        let right = |quarters: u64| Lengths {
            book: quarters.saturating_mul(BOOK_ROWS),
            schedules: quarters.saturating_mul(GROUPS),
            ..Lengths::default()
        };
        let mut too_large = false;
        for (call, answer) in run.answered.iter().filter(|(_, answer)| *answer == 4) {
            let Call::Open { quarters, .. } = call else {
                continue;
            };
            let right = right(*quarters);
            if Desk::new().call(call, right).number() != 0 {
                tally.add("opening with a field out of range", *answer);
                continue;
            }
            let book = right.book > self.lengths.book;
            let schedules = right.schedules > self.lengths.schedules;
            too_large |= book || schedules;
            let what = match (book, schedules) {
                (true, false) => "opening too large for the book",
                (false, true) => "opening too large for the schedules",
                (true, true) => "opening too large for both",
                (false, false) => "log not a multiple of 4",
            };
            tally.add(what, *answer);
        }
        let Some(month) = run.desk.month() else {
            tally.add("never opened", number);
            return;
        };
        tally.add("opened", number);
        if too_large {
            tally.add("opened after one too large", number);
        }
        let beyond = self.lengths.book - month.lengths.book;
        tally.add("figures beyond, up to 2", beyond.min(2));
        let beyond = self.lengths.schedules - month.lengths.schedules;
        tally.add("schedules beyond, up to 2", beyond.min(2));
        tally.add("log rows used, up to 9", month.log.len().min(9) as u64);
        tally.add("versions held, up to 9", month.rows.len().min(9) as u64);
        let odd = month.lengths.values % month.quarters;
        tally.add("places of values beyond the rows", odd);
        counts::count_selected(tally, &month);
        for run in 1..=2 {
            for _ in month.points.values().filter(|p| p.selected(run).is_none()) {
                tally.add("active, and no version selected", run);
            }
        }
    }

    /// How many answers there was room for.
    fn count_answers(&self, run: &Run, tally: &mut Tally) {
        let number = run.ending.number();
        let read = calls_read(&self.file(), self.series);
        let rooms = [
            ("room for no answer", self.answers == 0),
            ("room for one answer", self.answers == 1),
            ("room for one answer too few", self.answers + 1 == read),
            ("room for as many answers", self.answers == read),
            ("room for more answers", self.answers > read),
        ];
        for (what, _) in rooms.into_iter().filter(|(_, is)| *is) {
            tally.add(what, number);
        }
        tally.add("series buffer", self.series as u64);
    }
}

/// The linked replay's number, and the stores that it leaves, each between what it is not lent.
fn linked_replay(file: &[u8], lent: &Lent) -> (u64, [Vec<u64>; 9]) {
    let mut stores = lent.each().map(|store| [&FENCE, store, &FENCE].concat());
    let inside = |store: &mut Vec<u64>| FENCE.len()..store.len() - FENCE.len();
    let [values, book, log, schedules, series, answers, summary, points, versions] =
        stores.each_mut().map(|store| {
            let inside = inside(store);
            &mut store[inside]
        });
    let lent = [values, book, log, schedules];
    let tables = [summary, points, versions];
    let number = linked::replay(file, lent, series, answers, tables);
    (number, stores)
}

/// How many calls a reader with a series buffer of so many places takes.
fn calls_read(file: &[u8], room: usize) -> usize {
    let mut series = vec![0; room];
    let (mut start, mut calls) = (0, 0);
    while let Ok(Some(call)) = message::read(file, start, &mut series) {
        start = call.next;
        calls += 1;
    }
    calls
}

/// Lengths of the stores for a month of so many quarter hours: mostly right ones.
fn lengths(random: &mut Random, quarters: usize, right: Lengths) -> Lengths {
    let some = random.below(200) as u64;
    Lengths {
        values: match random.below(8) {
            0 => random.below(4 * quarters) as u64,
            1 => 40 * quarters as u64 + some,
            _ => right.values,
        },
        book: match random.below(24) {
            0 => 0,
            1 => 161,
            2 => 162,
            3 => right.book - 1,
            4 => right.book.saturating_sub(1 + some),
            5 => right.book + 1,
            6 | 7 => right.book + 1 + some,
            8 => right.book + BOOK_ROWS,
            _ => right.book,
        },
        log: match random.below(20) {
            0 => right.log + 1 + some % 3,
            1 => some % 9,
            _ => right.log,
        },
        schedules: match random.below(40) {
            0 => 0,
            1 => 63,
            2 => 64,
            3 => right.schedules - 1,
            4 => right.schedules - 64,
            5 => right.schedules + 1,
            6 | 7 => right.schedules + 1 + some,
            8 => right.schedules + GROUPS,
            _ => right.schedules,
        },
    }
}

/// A case from the seed, and how its file was made.
fn case(random: &mut Random, size: Size) -> (Case, Shape) {
    let month = months::month(random, size);
    let places = month.places;
    let right = Lengths {
        values: places.values - SPARE.values,
        book: places.book - SPARE.book,
        log: places.log - SPARE.log,
        schedules: places.schedules - SPARE.schedules,
    };
    let quarters = (right.book / BOOK_ROWS) as usize;
    let lengths = lengths(random, quarters, right);
    let mut calls = files::calls(&month);
    if random.once_in(6) {
        files::older(&mut calls);
    }
    if random.once_in(3) {
        let held = random.of(&[lengths.book / BOOK_ROWS, lengths.schedules / GROUPS]);
        files::open_before(random, &mut calls, held);
    }
    let shape = files::shape(random);
    let parts = files::parts(random, &calls, shape);
    let series = match random.below(20) {
        0 => 0,
        1 => 1,
        2 => quarters - 1,
        3 => quarters + 1,
        4..=9 => quarters,
        _ => MOST_ENERGIES,
    };
    let read = calls_read(&parts.concat(), series);
    let answers = match random.below(16) {
        0 => 0,
        1 => 1,
        2 | 3 => read.saturating_sub(1),
        4 => random.below(read + 1),
        5..=8 => read,
        _ => read + 1 + random.below(5),
    };
    let tables = match random.below(32) {
        0 => [0, 0, 0],
        1 => [SUMMARY - 1, POINTS, VERSIONS],
        2 => [SUMMARY, POINTS - 1, VERSIONS],
        3 => [SUMMARY, POINTS, VERSIONS - 1],
        4..=16 => TABLES,
        _ => [SUMMARY + 4, POINTS + 3, VERSIONS + 5],
    };
    let case = Case {
        parts,
        lengths,
        series,
        answers,
        tables,
        seed: random.word(),
    };
    (case, shape)
}

#[test]
fn files_of_months_agree() {
    let (mut random, mut tally) = (Random::new(11), Tally::new());
    for _ in 0..FILES {
        let quarters = random.of(&[1, 1, 1, 2, 2, 3, 4, 8]);
        let size = match random.below(8) {
            0 | 1 => Size::Issued(quarters),
            2..=4 => Size::Apart(quarters),
            _ => Size::Quarters(quarters),
        };
        let (case, shape) = case(&mut random, size);
        if let Some(run) = case.compare(&mut tally) {
            tally.add(shape.name(), run.ending.number());
        }
    }
    tally.print();
    assert_eq!(tally.all("replay"), FILES);
    tally.demand("replay", &[0, SHORT, 31, 32, 33, 34, 35], LEAST);
    tally.demand("whole file run", &[0], LEAST);
    tally.demand("file refused", &[31, 32, 33, 34], LEAST);
    tally.demand("count above the series buffer", &[35], LEAST);
    tally.demand("the answers are full", &[35], LEAST);
    tally.demand("as the file's verdict", &[0, 31, 32, 33, 34], LEAST);
    tally.demand("summary's places", &[0, 45, 46, 50], LEAST);
    tally.demand("points' places", &[0, 2_303, 2_304, 2_307], LEAST);
    tally.demand("versions' places", &[0, 2_047, 2_048, 2_053], LEAST);
    tally.demand("series buffer", &[0, 1, 2, 3, 4, 5, 7, 8, 9, 2_980], 20);
    for (call, answers) in ANSWERS {
        tally.demand(call, answers, LEAST);
    }
    for what in [
        "opening with a field out of range",
        "opening too large for the book",
        "opening too large for the schedules",
        "opening too large for both",
        "log not a multiple of 4",
    ] {
        tally.demand(what, &[4], LEAST);
    }
    for what in ["never opened", "opened"] {
        tally.demand(what, &[0, 31, 32, 33, 34, 35], 20);
        assert!(tally.all(what) >= LEAST, "{what}");
    }
    assert!(tally.all("opened after one too large") >= LEAST);
    tally.demand("figures beyond, up to 2", &[0, 1, 2], LEAST);
    tally.demand("schedules beyond, up to 2", &[0, 1, 2], LEAST);
    tally.demand(
        "log rows used, up to 9",
        &[0, 1, 2, 3, 4, 5, 6, 7, 8, 9],
        50,
    );
    tally.demand(
        "versions held, up to 9",
        &[0, 1, 2, 3, 4, 5, 6, 7, 8, 9],
        50,
    );
    for (what, statuses) in counts::STATUSES {
        tally.demand(what, statuses, LEAST_STATUS);
    }
    for (what, numbers) in counts::SELECTIONS {
        tally.demand(what, numbers, 50);
    }
    for (what, numbers) in notices::NOTICES.into_iter().chain([notices::FULL_LOG]) {
        tally.demand(what, numbers, 50);
    }
    for (what, numbers) in [acts::STATES, acts::OLDER] {
        tally.demand(what, numbers, LEAST);
    }
    for (what, numbers) in acts::CASES.into_iter().chain(acts::BETWEEN_OF_FILES) {
        tally.demand(what, numbers, 50);
    }
    let cases = groups::DAYS.into_iter().chain(groups::CASES);
    for (what, numbers) in cases.chain(groups::APART) {
        tally.demand(what, numbers, LEAST_GROUPS);
    }
    for (what, numbers) in groups::SIDES {
        tally.demand(what, numbers, LEAST);
    }
    tally.demand("active, and no version selected", &[1, 2], LEAST_STATUS);
    tally.demand("room for no answer", &[0, 35], 20);
    tally.demand("room for one answer too few", &[35], LEAST);
    for what in ["room for as many answers", "room for more answers"] {
        assert!(tally.all(what) >= LEAST, "{what}");
    }
}

/// Files that reach 512 versions, and files of months of many quarter hours.
#[test]
fn long_files_agree() {
    let (mut random, mut tally) = (Random::new(12), Tally::new());
    for _ in 0..150 {
        let (case, _) = case(&mut random, Size::Versions);
        let run = case.compare(&mut tally);
        let month = run.as_ref().and_then(|run| run.desk.month());
        if let Some(month) = month.filter(|month| month.rows.len() == MOST_VERSIONS) {
            tally.add(
                "512 versions held, 64 log rows",
                month.log.len() as u64 / 64,
            );
        }
    }
    for quarters in [9, 96, 2_879, 2_979, 2_980] {
        for _ in 0..6 {
            let (case, _) = case(&mut random, Size::Quarters(quarters));
            let run = case.compare(&mut tally);
            let month = run.as_ref().and_then(|run| run.desk.month());
            if month.is_some_and(|month| month.quarters == quarters) {
                tally.add("quarter hours opened", quarters);
            }
        }
    }
    tally.print();
    assert!(tally.all("512 versions held, 64 log rows") >= 10);
    let quarters = [9, 96, 2_879, 2_979, 2_980];
    for quarters in quarters {
        assert!(tally.count("quarter hours opened", quarters) >= 1);
    }
}

/// The month of the most points and versions, before and after each close and issue.
#[test]
fn full_tables_agree() {
    let mut tally = Tally::new();
    for calls in files::full_months() {
        let case = Case {
            parts: files::whole(&calls),
            lengths: Lengths {
                values: 8 * MOST_VERSIONS as u64,
                book: 8 * BOOK_ROWS,
                log: 4 * 384,
                schedules: 8 * GROUPS,
            },
            series: 8,
            answers: calls.len(),
            tables: TABLES,
            seed: 18,
        };
        let run = case.compare(&mut tally).expect("a replay");
        assert!(run.answered.iter().all(|(_, answer)| *answer == 0));
        let month = run.desk.month().expect("an open desk");
        assert_eq!((month.points.len(), month.rows.len()), (256, MOST_VERSIONS));
        assert_eq!(month.log.len(), 384, "no row by a close or an issue");
    }
    tally.print();
    for (what, statuses) in counts::STATUSES {
        tally.demand(what, statuses, 128);
    }
}

/// A file of nine calls that are all accepted.
fn accepted() -> Parts {
    let fields: [&[u64]; 9] = [
        &[
            1, 2, 10, 30, 150, 4, 1, 2, 3, 3, 3, 3, 3, 3, 3, 3, 3, 3, 3, 3, 3, 3,
        ],
        &[2, 1, 1, 1, 0, 0],
        &[4, 1, 5, 3, 100, (-200_i64) as u64],
        &[4, 1, 6, 11, 1_000_000_000_000, 7],
        &[6, 1, 64, 12],
        &[5, 1, 6, 1, 31],
        &[9, 1, 31],
        &[12, 1, 32],
        &[6, 1, 63, 33],
    ];
    let call = |numbers: &&[u64]| {
        let call = Call::of(numbers[0], &numbers[1..]).expect("a call");
        files::carried(&call).expect("a call of a file")
    };
    files::whole(&fields.iter().map(call).collect::<Vec<_>>())
}

/// The file with stores that just hold it, and a little more.
fn accepted_case() -> Case {
    Case {
        parts: accepted(),
        lengths: Lengths {
            values: 5,
            book: 2 * BOOK_ROWS + 1,
            log: 8,
            schedules: 2 * GROUPS + 1,
        },
        series: 2,
        answers: 10,
        tables: TABLES,
        seed: 13,
    }
}

/// The file cut at every byte, with every number of answers and series buffers below and above its energies.
#[test]
fn every_cut_agrees() {
    let (case, mut tally) = (accepted_case(), Tally::new());
    for end in 0..=case.file().len() {
        for answers in 0..=11 {
            for series in 0..=3 {
                let case = Case {
                    parts: files::cut(accepted(), end),
                    series,
                    answers,
                    ..case
                };
                case.compare(&mut tally);
            }
        }
    }
    tally.print();
    tally.demand("replay", &[0, 31, 35], LEAST);
}

/// The file with stores of every length about the right one, and below.
#[test]
fn every_length_agrees() {
    let (case, mut tally) = (accepted_case(), Tally::new());
    let mut compare = |lengths: Lengths, summary: usize| {
        let tables = [summary, POINTS, VERSIONS];
        let case = Case {
            lengths,
            tables,
            ..case.clone()
        };
        case.compare(&mut tally);
    };
    let right = case.lengths;
    for book in 0..=3 * BOOK_ROWS + 1 {
        compare(Lengths { book, ..right }, SUMMARY);
    }
    for schedules in 0..=3 * GROUPS + 1 {
        compare(Lengths { schedules, ..right }, SUMMARY);
    }
    for values in 0..=9 {
        for log in 0..=13 {
            let lengths = Lengths {
                values,
                log,
                ..right
            };
            compare(lengths, SUMMARY);
        }
    }
    for summary in 0..=SUMMARY + 2 {
        compare(case.lengths, summary);
    }
    tally.print();
    tally.demand("opening too large for the book", &[4], 324);
    tally.demand("opening too large for the schedules", &[4], 128);
    tally.demand("schedules beyond, up to 2", &[0, 1, 2], 1);
    tally.demand("log not a multiple of 4", &[4], 100);
    tally.demand("submit", &[0, 1, 16, 17], 8);
    tally.demand("replay", &[0, SHORT], SUMMARY as u64);
}

/// The example of document 01, with what each store has to hold.
#[test]
fn the_example_leaves_what_document_01_says() {
    let mut open = vec![1, 10, 30, 150, 4, 1, 2];
    open.resize(21, 3);
    let submit = vec![1, 7, 2, 1000];
    let calls = [
        (1, open),
        (2, vec![1, 1, 1, 0, 0]),
        (4, submit.clone()),
        (4, submit),
    ];
    let calls = calls.map(|(number, fields)| {
        let call = Call::of(number, &fields).expect("a call");
        files::carried(&call).expect("a call of a file")
    });
    let case = Case {
        parts: files::whole(&calls),
        lengths: Lengths {
            values: 2,
            book: 164,
            log: 8,
            schedules: 66,
        },
        series: 2,
        answers: 5,
        tables: [SUMMARY + 1, POINTS, VERSIONS],
        seed: 14,
    };
    let before = case.lent();
    let mut after = before.clone();
    after.stores.values[0] = 1000;
    after.stores.book[..162].fill(0);
    for figure in [0, 65, 81, 81 + 65] {
        after.stores.book[figure] = 1000;
    }
    after.stores.log[..4].copy_from_slice(&[2, 1, 1, 7]);
    after.stores.schedules[..64].fill(0);
    after.series[0] = 1000;
    after.answers[..4].copy_from_slice(&[0, 0, 0, 14]);
    let [summary, points, versions] = &mut after.tables;
    summary[..12].copy_from_slice(&[4, 43, 1, 1, 1, 1, 4, 2, 0, 0, 0, 0]);
    for run in [12, 29] {
        summary[run..run + 3].copy_from_slice(&[4, 1, 2]);
        summary[run + 3..run + 17].fill(3);
    }
    points.fill(0);
    points[..9].copy_from_slice(&[1, 0, 1, 1, 0, 7, 7, 2, 2]);
    versions[..4].copy_from_slice(&[1, 7, 2, 0]);
    let (mut plain, file) = (before, case.file());
    let run = replay::replay(&file, &mut plain);
    assert_eq!(run.map(|run| run.ending), Some(Ending::End(43)));
    assert_eq!(plain, after);
    case.compare(&mut Tally::new());
}
