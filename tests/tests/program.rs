//! The desk program: files through its standard input, and what it prints against what documents 01 and 02 say, worked
//! out by the plain desk.
//!
//! `EMORIZUGU_PROGRAM` names the program; `tests/run` always sets it. Without it the tests of the program are left
//! out (`cargo test` says so of each), and fail where they are asked for.

use emorizugu_tests::acts;
use emorizugu_tests::call::Call;
use emorizugu_tests::compare::shortest_list;
use emorizugu_tests::counts;
use emorizugu_tests::desk::MOST_VERSIONS;
use emorizugu_tests::files::{self, Parts};
use emorizugu_tests::generator::{Random, Shape};
use emorizugu_tests::groups;
use emorizugu_tests::message::MOST_ENERGIES;
use emorizugu_tests::months::{self, Size};
use emorizugu_tests::notices;
use emorizugu_tests::program::{self, MOST_BYTES, MOST_QUARTERS};
use emorizugu_tests::replay::{Ending, Run};
use emorizugu_tests::tally::Tally;
use emorizugu_tests::worked::Month;
use std::env;
use std::ffi::OsString;

/// Files of at most some thousand bytes.
const FILES: u64 = 6_000;

/// Files about as long as the program reads, and longer.
const LONG: u64 = 200;

/// How often each ending and each case is to have been compared at least.
const LEAST: u64 = 50;

/// How often each status of a selected version, 37, 38 and 39 are to have been compared at least.
const LEAST_STATUS: u64 = 300;

/// How often each case of closes and issues is to have been compared at least.
const LEAST_ACTS: u64 = 10;

/// How often each case of assignments, and of calls where the runs have other delta groups, is to have been compared at least.
const LEAST_GROUPS: u64 = 200;

/// The program that `EMORIZUGU_PROGRAM` names.
fn named_program() -> OsString {
    env::var_os("EMORIZUGU_PROGRAM")
        .expect("EMORIZUGU_PROGRAM is not set: the desk program is not tested")
}

/// A file, and how many bytes of it are written at once.
struct Case {
    parts: Parts,
    written: usize,
}

impl Case {
    fn new(random: &mut Random, parts: Parts) -> Case {
        let written = match random.below(8) {
            0 => 1 + random.below(40),
            1 => 1 + random.below(4_096),
            _ => usize::MAX,
        };
        // Not many parts, that a long file does not take long.
        let least = 1 + parts.concat().len() / 60;
        let written = written.max(least);
        Case { parts, written }
    }

    /// Where the program differs from what it has to print, as text.
    fn difference(&self, program: &OsString, printed: &str) -> Option<String> {
        let file = self.parts.concat();
        let output = program::output(program, &file, self.written).expect("a program that runs");
        let other = String::from_utf8_lossy(&output.stdout);
        if !output.status.success() {
            return Some(format!("the program's {}", output.status));
        }
        if printed == other {
            return None;
        }
        let (mut lines, mut others) = (printed.lines(), other.lines());
        let mut number = 1;
        loop {
            match (lines.next(), others.next()) {
                (None, None) => return Some("the ends of lines differ".to_string()),
                (line, other) if line == other => number += 1,
                (line, other) => {
                    return Some(format!("line {number}: {line:?}, program {other:?}"));
                }
            }
        }
    }

    /// The calls one a line, and where the program differs.
    fn text(&self, program: &OsString) -> String {
        let file = self.parts.concat();
        let printed = program::printed(&program::run(&file));
        let lines = files::lines(program::read_part(&file), MOST_ENERGIES);
        let difference = self.difference(program, &printed);
        let mut text = format!("the program differs, {} bytes:\n", file.len());
        for (line, number) in lines.iter().zip(1..) {
            text += &format!("{number:4} {line}\n");
        }
        text + &difference.unwrap_or_default()
    }

    /// Compares, and gives the run. Where the program differs, the panic's text has the shortest list of calls with
    /// which it still does.
    fn compare(&self, program: &OsString) -> Run {
        let run = program::run(&self.parts.concat());
        if self.difference(program, &program::printed(&run)).is_some() {
            let with = |parts: &[Vec<u8>]| Case {
                parts: parts.to_vec(),
                ..*self
            };
            let shortest = shortest_list(self.parts.clone(), |parts| {
                let printed = program::printed(&program::run(&parts.concat()));
                with(parts).difference(program, &printed).is_some()
            });
            let whole = self.text(program);
            panic!("{whole}\n\nshortest: {}", with(&shortest).text(program));
        }
        run
    }
}

/// How many lines of a run's output tell a selected version.
fn selections_printed(run: &Run) -> usize {
    let printed = program::printed(run);
    let lines = printed.lines().filter(|line| line.starts_with("S "));
    lines.count()
}

fn count(run: &Run, tally: &mut Tally) {
    let number = run.ending.number();
    tally.add("program", number);
    let large =
        |call: &Call| matches!(call, Call::Open { quarters, .. } if *quarters > MOST_QUARTERS);
    for (call, answer) in &run.answered {
        tally.add(call.name(), *answer);
        if large(call) {
            tally.add("opening of more than 8", *answer);
        }
    }
    counts::count_run(tally, run);
    let printed = selections_printed(run);
    let Some(month) = run.desk.month() else {
        tally.add("never opened", number);
        assert_eq!(printed, 0);
        return;
    };
    tally.add("quarter hours opened", month.quarters);
    if month.rows.len() == MOST_VERSIONS {
        tally.add("512 versions held", number);
    }
    let selected: usize = (1..=2).map(|run| month.selected(run).count()).sum();
    let Ending::End(_) = run.ending else {
        assert_eq!(printed, 0);
        if selected > 0 {
            tally.add("selected, and not printed", number);
        }
        return;
    };
    assert_eq!(printed, selected);
    counts::count_selected(tally, &month);
    count_figures(&month, tally);
}

fn count_figures(month: &Month, tally: &mut Tally) {
    tally.add("figures printed, quarter hours", month.quarters);
    for run in 1..=2 {
        let figures = month.figures(run);
        let groups = &figures[..64 * month.quarters as usize];
        for &figure in groups.iter().filter(|&&figure| figure != 0) {
            tally.add(
                if figure < 0 {
                    "negative figure"
                } else {
                    "positive figure"
                },
                run,
            );
        }
        for sum in month.outside(run) {
            let what = match sum {
                0 => "sum 0",
                ..0 => "negative sum",
                _ => "positive sum",
            };
            tally.add(what, run);
        }
    }
    if month.figures(1) != month.figures(2) {
        tally.add("figures of run 2 of its own", 2);
    }
}

/// Quarter hours of a month for the program, seldom more than it takes.
fn quarters(random: &mut Random) -> u64 {
    match random.below(16) {
        0 => random.of(&[9, 10, 16, 96]),
        _ => 1 + random.below(8) as u64,
    }
}

#[test]
#[ignore = "EMORIZUGU_PROGRAM names the desk program"]
fn the_program_prints_what_the_documents_say() {
    let program = named_program();
    let (mut random, mut tally) = (Random::new(15), Tally::new());
    for _ in 0..FILES {
        let size = match random.below(200) {
            0 => Size::Versions,
            1..=80 => Size::Issued(quarters(&mut random)),
            81..=170 => Size::Apart(quarters(&mut random)),
            _ => Size::Quarters(quarters(&mut random)),
        };
        let month = months::month(&mut random, size);
        let mut calls = files::calls(&month);
        if random.once_in(6) {
            files::older(&mut calls);
        }
        if random.once_in(6) {
            files::open_before(&mut random, &mut calls, MOST_QUARTERS);
        }
        let shape = files::shape(&mut random);
        let parts = files::parts(&mut random, &calls, shape);
        let run = Case::new(&mut random, parts).compare(&program);
        count(&run, &mut tally);
        tally.add(shape.name(), run.ending.number());
    }
    tally.print();
    assert_eq!(tally.all("program"), FILES);
    tally.demand("program", &[0, 31, 32, 33, 34], LEAST);
    tally.demand("opening of more than 8", &[4, 6], 10);
    assert!(tally.all("never opened") >= LEAST);
    assert!(tally.all("512 versions held") >= 1);
    tally.demand(
        "figures printed, quarter hours",
        &[1, 2, 3, 4, 5, 6, 7, 8],
        LEAST,
    );
    for what in [
        "negative figure",
        "positive figure",
        "sum 0",
        "negative sum",
        "positive sum",
    ] {
        tally.demand(what, &[1, 2], LEAST);
    }
    tally.demand("figures of run 2 of its own", &[2], LEAST);
    tally.demand("selected, and not printed", &[31, 32, 33, 34], LEAST);
    for (what, statuses) in counts::STATUSES {
        tally.demand(what, statuses, LEAST_STATUS);
    }
    for (what, numbers) in counts::SELECTIONS.into_iter().chain(notices::NOTICES) {
        tally.demand(what, numbers, LEAST);
    }
    for (what, numbers) in [acts::STATES, acts::OLDER] {
        tally.demand(what, numbers, LEAST);
    }
    for (what, numbers) in acts::CASES.into_iter().chain(acts::BETWEEN_OF_FILES) {
        tally.demand(what, numbers, LEAST_ACTS);
    }
    let cases = groups::DAYS.into_iter().chain(groups::CASES);
    for (what, numbers) in cases.chain(groups::APART) {
        tally.demand(what, numbers, LEAST_GROUPS);
    }
    for (what, numbers) in groups::SIDES {
        tally.demand(what, numbers, LEAST);
    }
    assert!(tally.count("notice", 37) >= LEAST_STATUS);
    for number in [0, 38, 39] {
        assert!(tally.count("issue", number) >= LEAST_STATUS);
    }
    for (_, name, _) in Shape::ALL {
        assert!(tally.all(name) >= 20, "{name}");
    }
}

/// Files that end about where the program stops to read: with submissions of many energies before the month or behind
/// it.
#[test]
#[ignore = "EMORIZUGU_PROGRAM names the desk program"]
fn the_program_reads_the_first_65_536_bytes() {
    let program = named_program();
    let (mut random, mut tally) = (Random::new(16), Tally::new());
    for _ in 0..LONG {
        let size = Size::Quarters(1 + random.below(8) as u64);
        let month = files::whole(&files::calls(&months::month(&mut random, size)));
        let bytes = month.concat().len();
        let parts = if random.once_in(2) {
            // The reading stops at the start of one of the month's calls, or inside it.
            let calls = random.below(month.len() + 1);
            let start = month[..calls].concat().len();
            let inside = random.below(3);
            let filling = files::filling(&mut random, MOST_BYTES - start - inside);
            [files::whole(&filling), month].concat()
        } else {
            let end = MOST_BYTES + random.of(&[0, 0, 1, 2, 300]) - random.of(&[0, 0, 1, 2]);
            let filling = files::filling(&mut random, end - bytes);
            let more = files::filling(&mut random, 200);
            let mut parts = [month, files::whole(&filling), files::whole(&more)].concat();
            if random.once_in(3) {
                parts.pop();
            }
            parts
        };
        let length = parts.concat().len();
        let run = Case::new(&mut random, parts).compare(&program);
        count(&run, &mut tally);
        let what = match length {
            ..MOST_BYTES => "file below 65,536 bytes",
            MOST_BYTES => "file of 65,536 bytes",
            _ => "file above 65,536 bytes",
        };
        tally.add(what, run.ending.number());
    }
    tally.print();
    tally.demand("program", &[0, 31], 20);
    tally.demand("file above 65,536 bytes", &[0, 31], 20);
    assert!(tally.all("file of 65,536 bytes") >= 5);
    assert!(tally.all("file below 65,536 bytes") >= 5);
    let figures = tally.all("figures printed, quarter hours");
    assert!(figures >= 20, "figures of {figures} files");
}

/// The month of the most points and versions, before and after each close and issue.
#[test]
#[ignore = "EMORIZUGU_PROGRAM names the desk program"]
fn the_program_prints_the_selected_versions_of_256_points() {
    let program = named_program();
    let (mut random, mut tally) = (Random::new(17), Tally::new());
    let months = files::full_months();
    for calls in &months {
        let parts = files::whole(calls);
        assert!(parts.concat().len() <= MOST_BYTES);
        let run = Case::new(&mut random, parts).compare(&program);
        assert!(run.answered.iter().all(|(_, answer)| *answer == 0));
        count(&run, &mut tally);
    }
    tally.print();
    for (what, statuses) in counts::STATUSES {
        tally.demand(what, statuses, 128);
    }
    let months = months.len() as u64;
    assert_eq!(tally.all("selected by run 1"), months * 256);
    assert_eq!(tally.all("selected by run 2, its own"), months * 128);
    assert_eq!(tally.all("selected by run 2, as by run 1"), months * 128);
}

/// Document 01's own input and output, with the lines of document 02.
const PRINTED: &str = "1 0\n2 0\n3 0\n4 14\nG 1 1 1 1000\nT 1 1 1000\nG 2 1 1 1000\nT 2 1 1000\nS 1 1 7 2\nS 2 1 7 2\n";

fn example() -> Vec<u8> {
    let open = [1, 1, 10, 30, 0x96, 1, 4, 1, 2];
    let (activate, submit) = ([2, 1, 1, 1, 0, 0], [4, 1, 7, 2, 1, 0xd0, 0x0f]);
    [&open[..], &[3; 14], &activate, &submit, &submit].concat()
}

#[test]
fn the_example_is_printed_by_the_plain_desk() {
    assert_eq!(program::printed(&program::run(&example())), PRINTED);
    assert_eq!(program::printed(&program::run(&[])), "");
    assert_eq!(program::printed(&program::run(&[0x80, 0])), "F 32 0\n");
    let cut = &example()[..40];
    assert_eq!(
        program::printed(&program::run(cut)),
        "1 0\n2 0\n3 0\nF 31 36\n"
    );
}

#[test]
#[ignore = "EMORIZUGU_PROGRAM names the desk program"]
fn the_example_is_printed_by_the_program() {
    let output = program::output(&named_program(), &example(), 7).expect("a program that runs");
    assert_eq!(String::from_utf8_lossy(&output.stdout), PRINTED);
}
