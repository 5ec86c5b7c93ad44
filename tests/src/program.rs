//! The desk program: what it prints by documents 01 and 02, worked out by the plain desk, and a run of the program itself.

use crate::call::Lengths;
use crate::message::MOST_ENERGIES;
use crate::replay::{self, Ending, BOOK_ROWS};
use crate::worked::Month;
use std::ffi::OsStr;
use std::fmt::Write as _;
use std::io::{self, Write as _};
use std::process::{Command, Output, Stdio};
use std::thread;

/// Bytes that the program reads.
pub const MOST_BYTES: usize = 65_536;

/// Most quarter hours of a month.
pub const MOST_QUARTERS: u64 = 8;

/// The program's stores.
const STORES: Lengths = Lengths {
    values: 4_096,
    book: BOOK_ROWS * MOST_QUARTERS,
    log: 4 * 512,
    schedules: GROUPS as u64 * MOST_QUARTERS,
};

/// Groups of a month.
const GROUPS: usize = 64;

/// The part of a file that the program reads.
pub fn read_part(file: &[u8]) -> &[u8] {
    &file[..file.len().min(MOST_BYTES)]
}

/// A file's run with the program's stores.
pub fn run(file: &[u8]) -> replay::Run {
    replay::run(read_part(file), STORES, &mut [0; MOST_ENERGIES], usize::MAX)
}

/// What the program prints of a run: a line for each call; then the refusal or, if open, the figures of both runs, and
/// behind them the selected versions of both.
pub fn printed(run: &replay::Run) -> String {
    let mut lines = Vec::new();
    for ((_, answer), number) in run.answered.iter().zip(1..) {
        lines.push(format!("{number} {answer}"));
    }
    match (run.ending, run.desk.month()) {
        (Ending::End(_), Some(month)) => {
            lines.extend(figure_lines(&month));
            lines.extend(selection_lines(&month));
        }
        (Ending::End(_), None) => {}
        (ending, _) => lines.push(format!("F {} {}", ending.number(), ending.offset())),
    }
    let mut text = String::new();
    for line in lines {
        let _ = writeln!(text, "{line}");
    }
    text
}

/// For each run and quarter hour the groups' figures that are not 0, and their sum.
fn figure_lines(month: &Month) -> Vec<String> {
    let quarters = month.quarters as usize;
    let mut lines = Vec::new();
    for run in 1..=2 {
        let figures = month.figures(run);
        for quarter in 1..=quarters {
            let mut sum = 0;
            for group in 1..=GROUPS {
                let figure = figures[(group - 1) * quarters + quarter - 1];
                if figure != 0 {
                    lines.push(format!("G {run} {quarter} {group} {figure}"));
                }
                sum += figure;
            }
            lines.push(format!("T {run} {quarter} {sum}"));
        }
    }
    lines
}

/// For each run the points with a selected version, each with the version and its status.
fn selection_lines(month: &Month) -> Vec<String> {
    let mut lines = Vec::new();
    for run in 1..=2 {
        for (point, _, version) in month.selected(run) {
            let (number, status) = (version.number, version.status);
            lines.push(format!("S {run} {point} {number} {status}"));
        }
    }
    lines
}

/// Runs the program with a file as its standard input, written in parts of so many bytes. The program need not read
/// all of it.
pub fn output(program: &OsStr, file: &[u8], part: usize) -> io::Result<Output> {
    let mut command = Command::new(program);
    command.stdin(Stdio::piped());
    command.stdout(Stdio::piped()).stderr(Stdio::piped());
    let mut child = command.spawn()?;
    let mut input = child.stdin.take().expect("a pipe");
    thread::scope(|scope| {
        scope.spawn(move || file.chunks(part).try_for_each(|part| input.write_all(part)));
        child.wait_with_output()
    })
}
