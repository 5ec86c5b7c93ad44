//! `desk run`: what was refused and why, then the month in short.

use crate::arguments::Wanted;
use crate::calendar;
use crate::calls::counted;
use crate::deltas;
use crate::library::{LogRow, Replay, GROUPS};
use crate::month::{self, Ran};
use crate::output::{self, Failure};
use crate::refusals::{Refusals, TOLD};
use crate::selections;
use crate::{ACCEPTED, REFUSED};

/// Colours where the output is a terminal.
struct Paint {
    on: bool,
}

impl Paint {
    fn mark(&self, code: &str, text: &str) -> String {
        if self.on {
            format!("\x1b[{code}m{text}\x1b[0m")
        } else {
            text.to_string()
        }
    }

    fn red(&self, text: &str) -> String {
        self.mark("31", text)
    }

    fn green(&self, text: &str) -> String {
        self.mark("32", text)
    }

    fn bold(&self, text: &str) -> String {
        self.mark("1", text)
    }

    fn faint(&self, text: &str) -> String {
        self.mark("2", text)
    }
}

/// A number with its digits in groups of three, for people.
pub fn grouped(number: impl Into<i128>) -> String {
    let number = number.into();
    let digits = number.unsigned_abs().to_string();
    let mut out = String::new();
    for (at, digit) in digits.chars().enumerate() {
        if at > 0 && (digits.len() - at) % 3 == 0 {
            out.push(' ');
        }
        out.push(digit);
    }
    if number < 0 {
        format!("-{out}")
    } else {
        out
    }
}

fn count(number: usize, what: &str) -> String {
    counted(number, what, "", "s")
}

/// What was refused: where to look first, then the calls, then how many more there are.
fn told(refusals: &Refusals, name: &str, paint: &Paint) -> String {
    let mut text = String::new();
    for line in refusals.sources() {
        text.push_str(&format!("{}\n", paint.bold(&line)));
    }
    if !text.is_empty() {
        text.push('\n');
    }
    for refusal in &refusals.told {
        let line = refusal.line();
        let (front, back) = line.split_once(": refused, ").unwrap_or((&line, ""));
        text.push_str(&format!(
            "{front}: {}\n",
            paint.red(&format!("refused, {back}"))
        ));
        text.push_str(&paint.faint(&format!("    to mend it: {}", refusal.mend)));
        text.push('\n');
    }
    for line in refusals.more(name) {
        text.push_str(&format!("{}\n", paint.red(&line)));
    }
    if !text.is_empty() {
        text.push('\n');
    }
    text
}

/// A row of the log that puts another version in the place of one.
pub struct Change {
    row: LogRow,
    before: LogRow,
}

impl Change {
    pub fn line(&self, ran: &Ran) -> String {
        let LogRow {
            point,
            run,
            version,
            ..
        } = self.row;
        let day = calendar::told(self.row.day, ran.log_date(&self.row));
        let old = self.before.version;
        let of = if self.before.run == run {
            ""
        } else {
            ", which run 1 selects"
        };
        format!("day {day}: point {point}, run {run}: version {version} in the place of {old}{of}")
    }
}

/// The changes of the log: of a run's selection, and of run 2's from what run 1 selects to a version of its own.
pub fn changes(log: &[LogRow]) -> Vec<Change> {
    let last = |at: usize, point: u64, run: u64| {
        log[..at]
            .iter()
            .rev()
            .find(|old| old.point == point && old.run == run)
    };
    let change = |(at, row): (usize, &LogRow)| {
        let before = last(at, row.point, row.run).or_else(|| last(at, row.point, 1))?;
        Some(Change {
            row: *row,
            before: *before,
        })
    };
    log.iter().enumerate().filter_map(change).collect()
}

/// The most changes of a selection that the summary names one by one.
const NAMED: usize = 20;

fn changed(ran: &Ran) -> String {
    let changes = changes(&ran.replay.log);
    if changes.is_empty() {
        return String::new();
    }
    let mut text = format!("\n{} changed\n", count(changes.len(), "selection"));
    for change in changes.iter().take(NAMED) {
        text.push_str(&format!("    {}\n", change.line(ran)));
    }
    if changes.len() > NAMED {
        text.push_str(&format!(
            "    and {} more: desk log {}\n",
            changes.len() - NAMED,
            ran.month.source
        ));
    }
    text
}

/// The deltas that run 2 books to another group than run 1.
fn moved(ran: &Ran) -> String {
    let lines = deltas::moved(ran);
    if lines.is_empty() {
        return String::new();
    }
    let many = counted(lines.len(), "delta", " has", "s have");
    let lines: String = lines.iter().map(|line| format!("    {line}\n")).collect();
    format!("\n{many} another group in run 2\n{lines}")
}

fn groups(replay: &Replay, paint: &Paint) -> String {
    let rows: Vec<(u64, i64, i64, i64)> = (1..=GROUPS)
        .map(|group| {
            (
                group,
                replay.sum(1, group - 1),
                replay.sum(2, group - 1),
                replay.difference(group - 1),
            )
        })
        .filter(|(_, first, second, _)| *first != 0 || *second != 0)
        .collect();
    if rows.is_empty() {
        return "\nevery group's month is 0\n".to_string();
    }
    let mut text = format!(
        "\n{}\n",
        paint.bold(&format!(
            "{:>5}  {:>22}  {:>22}  {:>22}",
            "group", "run 1, Wh", "run 2, Wh", "difference, Wh"
        ))
    );
    for (group, first, second, difference) in rows {
        let line = format!(
            "{group:>5}  {:>22}  {:>22}  {:>22}",
            grouped(first),
            grouped(second),
            grouped(difference)
        );
        text.push_str(&if difference == 0 {
            line
        } else {
            paint.bold(&line)
        });
        text.push('\n');
    }
    text
}

/// Whether each run is closed and issued, what it selects and whether that is settled: a line or two a run, then a line a point.
fn selected(ran: &Ran, paint: &Paint) -> String {
    let replay = &ran.replay;
    if replay.points.is_empty() {
        return String::new();
    }
    let mut text = String::from("\n");
    for run in 1..=2 {
        text.push_str(&paint.bold(&selections::share(replay, run)));
        text.push('\n');
        if let Some(note) = selections::note(ran, run) {
            text.push_str(&format!("    {note}\n"));
        }
    }
    text.push('\n');
    for (at, mut line) in selections::table(replay).into_iter().enumerate() {
        if line[2].starts_with("both") {
            line[2] = paint.green(&line[2]);
        }
        let line = line.join("  ");
        let line = line.trim_end();
        text.push_str(&if at == 0 {
            paint.bold(line)
        } else {
            line.to_string()
        });
        text.push('\n');
    }
    text
}

/// Which runs are closed and issued.
fn runs(replay: &Replay) -> String {
    let [first, second] = [1, 2].map(|run| selections::state(replay, run));
    if first != second {
        return format!("run 1 {first}; run 2 {second}");
    }
    if replay.closed[0] {
        format!("runs 1 and 2 {first}")
    } else {
        "no run closed".to_string()
    }
}

/// What stands first in the summary, on the page too.
pub fn headline(ran: &Ran) -> String {
    let replay = &ran.replay;
    let calls = count(replay.answers.len(), "call");
    let refused = if replay.refused == 0 {
        "none refused".to_string()
    } else {
        format!("{} refused", replay.refused)
    };
    if replay.quarters == 0 {
        return format!("{calls}, {refused}; the desk is not open");
    }
    format!(
        "{calls}, {refused}; day {}; {}; {}",
        ran.desk_day(),
        runs(replay),
        count(replay.quarters, "quarter hour")
    )
}

/// `desk run`.
pub fn run(wanted: &Wanted) -> Result<i32, Failure> {
    let ran = month::run(wanted)?;
    let paint = Paint {
        on: output::colours(),
    };
    let most = if wanted.all { usize::MAX } else { TOLD };
    let refusals = Refusals::of(&ran, most);
    let mut text = told(&refusals, &ran.month.source, &paint);
    if let Some(damage) = ran.damage() {
        text.push_str(&format!(
            "{}\n\n",
            paint.red(&format!("{}: {damage}", ran.month.name))
        ));
    }
    let status = ran.status();
    let headline = headline(&ran);
    text.push_str(&if status == ACCEPTED {
        paint.green(&headline)
    } else {
        paint.red(&headline)
    });
    text.push('\n');
    if let Some(first) = refusals.told.first().filter(|_| status == REFUSED) {
        text.push_str(&format!(
            "the first refused: {}\n",
            first.call.place.whole()
        ));
    }
    if ran.replay.quarters > 0 {
        text.push_str(&changed(&ran));
        text.push_str(&moved(&ran));
        text.push_str(&groups(&ran.replay, &paint));
        text.push_str(&selected(&ran, &paint));
    }
    output::write(text.as_bytes())?;
    Ok(status)
}
