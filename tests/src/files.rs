//! Message files of months from a seed: in parts, one for each call, whole or spoiled.

use crate::call::Call;
use crate::compare::{Step, Trial};
use crate::generator::{self, Random, Shape};
use crate::message::{self, fields_of, SUBMIT};
use crate::replay::call_of;

/// Most that is shown of a call or of bytes, in characters.
const SHOWN: usize = 300;

/// The kind of an issue.
const ISSUE: u64 = 8;

/// A file in parts: a call each, or what was made of one.
pub type Parts = Vec<Vec<u8>>;

/// A call as a file carries it; none where no file can.
pub fn carried(call: &Call) -> Option<generator::Call> {
    let kind = match call {
        Call::Show { .. } | Call::Status { .. } | Call::Lodge { .. } | Call::Report { .. } => {
            return None
        }
        Call::Close { .. } => 7,
        Call::Issue { .. } => ISSUE,
        _ => call.number(),
    };
    let mut fields = call.fields();
    let series = fields.split_off(fields_of(kind)?);
    let energy = |&word: &u64| (-(1 << 62)..1 << 62).contains(&(word as i64));
    let fits = fields.iter().all(|&field| field < 1 << 63) && series.iter().all(energy);
    fits.then_some(generator::Call {
        kind,
        fields,
        series,
    })
}

/// The calls of a month that a file can carry.
pub fn calls(month: &Trial) -> Vec<generator::Call> {
    let call = |step: &Step| match step {
        Step::Call(call, _) => carried(call),
        Step::Damaged { .. } | Step::Write(_) => None,
    };
    month.steps.iter().filter_map(call).collect()
}

/// Calls as an older file has them: without issues.
pub fn older(calls: &mut Vec<generator::Call>) {
    calls.retain(|call| call.kind != ISSUE);
}

/// A file of calls as they are.
pub fn whole(calls: &[generator::Call]) -> Parts {
    calls.iter().map(generator::bytes).collect()
}

/// The first bytes of a file, so many of them.
pub fn cut(mut parts: Parts, mut bytes: usize) -> Parts {
    for part in &mut parts {
        part.truncate(bytes);
        bytes -= part.len();
    }
    parts.retain(|part| !part.is_empty());
    parts
}

/// Puts openings before the others: of one quarter hour more than are held, of about so many, and of far more.
pub fn open_before(random: &mut Random, calls: &mut Vec<generator::Call>, held: u64) {
    let Some(mut opening) = calls.iter().find(|call| call.kind == 1).cloned() else {
        return;
    };
    for _ in 0..1 + random.below(2) {
        let far = random.of(&[0, 2_980, 2_981, 1 << 32, 1 << 57, 1 << 62, (1 << 63) - 1]);
        let next = held + 1;
        opening.fields[0] = random.of(&[next, next, next, next + 1, held, far, far]);
        calls.insert(0, opening.clone());
    }
}

/// Submissions of many energies, of so many bytes together: none, or 200 and more.
pub fn filling(random: &mut Random, mut bytes: usize) -> Vec<generator::Call> {
    let mut calls = Vec::new();
    while bytes > 0 {
        let call = match bytes {
            200..=2_900 => submission_of(bytes),
            ..=29_000 => submission_of(200 + random.below(2_000)),
            _ => generator::full_call(random),
        };
        bytes -= generator::bytes(&call).len();
        calls.push(call);
    }
    calls
}

/// A submission of so many bytes, 200 to 2,900: six before the energies, and one for each of them.
fn submission_of(bytes: usize) -> generator::Call {
    generator::Call {
        kind: SUBMIT,
        fields: vec![1, 1, 1],
        series: vec![0; bytes - 6],
    }
}

fn call(kind: u64, fields: &[u64], series: &[u64]) -> generator::Call {
    generator::Call {
        kind,
        fields: fields.to_vec(),
        series: series.to_vec(),
    }
}

/// Closes and issues of both runs in each order that is accepted: kind, run and day.
const ACTS: [[[u64; 3]; 4]; 3] = [
    [[7, 1, 31], [ISSUE, 1, 31], [7, 2, 151], [ISSUE, 2, 151]],
    [[7, 1, 31], [7, 2, 151], [ISSUE, 1, 151], [ISSUE, 2, 151]],
    [[7, 1, 31], [7, 2, 151], [ISSUE, 2, 151], [ISSUE, 1, 151]],
];

/// The month of `full_month` with the first acts of each order, from none to all four. Every call is accepted.
pub fn full_months() -> Vec<Vec<generator::Call>> {
    let mut months = Vec::new();
    for order in ACTS {
        let mut calls = full_month();
        months.push(calls.clone());
        for [kind, run, day] in order {
            calls.push(call(kind, &[run, day], &[]));
            months.push(calls.clone());
        }
    }
    months
}

/// A month of eight quarter hours with full tables: 256 points, the last activated first, each with two versions of the
/// highest numbers and energies. The first is one of run 1, the second one of run 2 at every other point, else check data.
/// Every call is accepted.
fn full_month() -> Vec<generator::Call> {
    let exchanges = (1..=16).flat_map(|area| (0..area).map(move |partner| (1, area, partner)));
    let sums = (1..=2).flat_map(|area| (1..=64).map(move |group| (2, area, group)));
    let points: Vec<_> = (1..=256).rev().zip(exchanges.chain(sums)).collect();
    let versions = [99_999_999_999_998, 99_999_999_999_999];
    let energies = [1_000_000_000_000; 8];
    let opening = [[8, 10, 30, 150].as_slice(), &[1; 17]].concat();
    let mut calls = vec![call(1, &opening, &[])];
    for &(point, (kind, area, partner)) in &points {
        calls.push(call(2, &[point, kind, area, partner, 0], &[]));
    }
    for (version, day) in versions.into_iter().zip([2, 11]) {
        for &(point, _) in &points {
            calls.push(call(SUBMIT, &[point, version, day], &energies));
        }
    }
    for &(point, _) in points.iter().filter(|(point, _)| point % 2 == 0) {
        calls.push(call(5, &[point, versions[1], 1, 31], &[]));
    }
    calls
}

/// How a month's file is made: mostly whole or cut.
pub fn shape(random: &mut Random) -> Shape {
    match random.below(40) {
        0..=14 => Shape::Valid,
        15 => Shape::Empty,
        16..=20 => Shape::Cut,
        21..=24 => Shape::Flipped,
        25..=27 => Shape::Longer,
        28..=29 => Shape::Ninth,
        30..=31 => Shape::Unended,
        32..=34 => Shape::Kind,
        35..=37 => Shape::Count,
        38 => Shape::Full,
        _ => Shape::Noise,
    }
}

/// A file of calls, at least one, with the damage of a shape to one of them. What comes after the call stays, but for
/// a file that ends inside it.
pub fn parts(random: &mut Random, calls: &[generator::Call], shape: Shape) -> Parts {
    let mut parts = whole(calls);
    let at = random.below(parts.len());
    match shape {
        Shape::Valid => {}
        Shape::Empty => parts.clear(),
        Shape::Cut => {
            parts.truncate(at + 1);
            let end = random.below(parts[at].len());
            parts[at].truncate(end);
        }
        Shape::Flipped => parts[at] = generator::flipped(random, parts[at].clone()),
        Shape::Longer | Shape::Ninth | Shape::Kind => {
            parts[at] = generator::bytes_changed(random, &calls[at], shape);
        }
        Shape::Unended => {
            parts.truncate(at);
            parts.push(generator::bytes_changed(random, &calls[at], shape));
        }
        Shape::Count => {
            let submission = generator::call(random, SUBMIT);
            let submission = calls[at..]
                .iter()
                .find(|c| c.kind == SUBMIT)
                .unwrap_or(&submission);
            parts.insert(at, generator::bytes_changed(random, submission, shape));
        }
        Shape::Full => {
            let submission = generator::full_call(random);
            parts.insert(at, generator::bytes(&submission));
        }
        Shape::Noise => parts.push(generator::noise(random)),
    }
    parts
}

/// The calls of a file as text, each with its offset, as a reader with a series buffer of so many places takes them;
/// last what it refuses.
pub fn lines(file: &[u8], room: usize) -> Vec<String> {
    let mut series = vec![0; room];
    let (mut start, mut lines) = (0, Vec::new());
    loop {
        match message::read(file, start, &mut series) {
            Ok(Some(read)) => {
                let call = call_of(&read, &series);
                lines.push(shown(format!("at {start}: {call}")));
                start = read.next;
            }
            Ok(None) => return lines,
            Err(refusal) => {
                let number = refusal.cause.number();
                let rest = &file[start as usize..];
                let rest = &rest[..rest.len().min(SHOWN)];
                lines.push(shown(format!("at {start}: {number}, {rest:02x?}")));
                return lines;
            }
        }
    }
}

fn shown(line: String) -> String {
    match line.char_indices().nth(SHOWN) {
        Some((end, _)) => format!("{} ..", &line[..end]),
        None => line,
    }
}
