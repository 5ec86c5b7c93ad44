//! A second replay: a whole message file through the plain desk, call by call, and what it leaves in every store.

use crate::call::{Call, Lengths, DELTAS};
use crate::compare::stores_after;
use crate::desk::Desk;
use crate::generator::Random;
use crate::message::{self, fields_of, Refusal};
use crate::script::Stores;
use crate::worked::GROUPS;

/// Places of a summary: calls answered, offset, quarter hours, log rows used, versions held, calls refused, the first of
/// them, the day, whether run 1 and run 2 are closed, whether run 1 and run 2 are issued, the delta groups of run 1, those of
/// run 2.
pub const SUMMARY: usize = DELTA_GROUPS + 2 * DELTAS;

/// The first place of a summary that has a delta group: run 1's of T.
pub const DELTA_GROUPS: usize = 12;

/// Places of a point: active, since, kind, area, partner, the version of run 1, that of run 2, the status of run 1's
/// version, that of run 2's.
pub const POINT: usize = 9;

/// Places of all points.
pub const POINTS: usize = POINT * 256;

/// Places of the versions, four each: point, number, status, row of values.
pub const VERSIONS: usize = 4 * 512;

/// Figures of a book a quarter hour.
pub const BOOK_ROWS: u64 = 162;

/// The stores of a replay, in their order.
pub const NAMES: [&str; 9] = [
    "values",
    "book",
    "log",
    "schedules",
    "series",
    "answers",
    "summary",
    "points",
    "versions",
];

/// What a replay is lent.
#[derive(Clone, Debug, PartialEq, Eq)]
pub struct Lent {
    /// The desk's stores.
    pub stores: Stores,
    /// The series buffer.
    pub series: Vec<u64>,
    /// Room for the answers.
    pub answers: Vec<u64>,
    /// Room for the summary, the points and the versions.
    pub tables: [Vec<u64>; 3],
}

impl Lent {
    /// Stores, series buffer, answers, summary, points and versions of so many places, filled with words from a seed.
    pub fn filled(
        lengths: Lengths,
        series: usize,
        answers: usize,
        tables: [usize; 3],
        seed: u64,
    ) -> Lent {
        let stores = Stores::filled(lengths, seed);
        let mut random = Random::new(!seed);
        let mut filled = |places| (0..places).map(|_| random.word()).collect();
        Lent {
            stores,
            series: filled(series),
            answers: filled(answers),
            tables: tables.map(filled),
        }
    }

    /// Each store, in the order of `NAMES`.
    pub fn each(&self) -> [&[u64]; 9] {
        let Stores {
            values,
            book,
            log,
            schedules,
        } = &self.stores;
        let [summary, points, versions] = &self.tables;
        let (series, answers) = (&self.series, &self.answers);
        [
            values, book, log, schedules, series, answers, summary, points, versions,
        ]
    }

    fn lengths(&self) -> Lengths {
        let Stores {
            values,
            book,
            log,
            schedules,
        } = &self.stores;
        Lengths {
            values: values.len() as u64,
            book: book.len() as u64,
            log: log.len() as u64,
            schedules: schedules.len() as u64,
        }
    }
}

/// How the run of a file ended.
#[derive(Clone, Copy, Debug, PartialEq, Eq)]
pub enum Ending {
    /// With the file, which has so many bytes.
    End(u64),
    /// The reader refused a call.
    Refused(Refusal),
    /// The answers are full, and bytes are left.
    Full,
}

impl Ending {
    /// 0, or the number of the refusal; 35 where the answers are full.
    pub fn number(self) -> u64 {
        match self {
            Ending::End(_) => 0,
            Ending::Refused(refusal) => refusal.cause.number(),
            Ending::Full => 35,
        }
    }

    /// The file's length, or the offset of the refused call; 0 where the answers are full.
    pub fn offset(self) -> u64 {
        match self {
            Ending::End(length) => length,
            Ending::Refused(refusal) => refusal.offset,
            Ending::Full => 0,
        }
    }
}

/// A file that was run.
#[derive(Clone, Debug)]
pub struct Run {
    /// The calls in their order, each with its answer.
    pub answered: Vec<(Call, u64)>,
    /// How it ended.
    pub ending: Ending,
    /// The desk after the last call.
    pub desk: Desk,
}

/// Runs a file with stores of these lengths and room for so many answers, until the file ends, is refused, or the
/// answers are full.
pub fn run(file: &[u8], whole: Lengths, series: &mut [u64], room: usize) -> Run {
    let (mut desk, mut answered) = (Desk::new(), Vec::new());
    let mut start = 0;
    let ending = loop {
        if answered.len() == room && start < file.len() as u64 {
            break Ending::Full;
        }
        match message::read(file, start, series) {
            Ok(Some(read)) => {
                let call = call_of(&read, series);
                let answer = desk.call(&call, lent_to(&call, &desk, whole));
                answered.push((call, answer.number()));
                start = read.next;
            }
            Ok(None) => break Ending::End(start),
            Err(refusal) => break Ending::Refused(refusal),
        }
    };
    Run {
        answered,
        ending,
        desk,
    }
}

/// The desk's call that was read. The energies of a submission are in the series buffer.
pub fn call_of(read: &message::Call, series: &[u64]) -> Call {
    let number = match read.kind {
        7 => 9,
        8 => 12,
        kind => kind,
    };
    let used = fields_of(read.kind).expect("a kind that was read");
    let fields = [&read.fields[..used], &series[..read.count]].concat();
    Call::of(number, &fields).expect("as many fields")
}

/// What is lent to a call: values and log whole, of book and schedules the first numbers, as many as there are quarter hours
/// for: an opening's own, for every other call those of the desk.
fn lent_to(call: &Call, desk: &Desk, whole: Lengths) -> Lengths {
    let opening = match (call, desk.list().first()) {
        (Call::Open { .. }, _) => Some(call),
        (_, first) => first.map(|(opening, _)| opening),
    };
    let quarters = match opening {
        Some(Call::Open { quarters, .. }) => *quarters,
        _ => 0,
    };
    Lengths {
        book: whole.book.min(quarters.saturating_mul(BOOK_ROWS)),
        schedules: whole.schedules.min(quarters.saturating_mul(GROUPS)),
        ..whole
    }
}

/// Whether summary, points and versions have their places.
fn fit(tables: &[Vec<u64>; 3]) -> bool {
    let [summary, points, versions] = tables;
    summary.len() >= SUMMARY && points.len() >= POINTS && versions.len() >= VERSIONS
}

/// Runs a file and leaves in every store what the run makes of it; none where summary, points or versions have fewer
/// than their places, and every store is then as it was.
pub fn replay(file: &[u8], lent: &mut Lent) -> Option<Run> {
    if !fit(&lent.tables) {
        return None;
    }
    let lengths = lent.lengths();
    let run = run(file, lengths, &mut lent.series, lent.answers.len());
    for (place, (_, answer)) in lent.answers.iter_mut().zip(&run.answered) {
        *place = *answer;
    }
    lent.stores = stores_after(&run.desk, lent.stores.clone());
    let told = [
        summary_of(&run).to_vec(),
        points_of(&run),
        versions_of(&run),
    ];
    for (table, told) in lent.tables.iter_mut().zip(told) {
        table[..told.len()].copy_from_slice(&told);
    }
    Some(run)
}

fn summary_of(run: &Run) -> [u64; SUMMARY] {
    let refused = || run.answered.iter().map(|(_, answer)| *answer != 0);
    let first = refused().position(|refused| refused);
    let mut summary = [0; SUMMARY];
    summary[0] = run.answered.len() as u64;
    summary[1] = run.ending.offset();
    summary[5] = refused().filter(|refused| *refused).count() as u64;
    summary[6] = first.map_or(0, |at| at as u64 + 1);
    if let Some(month) = run.desk.month() {
        summary[2] = month.quarters;
        summary[3] = month.log.len() as u64;
        summary[4] = month.rows.len() as u64;
        summary[7] = month.day;
        summary[8] = month.closed[0].into();
        summary[9] = month.closed[1].into();
        summary[10] = month.issued[0].into();
        summary[11] = month.issued[1].into();
        summary[DELTA_GROUPS..].copy_from_slice(&month.groups.concat());
    }
    summary
}

fn points_of(run: &Run) -> Vec<u64> {
    let mut places = vec![0; POINTS];
    let month = run.desk.month();
    for (number, point) in month.iter().flat_map(|month| &month.points) {
        let version = |run| point.selected(run).map_or(0, |version| version.number);
        let status = |run| point.selected(run).map_or(0, |version| version.status);
        let told: [u64; POINT] = [
            1,
            point.since,
            point.kind,
            point.area,
            point.partner,
            version(1),
            version(2),
            status(1),
            status(2),
        ];
        places[POINT * (*number as usize - 1)..][..POINT].copy_from_slice(&told);
    }
    places
}

fn versions_of(run: &Run) -> Vec<u64> {
    let month = run.desk.month();
    let points = month.iter().flat_map(|month| &month.points);
    let versions = points.flat_map(|(point, held)| held.versions.iter().map(move |v| (*point, v)));
    let mut places = vec![0; 4 * month.as_ref().map_or(0, |month| month.rows.len())];
    for (point, version) in versions {
        let told = [point, version.number, version.status, version.row as u64];
        places[4 * version.row..][..4].copy_from_slice(&told);
    }
    places
}
