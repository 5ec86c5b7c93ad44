//! The proved library's entries, each behind a safe function. They ask nothing of their caller but slices with their lengths.

use std::collections::HashMap;

use crate::calls::{self, MOST_FIELDS, MOST_QUARTERS};
use crate::entries::{
    emorizugu_date, emorizugu_date_refusal, emorizugu_day, emorizugu_day_refusal,
    emorizugu_difference, emorizugu_figure, emorizugu_read, emorizugu_read_offset,
    emorizugu_replay, emorizugu_report_refusal, emorizugu_shortfall, emorizugu_sum,
    emorizugu_surplus, emorizugu_version, emorizugu_weekday, emorizugu_write,
};

/// The most versions that a desk holds, and its points.
pub const VERSIONS: usize = 512;
pub const POINTS: usize = 256;
/// Rows of the book for both runs, and groups.
pub const BOOK_ROWS: usize = 162;
pub const GROUPS: u64 = 64;

/// The places of a point: active, since, kind, area, partner, the versions that run 1 and run 2 select, the statuses of these.
const POINT_PLACES: usize = 9;
/// The places of a version: point, version, status, row of values.
const VERSION_PLACES: usize = 4;
/// Deltas: T's, then those of areas 1 to 16.
pub const DELTAS: usize = calls::DELTAS.len();
/// The places of a replay's summary: calls answered, offset, quarter hours, log rows, versions held, calls refused, the
/// first of them, the day, run 1 closed, run 2 closed, run 1 issued, run 2 issued, the delta groups of run 1, those of run 2.
const SUMMARY: usize = 12 + 2 * DELTAS;

/// A call as it was read.
pub struct ReadCall {
    pub offset: usize,
    pub kind: u64,
    pub fields: Vec<u64>,
    pub count: usize,
}

impl From<ReadCall> for calls::Call {
    fn from(read: ReadCall) -> calls::Call {
        calls::Call {
            kind: read.kind,
            fields: read.fields,
            energies: read.count,
            ..calls::Call::default()
        }
    }
}

/// What stands at an offset of a file.
pub enum Read {
    Call(ReadCall),
    End,
    /// The number of the refusal, and the offset of the refused call.
    Refused(u64, usize),
}

/// One call of a message file after the other.
pub struct Reader<'a> {
    file: &'a [u8],
    at: u64,
    series: Vec<u64>,
}

impl<'a> Reader<'a> {
    pub fn new(file: &'a [u8]) -> Reader<'a> {
        Reader::from(file, 0)
    }

    /// From an offset on.
    pub fn from(file: &'a [u8], offset: usize) -> Reader<'a> {
        Reader {
            file,
            at: offset as u64,
            series: vec![0; MOST_QUARTERS],
        }
    }

    /// The call there.
    pub fn next(&mut self) -> Read {
        // The next offset, the kind, the fields, the count.
        let mut call = [0; 3 + MOST_FIELDS];
        let start = self.at;
        let answer = unsafe {
            emorizugu_read(
                self.file.as_ptr(),
                self.file.len(),
                start,
                self.series.as_mut_ptr(),
                self.series.len(),
                call.as_mut_ptr(),
                call.len(),
            )
        };
        match answer {
            0 => {
                self.at = call[0];
                let fields = calls::KINDS[call[1] as usize - 1].fields.len();
                Read::Call(ReadCall {
                    offset: start as usize,
                    kind: call[1],
                    fields: call[2..2 + fields].to_vec(),
                    count: call[2 + MOST_FIELDS] as usize,
                })
            }
            1 => Read::End,
            number => Read::Refused(number, self.offset()),
        }
    }

    /// Where the reader stands: the offset of a refused call, or that behind a call that is read.
    fn offset(&self) -> usize {
        let room = self.series.len() as u64;
        let offset =
            unsafe { emorizugu_read_offset(self.file.as_ptr(), self.file.len(), self.at, room) };
        offset as usize
    }

    /// The first energies of the submission read last.
    pub fn energies(&self, count: usize) -> impl Iterator<Item = i64> + '_ {
        self.series.iter().take(count).map(|word| *word as i64)
    }
}

/// A call written behind the bytes of a file, or the number of the refusal.
pub fn write(kind: u64, fields: &[u64], energies: &[u64], file: &mut Vec<u8>) -> Result<(), u64> {
    // A number has at most nine bytes.
    let start = file.len();
    file.resize(start + 9 * (2 + MOST_FIELDS + energies.len()), 0);
    let mut size = [0];
    let answer = unsafe {
        emorizugu_write(
            kind,
            fields.as_ptr(),
            fields.len(),
            energies.as_ptr(),
            energies.len(),
            file[start..].as_mut_ptr(),
            file.len() - start,
            size.as_mut_ptr(),
            size.len(),
        )
    };
    file.truncate(start + size[0] as usize);
    if answer == 0 {
        Ok(())
    } else {
        Err(answer)
    }
}

/// A point that is active.
#[derive(Clone, Copy)]
pub struct Point {
    pub number: u64,
    pub since: u64,
    pub kind: u64,
    pub area: u64,
    pub partner: u64,
    /// What run 1 and run 2 select, with its status.
    pub selected: [Option<Version>; 2],
}

impl Point {
    /// Whether a run, 1 or 2, selects a version of the point.
    pub fn selects(&self, run: u64, version: &Version) -> bool {
        self.selected[run as usize - 1].is_some_and(|selected| selected.version == version.version)
    }

    /// The balance group whose sum the series is, where it is one: kinds 2 and 4 have it as their partner.
    pub fn group(&self) -> Option<u64> {
        matches!(self.kind, 2 | 4).then_some(self.partner)
    }
}

/// A version held.
#[derive(Clone, Copy)]
pub struct Version {
    pub point: u64,
    pub version: u64,
    pub status: u64,
}

impl Version {
    /// Whether it is settled: run 1 was issued while it was selected (status 3), or run 2 (5).
    pub fn is_settled(&self) -> bool {
        matches!(self.status, 3 | 5)
    }

    /// Whether it counts as run 2's own (4 and 5), and not for run 1.
    pub fn is_correction(&self) -> bool {
        matches!(self.status, 4 | 5)
    }
}

/// A row of the log.
#[derive(Clone, Copy)]
pub struct LogRow {
    pub day: u64,
    pub point: u64,
    pub run: u64,
    pub version: u64,
}

/// A file run through a fresh desk.
pub struct Replay {
    pub answers: Vec<u64>,
    /// 0, or the number of the reader's refusal, and its offset.
    pub ending: u64,
    pub offset: usize,
    /// Quarter hours; 0 where no call opened the desk.
    pub quarters: usize,
    pub refused: u64,
    pub day: u64,
    /// Run 1 and run 2: whether it is closed, and whether its statuses are issued.
    pub closed: [bool; 2],
    pub issued: [bool; 2],
    /// The group of each delta in run 1 and in run 2; 0 where no call opened the desk.
    delta_groups: [[u64; DELTAS]; 2],
    /// The active points, in rising order.
    pub points: Vec<Point>,
    /// The versions, by point and then by version.
    pub versions: Vec<Version>,
    pub log: Vec<LogRow>,
    book: Vec<u64>,
    /// A row a group: what it planned to take. All 0 until it is lodged.
    schedules: Vec<u64>,
    values: Vec<u64>,
    /// A version's row of values, by point and version.
    rows: HashMap<(u64, u64), usize>,
}

/// What a report of a run and a group says: its surplus and its shortfall over the month, in watt-hours.
#[derive(Clone, Copy)]
pub struct Report {
    pub surplus: i64,
    pub shortfall: i64,
}

/// What a replay is lent: the desk's stores, room for a series, and places for what it tells.
struct Lent {
    values: Vec<u64>,
    book: Vec<u64>,
    log: Vec<u64>,
    schedules: Vec<u64>,
    series: Vec<u64>,
    answers: Vec<u64>,
    summary: [u64; SUMMARY],
    points: Vec<u64>,
    versions: Vec<u64>,
}

impl Lent {
    /// Room for all that so many calls can use.
    fn new(calls: usize) -> Lent {
        Lent {
            values: vec![0; VERSIONS * MOST_QUARTERS],
            book: vec![0; BOOK_ROWS * MOST_QUARTERS],
            log: vec![0; 4 * 2 * VERSIONS],
            schedules: vec![0; GROUPS as usize * MOST_QUARTERS],
            series: vec![0; MOST_QUARTERS],
            answers: vec![0; calls],
            summary: [0; SUMMARY],
            points: vec![0; POINT_PLACES * POINTS],
            versions: vec![0; VERSION_PLACES * VERSIONS],
        }
    }

    /// Runs a file: 0, or the number of the reader's refusal.
    fn run(&mut self, file: &[u8]) -> u64 {
        unsafe {
            emorizugu_replay(
                file.as_ptr(),
                file.len(),
                self.values.as_mut_ptr(),
                self.values.len(),
                self.book.as_mut_ptr(),
                self.book.len(),
                self.log.as_mut_ptr(),
                self.log.len(),
                self.schedules.as_mut_ptr(),
                self.schedules.len(),
                self.series.as_mut_ptr(),
                self.series.len(),
                self.answers.as_mut_ptr(),
                self.answers.len(),
                self.summary.as_mut_ptr(),
                self.summary.len(),
                self.points.as_mut_ptr(),
                self.points.len(),
                self.versions.as_mut_ptr(),
                self.versions.len(),
            )
        }
    }
}

/// A whole file through a fresh desk, with room for all that it can use.
pub fn replay(file: &[u8], calls: usize) -> Replay {
    let mut lent = Lent::new(calls);
    let ending = lent.run(file);
    let [answered, offset, quarters, logged, held, refused, _, day, rest @ ..] = lent.summary;
    let [closed_1, closed_2, issued_1, issued_2, groups @ ..] = rest;
    let quarters = quarters as usize;
    lent.answers.truncate(answered as usize);
    lent.log.truncate(4 * logged as usize);
    lent.versions.truncate(VERSION_PLACES * held as usize);
    lent.book.truncate(BOOK_ROWS * quarters);
    lent.schedules.truncate(GROUPS as usize * quarters);
    Replay {
        answers: lent.answers,
        ending,
        offset: offset as usize,
        quarters,
        refused,
        day,
        closed: [closed_1, closed_2].map(|flag| flag == 1),
        issued: [issued_1, issued_2].map(|flag| flag == 1),
        delta_groups: [0, DELTAS].map(|first| std::array::from_fn(|delta| groups[first + delta])),
        points: active(&lent.points),
        versions: held_in_order(&lent.versions),
        log: log_rows(&lent.log),
        book: lent.book,
        schedules: lent.schedules,
        values: lent.values,
        rows: rows_of(&lent.versions),
    }
}

fn log_rows(log: &[u64]) -> Vec<LogRow> {
    let row = |row: &[u64]| LogRow {
        day: row[0],
        point: row[1],
        run: row[2],
        version: row[3],
    };
    log.chunks_exact(4).map(row).collect()
}

/// Where each version's series stands.
fn rows_of(versions: &[u64]) -> HashMap<(u64, u64), usize> {
    let row = |row: &[u64]| ((row[0], row[1]), row[3] as usize);
    versions.chunks_exact(VERSION_PLACES).map(row).collect()
}

/// What a run selects at a point; nothing where the number is 0.
fn selected(point: u64, version: u64, status: u64) -> Option<Version> {
    (version != 0).then_some(Version {
        point,
        version,
        status,
    })
}

fn active(points: &[u64]) -> Vec<Point> {
    let point = |(at, row): (usize, &[u64])| {
        let number = at as u64 + 1;
        Point {
            number,
            since: row[1],
            kind: row[2],
            area: row[3],
            partner: row[4],
            selected: [
                selected(number, row[5], row[7]),
                selected(number, row[6], row[8]),
            ],
        }
    };
    points
        .chunks_exact(POINT_PLACES)
        .enumerate()
        .filter(|(_, row)| row[0] == 1)
        .map(point)
        .collect()
}

/// The versions by point, then by version; no two are equal in both.
fn held_in_order(versions: &[u64]) -> Vec<Version> {
    let mut held: Vec<Version> = versions
        .chunks_exact(VERSION_PLACES)
        .map(|row| Version {
            point: row[0],
            version: row[1],
            status: row[2],
        })
        .collect();
    held.sort_by_key(|version| (version.point, version.version));
    held
}

/// Words as bytes: where they begin, and how many they are. A word's bytes stand lowest first on the machines that the library is built for.
fn bytes(words: &[u64]) -> (*const u8, usize) {
    const { assert!(cfg!(target_endian = "little")) };
    (words.as_ptr().cast(), 8 * words.len())
}

impl Replay {
    /// The versions of a point, rising.
    pub fn versions_of(&self, point: u64) -> impl DoubleEndedIterator<Item = &Version> {
        self.versions
            .iter()
            .filter(move |version| version.point == point)
    }

    /// A group's figure in a quarter hour, both counted from 1.
    pub fn figure(&self, run: u64, group: u64, quarter: usize) -> i64 {
        let (book, length) = bytes(&self.book);
        let quarters = self.quarters as u64;
        unsafe { emorizugu_figure(book, length, quarters, run, group, quarter as u64) as i64 }
    }

    /// Whether a group has a figure other than 0, in any run and quarter hour.
    pub fn has_figure(&self, group: u64) -> bool {
        let quarters = 1..=self.quarters;
        quarters
            .flat_map(|quarter| [(1, quarter), (2, quarter)])
            .any(|(run, quarter)| self.figure(run, group, quarter) != 0)
    }

    /// Puts a group's schedule, an energy for each quarter hour, in the place of the one before.
    pub fn lodge(&mut self, group: u64, schedule: &[u64]) {
        let start = (group as usize - 1) * self.quarters;
        self.schedules[start..start + self.quarters].copy_from_slice(schedule);
    }

    /// The report of a run and a group, or the number of the refusal.
    pub fn report(&self, run: u64, group: u64) -> Result<Report, u64> {
        let (book, length) = bytes(&self.book);
        let (plan, plan_length) = bytes(&self.schedules);
        let q = self.quarters as u64;
        unsafe {
            match emorizugu_report_refusal(book, length, plan, plan_length, q, run, group) {
                0 => Ok(Report {
                    surplus: emorizugu_surplus(book, length, plan, plan_length, q, run, group)
                        as i64,
                    shortfall: emorizugu_shortfall(book, length, plan, plan_length, q, run, group)
                        as i64,
                }),
                refused => Err(refused),
            }
        }
    }

    /// The energies of a version held.
    fn energies(&self, version: &Version) -> impl Iterator<Item = i64> + '_ {
        let row = self.rows.get(&(version.point, version.version));
        let start = row.map_or(self.values.len(), |row| row * self.quarters);
        let energies = self.values[start..].iter().take(self.quarters);
        energies.map(|word| *word as i64)
    }

    /// The outside exchange of a run over the month: the energies of the versions that it selects at points of kind 1 with partner 0. By points, versions
    /// and values, and not by the book.
    pub fn outside(&self, run: u64) -> i128 {
        let borders = self
            .points
            .iter()
            .filter(|point| point.kind == 1 && point.partner == 0);
        borders
            .filter_map(|point| point.selected[run as usize - 1])
            .flat_map(|version| self.energies(&version).map(i128::from))
            .sum()
    }

    /// The sum of a row over the month: groups 1 to 64 are rows 0 to 63, delta T is 64, areas 1 to 16 are 65 to 80.
    pub fn sum(&self, run: u64, row: u64) -> i64 {
        unsafe {
            emorizugu_sum(
                self.book.as_ptr(),
                self.book.len(),
                self.quarters as u64,
                run,
                row,
            ) as i64
        }
    }

    /// The group that a run books a delta to: T's is 0, an area's its number.
    pub fn delta_group(&self, run: u64, delta: u64) -> u64 {
        self.delta_groups[run as usize - 1][delta as usize]
    }

    /// Whether the runs book a delta to different groups.
    pub fn is_moved(&self, delta: u64) -> bool {
        self.delta_group(1, delta) != self.delta_group(2, delta)
    }

    /// Whether a delta is other than 0 in any run and quarter hour.
    pub fn has_delta(&self, delta: u64) -> bool {
        let rows = BOOK_ROWS / 2;
        [0, rows].iter().any(|run| {
            let start = (run + GROUPS as usize + delta as usize) * self.quarters;
            self.book[start..start + self.quarters]
                .iter()
                .any(|word| *word != 0)
        })
    }

    /// Run 2's sum of a row less run 1's.
    pub fn difference(&self, row: u64) -> i64 {
        unsafe {
            emorizugu_difference(
                self.book.as_ptr(),
                self.book.len(),
                self.quarters as u64,
                row,
            ) as i64
        }
    }
}

/// A date's number after a settled month, or the number of the refusal.
pub fn day(year: u64, month: u64, of_year: u64, of_month: u64, of_day: u64) -> Result<u64, u64> {
    unsafe {
        match emorizugu_day_refusal(year, month, of_year, of_month, of_day) {
            0 => Ok(emorizugu_day(year, month, of_year, of_month, of_day)),
            refused => Err(refused),
        }
    }
}

/// The first date with a number after a settled month, as year x 10,000 + month x 100 + day; or the number of the refusal.
pub fn date(year: u64, month: u64, day: u64) -> Result<u64, u64> {
    unsafe {
        match emorizugu_date_refusal(year, month, day) {
            0 => Ok(emorizugu_date(year, month, day)),
            refused => Err(refused),
        }
    }
}

/// The weekday of a date, 1 for Monday to 7 for Sunday; 0 where the calendar has no such date.
pub fn weekday(year: u64, month: u64, day: u64) -> u64 {
    unsafe { emorizugu_weekday(year, month, day) }
}

/// The library's version.
pub fn version() -> u64 {
    unsafe { emorizugu_version() }
}
