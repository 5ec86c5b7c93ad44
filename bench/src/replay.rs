//! A message file handed to a desk in Rust, call after call.

use crate::buffers::{lent, Buffers, COUNTS, SUMMARY};
use crate::reader::Reader;
use crate::series::{BOOK_ROWS, DELTAS, GROUPS};
use emorizugu_tests::message::{Call, Cause};

/// The stores lent to a call.
pub struct Stores<'a> {
    /// The values.
    pub values: &'a mut [u64],
    /// The book's first figures.
    pub book: &'a mut [u64],
    /// The log.
    pub log: &'a mut [u64],
    /// The schedules' first numbers.
    pub schedules: &'a mut [u64],
}

impl Stores<'_> {
    /// The lengths of values, book, log and schedules.
    pub fn lengths(&self) -> [usize; 4] {
        let Stores {
            values,
            book,
            log,
            schedules,
        } = self;
        [values.len(), book.len(), log.len(), schedules.len()]
    }
}

/// A desk that is handed the calls of a file.
pub trait Desk {
    /// Q; 0 before the opening.
    fn quarters(&self) -> u64;

    /// A call with its energies: its answer's number.
    fn handed(&mut self, call: &Call, series: &[u64], stores: &mut Stores) -> u64;

    /// What is told at the end, and the versions' statuses; what else the desk writes only then goes to values and log.
    fn ended(&self, values: &mut [u64], log: &mut [u64], statuses: &mut [u64]) -> Ended;
}

/// What a desk tells at the end of a file; all 0 before the opening.
#[derive(Default)]
pub struct Ended {
    /// Log rows used.
    pub used: usize,
    /// Versions held.
    pub held: usize,
    /// The delta groups of each run.
    pub groups: [[u64; DELTAS]; 2],
}

/// A whole message file through a fresh desk: 0, or the number of the refusal that ended it.
pub fn replay(mut desk: impl Desk, file: &[u8], buffers: &mut Buffers) -> u64 {
    let Buffers {
        values,
        book,
        log,
        schedules,
        series,
        answers,
        summary,
        statuses,
    } = buffers;
    if summary.len() < SUMMARY {
        return 2;
    }
    let mut reader = Reader::new();
    let mut at = 0;
    let mut answered = 0;
    let result = loop {
        if answered == answers.len() && at < file.len() as u64 {
            at = 0;
            break Cause::Room.number();
        }
        let call = match reader.read(file, at, series) {
            Ok(Some(call)) => call,
            Ok(None) => break 0,
            Err(refusal) => break refusal.cause.number(),
        };
        let quarters = match call.kind {
            1 => call.fields[0],
            _ => desk.quarters(),
        };
        let figures = lent(book, BOOK_ROWS as u64, quarters);
        let planned = lent(schedules, GROUPS, quarters);
        let mut stores = Stores {
            values,
            book: &mut book[..figures],
            log,
            schedules: &mut schedules[..planned],
        };
        answers[answered] = desk.handed(&call, &series[..call.count], &mut stores);
        answered += 1;
        at = call.next;
    };
    let quarters = desk.quarters();
    let Ended { used, held, groups } = desk.ended(values, log, statuses);
    let told = [answered as u64, at, quarters, used as u64, held as u64];
    summary[..COUNTS].copy_from_slice(&told);
    summary[COUNTS..SUMMARY].copy_from_slice(groups.as_flattened());
    result
}
