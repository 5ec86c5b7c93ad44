//! What a replay of a message file is lent.

use crate::series::{BOOK_ROWS, DELTAS, GROUPS};

/// Places of a summary.
pub const SUMMARY: usize = COUNTS + 2 * DELTAS;

/// Those before the delta groups.
pub const COUNTS: usize = 5;

/// The stores, the series buffer, and what the answers, the summary and the statuses are written to.
#[derive(Clone)]
pub struct Buffers {
    /// The values.
    pub values: Vec<u64>,
    /// The book.
    pub book: Vec<u64>,
    /// The log.
    pub log: Vec<u64>,
    /// The schedules.
    pub schedules: Vec<u64>,
    /// The energies of the submission that was read last.
    pub series: Vec<u64>,
    /// A place for each call's number.
    pub answers: Vec<u64>,
    /// Calls answered; the offset of the refused call, the file's length, or 0 where the answers are full; Q; log rows
    /// used; versions held; the delta groups of run 1, then those of run 2.
    pub summary: Vec<u64>,
    /// The status of each version held.
    pub statuses: Vec<u64>,
}

impl Buffers {
    /// Buffers for a month of so many quarter hours and a file of so many calls, each place holding `word`.
    pub fn new(quarters: usize, versions: usize, calls: usize, word: u64) -> Buffers {
        let places = |length| vec![word; length];
        Buffers {
            values: places(versions * quarters),
            book: places(BOOK_ROWS * quarters),
            log: places(4 * versions),
            schedules: places(GROUPS as usize * quarters),
            series: places(quarters),
            answers: places(calls),
            summary: places(SUMMARY),
            statuses: places(versions),
        }
    }

    /// What a replay writes, by its name.
    pub fn named(&self) -> [(&'static str, &[u64]); 8] {
        [
            ("answers", &self.answers),
            ("summary", &self.summary),
            ("statuses", &self.statuses),
            ("log", &self.log),
            ("series", &self.series),
            ("values", &self.values),
            ("book", &self.book),
            ("schedules", &self.schedules),
        ]
    }
}

/// A whole message file through a fresh desk: 0, or the number of the refusal that ended it.
pub type Replay = fn(&[u8], &mut Buffers) -> u64;

/// How much of a store of so many rows a call is lent: the numbers of Q quarter hours, or all of it where it has not so many.
pub fn lent(store: &[u64], rows: u64, quarters: u64) -> usize {
    let wanted = quarters.checked_mul(rows);
    let fits = wanted.filter(|&wanted| wanted <= store.len() as u64);
    fits.map_or(store.len(), |wanted| wanted as usize)
}
