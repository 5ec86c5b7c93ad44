//! A script of calls, in the form in which the library `test_drive` takes it, through a desk in Rust that is lent its stores at
//! each call.

use crate::buffers::Buffers;
use crate::cause::Cause;
use crate::replay::{self, Stores};
use emorizugu_tests::message::{Call, MOST_FIELDS};

/// Numbers of a record before its fields: what it is, and the lengths lent.
const HEAD: usize = 5;

/// Numbers of a record by what it is, energies apart; 0 for what is no call.
const SIZES: [usize; 13] = [0, 26, 10, 7, 9, 9, 8, 0, 0, 7, 8, 7, 7];

const SUBMIT: u64 = 4;
const CLOSE: u64 = 9;
const LODGE: u64 = 10;
const REPORT: u64 = 11;
const ISSUE: u64 = 12;

/// A desk that schedules are lodged with, and that reports.
pub trait Desk: replay::Desk {
    /// A schedule of a group for the month.
    fn lodge(
        &mut self,
        group: u64,
        day: u64,
        energies: &[u64],
        schedules: &mut [u64],
    ) -> Result<(), Cause>;

    /// The sums of a group's surplus and shortfall over the month.
    fn report(
        &self,
        run: u64,
        group: u64,
        book: &[u64],
        schedules: &[u64],
    ) -> Result<[u64; 2], Cause>;
}

/// The length of the record at a script's head with its energies; none where there is no such record, or it is cut short.
fn length(rest: &[u64]) -> Option<usize> {
    let op = *rest.first()?;
    let size = *SIZES.get(op as usize)?;
    let count = match op {
        SUBMIT | LODGE => *rest.get(size - 1)?,
        _ => 0,
    };
    let left = rest.len().checked_sub(size)?;
    (size > 0 && count <= left as u64).then_some(size + count as usize)
}

/// What a record lends of the stores; none where there is not so much, or the output has no room for an answer.
fn lent<'a>(record: &[u64], buffers: &'a mut Buffers, room: usize) -> Option<Stores<'a>> {
    let [values, book, log, schedules] = [1, 2, 3, 4].map(|at: usize| record[at] as usize);
    if book.checked_add(3)? > room {
        return None;
    }
    Some(Stores {
        values: buffers.values.get_mut(..values)?,
        book: buffers.book.get_mut(..book)?,
        log: buffers.log.get_mut(..log)?,
        schedules: buffers.schedules.get_mut(..schedules)?,
    })
}

/// Runs a script; the answer is how many places of the output are filled. It stops before a record that cannot be run.
pub fn run(mut desk: impl Desk, script: &[u64], buffers: &mut Buffers, out: &mut [u64]) -> usize {
    let (mut rest, mut next) = (script, 0);
    while let Some(length) = length(rest) {
        let (record, behind) = rest.split_at(length);
        let Some(mut stores) = lent(record, buffers, out.len() - next) else {
            break;
        };
        next += answer(&mut desk, record, &mut stores, &mut out[next..]);
        rest = behind;
    }
    next
}

/// A call's answer, and how many places it has.
fn answer(desk: &mut impl Desk, record: &[u64], stores: &mut Stores, out: &mut [u64]) -> usize {
    let (op, fields) = (record[0], &record[HEAD..]);
    match op {
        LODGE => {
            let lodged = desk.lodge(fields[0], fields[1], &fields[3..], stores.schedules);
            out[0] = lodged.map_or_else(|cause| cause as u64, |()| 0);
            1
        }
        REPORT => {
            let sums = desk.report(fields[0], fields[1], stores.book, stores.schedules);
            let [surplus, shortfall] = sums.unwrap_or([0, 0]);
            let number = sums.map_or_else(|cause| cause as u64, |_| 0);
            out[..3].copy_from_slice(&[number, surplus, shortfall]);
            3
        }
        _ => {
            let used = SIZES[op as usize] - HEAD;
            let mut call = Call {
                kind: match op {
                    CLOSE => 7,
                    ISSUE => 8,
                    _ => op,
                },
                fields: [0; MOST_FIELDS],
                count: 0,
                next: 0,
            };
            call.fields[..used].copy_from_slice(&fields[..used]);
            out[0] = desk.handed(&call, &fields[used..], stores);
            1
        }
    }
}
