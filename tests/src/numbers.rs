//! The second implementation's reader and writer in the form of `host`: numbers in slices.

use crate::message::{self, MOST_ENERGIES, MOST_FIELDS};

/// Places of a reader's answer: next, kind, the fields, the count of energies.
pub const ANSWER: usize = 2 + MOST_FIELDS + 1;

/// The answer to an answer slice that is too short.
pub const SHORT: u64 = 2;

/// The reader's answer that no call follows.
pub const NO_CALL: u64 = 1;

/// Reads one call: 0 for a call, 1 where none follows, else the refusal's number. The first places of `out` take a call's
/// next start, kind, fields and count; where none was read they are left.
pub fn read(file: &[u8], start: u64, series: &mut [u64], out: &mut [u64]) -> u64 {
    if out.len() < ANSWER {
        return SHORT;
    }
    match message::read(file, start, series) {
        Ok(Some(call)) => {
            out[0] = call.next;
            out[1] = call.kind;
            out[2..ANSWER - 1].copy_from_slice(&call.fields);
            out[ANSWER - 1] = call.count as u64;
            0
        }
        Ok(None) => NO_CALL,
        Err(refusal) => refusal.cause.number(),
    }
}

/// Where a read stands that is lent a series buffer of so many places: behind its call, at the file's end, or at the refused
/// call. No series has more than 2,980 energies, so more places change nothing.
pub fn read_offset(file: &[u8], start: u64, room: u64) -> u64 {
    let mut series = vec![0; room.min(MOST_ENERGIES as u64) as usize];
    match message::read(file, start, &mut series) {
        Ok(Some(call)) => call.next,
        Ok(None) => start,
        Err(refusal) => refusal.offset,
    }
}

/// Writes one call: 0 or the refusal's number. The first place of `out` takes the length written; a refusal leaves it.
pub fn write(kind: u64, fields: &[u64], series: &[u64], output: &mut [u8], out: &mut [u64]) -> u64 {
    let Some(length) = out.first_mut() else {
        return SHORT;
    };
    match message::write(kind, fields, series, output) {
        Ok(bytes) => {
            *length = bytes as u64;
            0
        }
        Err(cause) => cause.number(),
    }
}

/// The file's verdict: 0 and its length, or the first refusal's number and offset.
pub fn verdict(file: &[u8]) -> (u64, u64) {
    match message::check(file) {
        Ok(()) => (0, file.len() as u64),
        Err(refusal) => (refusal.cause.number(), refusal.offset),
    }
}
