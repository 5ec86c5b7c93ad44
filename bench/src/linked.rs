//! The host's entry for a whole message file, and the script driver of `test_drive`, lent the buffers of a replay.

use crate::buffers::{Buffers, COUNTS, SUMMARY};
use emorizugu_tests::linked;
use emorizugu_tests::replay;

/// The place of a summary that has the versions held, and that of a version that has its status.
const HELD: usize = 4;
const STATUS: usize = 2;

/// What a replay writes beside what the other desks are lent.
pub struct Tables {
    told: [u64; replay::SUMMARY],
    points: [u64; replay::POINTS],
    versions: [u64; replay::VERSIONS],
}

impl Tables {
    /// With nothing in them.
    pub const EMPTY: Tables = Tables {
        told: [0; replay::SUMMARY],
        points: [0; replay::POINTS],
        versions: [0; replay::VERSIONS],
    };
}

/// A whole message file through a fresh desk: 0, or the number of the refusal that ended it.
pub fn replay(file: &[u8], buffers: &mut Buffers) -> u64 {
    let mut tables = Tables::EMPTY;
    replay_to(file, buffers, &mut tables)
}

/// The same with tables that the caller lends.
#[inline]
pub fn replay_to(file: &[u8], buffers: &mut Buffers, tables: &mut Tables) -> u64 {
    let Buffers {
        values,
        book,
        log,
        schedules,
        series,
        answers,
        summary,
        statuses,
    } = buffers;
    let Tables {
        told,
        points,
        versions,
    } = tables;
    let tables = [&mut told[..], points, versions];
    let stores = [&mut values[..], book, log, schedules];
    let number = linked::replay(file, stores, series, answers, tables);
    if summary.len() >= SUMMARY {
        summary[..COUNTS].copy_from_slice(&told[..COUNTS]);
        summary[COUNTS..SUMMARY].copy_from_slice(&told[replay::DELTA_GROUPS..]);
    }
    let held = versions.chunks_exact(4).take(told[HELD] as usize);
    for (place, version) in statuses.iter_mut().zip(held) {
        *place = version[STATUS];
    }
    number
}

/// A script through a fresh desk: how many places of the output are filled.
pub fn script(script: &[u64], buffers: &mut Buffers, out: &mut [u64]) -> usize {
    let Buffers {
        values,
        book,
        log,
        schedules,
        ..
    } = buffers;
    let stores = [&mut values[..], book, log, schedules];
    linked::script(script, stores, out) as usize
}
