//! The group that each run books a delta to, for `desk run`, `desk deltas` and the page. Groups and sums are the library's; the day of a
//! group is that of the accepted call that names it.

use crate::calls::{Call, ASSIGN};
use crate::library::{Replay, DELTAS, GROUPS};
use crate::month::Ran;
use crate::summary::grouped;

/// The deltas: T's is 0, an area's its number.
pub fn all() -> impl Iterator<Item = u64> {
    0..DELTAS as u64
}

/// Whose delta it is.
pub fn name(delta: u64) -> String {
    if delta == 0 {
        "T".to_string()
    } else {
        format!("area {delta}")
    }
}

/// The row of the book that has a delta.
pub fn row(delta: u64) -> u64 {
    GROUPS + delta
}

/// Whether there is something to show: the delta is not 0 throughout, or the runs book it to different groups.
pub fn is_shown(replay: &Replay, delta: u64) -> bool {
    replay.has_delta(delta) || replay.is_moved(delta)
}

/// The deltas with something to show that a run books to a group: of one run, or of both; where only one of both does, which.
pub fn booked(replay: &Replay, group: u64, run: Option<u64>) -> Vec<String> {
    let told = |delta: u64| {
        let [first, second] = [1, 2].map(|run| replay.delta_group(run, delta) == group);
        match (run, first, second) {
            (Some(1), true, _) | (Some(2), _, true) | (None, true, true) => Some(name(delta)),
            (None, true, false) => Some(format!("{} in run 1", name(delta))),
            (None, false, true) => Some(format!("{} in run 2", name(delta))),
            _ => None,
        }
    };
    let shown = all().filter(|delta| is_shown(replay, *delta));
    shown.filter_map(told).collect()
}

/// The last accepted call that moves a delta.
fn mover(ran: &Ran, delta: u64) -> Option<&Call> {
    let mut calls = ran.accepted();
    calls.rfind(|call| call.kind == ASSIGN && call.field("area") == delta)
}

/// A line for each delta that run 2 books to another group than run 1: since which day, and the delta in run 2 over the month.
pub fn moved(ran: &Ran) -> Vec<String> {
    let replay = &ran.replay;
    let line = |delta: u64| {
        let [first, second] = [1, 2].map(|run| replay.delta_group(run, delta));
        let day =
            mover(ran, delta).map_or(String::new(), |call| format!("day {}: ", ran.day_of(call)));
        format!(
            "{day}{}, run 2: group {second} in the place of {first}, which run 1 keeps; {} Wh",
            name(delta),
            grouped(replay.sum(2, row(delta)))
        )
    };
    all()
        .filter(|delta| replay.is_moved(*delta))
        .map(line)
        .collect()
}
