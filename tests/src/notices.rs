//! Notices: where the version of each stands among those of its point, and what comes of accepted ones on a desk that was
//! fresh.

use crate::call::Call;
use crate::desk::LOG_ROW;
use crate::tally::Tally;
use crate::worked::{Month, Point, Version};

/// Cases of notices on an active point with a version, with the numbers that they are counted by: the answer, or the status
/// of the version where the case says so. None on an older version of status 5 reaches cause 37: status 5 comes by an issue of
/// run 2, closed after K, where a notice is answered 5 or 11.
pub const NOTICES: [(&str, &[u64]); 10] = [
    ("positive notice on the highest", &[0, 25]),
    ("positive notice, status given", &[2, 4]),
    ("negative notice on the highest", &[0, 25]),
    ("positive notice, older of status", &[1, 2, 3, 4]),
    ("negative notice, older of status", &[1, 2, 3, 4]),
    ("highest of the check data, older", &[37]),
    ("notice one below the highest", &[24, 37]),
    ("notice one above the highest", &[24]),
    ("notice on a gap below the highest", &[24]),
    ("notice, higher at another point", &[0]),
];

/// Positive notices where the log is full.
pub const FULL_LOG: (&str, &[u64]) = ("positive notice, full log", &[17, 24, 25, 37]);

/// Counts a notice; one that is refused before cause 24 is left out.
pub fn count(tally: &mut Tally, before: &Month, call: &Call, answer: u64) {
    let Call::Notice {
        point,
        version,
        verdict,
        day,
    } = *call
    else {
        return;
    };
    let active = before.points.get(&point);
    let highest = active.and_then(Point::newest).map(|v| v.number);
    let (Some(active), Some(highest), 0 | 17 | 24 | 25 | 37) = (active, highest, answer) else {
        return;
    };
    if verdict == 1 && LOG_ROW * before.log.len() as u64 == before.lengths.log {
        tally.add(FULL_LOG.0, answer);
    }
    if version + 1 == highest {
        tally.add("notice one below the highest", answer);
    }
    if version == highest + 1 {
        tally.add("notice one above the highest", answer);
    }
    match active.version(version) {
        Some(older) if version < highest => count_older(tally, active, older, verdict),
        Some(_) if answer == 17 => {}
        Some(_) if verdict == 1 => tally.add("positive notice on the highest", answer),
        Some(_) => tally.add("negative notice on the highest", answer),
        None if version < highest => tally.add("notice on a gap below the highest", answer),
        None => {}
    }
    if answer == 0 {
        count_accepted(tally, before, version, verdict, day);
    }
}

/// A notice that is answered 37.
fn count_older(tally: &mut Tally, active: &Point, older: &Version, verdict: u64) {
    let what = match verdict {
        1 => "positive notice, older of status",
        _ => "negative notice, older of status",
    };
    tally.add(what, older.status);
    let mut above = active.versions.iter().filter(|v| v.number > older.number);
    if older.status == 1 && above.all(|v| v.status != 1) {
        tally.add("highest of the check data, older", 37);
    }
}

fn count_accepted(tally: &mut Tally, before: &Month, version: u64, verdict: u64, day: u64) {
    if verdict == 1 {
        let status = if day <= before.clearing { 2 } else { 4 };
        tally.add("positive notice, status given", status);
    }
    let mut newest = before.points.values().filter_map(Point::newest);
    if newest.any(|v| v.number > version) {
        tally.add("notice, higher at another point", 0);
    }
}

/// What comes of an accepted call on a desk that was fresh: a positive notice adds one row to the log, run 1's by C and run
/// 2's after it, a negative one none; and run 2's own stands above run 1's selection.
pub fn assert_followed(before: &Month, after: &Month, call: &Call) {
    if let Call::Notice {
        point,
        version,
        verdict,
        day,
    } = *call
    {
        let run = if day <= before.clearing { 1 } else { 2 };
        let row = [day, point, run, version];
        let due = if verdict == 1 { vec![row] } else { vec![] };
        assert_eq!(after.log[before.log.len()..], due, "{call}");
    }
    for (number, point) in &after.points {
        let [first, second] = [1, 2].map(|run| point.own(run).map(|v| v.number));
        let above = second.is_none() || first < second;
        assert!(above, "run 2's own of point {number} after {call}");
    }
}
