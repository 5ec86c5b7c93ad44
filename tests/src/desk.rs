//! The plain desk: it keeps the list of the accepted calls, and works everything else out from it.

use crate::call::{Call, Lengths};
use crate::worked::{signed, Month, GROUPS, ROWS};
use std::iter::once;

/// The numbers of the table of causes, in its order.
pub const CAUSES: [u64; 25] = [
    1, 2, 3, 6, 4, 5, 11, 26, 21, 22, 12, 23, 13, 14, 15, 24, 37, 25, 16, 17, 27, 28, 29, 38, 39,
];

/// Most versions that a desk holds.
pub const MOST_VERSIONS: usize = 512;

/// Places of a row of the log.
pub const LOG_ROW: u64 = 4;

/// What a call is answered.
#[derive(Clone, Debug, PartialEq, Eq)]
pub enum Answer {
    /// A cause's number.
    Refused(u64),
    /// 0.
    Accepted,
    /// The version's status.
    Status(u64),
    /// 0, and the group's figures.
    Row(Vec<i128>),
    /// 0, and the group's surplus and shortfall over the month.
    Sums([i128; 2]),
}

impl Answer {
    /// The answer's number.
    pub fn number(&self) -> u64 {
        match *self {
            Answer::Refused(number) | Answer::Status(number) => number,
            Answer::Accepted | Answer::Row(_) | Answer::Sums(_) => 0,
        }
    }
}

/// The plain desk.
#[derive(Clone, Debug, Default)]
pub struct Desk {
    list: Vec<(Call, Lengths)>,
}

impl Desk {
    /// A desk that is not open.
    pub fn new() -> Desk {
        Desk::default()
    }

    /// What the list says; none before the opening.
    pub fn month(&self) -> Option<Month<'_>> {
        Month::of(&self.list)
    }

    /// The accepted calls in their order.
    pub fn list(&self) -> &[(Call, Lengths)] {
        &self.list
    }

    /// A call with the lengths of the stores lent to it. An accepted one joins the list.
    pub fn call(&mut self, call: &Call, lent: Lengths) -> Answer {
        let month = self.month();
        let held = |&&number: &&u64| self.holds(month.as_ref(), number, call, lent);
        if let Some(&number) = CAUSES.iter().find(held) {
            return Answer::Refused(number);
        }
        let answer = granted(month.as_ref(), call);
        self.list.push((call.clone(), lent));
        answer
    }

    /// Whether a cause fits the call and holds. The causes above it in the table do not hold.
    fn holds(&self, month: Option<&Month>, number: u64, call: &Call, lent: Lengths) -> bool {
        let Some(month) = month else {
            return match call {
                Call::Open { .. } => number == 4 && !may_open(call, lent),
                _ => number == 1,
            };
        };
        let active = call.point().and_then(|point| month.points.get(&point));
        match (number, call) {
            (2, _) => !other_lengths(call, lent, month.lengths).is_empty(),
            (3, _) => !in_range(call, month.quarters),
            (6, Call::Open { .. }) => true,
            (5, _) => call.day().is_some_and(|day| day < month.day),
            (38, Call::Issue { run, .. }) => !month.closed[*run as usize - 1],
            (39, Call::Issue { run, .. }) => month.issued[*run as usize - 1],
            (
                11,
                Call::Activate { day, .. }
                | Call::Deactivate { day, .. }
                | Call::Submit { day, .. }
                | Call::Notice { day, .. },
            ) => *day > month.correction,
            (26, Call::Assign { day, .. }) => *day > month.correction,
            (26, Call::Lodge { day, .. }) => *day > month.clearing,
            (21, Call::Activate { .. }) => active.is_some(),
            (
                22,
                Call::Activate {
                    kind,
                    area,
                    partner,
                    ..
                },
            ) => month
                .points
                .values()
                .any(|p| (p.kind, p.area, p.partner) == (*kind, *area, *partner)),
            (
                12,
                Call::Deactivate { .. }
                | Call::Submit { .. }
                | Call::Notice { .. }
                | Call::Status { .. },
            ) => active.is_none(),
            (23, Call::Deactivate { .. }) => active.is_some_and(|p| !p.versions.is_empty()),
            (13, Call::Submit { day, .. }) => active.is_some_and(|p| *day < p.since + 2),
            (14, Call::Submit { point, version, .. }) => month.version(*point, *version).is_some(),
            (15, Call::Submit { version, .. }) | (37, Call::Notice { version, .. }) => {
                active.is_some_and(|p| p.versions.iter().any(|v| v.number > *version))
            }
            (24, Call::Notice { point, version, .. } | Call::Status { point, version }) => {
                month.version(*point, *version).is_none()
            }
            (25, Call::Notice { point, version, .. }) => {
                let version = month.version(*point, *version);
                version.is_some_and(|v| v.status != 1)
            }
            (16, Call::Submit { .. }) => {
                let next = month.rows.len() as u64 + 1;
                next > MOST_VERSIONS as u64 || next * month.quarters > month.lengths.values
            }
            (17, Call::Submit { .. } | Call::Notice { .. }) => {
                let left = month.lengths.log / LOG_ROW - month.log.len() as u64;
                left == 0 && self.log_row_due(month, call, lent)
            }
            (27, Call::Close { run: 1, day }) => *day <= month.clearing,
            (27, Call::Close { day, .. }) => *day <= month.correction,
            (28, Call::Close { run, .. }) => month.closed[*run as usize - 1],
            (29, Call::Close { run: 2, .. }) => !month.closed[0],
            _ => false,
        }
    }

    /// Whether the log gains a row when the call joins the list.
    fn log_row_due(&self, month: &Month, call: &Call, lent: Lengths) -> bool {
        let joined = (call.clone(), lent);
        let after = Month::of(self.list.iter().chain(once(&joined)));
        after.is_some_and(|after| after.log.len() > month.log.len())
    }
}

/// The stores that the call takes in another length than at the opening: values 0, book 1, log 2, schedules 3. An opening has
/// none: what is wrong there is cause 4.
pub fn other_lengths(call: &Call, lent: Lengths, opened: Lengths) -> Vec<usize> {
    let (takes, lent, opened) = (call.takes(), lent.each(), opened.each());
    let other = |&store: &usize| takes[store] && lent[store] != opened[store];
    match call {
        Call::Open { .. } => vec![],
        _ => (0..takes.len()).filter(other).collect(),
    }
}

/// The answer to an accepted call.
fn granted(month: Option<&Month>, call: &Call) -> Answer {
    match (call, month) {
        (Call::Status { point, version }, Some(month)) => {
            let version = month.version(*point, *version);
            Answer::Status(version.expect("a version").status)
        }
        (Call::Show { run, group }, Some(month)) => {
            let quarters = month.quarters as usize;
            let start = (*group as usize - 1) * quarters;
            Answer::Row(month.figures(*run)[start..start + quarters].to_vec())
        }
        (Call::Report { run, group }, Some(month)) => {
            Answer::Sums(month.report(&month.figures(*run), *group))
        }
        _ => Answer::Accepted,
    }
}

/// Whether Q, deadlines, groups and store lengths allow an opening.
fn may_open(call: &Call, lent: Lengths) -> bool {
    let Call::Open {
        quarters,
        first,
        clearing,
        correction,
        groups,
    } = call
    else {
        return false;
    };
    (1..=2_980).contains(quarters)
        && 1 <= *first
        && first < clearing
        && clearing < correction
        && *correction <= 399
        && groups.iter().all(|group| (1..=64).contains(group))
        && lent.book == 2 * ROWS as u64 * quarters
        && lent.log.is_multiple_of(LOG_ROW)
        && lent.schedules == GROUPS * quarters
}

/// Whether every field is in its range, the series has Q energies, and none of them is too large.
pub fn in_range(call: &Call, quarters: u64) -> bool {
    let point = call.point().is_none_or(|point| (1..=256).contains(&point));
    let day = call.day().is_none_or(|day| day <= 400);
    point
        && day
        && match call {
            Call::Activate {
                kind,
                area,
                partner,
                ..
            } => is_series(*kind, *area, *partner),
            Call::Submit {
                version, series, ..
            } => is_version(*version) && are_energies(series, quarters),
            Call::Notice {
                version, verdict, ..
            } => is_version(*version) && *verdict <= 1,
            Call::Assign { area, group, .. } => *area <= 16 && (1..=64).contains(group),
            Call::Show { run, group } | Call::Report { run, group } => {
                (1..=2).contains(run) && (1..=64).contains(group)
            }
            Call::Lodge { group, series, .. } => {
                (1..=64).contains(group) && are_energies(series, quarters)
            }
            Call::Status { version, .. } => is_version(*version),
            Call::Close { run, .. } | Call::Issue { run, .. } => (1..=2).contains(run),
            Call::Open { .. } | Call::Deactivate { .. } => true,
        }
}

/// Whether kind, area and partner stand together in the table of series.
pub fn is_series(kind: u64, area: u64, partner: u64) -> bool {
    let is_area = (1..=16).contains(&area);
    let is_group = (1..=64).contains(&partner);
    match kind {
        1 => is_area && partner < area,
        2 => is_area && is_group,
        3 | 5 => is_area && partner == 0,
        4 => area == 0 && is_group,
        _ => false,
    }
}

/// Whether they are Q energies, and none of them is too large.
fn are_energies(series: &[u64], quarters: u64) -> bool {
    let small = |&word: &u64| signed(word).abs() <= 1_000_000_000_000;
    series.len() as u64 == quarters && series.iter().all(small)
}

fn is_version(number: u64) -> bool {
    (1..=99_999_999_999_999).contains(&number)
}
