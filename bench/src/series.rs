//! The table of series: which kind, area and partner stand together, and the rows of a run that a series goes to.

/// Rows of one run: groups 1 to 64, delta T, areas 1 to 16.
pub const ROWS: usize = GROUPS as usize + DELTAS;

/// Rows of the book: those of both runs.
pub const BOOK_ROWS: usize = 2 * ROWS;

/// Balance groups.
pub const GROUPS: u64 = 64;

/// Areas.
pub const AREAS: u64 = 16;

/// Deltas: T, areas 1 to 16.
pub const DELTAS: usize = 1 + AREAS as usize;

/// Whether a number is that of a balance group.
pub fn is_group(group: u64) -> bool {
    (1..=GROUPS).contains(&group)
}

/// Whether kind, area and partner stand together in the table.
pub fn is_series(kind: u64, area: u64, partner: u64) -> bool {
    let is_area = (1..=AREAS).contains(&area);
    match kind {
        1 => is_area && partner < area,
        2 => is_area && is_group(partner),
        3 | 5 => is_area && partner == 0,
        4 => area == 0 && is_group(partner),
        _ => false,
    }
}

/// What a series is added to, or subtracted from.
#[derive(Clone, Copy)]
pub enum Side {
    /// No row.
    Outside,
    /// The row of a group.
    Group(u64),
    /// The row of a delta, T being 0, and that of its delta group.
    Delta(u64),
}

/// The side that a series is added to, and the one that it is subtracted from. The series is one of the table.
pub fn sides(kind: u64, area: u64, partner: u64) -> [Side; 2] {
    match kind {
        1 if partner == 0 => [Side::Delta(area), Side::Outside],
        1 => [Side::Delta(area), Side::Delta(partner)],
        2 => [Side::Group(partner), Side::Delta(area)],
        3 => [Side::Delta(0), Side::Delta(area)],
        4 => [Side::Group(partner), Side::Delta(0)],
        _ => [Side::Delta(area), Side::Delta(0)],
    }
}

impl Side {
    /// The rows of a side, by the delta groups of T and of areas 1 to 16.
    pub fn rows(self, groups: &[u64; DELTAS]) -> impl Iterator<Item = usize> {
        let rows = match self {
            Side::Outside => [None, None],
            Side::Group(group) => [Some(group_row(group)), None],
            Side::Delta(area) => [
                Some(delta_row(area)),
                Some(group_row(groups[area as usize])),
            ],
        };
        rows.into_iter().flatten()
    }
}

/// The row of a group.
pub fn group_row(group: u64) -> usize {
    group as usize - 1
}

/// The row of a delta; T is 0.
pub fn delta_row(area: u64) -> usize {
    (GROUPS + area) as usize
}
