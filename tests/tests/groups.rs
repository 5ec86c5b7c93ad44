//! Delta groups for each run, written out by hand from document 02: lists of calls with what each is answered, and the delta
//! groups and all figures of both runs behind them; with the plain desk and the linked one, through the plain replay, the linked
//! one and the desk program. And months of calls with other delta groups, whose totals are the same.

use emorizugu_tests::call::{Call, Lengths, DELTAS};
use emorizugu_tests::compare::{compare, difference, expected, Step, Trial};
use emorizugu_tests::desk::Desk;
use emorizugu_tests::files;
use emorizugu_tests::generator::Random;
use emorizugu_tests::groups::{totals, with_other_groups};
use emorizugu_tests::linked;
use emorizugu_tests::months::{self, Size};
use emorizugu_tests::program;
use emorizugu_tests::replay::{self, Lent, DELTA_GROUPS, POINTS, SUMMARY, VERSIONS};
use emorizugu_tests::script::{self, Damage, Outcome, Record, Stores};
use emorizugu_tests::tally::Tally;
use emorizugu_tests::worked::ROWS;
use std::env;

/// Months from a seed that are compared with the same months of other delta groups.
const MONTHS: usize = 1_000;

/// The stores of a month of one quarter hour.
const LENT: Lengths = Lengths {
    values: 20,
    book: 162,
    log: 80,
    schedules: 64,
};

/// The stores are longer than what is lent of them.
const PLACES: Lengths = Lengths {
    values: 22,
    book: 170,
    log: 84,
    schedules: 70,
};

/// A call, its number and its fields.
type Numbers = &'static [i64];

/// A call and what it is answered.
type Line = (Numbers, u64);

/// A group or a delta, T being 0, and a figure or a delta's group.
type Row = (usize, i64);

/// Q 1, F 10, C 30, K 150; delta groups T 4, area 1: 1, area 2: 2, others 3.
const OPEN: Numbers = &[
    1, 1, 10, 30, 150, 4, 1, 2, 3, 3, 3, 3, 3, 3, 3, 3, 3, 3, 3, 3, 3, 3,
];

/// The same with group 5 for area 1.
const OPEN_5: Numbers = &[
    1, 1, 10, 30, 150, 4, 5, 2, 3, 3, 3, 3, 3, 3, 3, 3, 3, 3, 3, 3, 3, 3,
];

/// Another group for each delta: T 64, area 1: 21, area 2: 22 and so on.
const OPEN_EACH: Numbers = &[
    1, 1, 10, 30, 150, 64, 21, 22, 23, 24, 25, 26, 27, 28, 29, 30, 31, 32, 33, 34, 35, 36,
];

/// Points 1 to 6, one of each series: exchange of area 1 with the outside, of area 2 with area 1, sum of group 5 in area 1, area
/// sum of area 1, the operator's sum of group 6, delta transfer of area 2; and their versions 1, by F.
const POINTS_1_TO_6: [Numbers; 12] = [
    &[2, 1, 1, 1, 0, 0],
    &[2, 2, 1, 2, 1, 0],
    &[2, 3, 2, 1, 5, 0],
    &[2, 4, 3, 1, 0, 0],
    &[2, 5, 4, 0, 6, 0],
    &[2, 6, 5, 2, 0, 0],
    &[4, 1, 1, 2, 100],
    &[4, 2, 1, 2, 30],
    &[4, 3, 1, 2, 50],
    &[4, 4, 1, 2, 9],
    &[4, 5, 1, 2, 8],
    &[4, 6, 1, 2, 2],
];

/// Delta 1 is 100 - 30 - 50 - 9, delta 2 is 30 + 2, delta T is 9 - 8 - 2.
const DELTAS_THEN: &[Row] = &[(0, -1), (1, 11), (2, 32)];

/// The deltas in their groups 4, 1 and 2, and what groups 5 and 6 have of their own.
const FIGURES: &[Row] = &[(1, 11), (2, 32), (4, -1), (5, 50), (6, 8)];

/// After C area 1 goes to group 7, area 2 to group 8, T to group 9.
const APART: [Line; 3] = [
    (&[6, 1, 7, 31], 0),
    (&[6, 2, 8, 31], 0),
    (&[6, 0, 9, 31], 0),
];

/// The delta groups of run 2 then.
const GROUPS_APART: &[Row] = &[(0, 9), (1, 7), (2, 8)];

/// The figures of run 2 then.
const FIGURES_APART: &[Row] = &[(5, 50), (6, 8), (7, 11), (8, 32), (9, -1)];

/// The total of both runs: what area 1 has from the outside.
const TOTAL: i64 = 100;

/// An opening and calls that are all accepted, then lines; and what the list comes to in each run.
struct List {
    why: &'static str,
    start: [&'static [Numbers]; 2],
    lines: [&'static [Line]; 2],
    /// Deltas that have another group than at the opening.
    groups: [&'static [Row]; 2],
    /// Deltas that are not 0.
    deltas: [&'static [Row]; 2],
    /// Figures of groups that are not 0.
    figures: [&'static [Row]; 2],
    totals: [i64; 2],
}

/// A list behind points 1 to 6 with their versions.
const fn behind(
    why: &'static str,
    lines: [&'static [Line]; 2],
    groups: [&'static [Row]; 2],
    deltas: &'static [Row],
    figures: [&'static [Row]; 2],
    total: i64,
) -> List {
    List {
        why,
        start: [&[OPEN], &POINTS_1_TO_6],
        lines,
        groups,
        deltas: [DELTAS_THEN, deltas],
        figures,
        totals: [TOTAL, total],
    }
}

/// A list with assignments alone: no delta and no total changes.
const fn assigned(
    why: &'static str,
    lines: &'static [Line],
    groups: [&'static [Row]; 2],
    figures: [&'static [Row]; 2],
) -> List {
    behind(why, [lines, &[]], groups, DELTAS_THEN, figures, TOTAL)
}

/// A list behind assignments of T and areas 1 and 2 after C, by which run 1 stays as it is.
const fn apart(
    why: &'static str,
    lines: &'static [Line],
    deltas: &'static [Row],
    figures: &'static [Row],
    total: i64,
) -> List {
    behind(
        why,
        [&APART, lines],
        [&[], GROUPS_APART],
        deltas,
        [FIGURES, figures],
        total,
    )
}

/// Document 02: "The record of 17 delta groups becomes two, one per run; opening sets both alike. Assign up to day C sets both, as
/// before; after C and up to K it sets run 2 only. Cause 26 now means a day above K for assign".
const ASSIGNED: [List; 24] = [
    assigned("no assignment: both runs by the opening's groups", &[], [&[], &[]], [FIGURES, FIGURES]),
    assigned(
        "on C - 1 in both runs: 11 go from group 1 to group 7",
        &[(&[6, 1, 7, 29], 0)],
        [&[(1, 7)], &[(1, 7)]],
        [
            &[(2, 32), (4, -1), (5, 50), (6, 8), (7, 11)],
            &[(2, 32), (4, -1), (5, 50), (6, 8), (7, 11)],
        ],
    ),
    assigned(
        "on C in both runs",
        &[(&[6, 1, 7, 30], 0)],
        [&[(1, 7)], &[(1, 7)]],
        [
            &[(2, 32), (4, -1), (5, 50), (6, 8), (7, 11)],
            &[(2, 32), (4, -1), (5, 50), (6, 8), (7, 11)],
        ],
    ),
    assigned(
        "on C + 1 in run 2 alone",
        &[(&[6, 1, 7, 31], 0)],
        [&[], &[(1, 7)]],
        [FIGURES, &[(2, 32), (4, -1), (5, 50), (6, 8), (7, 11)]],
    ),
    assigned(
        "on K - 1 in run 2 alone: 32 go from group 2 to group 64",
        &[(&[6, 2, 64, 149], 0)],
        [&[], &[(2, 64)]],
        [FIGURES, &[(1, 11), (4, -1), (5, 50), (6, 8), (64, 32)]],
    ),
    assigned(
        "on K in run 2 alone",
        &[(&[6, 2, 64, 150], 0)],
        [&[], &[(2, 64)]],
        [FIGURES, &[(1, 11), (4, -1), (5, 50), (6, 8), (64, 32)]],
    ),
    assigned(
        "on K + 1 and behind it 26, which moves nothing and no day",
        &[
            (&[6, 2, 64, 151], 26),
            (&[6, 0, 64, 151], 26),
            (&[6, 2, 64, 400], 26),
            (&[6, 1, 7, 2], 0),
        ],
        [&[(1, 7)], &[(1, 7)]],
        [
            &[(2, 32), (4, -1), (5, 50), (6, 8), (7, 11)],
            &[(2, 32), (4, -1), (5, 50), (6, 8), (7, 11)],
        ],
    ),
    assigned(
        "T on C in both runs: -1 goes from group 4 to group 7",
        &[(&[6, 0, 7, 30], 0)],
        [&[(0, 7)], &[(0, 7)]],
        [
            &[(1, 11), (2, 32), (5, 50), (6, 8), (7, -1)],
            &[(1, 11), (2, 32), (5, 50), (6, 8), (7, -1)],
        ],
    ),
    assigned(
        "T on C + 1 in run 2 alone",
        &[(&[6, 0, 7, 31], 0)],
        [&[], &[(0, 7)]],
        [FIGURES, &[(1, 11), (2, 32), (5, 50), (6, 8), (7, -1)]],
    ),
    assigned(
        "T on K in run 2 alone, on K + 1 26",
        &[(&[6, 0, 7, 150], 0), (&[6, 0, 8, 151], 26)],
        [&[], &[(0, 7)]],
        [FIGURES, &[(1, 11), (2, 32), (5, 50), (6, 8), (7, -1)]],
    ),
    assigned(
        "to the group of another delta: 11 and 32 in group 2 of run 2",
        &[(&[6, 1, 2, 31], 0)],
        [&[], &[(1, 2)]],
        [FIGURES, &[(2, 43), (4, -1), (5, 50), (6, 8)]],
    ),
    assigned(
        "on C to group 7 and on C + 1 to group 8: run 1 stays at 7",
        &[(&[6, 1, 7, 30], 0), (&[6, 1, 8, 31], 0)],
        [&[(1, 7)], &[(1, 8)]],
        [
            &[(2, 32), (4, -1), (5, 50), (6, 8), (7, 11)],
            &[(2, 32), (4, -1), (5, 50), (6, 8), (8, 11)],
        ],
    ),
    assigned(
        "apart, and alike again",
        &[(&[6, 1, 7, 31], 0), (&[6, 1, 1, 31], 0)],
        [&[], &[]],
        [FIGURES, FIGURES],
    ),
    assigned(
        "after C to the group that it has",
        &[(&[6, 1, 1, 31], 0), (&[6, 0, 4, 150], 0)],
        [&[], &[]],
        [FIGURES, FIGURES],
    ),
    assigned(
        "twice after C: run 2 has the last one",
        &[(&[6, 1, 7, 31], 0), (&[6, 1, 8, 150], 0)],
        [&[], &[(1, 8)]],
        [FIGURES, &[(2, 32), (4, -1), (5, 50), (6, 8), (8, 11)]],
    ),
    assigned(
        "T and both areas after C",
        &APART,
        [&[], GROUPS_APART],
        [FIGURES, FIGURES_APART],
    ),
    assigned(
        "run 1 closed: run 2 alone, as without it",
        &[(&[9, 1, 31], 0), (&[6, 1, 7, 31], 0)],
        [&[], &[(1, 7)]],
        [FIGURES, &[(2, 32), (4, -1), (5, 50), (6, 8), (7, 11)]],
    ),
    assigned(
        "run 1 closed and issued: run 2 alone, on K too",
        &[
            (&[9, 1, 31], 0),
            (&[12, 1, 32], 0),
            (&[6, 1, 7, 32], 0),
            (&[6, 0, 7, 150], 0),
        ],
        [&[], &[(0, 7), (1, 7)]],
        [FIGURES, &[(2, 32), (5, 50), (6, 8), (7, 10)]],
    ),
    assigned(
        "run 2 closed, and issued: 26, since the day lies behind K",
        &[
            (&[9, 1, 31], 0),
            (&[6, 1, 7, 150], 0),
            (&[9, 2, 151], 0),
            (&[6, 1, 8, 151], 26),
            (&[12, 2, 151], 0),
            (&[6, 1, 8, 151], 26),
            (&[6, 0, 8, 150], 5),
        ],
        [&[], &[(1, 7)]],
        [FIGURES, &[(2, 32), (4, -1), (5, 50), (6, 8), (7, 11)]],
    ),
    assigned(
        "3 and 5 before 26; the numbers at the ends of their ranges",
        &[
            (&[6, 17, 7, 151], 3),
            (&[6, 1, 0, 151], 3),
            (&[6, 1, 65, 151], 3),
            (&[6, 1, 7, 401], 3),
            (&[6, 1, 7, 1], 5),
            (&[6, 16, 64, 31], 0),
            (&[6, 0, 1, 31], 0),
            (&[6, 1, 7, 30], 5),
            (&[6, 17, 7, 30], 3),
        ],
        [&[], &[(0, 1), (16, 64)]],
        [FIGURES, &[(1, 10), (2, 32), (5, 50), (6, 8)]],
    ),
    List {
        why: "5 before 26 behind K: the desk's day is 152",
        start: [&[OPEN], &[]],
        lines: [&[(&[9, 1, 152], 0), (&[6, 1, 7, 151], 5), (&[6, 1, 7, 152], 26)], &[]],
        groups: [&[], &[]],
        deltas: [&[], &[]],
        figures: [&[], &[]],
        totals: [0, 0],
    },
    List {
        why: "the opening gives both runs its 17 groups",
        start: [
            &[OPEN_EACH],
            &[
                &[2, 1, 1, 16, 15, 0],
                &[2, 2, 4, 0, 63, 0],
                &[4, 1, 1, 2, 7],
                &[4, 2, 1, 2, 5],
            ],
        ],
        lines: [&[], &[]],
        groups: [&[], &[]],
        deltas: [&[(0, -5), (15, -7), (16, 7)], &[(0, -5), (15, -7), (16, 7)]],
        figures: [
            &[(35, -7), (36, 7), (63, 5), (64, -5)],
            &[(35, -7), (36, 7), (63, 5), (64, -5)],
        ],
        totals: [0, 0],
    },
    List {
        why: "a delta that is 0 goes to another group after C too: what run 2 selects later is there",
        start: [&[OPEN], &[&[2, 1, 1, 9, 0, 0], &[4, 1, 1, 11, 70]]],
        lines: [&[(&[6, 9, 12, 31], 0), (&[5, 1, 1, 1, 32], 0)], &[]],
        groups: [&[], &[(9, 12)]],
        deltas: [&[], &[(9, 70)]],
        figures: [&[], &[(12, 70)]],
        totals: [0, 70],
    },
    List {
        why: "what run 2 selects of its own moves with the delta: 160 less 89 from group 1 to group 7",
        start: [&[OPEN], &POINTS_1_TO_6],
        lines: [
            &[(&[4, 1, 2, 11, 160], 0), (&[5, 1, 2, 1, 31], 0)],
            &[(&[6, 1, 7, 40], 0)],
        ],
        groups: [&[], &[(1, 7)]],
        deltas: [DELTAS_THEN, &[(0, -1), (1, 71), (2, 32)]],
        figures: [FIGURES, &[(2, 32), (4, -1), (5, 50), (6, 8), (7, 71)]],
        totals: [100, 160],
    },
];

/// Submissions and notices of each series while T and areas 1 and 2 have other groups in run 2: a confirmed version has status 4,
/// run 2 takes it in the place of version 1, and run 1 stays.
const CORRECTED: [List; 19] = [
    apart(
        "exchange with the outside, 160 for 100: 60 more in delta 1 and group 7",
        &[(&[4, 1, 2, 32, 160], 0), (&[5, 1, 2, 1, 33], 0)],
        &[(0, -1), (1, 71), (2, 32)],
        &[(5, 50), (6, 8), (7, 71), (8, 32), (9, -1)],
        160,
    ),
    apart(
        "exchange of area 2 with area 1, 40 for 30: 10 more in delta 2 and group 8, 10 less in delta 1 and group 7",
        &[(&[4, 2, 2, 32, 40], 0), (&[5, 2, 2, 1, 33], 0)],
        &[(0, -1), (1, 1), (2, 42)],
        &[(5, 50), (6, 8), (7, 1), (8, 42), (9, -1)],
        TOTAL,
    ),
    apart(
        "sum of group 5 in area 1, 55 for 50: 5 more in group 5, 5 less in delta 1 and group 7",
        &[(&[4, 3, 2, 32, 55], 0), (&[5, 3, 2, 1, 33], 0)],
        &[(0, -1), (1, 6), (2, 32)],
        &[(5, 55), (6, 8), (7, 6), (8, 32), (9, -1)],
        TOTAL,
    ),
    apart(
        "area sum of area 1, 4 for 9: 5 more in delta 1 and group 7, 5 less in delta T and group 9",
        &[(&[4, 4, 2, 32, 4], 0), (&[5, 4, 2, 1, 33], 0)],
        &[(0, -6), (1, 16), (2, 32)],
        &[(5, 50), (6, 8), (7, 16), (8, 32), (9, -6)],
        TOTAL,
    ),
    apart(
        "the operator's sum of group 6, 10 for 8: 2 more in group 6, 2 less in delta T and group 9",
        &[(&[4, 5, 2, 32, 10], 0), (&[5, 5, 2, 1, 33], 0)],
        &[(0, -3), (1, 11), (2, 32)],
        &[(5, 50), (6, 10), (7, 11), (8, 32), (9, -3)],
        TOTAL,
    ),
    apart(
        "delta transfer of area 2, -1 for 2: 3 less in delta 2 and group 8, 3 more in delta T and group 9",
        &[(&[4, 6, 2, 32, -1], 0), (&[5, 6, 2, 1, 33], 0)],
        &[(0, 2), (1, 11), (2, 29)],
        &[(5, 50), (6, 8), (7, 11), (8, 29), (9, 2)],
        TOTAL,
    ),
    apart(
        "a submission of each alone is check data: nothing changes",
        &[
            (&[4, 1, 2, 32, 160], 0),
            (&[4, 2, 2, 32, 40], 0),
            (&[4, 3, 2, 32, 55], 0),
            (&[4, 4, 2, 32, 4], 0),
            (&[4, 5, 2, 32, 10], 0),
            (&[4, 6, 2, 32, -1], 0),
        ],
        DELTAS_THEN,
        FIGURES_APART,
        TOTAL,
    ),
    apart(
        "negative notices of each: nothing changes",
        &[
            (&[4, 1, 2, 32, 160], 0),
            (&[4, 2, 2, 32, 40], 0),
            (&[4, 3, 2, 32, 55], 0),
            (&[4, 4, 2, 32, 4], 0),
            (&[4, 5, 2, 32, 10], 0),
            (&[4, 6, 2, 32, -1], 0),
            (&[5, 1, 2, 0, 33], 0),
            (&[5, 2, 2, 0, 33], 0),
            (&[5, 3, 2, 0, 33], 0),
            (&[5, 4, 2, 0, 33], 0),
            (&[5, 5, 2, 0, 33], 0),
            (&[5, 6, 2, 0, 33], 0),
        ],
        DELTAS_THEN,
        FIGURES_APART,
        TOTAL,
    ),
    apart(
        "all six, the last on K: delta 1 is 160 - 40 - 55 - 4, delta 2 is 40 - 1, delta T is 4 - 10 + 1",
        &[
            (&[4, 1, 2, 32, 160], 0),
            (&[4, 2, 2, 32, 40], 0),
            (&[4, 3, 2, 32, 55], 0),
            (&[4, 4, 2, 32, 4], 0),
            (&[4, 5, 2, 32, 10], 0),
            (&[4, 6, 2, 32, -1], 0),
            (&[5, 1, 2, 1, 33], 0),
            (&[5, 2, 2, 1, 33], 0),
            (&[5, 3, 2, 1, 33], 0),
            (&[5, 4, 2, 1, 33], 0),
            (&[5, 5, 2, 1, 33], 0),
            (&[5, 6, 2, 1, 150], 0),
        ],
        &[(0, -5), (1, 61), (2, 39)],
        &[(5, 55), (6, 10), (7, 61), (8, 39), (9, -5)],
        160,
    ),
    apart(
        "the second one of run 2's own: 170 for 160",
        &[
            (&[4, 1, 2, 32, 160], 0),
            (&[5, 1, 2, 1, 33], 0),
            (&[4, 1, 3, 34, 170], 0),
            (&[5, 1, 3, 1, 35], 0),
        ],
        &[(0, -1), (1, 81), (2, 32)],
        &[(5, 50), (6, 8), (7, 81), (8, 32), (9, -1)],
        170,
    ),
    apart(
        "run 1 selects nothing of the point: an area sum of area 2, 5 from delta 2 and group 8 to delta T and group 9",
        &[
            (&[2, 7, 3, 2, 0, 31], 0),
            (&[4, 7, 1, 33, 5], 0),
            (&[5, 7, 1, 1, 34], 0),
        ],
        &[(0, 4), (1, 11), (2, 27)],
        &[(5, 50), (6, 8), (7, 11), (8, 27), (9, 4)],
        TOTAL,
    ),
    apart(
        "run 1 closed and issued between them, and run 2 behind them: the figures stay",
        &[
            (&[9, 1, 32], 0),
            (&[4, 4, 2, 32, 4], 0),
            (&[12, 1, 33], 0),
            (&[5, 4, 2, 1, 33], 0),
            (&[9, 2, 151], 0),
            (&[12, 2, 151], 0),
        ],
        &[(0, -6), (1, 16), (2, 32)],
        &[(5, 50), (6, 8), (7, 16), (8, 32), (9, -6)],
        TOTAL,
    ),
    behind(
        "area 1 at group 5 in run 2: both sides of the sum of group 5 are on one row there, 50 and 11, then 55 and 6",
        [
            &[(&[6, 1, 5, 31], 0)],
            &[(&[4, 3, 2, 32, 55], 0), (&[5, 3, 2, 1, 33], 0)],
        ],
        [&[], &[(1, 5)]],
        &[(0, -1), (1, 6), (2, 32)],
        [FIGURES, &[(2, 32), (4, -1), (5, 61), (6, 8)]],
        TOTAL,
    ),
    behind(
        "T and area 1 at group 9 in run 2: both sides of the area sum are on one row there, 11 and -1, then 16 and -6",
        [
            &[(&[6, 1, 9, 31], 0), (&[6, 0, 9, 31], 0)],
            &[(&[4, 4, 2, 32, 4], 0), (&[5, 4, 2, 1, 33], 0)],
        ],
        [&[], &[(0, 9), (1, 9)]],
        &[(0, -6), (1, 16), (2, 32)],
        [FIGURES, &[(2, 32), (5, 50), (6, 8), (9, 10)]],
        TOTAL,
    ),
    behind(
        "T at group 6 in run 2: both sides of the operator's sum are on one row there, 8 and -1, then 10 and -3",
        [
            &[(&[6, 0, 6, 31], 0)],
            &[(&[4, 5, 2, 32, 10], 0), (&[5, 5, 2, 1, 33], 0)],
        ],
        [&[], &[(0, 6)]],
        &[(0, -3), (1, 11), (2, 32)],
        [FIGURES, &[(1, 11), (2, 32), (5, 50), (6, 7)]],
        TOTAL,
    ),
    behind(
        "areas 1 and 2 at group 8 in run 2: both sides of their exchange are on one row there, 11 and 32, then 1 and 42",
        [
            &[(&[6, 1, 8, 31], 0), (&[6, 2, 8, 31], 0)],
            &[(&[4, 2, 2, 32, 40], 0), (&[5, 2, 2, 1, 33], 0)],
        ],
        [&[], &[(1, 8), (2, 8)]],
        &[(0, -1), (1, 1), (2, 42)],
        [FIGURES, &[(4, -1), (5, 50), (6, 8), (8, 43)]],
        TOTAL,
    ),
    List {
        why: "area 1 at group 5 in run 1 and at group 7 in run 2: both sides of the sum of group 5 are on one row in run 1 alone",
        start: [&[OPEN_5], &POINTS_1_TO_6],
        lines: [
            &[(&[6, 1, 7, 31], 0)],
            &[(&[4, 3, 2, 32, 55], 0), (&[5, 3, 2, 1, 33], 0)],
        ],
        groups: [&[], &[(1, 7)]],
        deltas: [DELTAS_THEN, &[(0, -1), (1, 6), (2, 32)]],
        figures: [
            &[(2, 32), (4, -1), (5, 61), (6, 8)],
            &[(2, 32), (4, -1), (5, 55), (6, 8), (7, 6)],
        ],
        totals: [100, 100],
    },
    behind(
        "the partner's group alone: 10 more in group 2, 10 less in group 7 of run 2",
        [
            &[(&[6, 1, 7, 31], 0)],
            &[(&[4, 2, 2, 32, 40], 0), (&[5, 2, 2, 1, 33], 0)],
        ],
        [&[], &[(1, 7)]],
        &[(0, -1), (1, 1), (2, 42)],
        [FIGURES, &[(2, 42), (4, -1), (5, 50), (6, 8), (7, 1)]],
        TOTAL,
    ),
    behind(
        "T's group alone, and alike again behind the notice: 3 less in group 2, 3 more in group 4",
        [
            &[(&[6, 0, 9, 31], 0)],
            &[
                (&[4, 6, 2, 32, -1], 0),
                (&[5, 6, 2, 1, 33], 0),
                (&[6, 0, 4, 34], 0),
            ],
        ],
        [&[], &[]],
        &[(0, 2), (1, 11), (2, 29)],
        [FIGURES, &[(1, 11), (2, 29), (4, 2), (5, 50), (6, 8)]],
        TOTAL,
    ),
];

fn lists() -> impl Iterator<Item = &'static List> {
    ASSIGNED.iter().chain(&CORRECTED)
}

fn call(numbers: &[i64]) -> Call {
    let words: Vec<u64> = numbers.iter().map(|&number| number as u64).collect();
    Call::of(words[0], &words[1..]).expect("a call")
}

impl List {
    /// The calls and their answers.
    fn answered(&self) -> Vec<(Call, u64)> {
        let start = self.start.concat().into_iter().map(|numbers| (numbers, 0));
        let lines = start.chain(self.lines.concat());
        lines
            .map(|(numbers, answer)| (call(numbers), answer))
            .collect()
    }

    fn answers(&self) -> Vec<u64> {
        self.answered()
            .into_iter()
            .map(|(_, answer)| answer)
            .collect()
    }

    /// The 34 delta groups.
    fn groups(&self) -> [[u64; DELTAS]; 2] {
        let (opening, _) = &self.answered()[0];
        let Call::Open { groups, .. } = opening else {
            panic!("a list begins with an opening");
        };
        self.groups.map(|changed| {
            let mut groups = *groups;
            for &(delta, group) in changed {
                groups[delta] = group as u64;
            }
            groups
        })
    }

    /// The 81 figures of each run.
    fn book(&self) -> [Vec<i64>; 2] {
        [0, 1].map(|run: usize| {
            let mut rows = vec![0; ROWS];
            for &(group, figure) in self.figures[run] {
                rows[group - 1] = figure;
            }
            for &(delta, figure) in self.deltas[run] {
                rows[64 + delta] = figure;
            }
            let total: i64 = rows[..64].iter().sum();
            assert_eq!(total, self.totals[run], "{}, run {}", self.why, run + 1);
            rows
        })
    }

    fn trial(&self) -> Trial {
        let step = |(call, _)| Step::Call(call, LENT);
        Trial {
            places: PLACES,
            seed: 41,
            steps: self.answered().into_iter().map(step).collect(),
        }
    }

    fn file(&self) -> Vec<u8> {
        let carried = |(call, _)| files::carried(&call).expect("a call of a file");
        let calls: Vec<_> = self.answered().into_iter().map(carried).collect();
        files::whole(&calls).concat()
    }

    /// What the program prints before the selected versions.
    fn printed(&self) -> String {
        let numbered = self.answers().into_iter().zip(1..);
        let mut text: String = numbered.map(|(a, n)| format!("{n} {a}\n")).collect();
        for run in 0..2 {
            for (group, figure) in self.figures[run] {
                text += &format!("G {} 1 {group} {figure}\n", run + 1);
            }
            text += &format!("T {} 1 {}\n", run + 1, self.totals[run]);
        }
        text
    }
}

/// A book's figures, those of both runs behind one another.
fn figures(book: &[u64]) -> Vec<i64> {
    book[..2 * ROWS].iter().map(|&word| word as i64).collect()
}

#[test]
fn the_plain_desk_has_the_groups_and_figures() {
    for list in lists() {
        let mut desk = Desk::new();
        for (at, (call, answer)) in list.answered().iter().enumerate() {
            let given = desk.call(call, LENT).number();
            assert_eq!(given, *answer, "{}, {}: {call}", list.why, at + 1);
        }
        let month = desk.month().expect("an open desk");
        assert_eq!(month.groups, list.groups(), "{}", list.why);
        for (run, rows) in (1..).zip(list.book()) {
            let rows: Vec<i128> = rows.into_iter().map(i128::from).collect();
            assert_eq!(month.figures(run), rows, "{}, run {run}", list.why);
            let total = list.totals[run as usize - 1].into();
            assert_eq!(month.outside(run), [total], "{}, run {run}", list.why);
        }
    }
}

/// What the linked desk makes of a list; its delta groups, read off what becomes of the book when they are brought out.
#[test]
fn the_linked_desk_has_the_groups_and_figures() {
    for list in lists() {
        let record = |(call, _)| Record::Call(call, LENT);
        let mut records: Vec<Record> = list.answered().into_iter().map(record).collect();
        let stores = Stores::filled(PLACES, 42);
        let Outcome { answers, stores } = script::run(&records, stores.clone());
        assert_eq!(answers.concat(), list.answers(), "{}", list.why);
        assert_eq!(figures(&stores.book), list.book().concat(), "{}", list.why);
        assert_eq!(linked_groups(&mut records), list.groups(), "{}", list.why);
        compare(&list.trial(), &mut Tally::new());
    }
}

/// The delta groups of the linked desk behind a script: with 2^n in the row of a delta, and 0 in all others, its group has -2^n
/// when the delta goes to group 64, and group 64 itself stays where it is the one.
fn linked_groups(records: &mut Vec<Record>) -> [[u64; DELTAS]; 2] {
    let day = Damage {
        which: 8,
        place: 0,
        to: [0; 4],
    };
    records.push(Record::Damage(day));
    let write = |place: usize, number: u64| {
        Record::Write(script::Write {
            store: 1,
            place: place as u64,
            number,
        })
    };
    records.extend((0..2 * ROWS).map(|place| write(place, 0)));
    for delta in 0..DELTAS {
        records.extend([0, ROWS].map(|run| write(run + 64 + delta, 1 << delta)));
        records.push(Record::Call(call(&[6, delta as i64, 64, 0]), LENT));
    }
    let stores = Stores::filled(PLACES, 42);
    let book = script::run(records, stores).stores.book;
    [0, 1].map(|run| {
        let rows = &book[run * ROWS..];
        let taken = |group: usize| rows[group].wrapping_neg();
        let of = |delta: usize| (0..63).find(|&group| taken(group) >> delta & 1 == 1);
        let group = |delta: usize| of(delta).map_or(64, |group| group as u64 + 1);
        let groups: Vec<u64> = (0..DELTAS).map(group).collect();
        groups.try_into().expect("17 groups")
    })
}

/// What a replay is lent.
fn lent() -> Lent {
    Lent::filled(PLACES, 1, 40, [SUMMARY + 2, POINTS, VERSIONS], 43)
}

fn linked_replay(file: &[u8], lent: &mut Lent) -> u64 {
    let stores = lent.stores.each_mut();
    let [summary, points, versions] = &mut lent.tables;
    let (series, answers) = (&mut lent.series, &mut lent.answers);
    linked::replay(file, stores, series, answers, [summary, points, versions])
}

fn plain_replay(file: &[u8], lent: &mut Lent) -> u64 {
    let run = replay::replay(file, lent).expect("tables with their places");
    run.ending.number()
}

#[test]
fn a_replay_tells_the_groups_and_leaves_the_figures() {
    for list in lists() {
        for replay in [plain_replay, linked_replay] {
            let mut lent = lent();
            let beyond = lent.tables[0][SUMMARY..].to_vec();
            assert_eq!(replay(&list.file(), &mut lent), 0, "{}", list.why);
            let answers = list.answers();
            assert_eq!(lent.answers[..answers.len()], answers, "{}", list.why);
            let summary = &lent.tables[0];
            let told = &summary[DELTA_GROUPS..SUMMARY];
            assert_eq!(told, list.groups().concat(), "{}", list.why);
            assert_eq!(summary[SUMMARY..], beyond, "{}", list.why);
            let book = figures(&lent.stores.book);
            assert_eq!(book, list.book().concat(), "{}", list.why);
        }
    }
}

/// Of a file that opens no desk every delta group is 0.
#[test]
fn a_replay_without_an_opening_tells_no_groups() {
    let mut refused = OPEN.to_vec();
    refused[1] = 2;
    let files: [&[Numbers]; 3] = [&[], &[&[6, 1, 7, 0]], &[&refused.leak()[..], &[6, 1, 7, 0]]];
    for calls in files {
        let carried = |numbers: &Numbers| files::carried(&call(numbers)).expect("a call");
        let file = files::whole(&calls.iter().map(carried).collect::<Vec<_>>()).concat();
        for replay in [plain_replay, linked_replay] {
            let mut lent = lent();
            assert_eq!(replay(&file, &mut lent), 0, "{calls:?}");
            let told = &lent.tables[0][DELTA_GROUPS..SUMMARY];
            assert_eq!(told, [0; 2 * DELTAS], "{calls:?}");
        }
    }
}

/// The lines of the selected versions stand behind those of the figures.
fn without_selections(text: &str) -> String {
    let lines = text.lines().filter(|line| !line.starts_with("S "));
    lines.map(|line| format!("{line}\n")).collect()
}

#[test]
fn the_plain_desk_prints_the_figures() {
    for list in lists() {
        let text = program::printed(&program::run(&list.file()));
        assert_eq!(without_selections(&text), list.printed(), "{}", list.why);
    }
}

#[test]
#[ignore = "EMORIZUGU_PROGRAM names the desk program"]
fn the_program_prints_the_figures() {
    let named = env::var_os("EMORIZUGU_PROGRAM").expect("EMORIZUGU_PROGRAM");
    for list in lists() {
        let file = list.file();
        let output = program::output(&named, &file, file.len()).expect("a program that runs");
        let text = String::from_utf8(output.stdout).expect("text");
        assert_eq!(without_selections(&text), list.printed(), "{}", list.why);
    }
}

/// Calls with the answers that scripts give to them: of a show the length of its row and the row, of a report its two sums. Area
/// 1 is at group 7 in run 2.
const ASKED: [(Numbers, &[i64]); 18] = [
    (&[10, 7, 30, 4], &[0]),
    (&[10, 3, 31, 5], &[26]),
    (&[6, 1, 7, 31], &[0]),
    (&[10, 3, 31, 5], &[26]),
    (&[10, 3, 30, 5], &[5]),
    (&[10, 3, 150, 5], &[26]),
    (&[6, 3, 7, 151], &[26]),
    (&[7, 1, 1], &[0, 1, 11]),
    (&[7, 2, 1], &[0, 1, 0]),
    (&[7, 1, 7], &[0, 1, 0]),
    (&[7, 2, 7], &[0, 1, 11]),
    (&[11, 1, 1], &[0, 0, 11]),
    (&[11, 2, 1], &[0, 0, 0]),
    (&[11, 1, 7], &[0, 4, 0]),
    (&[11, 2, 7], &[0, 0, 7]),
    (&[6, 1, 1, 31], &[0]),
    (&[7, 2, 1], &[0, 1, 11]),
    (&[11, 2, 7], &[0, 4, 0]),
];

/// Both desks give the answers behind points 1 to 6, each call lent these stores.
fn assert_asked(asked: &[(Numbers, Lengths, &[i64])]) {
    let start = [&[OPEN], &POINTS_1_TO_6[..]].concat();
    let start = start.iter().map(|&numbers| (numbers, LENT, &[0][..]));
    let lines: Vec<(Numbers, Lengths, &[i64])> = start.chain(asked.iter().copied()).collect();
    let step = |(numbers, lent, _): &(Numbers, Lengths, &[i64])| Step::Call(call(numbers), *lent);
    let trial = Trial {
        places: PLACES,
        seed: 44,
        steps: lines.iter().map(step).collect(),
    };
    let plain = expected(&trial, &mut Tally::new());
    let linked = script::run(&plain.records, trial.stores());
    for (desk, outcome) in [("plain", &plain.outcome), ("linked", &linked)] {
        for (at, (numbers, _, answer)) in lines.iter().enumerate() {
            let given: Vec<i64> = outcome.answers[at]
                .iter()
                .map(|&word| word as i64)
                .collect();
            assert_eq!(given, *answer, "{desk} desk, {}: {}", at + 1, call(numbers));
        }
    }
    compare(&trial, &mut Tally::new());
}

/// A lodging on C + 1 is refused with 26, an assignment there accepted; shows and reports go by the groups of their run.
#[test]
fn lodgings_keep_day_c_and_rows_go_by_their_run() {
    assert_asked(&ASKED.map(|(numbers, answer)| (numbers, LENT, answer)));
}

/// 2 before 3, 5 and 26, and no store but the book, after C as before it.
#[test]
fn an_assignment_takes_the_book_alone() {
    let book = Lengths { book: 161, ..LENT };
    let others = Lengths {
        book: LENT.book,
        ..Lengths::default()
    };
    assert_asked(&[
        (&[6, 17, 7, 31], book, &[2]),
        (&[6, 1, 7, 1], book, &[2]),
        (&[6, 1, 7, 151], book, &[2]),
        (&[6, 1, 7, 31], Lengths { book: 163, ..LENT }, &[2]),
        (&[6, 1, 7, 31], others, &[0]),
        (&[6, 0, 9, 150], others, &[0]),
        (&[6, 0, 9, 151], others, &[26]),
    ]);
}

/// An assignment adds no row to the log: it is accepted where none is left, and the log stays.
#[test]
fn an_assignment_adds_no_row_to_the_log() {
    let lent = Lengths { log: 4, ..LENT };
    let calls: [Numbers; 5] = [
        OPEN,
        &[2, 1, 1, 1, 0, 0],
        &[4, 1, 1, 2, 100],
        &[6, 1, 7, 30],
        &[6, 1, 8, 31],
    ];
    let trial = Trial {
        places: PLACES,
        seed: 45,
        steps: calls.iter().map(|c| Step::Call(call(c), lent)).collect(),
    };
    let plain = expected(&trial, &mut Tally::new());
    let linked = script::run(&plain.records, trial.stores());
    let mut log = trial.stores().log;
    log[..4].copy_from_slice(&[2, 1, 1, 1]);
    for outcome in [&plain.outcome, &linked] {
        assert_eq!(outcome.answers[..5].concat(), [0; 5]);
        assert_eq!(outcome.stores.log, log);
        assert_eq!(outcome.stores.book[6], 100, "run 1, group 7");
        assert_eq!(outcome.stores.book[81 + 7], 100, "run 2, group 8");
    }
    compare(&trial, &mut Tally::new());
}

/// The totals of a book, those of both runs behind one another.
fn book_totals(book: &[u64], quarters: usize) -> Vec<u64> {
    let mut totals = vec![0_u64; 2 * quarters];
    for run in 0..2 {
        for group in 0..64 {
            let row = &book[(run * ROWS + group) * quarters..][..quarters];
            for (quarter, figure) in row.iter().enumerate() {
                let total = &mut totals[run * quarters + quarter];
                *total = total.wrapping_add(*figure);
            }
        }
    }
    totals
}

/// The lists with other delta groups: the same answers and the totals that are written out.
#[test]
fn the_totals_of_the_lists_do_not_depend_on_the_delta_groups() {
    for list in lists() {
        let answered = list.answered();
        let calls = answered.iter().map(|(call, _)| (call, LENT));
        let (mut desk, others) = (Desk::new(), with_other_groups(calls));
        let answers = others.iter().map(|(call, lent)| desk.call(call, *lent));
        let answers: Vec<u64> = answers.map(|answer| answer.number()).collect();
        assert_eq!(answers, list.answers(), "{}", list.why);
        let month = desk.month().expect("an open desk");
        let plain = [1, 2].map(|run| totals(&month, run)[0] as i64);
        assert_eq!(plain, list.totals, "{}", list.why);
        let record = |(call, lent)| Record::Call(call, lent);
        let records: Vec<Record> = others.into_iter().map(record).collect();
        let linked = script::run(&records, Stores::filled(PLACES, 46));
        let linked = book_totals(&linked.stores.book, 1);
        assert_eq!(linked, plain.map(|total| total as u64), "{}", list.why);
    }
}

/// The calls of a month that nobody else wrote in between, with other delta groups.
fn with_others(month: &Trial) -> Trial {
    let call = |step: &Step| match step {
        Step::Call(call, lent) => Some((call.clone(), *lent)),
        Step::Damaged { .. } | Step::Write(_) => None,
    };
    let calls: Vec<(Call, Lengths)> = month.steps.iter().filter_map(call).collect();
    let others = with_other_groups(calls.iter().map(|(call, lent)| (call, *lent)));
    let step = |(call, lent)| Step::Call(call, lent);
    Trial {
        steps: others.into_iter().map(step).collect(),
        ..*month
    }
}

/// What both desks make of a month: the answers' numbers and the stores.
fn agreed(trial: &Trial) -> (Vec<u64>, Stores) {
    let plain = expected(trial, &mut Tally::new());
    if difference(trial, &plain).is_some() {
        compare(trial, &mut Tally::new());
    }
    let Outcome { answers, stores } = plain.outcome;
    (answers.iter().map(|answer| answer[0]).collect(), stores)
}

/// Months and the same months with other delta groups: both desks agree on each, with the same answers' numbers, log and totals.
#[test]
fn the_totals_of_months_do_not_depend_on_the_delta_groups() {
    let (mut random, mut tally) = (Random::new(47), Tally::new());
    for _ in 0..MONTHS {
        let quarters = 1 + random.below(4);
        let mut month = months::month(&mut random, Size::Apart(quarters as u64));
        month.steps.retain(|step| matches!(step, Step::Call(..)));
        let (answers, stores) = agreed(&month);
        let (other_answers, others) = agreed(&with_others(&month));
        assert_eq!(answers, other_answers);
        assert_eq!(stores.log, others.log);
        let [totals, other_totals] = [&stores, &others].map(|s| book_totals(&s.book, quarters));
        if answers.contains(&0) {
            assert_eq!(totals, other_totals);
            let is_other = stores.book != others.book;
            tally.add("totals, other figures of groups", is_other.into());
        }
    }
    tally.print();
    let other = tally.count("totals, other figures of groups", 1);
    assert!(other >= 700, "{other} months with other figures");
}
