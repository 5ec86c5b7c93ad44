//! The fields of the desk's state, each with its limits by cause 1: damage that leaves it inside, and damage that
//! leaves it outside.

use crate::call::DELTAS;
use crate::desk::{LOG_ROW, MOST_VERSIONS};
use crate::script::Damage;
use crate::worked::{Month, Version};

/// What is done to a field: one overwriting, or a few that keep the other fields inside their limits.
pub type Damages = Vec<Damage>;

/// Damages to a field, at the ends of its limits and about them.
pub struct Limits {
    /// After each of these no call is answered 1.
    pub inside: Vec<Damages>,
    /// After each of these every call but open is answered 1.
    pub outside: Vec<Damages>,
}

/// A field: its name, and its limits in a month.
pub struct Field {
    /// The field's name.
    pub name: &'static str,
    /// Its limits.
    pub limits: fn(&Month) -> Limits,
}

/// Every field of the state.
pub const FIELDS: [Field; 24] = [
    Field::of("quarters", quarters),
    Field::of("first delivery", first),
    Field::of("clearing", clearing),
    Field::of("correction", correction),
    Field::of("length of values", values),
    Field::of("length of book", book),
    Field::of("length of log", log),
    Field::of("length of schedules", schedules),
    Field::of("day", day),
    Field::of("delta group of run 1", delta_group_1),
    Field::of("delta group of run 2", delta_group_2),
    Field::of("version count", version_count),
    Field::of("log rows used", log_rows),
    Field::of("run closed", closed),
    Field::of("run issued", issued),
    Field::of("point's day", point_day),
    Field::of("point's kind", point_kind),
    Field::of("point's area", point_area),
    Field::of("point's partner", point_partner),
    Field::of("version's number", version_number),
    Field::of("version's point", version_point),
    Field::of("version's row", version_row),
    Field::of("version's status", version_status),
    Field::of("unused version", unused_version),
];

impl Field {
    const fn of(name: &'static str, limits: fn(&Month) -> Limits) -> Field {
        Field { name, limits }
    }

    /// The field with a name.
    pub fn named(name: &str) -> &'static Field {
        let field = FIELDS.iter().find(|field| field.name == name);
        field.expect("a field of the state")
    }
}

/// What puts a damaged field back to what it is in the month.
pub fn undone(month: &Month, damage: &Damage) -> Damage {
    let Damage { which, place, .. } = *damage;
    let Month {
        lengths,
        closed,
        issued,
        ..
    } = month;
    let value = match which {
        1 => month.quarters,
        2 => month.first,
        3 => month.clearing,
        4 => month.correction,
        5 => lengths.values,
        6 => lengths.book,
        7 => lengths.log,
        8 => month.day,
        9 => month.groups.concat()[place as usize],
        10 => month.rows.len() as u64,
        11 => month.log.len() as u64,
        12 | 13 => closed[which as usize - 12].into(),
        17 => lengths.schedules,
        18 | 19 => issued[which as usize - 18].into(),
        14 | 15 => return point_as_it_is(month, place),
        16 => return version(place, version_as_it_is(month, place)),
        _ => 0,
    };
    Damage {
        which,
        place,
        to: [value, 0, 0, 0],
    }
}

fn point_as_it_is(month: &Month, place: u64) -> Damage {
    match month.points.get(&(place + 1)) {
        Some(active) => point(
            place,
            [active.since, active.kind, active.area, active.partner],
        ),
        None => Damage {
            which: 14,
            place,
            to: [0; 4],
        },
    }
}

/// Number, point, row and status of a version in the table; of a place past the count those of no version.
fn version_as_it_is(month: &Month, place: u64) -> [u64; 4] {
    let of_point = |(&point, versions): (&u64, &Vec<Version>)| {
        let version = versions.iter().find(|v| v.row as u64 == place)?;
        Some([version.number, point, place, version.status])
    };
    let mut points = month.points.iter().map(|(point, p)| (point, &p.versions));
    points.find_map(of_point).unwrap_or([0, 0, 0, 1])
}

fn set(which: u64, value: u64) -> Damage {
    Damage {
        which,
        place: 0,
        to: [value, 0, 0, 0],
    }
}

fn point(place: u64, to: [u64; 4]) -> Damage {
    Damage {
        which: 15,
        place,
        to,
    }
}

fn version(place: u64, to: [u64; 4]) -> Damage {
    Damage {
        which: 16,
        place,
        to,
    }
}

/// The limits of a field that is one number.
fn number(which: u64, inside: &[u64], outside: &[u64]) -> Limits {
    let each = |values: &[u64]| {
        values
            .iter()
            .map(|&value| vec![set(which, value)])
            .collect()
    };
    Limits {
        inside: each(inside),
        outside: each(outside),
    }
}

/// The lengths of book and schedules go with Q, and values of any length hold every row.
fn quarters(month: &Month) -> Limits {
    let whole = |quarters: u64| {
        vec![
            set(1, quarters),
            set(6, quarters.wrapping_mul(162)),
            set(17, quarters.wrapping_mul(64)),
            set(5, u64::MAX),
        ]
    };
    let q = month.quarters;
    Limits {
        inside: [q, 1, 2_980].map(whole).to_vec(),
        outside: vec![
            whole(2_981),
            whole(q + (1 << 16)),
            whole(q + (1 << 32)),
            whole(1 << 63),
            whole(u64::MAX),
            vec![set(1, q + 1)],
            vec![set(1, u64::MAX)],
            vec![set(1, q + 1), set(6, 162 * (q + 1)), set(5, u64::MAX)],
            vec![set(1, q + 1), set(17, 64 * (q + 1)), set(5, u64::MAX)],
        ],
    }
}

fn first(month: &Month) -> Limits {
    let c = month.clearing;
    number(2, &[1, c - 1], &[0, c, c + 1, 1 << 32, u64::MAX])
}

fn clearing(month: &Month) -> Limits {
    let (f, k) = (month.first, month.correction);
    number(3, &[f + 1, k - 1], &[f, k, 0, k + 1, 1 << 32, u64::MAX])
}

fn correction(month: &Month) -> Limits {
    let c = month.clearing;
    number(4, &[c + 1, 399], &[c, 400, 0, 1 << 32, u64::MAX])
}

fn values(month: &Month) -> Limits {
    let used = month.rows.len() as u64 * month.quarters;
    let short: &[u64] = if used > 0 { &[used - 1, 0] } else { &[] };
    number(5, &[used, u64::MAX], short)
}

fn book(month: &Month) -> Limits {
    let right = 162 * month.quarters;
    number(6, &[right], &[right - 1, right + 1, 0, u64::MAX])
}

fn log(month: &Month) -> Limits {
    let used = LOG_ROW * month.log.len() as u64;
    let mut outside = vec![used + 1, used + 2, used + 3, u64::MAX];
    if used > 0 {
        outside.extend([used - 1, used - LOG_ROW]);
    }
    number(7, &[used, used + LOG_ROW, u64::MAX - 3], &outside)
}

fn schedules(month: &Month) -> Limits {
    let right = 64 * month.quarters;
    let outside = [right - 1, right + 1, right - 64, right + 64, 0, u64::MAX];
    number(17, &[right], &outside)
}

fn day(_: &Month) -> Limits {
    number(8, &[0, 400], &[401, 1 << 16, 1 << 32, u64::MAX])
}

fn delta_group_1(_: &Month) -> Limits {
    delta_groups(0)
}

fn delta_group_2(_: &Month) -> Limits {
    delta_groups(DELTAS as u64)
}

/// The limits of 17 delta groups, from a place on.
fn delta_groups(first: u64) -> Limits {
    let each = |values: &[u64]| {
        let at = |place| {
            let damage = move |&group: &u64| Damage {
                which: 9,
                place,
                to: [group, 0, 0, 0],
            };
            values.iter().map(move |group| vec![damage(group)])
        };
        (first..first + DELTAS as u64).flat_map(at).collect()
    };
    Limits {
        inside: each(&[1, 64]),
        outside: each(&[0, 65, 257, u64::MAX]),
    }
}

/// The table's unused records up to the count have to be versions, and values have to hold the used rows.
fn version_count(month: &Month) -> Limits {
    let used = month.rows.len() as u64;
    let counted = |count: u64, values: u64| {
        let last = count.min(MOST_VERSIONS as u64);
        let filled = (used..last).map(|place| version(place, [1 + place, 1, 0, 1]));
        let mut damages: Damages = filled.collect();
        damages.extend([set(5, values), set(10, count)]);
        damages
    };
    let (q, most) = (month.quarters, MOST_VERSIONS as u64);
    let mut outside = vec![
        counted(most + 1, u64::MAX),
        counted(1 << 16, u64::MAX),
        counted(1 << 63, u64::MAX),
        counted(u64::MAX, u64::MAX),
    ];
    if used < most {
        outside.push(counted(used + 1, (used + 1) * q - 1));
    }
    Limits {
        inside: vec![
            vec![set(10, 0)],
            counted(used, used * q),
            counted(most, most * q),
            counted(most, u64::MAX),
        ],
        outside,
    }
}

fn log_rows(month: &Month) -> Limits {
    let most = month.lengths.log / LOG_ROW;
    let outside = [most + 1, 1 << 62, 1 << 63, u64::MAX];
    number(11, &[0, most], &outside)
}

/// Two flags, of which either value is inside the limits.
fn flags(which: [u64; 2]) -> Limits {
    let inside = which.map(|which| [vec![set(which, 0)], vec![set(which, 1)]]);
    Limits {
        inside: inside.concat(),
        outside: vec![],
    }
}

fn closed(_: &Month) -> Limits {
    flags([12, 13])
}

fn issued(_: &Month) -> Limits {
    flags([18, 19])
}

/// The limits of a field of a point, from records of a point; in the table's first and last place and another.
fn of_point(inside: &[[u64; 4]], outside: &[[u64; 4]]) -> Limits {
    let each = |records: &[[u64; 4]]| {
        let at = |place| records.iter().map(move |&to| vec![point(place, to)]);
        [0, 1, 255].into_iter().flat_map(at).collect()
    };
    Limits {
        inside: each(inside),
        outside: each(outside),
    }
}

fn point_day(_: &Month) -> Limits {
    of_point(
        &[[0, 1, 1, 0], [400, 1, 1, 0]],
        &[[401, 1, 1, 0], [65_535, 1, 1, 0]],
    )
}

fn point_kind(_: &Month) -> Limits {
    let inside = [
        [0, 1, 2, 1],
        [0, 2, 2, 1],
        [0, 3, 2, 0],
        [0, 4, 0, 1],
        [0, 5, 2, 0],
    ];
    let outside = [
        [0, 0, 2, 1],
        [0, 0, 2, 0],
        [0, 6, 2, 0],
        [0, 6, 2, 1],
        [0, 255, 2, 0],
        [0, 3, 2, 1],
        [0, 2, 2, 0],
        [0, 4, 2, 1],
    ];
    of_point(&inside, &outside)
}

fn point_area(_: &Month) -> Limits {
    let (mut inside, mut outside) = (vec![[0, 4, 0, 1]], vec![[0, 4, 1, 1], [0, 4, 255, 1]]);
    for (kind, partner) in [(1, 0), (2, 1), (3, 0), (5, 0)] {
        inside.extend([1, 16].map(|area| [0, kind, area, partner]));
        outside.extend([0, 17, 255].map(|area| [0, kind, area, partner]));
    }
    of_point(&inside, &outside)
}

fn point_partner(_: &Month) -> Limits {
    let inside = [
        [0, 1, 1, 0],
        [0, 1, 16, 15],
        [0, 2, 1, 1],
        [0, 2, 1, 64],
        [0, 4, 0, 1],
        [0, 4, 0, 64],
        [0, 3, 1, 0],
        [0, 5, 1, 0],
    ];
    let outside = [
        [0, 1, 1, 1],
        [0, 1, 16, 16],
        [0, 1, 2, 255],
        [0, 2, 1, 0],
        [0, 2, 1, 65],
        [0, 2, 1, 255],
        [0, 4, 0, 0],
        [0, 4, 0, 65],
        [0, 3, 1, 1],
        [0, 3, 1, 255],
        [0, 5, 1, 1],
    ];
    of_point(&inside, &outside)
}

/// The limits of one of the four fields of a version, in the first and the last used place of the table.
fn of_version(month: &Month, field: usize, inside: &[u64], outside: &[u64]) -> Limits {
    let last = month.rows.len().saturating_sub(1);
    let places: Vec<usize> = match month.rows.len() {
        0 => vec![],
        1 => vec![0],
        _ => vec![0, last],
    };
    let each = |values: &[u64]| {
        let at = |&place: &usize| {
            let mut to = version_as_it_is(month, place as u64);
            let damage = move |&value: &u64| {
                to[field] = value;
                vec![version(place as u64, to)]
            };
            values.iter().map(damage).collect::<Vec<Damages>>()
        };
        places.iter().flat_map(at).collect()
    };
    Limits {
        inside: each(inside),
        outside: each(outside),
    }
}

fn version_number(month: &Month) -> Limits {
    let most = 99_999_999_999_999;
    of_version(month, 0, &[1, most], &[0, most + 1, 1 << 63, u64::MAX])
}

fn version_point(month: &Month) -> Limits {
    of_version(month, 1, &[1, 256], &[0, 257, 65_535])
}

/// A row beyond the field's 16 bits cannot be tried.
fn version_row(month: &Month) -> Limits {
    let rows = month.lengths.values / month.quarters;
    let outside: Vec<u64> = [rows, 65_535]
        .into_iter()
        .filter(|&row| row >= rows && row < 1 << 16)
        .collect();
    of_version(month, 2, &[0, rows.clamp(1, 1 << 16) - 1], &outside)
}

fn version_status(month: &Month) -> Limits {
    of_version(month, 3, &[1, 2, 3, 4, 5], &[])
}

/// Records at and past the count are unused.
fn unused_version(month: &Month) -> Limits {
    let unused = [month.rows.len() as u64, 511];
    let unused = unused
        .into_iter()
        .filter(|&place| place >= month.rows.len() as u64 && place < MOST_VERSIONS as u64);
    Limits {
        inside: unused
            .map(|place| vec![version(place, [0, 0, 65_535, 1])])
            .collect(),
        outside: vec![],
    }
}
