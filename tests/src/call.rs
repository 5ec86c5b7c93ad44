//! The twelve calls, with their fields as a caller hands them over: any 64-bit numbers.

use std::fmt;

/// Delta groups of an opening: T, then areas 1 to 16.
pub const DELTAS: usize = 17;

/// A call. The fields have the names and the order of documents 01 and 02; energies are words in two's complement.
#[derive(Clone, Debug, PartialEq, Eq)]
#[allow(missing_docs)]
pub enum Call {
    Open {
        quarters: u64,
        first: u64,
        clearing: u64,
        correction: u64,
        groups: [u64; DELTAS],
    },
    Activate {
        point: u64,
        kind: u64,
        area: u64,
        partner: u64,
        day: u64,
    },
    Deactivate {
        point: u64,
        day: u64,
    },
    Submit {
        point: u64,
        version: u64,
        day: u64,
        series: Vec<u64>,
    },
    Notice {
        point: u64,
        version: u64,
        verdict: u64,
        day: u64,
    },
    Assign {
        area: u64,
        group: u64,
        day: u64,
    },
    Show {
        run: u64,
        group: u64,
    },
    Status {
        point: u64,
        version: u64,
    },
    Close {
        run: u64,
        day: u64,
    },
    Lodge {
        group: u64,
        day: u64,
        series: Vec<u64>,
    },
    Report {
        run: u64,
        group: u64,
    },
    Issue {
        run: u64,
        day: u64,
    },
}

/// The calls' names and the names of their fields, in the order of the papers.
const NAMES: [(&str, &[&str]); 12] = [
    ("open", &["Q", "F", "C", "K"]),
    ("activate", &["point", "kind", "area", "partner", "day"]),
    ("deactivate", &["point", "day"]),
    ("submit", &["point", "version", "day"]),
    ("notice", &["point", "version", "verdict", "day"]),
    ("assign", &["area", "group", "day"]),
    ("show", &["run", "group"]),
    ("status", &["point", "version"]),
    ("close", &["run", "day"]),
    ("lodge", &["group", "day"]),
    ("report", &["run", "group"]),
    ("issue", &["run", "day"]),
];

impl Call {
    /// The call's place in the building order of document 01, 1 to 9, where document 02's close has settle's; its lodge is 10,
    /// its report 11, its issue 12.
    pub fn number(&self) -> u64 {
        match self {
            Call::Open { .. } => 1,
            Call::Activate { .. } => 2,
            Call::Deactivate { .. } => 3,
            Call::Submit { .. } => 4,
            Call::Notice { .. } => 5,
            Call::Assign { .. } => 6,
            Call::Show { .. } => 7,
            Call::Status { .. } => 8,
            Call::Close { .. } => 9,
            Call::Lodge { .. } => 10,
            Call::Report { .. } => 11,
            Call::Issue { .. } => 12,
        }
    }

    /// The call's name.
    pub fn name(&self) -> &'static str {
        NAMES[self.number() as usize - 1].0
    }

    /// The fields in their order; then the 17 groups of an opening, or the energies of a submission or a lodging.
    pub fn fields(&self) -> Vec<u64> {
        match *self {
            Call::Open {
                quarters,
                first,
                clearing,
                correction,
                ref groups,
            } => [&[quarters, first, clearing, correction], &groups[..]].concat(),
            Call::Activate {
                point,
                kind,
                area,
                partner,
                day,
            } => vec![point, kind, area, partner, day],
            Call::Deactivate { point, day } => vec![point, day],
            Call::Submit {
                point,
                version,
                day,
                ref series,
            } => [&[point, version, day], &series[..]].concat(),
            Call::Notice {
                point,
                version,
                verdict,
                day,
            } => vec![point, version, verdict, day],
            Call::Assign { area, group, day } => vec![area, group, day],
            Call::Show { run, group } => vec![run, group],
            Call::Status { point, version } => vec![point, version],
            Call::Close { run, day } | Call::Issue { run, day } => vec![run, day],
            Call::Lodge {
                group,
                day,
                ref series,
            } => [&[group, day], &series[..]].concat(),
            Call::Report { run, group } => vec![run, group],
        }
    }

    /// The call with this number and these fields, where it has so many.
    pub fn of(number: u64, fields: &[u64]) -> Option<Call> {
        Some(match (number, fields) {
            (1, &[quarters, first, clearing, correction, ref groups @ ..]) => Call::Open {
                quarters,
                first,
                clearing,
                correction,
                groups: groups.try_into().ok()?,
            },
            (2, &[point, kind, area, partner, day]) => Call::Activate {
                point,
                kind,
                area,
                partner,
                day,
            },
            (3, &[point, day]) => Call::Deactivate { point, day },
            (4, &[point, version, day, ref series @ ..]) => Call::Submit {
                point,
                version,
                day,
                series: series.to_vec(),
            },
            (5, &[point, version, verdict, day]) => Call::Notice {
                point,
                version,
                verdict,
                day,
            },
            (6, &[area, group, day]) => Call::Assign { area, group, day },
            (7, &[run, group]) => Call::Show { run, group },
            (8, &[point, version]) => Call::Status { point, version },
            (9, &[run, day]) => Call::Close { run, day },
            (10, &[group, day, ref series @ ..]) => Call::Lodge {
                group,
                day,
                series: series.to_vec(),
            },
            (11, &[run, group]) => Call::Report { run, group },
            (12, &[run, day]) => Call::Issue { run, day },
            _ => return None,
        })
    }

    /// The call's day, if it has one.
    pub fn day(&self) -> Option<u64> {
        match *self {
            Call::Activate { day, .. }
            | Call::Deactivate { day, .. }
            | Call::Submit { day, .. }
            | Call::Notice { day, .. }
            | Call::Assign { day, .. }
            | Call::Close { day, .. }
            | Call::Issue { day, .. }
            | Call::Lodge { day, .. } => Some(day),
            Call::Open { .. } | Call::Show { .. } | Call::Status { .. } | Call::Report { .. } => {
                None
            }
        }
    }

    /// The call's energies, if it has some: they stand behind its other fields.
    pub fn energies(&self) -> Option<&[u64]> {
        match self {
            Call::Submit { series, .. } | Call::Lodge { series, .. } => Some(series),
            _ => None,
        }
    }

    /// Which of values, book, log and schedules the call takes.
    pub fn takes(&self) -> [bool; 4] {
        match self {
            Call::Open { .. } => [true; 4],
            Call::Submit { .. } | Call::Notice { .. } => [true, true, true, false],
            Call::Assign { .. } | Call::Show { .. } => [false, true, false, false],
            Call::Lodge { .. } => [false, false, false, true],
            Call::Report { .. } => [false, true, false, true],
            Call::Activate { .. }
            | Call::Deactivate { .. }
            | Call::Status { .. }
            | Call::Close { .. }
            | Call::Issue { .. } => [false; 4],
        }
    }

    /// The call's point, if it has one.
    pub fn point(&self) -> Option<u64> {
        match *self {
            Call::Activate { point, .. }
            | Call::Deactivate { point, .. }
            | Call::Submit { point, .. }
            | Call::Notice { point, .. }
            | Call::Status { point, .. } => Some(point),
            _ => None,
        }
    }
}

impl fmt::Display for Call {
    fn fmt(&self, f: &mut fmt::Formatter) -> fmt::Result {
        let (name, names) = NAMES[self.number() as usize - 1];
        let fields = self.fields();
        write!(f, "{name}")?;
        for (name, field) in names.iter().zip(&fields) {
            write!(f, " {name} {field}")?;
        }
        let more = &fields[names.len()..];
        match self {
            Call::Open { .. } => write!(f, " groups {more:?}"),
            Call::Submit { .. } | Call::Lodge { .. } => {
                let energies: Vec<i64> = more.iter().map(|&word| word as i64).collect();
                write!(f, " energies {energies:?}")
            }
            _ => Ok(()),
        }
    }
}

/// Lengths of the stores that are lent to a call.
#[derive(Clone, Copy, Debug, Default, PartialEq, Eq)]
pub struct Lengths {
    /// Places of the values.
    pub values: u64,
    /// Places of the book.
    pub book: u64,
    /// Places of the log.
    pub log: u64,
    /// Places of the schedules.
    pub schedules: u64,
}

impl Lengths {
    /// Each length, not above the most that there is to lend.
    pub fn within(self, most: Lengths) -> Lengths {
        Lengths {
            values: self.values.min(most.values),
            book: self.book.min(most.book),
            log: self.log.min(most.log),
            schedules: self.schedules.min(most.schedules),
        }
    }

    /// The lengths of values, book, log and schedules.
    pub fn each(self) -> [u64; 4] {
        [self.values, self.book, self.log, self.schedules]
    }
}

impl fmt::Display for Lengths {
    fn fmt(&self, f: &mut fmt::Formatter) -> fmt::Result {
        let [values, book, log, schedules] = self.each();
        write!(
            f,
            "lent values {values} book {book} log {log} schedules {schedules}"
        )
    }
}
