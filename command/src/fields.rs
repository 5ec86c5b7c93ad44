//! Refused fields in words: outside their ranges, not together, a series that is too long or too short, an opening that is not allowed.

use crate::before::Before;
use crate::calls::{counted, Call, ACTIVATE, ASSIGN, MOST_ENERGY, SUBMIT};
use crate::causes;
use crate::reasons::Words;
use crate::series::{lines_of, Files};

impl<'a> Before<'a> {
    /// A field that is refused (3). `energies` are those of a submission, and `files` has its series.
    pub fn bad_field(&self, call: &Call, energies: &[i64], files: &Files) -> Words<'a> {
        let mut wrong = ranges(call);
        if call.kind == ACTIVATE && wrong.is_empty() {
            return (
                unfit(call),
                "correct kind, area or partner".to_string(),
                None,
            );
        }
        if call.kind == SUBMIT && call.energies as u64 != self.opening("quarters") {
            wrong.push(self.bad_length(call, files));
        }
        let beyond = energies
            .iter()
            .position(|energy| energy.unsigned_abs() > MOST_ENERGY);
        if let Some(at) = beyond.filter(|_| call.kind == SUBMIT) {
            wrong.push(format!(
                "the energy of quarter hour {}, {}, is beyond {MOST_ENERGY} watt-hours",
                at + 1,
                energies[at]
            ));
        }
        if wrong.is_empty() {
            return (causes::meaning(3), causes::mend(3), None);
        }
        (wrong.join("; "), "correct what is named".to_string(), None)
    }

    /// A series with another length than the month, and where it stands.
    fn bad_length(&self, call: &Call, files: &Files) -> String {
        let (quarters, place) = (self.opening("quarters"), self.opening_place());
        let energies = counted(call.energies, "energ", "y", "ies");
        let (series, lines, odd) = match call.source() {
            Some(source) => (
                source,
                lines_of(source, call.energies),
                files.odd(source, call.energies, quarters as usize),
            ),
            None => ("the series", String::new(), String::new()),
        };
        format!(
            "{series} has {energies}{lines}, and the month {quarters} quarter hours ({place}){odd}"
        )
    }

    /// An opening that is refused (4).
    pub fn bad_opening(&self, call: &Call) -> Words<'a> {
        let mut wrong = Vec::new();
        let [quarters, first, clearing, correction] =
            ["quarters", "first", "clearing", "correction"].map(|name| call.field(name));
        if !(1..=2980).contains(&quarters) {
            wrong.push(format!("quarters {quarters} is not 1 to 2980"));
        }
        if !(1 <= first && first < clearing && clearing < correction && correction <= 399) {
            let shown = ["first", "clearing", "correction"].map(|name| call.day(name, self.month));
            wrong.push(format!(
                "deadlines {} do not rise from 1 to 399",
                shown.join(", ")
            ));
        }
        wrong.extend(bad_deltas(call));
        if wrong.is_empty() {
            return (causes::meaning(4), causes::mend(4), None);
        }
        (wrong.join("; "), "correct what is named".to_string(), None)
    }
}

/// What each field may be.
fn range(kind: u64, field: &str) -> (u64, u64) {
    match (kind, field) {
        (_, "point") => (1, 256),
        (_, "version") => (1, 99_999_999_999_999),
        (_, "day") => (0, 400),
        (_, "kind") => (1, 5),
        (_, "verdict") => (0, 1),
        (_, "run") => (1, 2),
        (_, "group") | (ACTIVATE, "partner") => ((kind == ASSIGN) as u64, 64),
        (_, "area") => (0, 16),
        _ => (0, u64::MAX),
    }
}

/// The fields that are outside their ranges.
fn ranges(call: &Call) -> Vec<String> {
    let outside = |(name, number): (&&str, &u64)| {
        let (least, most) = range(call.kind, name);
        (*number < least || *number > most)
            .then(|| format!("{name} {number} is not {least} to {most}"))
    };
    call.form()
        .fields
        .iter()
        .zip(&call.fields)
        .filter_map(outside)
        .collect()
}

/// Kind, area and partner that do not go together.
fn unfit(call: &Call) -> String {
    let [kind, area, partner] = ["kind", "area", "partner"].map(|name| call.field(name));
    let takes = match kind {
        1 => "an exchange takes an area a of 1 to 16 and a partner of 0 (the outside) to a - 1",
        2 => "a group sum takes an area of 1 to 16 and as partner a group of 1 to 64",
        4 => "an operator's group sum takes area 0 and as partner a group of 1 to 64",
        3 => "an area sum takes an area of 1 to 16 and partner 0",
        _ => "a delta transfer takes an area of 1 to 16 and partner 0",
    };
    format!("kind {kind} with area {area} and partner {partner} do not go together: {takes}")
}

/// The delta groups of an opening that are none.
fn bad_deltas(call: &Call) -> Vec<String> {
    let bad = |(name, group): (&&str, &u64)| {
        let whose = if *name == "T" {
            "T".to_string()
        } else {
            format!("area {name}")
        };
        (!(1..=64).contains(group))
            .then(|| format!("the delta group of {whose} is {group}, not 1 to 64"))
    };
    let fields = call.form().fields.iter().zip(&call.fields);
    fields.skip(4).filter_map(bad).collect()
}
