//! The calls of a month by name: their fields, and the names of numbers.

use crate::calendar::{self, Date, Month};

/// The most fields that a call has: those of an opening.
pub const MOST_FIELDS: usize = 21;

/// The most quarter hours of a month, and so the most energies of a series.
pub const MOST_QUARTERS: usize = 2980;

/// The largest size of an energy, in watt-hours.
pub const MOST_ENERGY: u64 = 1_000_000_000_000;

pub const OPEN: u64 = 1;
pub const ACTIVATE: u64 = 2;
pub const DEACTIVATE: u64 = 3;
pub const SUBMIT: u64 = 4;
pub const NOTICE: u64 = 5;
pub const ASSIGN: u64 = 6;
pub const CLOSE: u64 = 7;
pub const ISSUE: u64 = 8;

/// The delta groups' fields of an opening: the transmission operator's and the areas'.
pub const DELTAS: [&str; 17] = [
    "T", "1", "2", "3", "4", "5", "6", "7", "8", "9", "10", "11", "12", "13", "14", "15", "16",
];

/// A kind of call: its name and its fields, in the file's order. A submission's energies follow its fields.
pub struct Kind {
    pub name: &'static str,
    pub fields: &'static [&'static str],
}

/// Kinds 1 to 8.
pub const KINDS: [Kind; 8] = [
    Kind {
        name: "open",
        fields: &[
            "quarters",
            "first",
            "clearing",
            "correction",
            "T",
            "1",
            "2",
            "3",
            "4",
            "5",
            "6",
            "7",
            "8",
            "9",
            "10",
            "11",
            "12",
            "13",
            "14",
            "15",
            "16",
        ],
    },
    Kind {
        name: "activate",
        fields: &["point", "kind", "area", "partner", "day"],
    },
    Kind {
        name: "deactivate",
        fields: &["point", "day"],
    },
    Kind {
        name: "submit",
        fields: &["point", "version", "day"],
    },
    Kind {
        name: "notice",
        fields: &["point", "version", "verdict", "day"],
    },
    Kind {
        name: "assign",
        fields: &["area", "group", "day"],
    },
    Kind {
        name: "close",
        fields: &["run", "day"],
    },
    Kind {
        name: "issue",
        fields: &["run", "day"],
    },
];

/// Kinds of series 1 to 5.
pub const SERIES: [&str; 5] = [
    "exchange",
    "group-sum",
    "area-sum",
    "operator-sum",
    "delta-transfer",
];

/// Statuses 1 to 5.
pub const STATUSES: [&str; 5] = [
    "check data",
    "settlement data",
    "settled",
    "correction settlement data",
    "correction settled",
];

/// The fields that are days: each takes a date where the month is named.
const DAYS: [&str; 4] = ["day", "first", "clearing", "correction"];

/// Whether a field is a day.
pub fn is_day(field: &str) -> bool {
    DAYS.contains(&field)
}

/// Words that stand for a field's number.
pub const NAMES: [(&str, &str, u64); 12] = [
    ("kind", SERIES[0], 1),
    ("kind", SERIES[1], 2),
    ("kind", SERIES[2], 3),
    ("kind", SERIES[3], 4),
    ("kind", SERIES[4], 5),
    ("verdict", "positive", 1),
    ("verdict", "negative", 0),
    ("area", "T", 0),
    ("partner", "outside", 0),
    ("partner", "none", 0),
    ("run", "settlement", 1),
    ("run", "correction", 2),
];

/// The number that a word stands for in a field.
pub fn named(field: &str, word: &str) -> Option<u64> {
    NAMES
        .iter()
        .find(|(of, name, _)| *of == field && *name == word)
        .map(|(_, _, number)| *number)
}

/// The words that a field takes beside numbers.
pub fn names_of(field: &str) -> Vec<&'static str> {
    NAMES
        .iter()
        .filter(|(of, _, _)| *of == field)
        .map(|(_, name, _)| *name)
        .collect()
}

/// A name of a table that counts from 1.
pub fn name_in(table: &[&'static str], number: u64) -> &'static str {
    usize::try_from(number)
        .ok()
        .and_then(|number| table.get(number.wrapping_sub(1)))
        .copied()
        .unwrap_or("unknown")
}

/// Whether something holds, as lists say it.
pub fn yes(holds: bool) -> &'static str {
    if holds {
        "yes"
    } else {
        "no"
    }
}

/// Where a call stands: its line in a text (0: there is none), its number, the offset of its first byte.
#[derive(Clone, Copy, Default)]
pub struct Place {
    pub line: usize,
    pub number: usize,
    pub offset: usize,
}

impl Place {
    /// As a refusal begins: `line 13, call 12`.
    pub fn whole(&self) -> String {
        if self.line > 0 {
            format!("line {}, call {}", self.line, self.number)
        } else {
            format!("call {}, offset {}", self.number, self.offset)
        }
    }

    /// As other words name it: `line 13`.
    pub fn short(&self) -> String {
        if self.line > 0 {
            format!("line {}", self.line)
        } else {
            format!("call {}", self.number)
        }
    }
}

/// A call of the month, without its energies.
#[derive(Clone, Default)]
pub struct Call {
    pub place: Place,
    pub kind: u64,
    pub fields: Vec<u64>,
    pub energies: usize,
    /// What a text has beside the numbers, where there is something.
    pub typed: Option<Box<Typed>>,
}

/// Dates on days off, each with the field that it was typed for.
pub type DaysOff = Vec<(&'static str, Date)>;

/// What a text has beside a call's numbers: the file of its series, perhaps with a column, and dates on days off.
#[derive(Clone)]
pub struct Typed {
    pub source: Option<String>,
    pub days_off: DaysOff,
}

impl Call {
    /// The kind's name and fields; the reader takes no others.
    pub fn form(&self) -> &'static Kind {
        &KINDS[(self.kind as usize - 1) % KINDS.len()]
    }

    /// A field by its name, and 0 where the call has none.
    pub fn field(&self, name: &str) -> u64 {
        let at = self.form().fields.iter().position(|field| *field == name);
        at.and_then(|at| self.fields.get(at)).copied().unwrap_or(0)
    }

    /// A field as a text has it: by its name, where its number has one in this call.
    pub fn word(&self, field: &str) -> String {
        let (number, series) = (self.field(field), self.field("kind"));
        let fits = |name: &str| match name {
            "outside" => series == 1,
            "none" => matches!(series, 3 | 5),
            "T" => self.kind == ASSIGN || series == 4,
            _ => true,
        };
        let named = NAMES
            .iter()
            .find(|(of, name, value)| *of == field && *value == number && fits(name));
        named.map_or(number.to_string(), |(_, name, _)| name.to_string())
    }

    /// The file of its series, where a text names one.
    pub fn source(&self) -> Option<&str> {
        self.typed.as_deref()?.source.as_deref()
    }

    /// Its dates on days off.
    pub fn days_off(&self) -> &[(&'static str, Date)] {
        let typed = self.typed.as_deref();
        typed.map_or(&[], |typed| &typed.days_off)
    }

    /// The date of a field that is a day: as it was typed where that is a day off, else the first with that number, where there is one.
    pub fn date(&self, field: &str, month: Option<Month>) -> Option<Date> {
        let typed = self.days_off().iter().find(|(name, _)| *name == field);
        typed.map_or_else(
            || calendar::dated(month, self.field(field)),
            |(_, date)| Some(*date),
        )
    }

    /// A field that is a day as it is shown: its number, and its date in brackets.
    pub fn day(&self, field: &str, month: Option<Month>) -> String {
        calendar::told(self.field(field), self.date(field, month))
    }

    /// Whether the call has a day.
    pub fn has_day(&self) -> bool {
        self.form().fields.contains(&"day")
    }

    /// The call and what it is about: `submit point 4 version 2`.
    pub fn title(&self) -> String {
        let about: &[&str] = match self.kind {
            OPEN => &["quarters"],
            SUBMIT | NOTICE => &["point", "version"],
            ASSIGN => &["area", "group"],
            CLOSE | ISSUE => &["run"],
            _ => &["point"],
        };
        let shown = |name: &str| match (name, self.field(name)) {
            ("area", 0) => "T".to_string(),
            (_, number) => number.to_string(),
        };
        let words: String = about
            .iter()
            .map(|name| format!(" {name} {}", shown(name)))
            .collect();
        format!("{}{words}", self.form().name)
    }
}

/// How many there are, in words: `1 call`, `2 calls`.
pub fn counted(number: usize, stem: &str, one: &str, more: &str) -> String {
    format!("{number} {stem}{}", if number == 1 { one } else { more })
}
