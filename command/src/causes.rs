//! The table of causes, as docs/CAUSES.md has it.

use std::ffi::OsString;

use crate::arguments::Form;
use crate::numbers::quoted;
use crate::output::{self, Failure};
use crate::sheet::{Cell, Column, Sheet};
use crate::ACCEPTED;

const TABLE: &str = include_str!("../../docs/CAUSES.md");

/// A row of the table.
pub struct Cause {
    pub number: u64,
    pub name: &'static str,
    pub meaning: &'static str,
    pub calls: &'static str,
    pub mend: &'static str,
}

fn cause(line: &'static str) -> Option<Cause> {
    let cells: Vec<&str> = line.split('|').map(str::trim).collect();
    let [_, number, name, meaning, calls, mend, _] = cells[..] else {
        return None;
    };
    Some(Cause {
        number: number.parse().ok()?,
        name,
        meaning,
        calls,
        mend,
    })
}

/// The causes in the table's order.
pub fn all() -> impl Iterator<Item = Cause> {
    TABLE.lines().filter_map(cause)
}

/// What a number means.
pub fn meaning(number: u64) -> String {
    all()
        .find(|cause| cause.number == number)
        .map_or(format!("cause {number}"), |cause| cause.meaning.to_string())
}

/// What would mend it, in general.
pub fn mend(number: u64) -> String {
    all()
        .find(|cause| cause.number == number)
        .map_or(String::new(), |cause| cause.mend.to_string())
}

/// The number of a cause, by its number or its name, also as the header has it.
fn number_of(word: &str) -> Result<u64, Failure> {
    let name = word.to_ascii_uppercase();
    let name = name.strip_prefix("EMORIZUGU_").unwrap_or(&name);
    let is_named = |cause: &Cause| word.parse() == Ok(cause.number) || cause.name == name;
    if let Some(cause) = all().find(is_named) {
        return Ok(cause.number);
    }
    let known: Vec<String> = all()
        .map(|cause| format!("{} {}", cause.number, cause.name))
        .collect();
    Err(Failure::new(format!(
        "there is no cause {}; causes are {}",
        quoted(word),
        known.join(", ")
    )))
}

/// `desk causes`.
pub fn tell(words: &[OsString], form: Form) -> Result<i32, Failure> {
    let mut numbers = Vec::new();
    for word in words {
        numbers.push(number_of(&word.to_string_lossy())?);
    }
    let shown: Vec<Cause> = all()
        .filter(|cause| numbers.is_empty() || numbers.contains(&cause.number))
        .collect();
    output::write(listed(&shown, form).as_bytes())?;
    Ok(ACCEPTED)
}

const COLUMNS: &[Column] = &[
    Column("number", 0),
    Column("name", 0),
    Column("meaning", 0),
    Column("calls", 0),
    Column("mend", 0),
];

fn listed(causes: &[Cause], form: Form) -> String {
    if form == Form::Text {
        return causes
            .iter()
            .map(|c| {
                format!(
                    "{}  {}\n    name:    {}\n    calls:   {}\n    to mend: {}\n",
                    c.number, c.meaning, c.name, c.calls, c.mend
                )
            })
            .collect();
    }
    let mut sheet = Sheet::new(form, COLUMNS);
    for c in causes {
        sheet.row(&[
            Cell::Number(c.number as i64),
            Cell::Word(c.name),
            Cell::Word(c.meaning),
            Cell::Word(c.calls),
            Cell::Word(c.mend),
        ]);
    }
    sheet.end()
}
