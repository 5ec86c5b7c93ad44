//! Schedules as text: a line a group with what it planned to take. A group that is lodged again has the later schedule, and one that never is has 0.

use std::ffi::OsStr;
use std::path::PathBuf;

use crate::energies::{self, Limits, Style};
use crate::input;
use crate::library::GROUPS;
use crate::lines::{self, Given};
use crate::numbers::{self, quoted};
use crate::output::{self, Failure};
use crate::series::Files;
use crate::text::begins_call;

/// The schedules of a month, by group.
pub struct Schedules {
    pub name: String,
    /// The files of the text's series.
    pub series: Vec<PathBuf>,
    lodged: [Option<Vec<u64>>; GROUPS as usize],
}

impl Schedules {
    /// A group's energies, one for each quarter hour; nothing where none were lodged.
    pub fn of(&self, group: u64) -> Option<&[u64]> {
        self.lodged[group as usize - 1].as_deref()
    }

    /// The sum of a group's schedule over the month.
    pub fn sum(&self, group: u64) -> i64 {
        let energies = self.of(group).unwrap_or_default();
        energies.iter().map(|word| *word as i64).sum()
    }

    /// The sum of all schedules over the month.
    pub fn total(&self) -> i128 {
        (1..=GROUPS).map(|group| i128::from(self.sum(group))).sum()
    }
}

/// A line's group and its energies.
fn lodging(words: &[&str], quarters: usize, files: &mut Files) -> Result<(u64, Vec<u64>), String> {
    if words[0] != "lodge" {
        return Err(format!(
            "there is no call {} in a text of schedules; it has lodge alone",
            quoted(words[0])
        ));
    }
    let mut given = Given::read("lodge", &words[1..])?;
    let style = Style::take(&mut given)?;
    let further = format!(", {}", energies::FIELDS);
    let fields = given.words(&["group", "energies"], None, &further)?;
    let group = numbers::counting("group", fields[0], GROUPS)?;
    let energies = energies::read(fields[1], style, Limits::Schedule(quarters), files)?;
    Ok((group, energies))
}

/// What is said of a text in which no line begins with a schedule, where it has several lines.
fn no_schedules(text: &[u8]) -> Option<String> {
    let words: Vec<&[u8]> = lines::first_words(text).collect();
    if words.len() < 2 || words.contains(&b"lodge".as_slice()) {
        return None;
    }
    if words.iter().all(|word| begins_call(word)) {
        return Some("is a month and no text of schedules, which has lines `lodge ..`".to_string());
    }
    Some(format!(
        "is no text of schedules: none of its {} lines begins with `lodge`; a schedule names a file of series: energies=@FILE:COLUMN",
        words.len()
    ))
}

fn text_of(name: &OsStr) -> Result<Vec<u8>, Failure> {
    input::text(name, "schedules are lines `lodge group=N energies=..`")
}

/// The files of a text's series, whatever else it has.
pub fn series_of(name: &OsStr) -> Result<Vec<PathBuf>, Failure> {
    Ok(lines::files(&text_of(name)?, &input::folder(name)))
}

/// The schedules of a text, for a month of so many quarter hours; every bad line is named at once.
pub fn read(name: &OsStr, quarters: usize) -> Result<Schedules, Failure> {
    let text = text_of(name)?;
    let folder = input::folder(name);
    let mut schedules = Schedules {
        name: input::shown(name).into_owned(),
        series: lines::files(&text, &folder),
        lodged: [const { None }; GROUPS as usize],
    };
    let mut files = Files::new(&folder);
    let complaints = lines::each(&text, |_, words| {
        if words.is_empty() {
            return Ok(());
        }
        let (group, energies) = lodging(words, quarters, &mut files)?;
        schedules.lodged[group as usize - 1] = Some(energies);
        Ok(())
    });
    if !complaints.is_empty() {
        let told = no_schedules(&text).map_or_else(|| lines::told(complaints), |word| vec![word]);
        return Err(input::wrong(name, &told));
    }
    if schedules.lodged.iter().all(Option::is_none) {
        output::warn(&format!("{}: has no schedule; each is 0", schedules.name));
    }
    Ok(schedules)
}
