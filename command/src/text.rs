//! Months as text: one call a line with its fields by name, packed to a message file.

use std::io::{self, IsTerminal};
use std::path::Path;

use crate::arguments::Wanted;
use crate::calendar::Month;
use crate::calls::{Call, Place, Typed, KINDS, OPEN, SUBMIT};
use crate::dates::Dates;
use crate::energies::{self, Limits, Style};
use crate::library;
use crate::lines::{self, Given};
use crate::numbers::{self, quoted, shortened};
use crate::output::{self, Failure};
use crate::series::Files;
use crate::{causes, guard, input, ACCEPTED};

/// The numbers of the fields named, each by a date, by its name or in digits.
fn numbers_of<'a>(
    given: Given<'a>,
    names: &[&'static str],
    others: Option<&'a str>,
    further: &str,
    dates: &mut Dates,
) -> Result<Vec<u64>, String> {
    let words = given.words(names, others, further)?;
    let mut number = |name: &'static str, word: &str| {
        let date = dates.number(name, word);
        date.unwrap_or_else(|| numbers::field(name, word))
    };
    let fields = names.iter().zip(words);
    fields.map(|(name, word)| number(name, word)).collect()
}

/// What a text's lines refer to: files with series, and the month of dates.
struct Around {
    files: Files,
    dates: Dates,
}

/// The call of a line: its kind, its fields, and of a submission the energies with the file that they stand in.
struct Line {
    kind: u64,
    fields: Vec<u64>,
    energies: Vec<u64>,
    source: Option<String>,
}

/// A submission.
fn submission(
    mut given: Given,
    names: &[&'static str],
    files: &mut Files,
    dates: &mut Dates,
) -> Result<Line, String> {
    let style = Style::take(&mut given)?;
    let series = given.take("energies");
    let further = format!(", energies, {}", energies::FIELDS);
    let fields = numbers_of(given, names, None, &further, dates);
    let Some(series) = series else {
        return Err(fields.err().unwrap_or("submit lacks energies".to_string()));
    };
    let fields = fields?;
    let energies = energies::read(series, style, Limits::File, files)?;
    Ok(Line {
        kind: SUBMIT,
        fields,
        energies,
        source: series.strip_prefix('@').map(str::to_string),
    })
}

/// What is to be written for `settle`, with the run and the day of its line. A date there is one of the text's.
fn settle(words: &[&str], dates: &mut Dates) -> String {
    let given = Given::read("settle", words);
    let given = given.and_then(|given| given.words(&["run", "day"], None, ""));
    let fields = match given.as_deref() {
        Ok([run, day]) => {
            dates.number("day", day);
            format!("run={} day={}", shortened(run), shortened(day))
        }
        _ => "run=.. day=..".to_string(),
    };
    format!("settle is two calls: write `close {fields}` and, when the statuses are to be sent, `issue {fields}`")
}

/// A word that is no call.
fn no_call(words: &[&str], dates: &mut Dates) -> String {
    if words[0] == "settle" {
        return settle(&words[1..], dates);
    }
    let names: Vec<&str> = KINDS.iter().map(|kind| kind.name).collect();
    format!(
        "there is no call {}; calls are {}",
        quoted(words[0]),
        names.join(", ")
    )
}

/// A line's call.
fn call_of(words: &[&str], around: &mut Around) -> Result<Line, String> {
    let Some(at) = KINDS.iter().position(|kind| kind.name == words[0]) else {
        return Err(no_call(words, &mut around.dates));
    };
    let (kind, form) = (at as u64 + 1, &KINDS[at]);
    let mut given = Given::read(form.name, &words[1..])?;
    let Around { files, dates } = around;
    let fields = match kind {
        OPEN => {
            let others = given.take("others");
            if let Some(word) = others {
                numbers::field("others", word)?;
            }
            numbers_of(given, form.fields, others, ", others", dates)?
        }
        SUBMIT => return submission(given, form.fields, files, dates),
        _ => numbers_of(given, form.fields, None, "", dates)?,
    };
    Ok(Line {
        kind,
        fields,
        energies: Vec::new(),
        source: None,
    })
}

/// The call of a line, written behind the bytes of a file; a line without words has none, and one that names the month.
fn packed_line(
    words: &[&str],
    place: Place,
    file: &mut Vec<u8>,
    around: &mut Around,
) -> Result<Option<Call>, String> {
    around.dates.at = place.line;
    match words[..] {
        [] => return Ok(None),
        ["month", ref named @ ..] => return around.dates.name(named).map(|()| None),
        [word, ..] if word.starts_with("month=") => return around.dates.name(&[]).map(|()| None),
        _ => {}
    }
    let line = call_of(words, around);
    let days_off = around.dates.take_days_off();
    let line = line?;
    library::write(line.kind, &line.fields, &line.energies, file).map_err(causes::meaning)?;
    Ok(Some(Call {
        place,
        kind: line.kind,
        fields: line.fields,
        energies: line.energies.len(),
        typed: (line.source.is_some() || !days_off.is_empty()).then(|| {
            Box::new(Typed {
                source: line.source,
                days_off,
            })
        }),
    }))
}

/// Whether a line begins as one of a month does.
pub fn begins_call(word: &[u8]) -> bool {
    let is_kind = KINDS.iter().any(|kind| kind.name.as_bytes() == word);
    is_kind || word == b"settle" || word == b"month" || word.starts_with(b"month=")
}

/// What is said of a text in which no line begins with a call, where it has several lines.
fn no_month(text: &[u8]) -> Option<String> {
    let words: Vec<&[u8]> = lines::first_words(text).collect();
    if words.len() < 2 || words.iter().any(|word| begins_call(word)) {
        return None;
    }
    if words.iter().all(|word| *word == b"lodge") {
        return Some(
            "is a text of schedules and no month; desk report takes the month, then the schedules"
                .to_string(),
        );
    }
    let names: Vec<&str> = KINDS.iter().map(|kind| kind.name).collect();
    Some(format!(
        "is no text of calls: none of its {} lines begins with one ({}); a submission names a file of series: energies=@FILE:COLUMN",
        words.len(),
        names.join(", ")
    ))
}

/// The message file of a text, with its calls and the month that it names.
pub struct Packed {
    pub file: Vec<u8>,
    pub calls: Vec<Call>,
    pub month: Option<Month>,
    pub files: Files,
}

/// A text, packed; `asked` is the month of `--month`. Or what is wrong with each bad line.
pub fn packed(text: &[u8], folder: &Path, asked: Option<Month>) -> Result<Packed, Vec<String>> {
    let (mut file, mut calls) = (Vec::new(), Vec::new());
    let mut around = Around {
        files: Files::new(folder),
        dates: Dates::new(asked),
    };
    let mut complaints = lines::each(text, |line, words| {
        let place = Place {
            line,
            number: calls.len() + 1,
            offset: file.len(),
        };
        calls.extend(packed_line(words, place, &mut file, &mut around)?);
        Ok(())
    });
    complaints.extend(around.dates.complaint());
    if complaints.is_empty() {
        return Ok(Packed {
            file,
            calls,
            month: around.dates.month(),
            files: around.files,
        });
    }
    Err(no_month(text).map_or_else(|| lines::told(complaints), |word| vec![word]))
}

/// `desk pack`.
pub fn pack(wanted: &Wanted) -> Result<i32, Failure> {
    if wanted.to.is_none() && io::stdout().is_terminal() {
        return Err(Failure::new(
            "a message file is bytes: name a file with -o, or send the output to one",
        ));
    }
    let bytes = input::read(&wanted.file)?;
    let shown = input::shown(&wanted.file);
    if !bytes.is_empty() && !input::is_text(&bytes) && !bytes.iter().all(u8::is_ascii_whitespace) {
        return Err(Failure::new(format!(
            "{shown}: is no text; `desk print` shows a message file as text"
        )));
    }
    let month = input::packed(wanted, &bytes)?;
    if month.calls.is_empty() {
        output::warn(&format!("{shown}: has no calls; the message file is empty"));
    }
    guard::deliver(wanted, &month.series, &month.file)?;
    Ok(ACCEPTED)
}
