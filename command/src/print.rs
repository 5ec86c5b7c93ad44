//! `desk print`: a message file as text, one call a line with its fields by name.

use crate::arguments::Wanted;
use crate::calendar::Month;
use crate::calls::{is_day, Call, SUBMIT};
use crate::library::{Read, Reader};
use crate::output::{self, Failure};
use crate::{causes, guard, input, ACCEPTED, NOTHING, REFUSED};

/// A call as a line; days as dates where the month is known.
fn line_of(call: &Call, reader: &Reader, month: Option<Month>) -> String {
    let mut line = call.form().name.to_string();
    for name in call.form().fields {
        let month = month.filter(|_| is_day(name));
        let date = month.and_then(|month| call.date(name, Some(month)));
        let shown = date.map_or_else(|| call.word(name), |date| date.to_string());
        line.push_str(&format!(" {name}={shown}"));
    }
    if call.kind == SUBMIT {
        let energies: Vec<String> = reader
            .energies(call.energies)
            .map(|energy| energy.to_string())
            .collect();
        line.push_str(" energies=");
        line.push_str(if energies.is_empty() { "none" } else { "" });
        line.push_str(&energies.join(","));
    }
    line
}

/// The lines of a file, and the exit status. `calls` are those of the text that it was packed from.
fn lines(file: &[u8], calls: &[Call], month: Option<Month>) -> (String, i32) {
    let (mut reader, mut text) = (Reader::new(file), String::new());
    let mut given = calls.iter();
    loop {
        match reader.next() {
            Read::Call(read) => {
                let (offset, mut call): (usize, Call) = (read.offset, read.into());
                call.typed = given.next().and_then(|call| call.typed.clone());
                let line = line_of(&call, &reader, month);
                text.push_str(&format!("{line}  # offset {offset}\n"));
            }
            Read::End => return (text, ACCEPTED),
            Read::Refused(number, offset) => {
                let status = if text.is_empty() { NOTHING } else { REFUSED };
                text.push_str(&format!(
                    "# refused with {number} at offset {offset}: {}\n",
                    causes::meaning(number)
                ));
                return (text, status);
            }
        }
    }
}

/// `desk print`.
pub fn print(wanted: &Wanted) -> Result<i32, Failure> {
    let bytes = input::read(&wanted.file)?;
    let month = if input::is_text(&bytes) {
        input::packed(wanted, &bytes)?
    } else {
        input::message(wanted, bytes, Vec::new())
    };
    let named = month
        .settled
        .map_or(String::new(), |month| format!("month {month}\n"));
    let (text, status) = lines(&month.file, &month.calls, month.settled);
    if month.file.is_empty() {
        output::warn(&format!("{}: is empty: it has no calls", month.name));
    }
    guard::deliver(wanted, &month.series, (named + &text).as_bytes())?;
    Ok(status)
}
