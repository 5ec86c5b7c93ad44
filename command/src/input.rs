//! A month as it is given: text or a message file, told apart by content, read whole.

use std::borrow::Cow;
use std::ffi::OsStr;
use std::fs;
use std::io::{self, IsTerminal, Read};
use std::path::{Path, PathBuf};

use crate::arguments::Wanted;
use crate::calendar;
use crate::calls::{Call, Place};
use crate::library;
use crate::lines;
use crate::output::{self, words, Failure};
use crate::series::Files;
use crate::text;

/// A month's calls, packed, and where each of them stands. Its name is as it is shown, its source as it was given; `settled` is which month it is,
/// where that is known.
pub struct Month {
    pub name: String,
    pub source: String,
    pub settled: Option<calendar::Month>,
    pub file: Vec<u8>,
    pub calls: Vec<Call>,
    /// The files of the text's series, by their paths, and as they were read.
    pub series: Vec<PathBuf>,
    pub files: Files,
}

/// The bytes of a file, of a named pipe, or of standard input for `-`.
pub fn read(name: &OsStr) -> Result<Vec<u8>, Failure> {
    if name == "-" {
        let mut bytes = Vec::new();
        if output::input_closed() {
            return Err(Failure::new("standard input is closed"));
        }
        if io::stdin().is_terminal() {
            output::warn("reads standard input; end it with Ctrl-D");
        }
        return io::stdin()
            .read_to_end(&mut bytes)
            .map(|_| bytes)
            .map_err(|error| {
                Failure::new(format!("standard input cannot be read: {}", words(&error)))
            });
    }
    fs::read(name).map_err(|error| Failure::new(format!("{}: {}", shown(name), words(&error))))
}

/// The name as it is shown.
pub fn shown(name: &OsStr) -> Cow<'_, str> {
    if name == "-" {
        "standard input".into()
    } else {
        name.to_string_lossy()
    }
}

/// The folder that names in the text are looked up in.
pub fn folder(name: &OsStr) -> PathBuf {
    match Path::new(name).parent() {
        Some(folder) if name != "-" => folder.to_path_buf(),
        _ => PathBuf::new(),
    }
}

const MARK: &[u8] = b"\xEF\xBB\xBF";

/// Whether the bytes are text. No call's kind is a printable character, so a message file never looks like one.
pub fn is_text(bytes: &[u8]) -> bool {
    let first = bytes.iter().find(|byte| !byte.is_ascii_whitespace());
    bytes.starts_with(MARK) || first.is_some_and(|byte| byte.is_ascii_graphic())
}

/// A text without a mark in front of it.
fn unmarked(name: &OsStr, bytes: &[u8]) -> Result<(), Failure> {
    let mark = "begins with a byte order mark; save it as UTF-8 without one";
    if bytes.starts_with(MARK) {
        return Err(Failure::new(format!("{}: {mark}", shown(name))));
    }
    Ok(())
}

/// Bytes that are no text of another encoding.
fn encoded(name: &OsStr, bytes: &[u8]) -> Result<(), Failure> {
    let wide = "is text in UTF-16; save it as UTF-8 without a byte order mark";
    if bytes.starts_with(b"\xFF\xFE") || bytes.starts_with(b"\xFE\xFF") {
        return Err(Failure::new(format!("{}: {wide}", shown(name))));
    }
    Ok(())
}

/// What is wrong with each bad line of a text.
pub fn wrong(name: &OsStr, complaints: &[String]) -> Failure {
    let told = |complaint: &String| format!("{}: {complaint}", shown(name));
    Failure::of(complaints.iter().map(told).collect())
}

/// The bytes of a text that is no month: `what` says what it has, for bytes that are none.
pub fn text(name: &OsStr, what: &str) -> Result<Vec<u8>, Failure> {
    let bytes = read(name)?;
    encoded(name, &bytes)?;
    unmarked(name, &bytes)?;
    if !is_text(&bytes) && !bytes.iter().all(u8::is_ascii_whitespace) {
        return Err(Failure::new(format!("{}: is no text; {what}", shown(name))));
    }
    Ok(bytes)
}

/// The text's packed calls; every bad line is named at once.
pub fn packed(wanted: &Wanted, bytes: &[u8]) -> Result<Month, Failure> {
    let name = &wanted.file;
    unmarked(name, bytes)?;
    let folder = folder(name);
    let packed = text::packed(bytes, &folder, wanted.month);
    let packed = packed.map_err(|complaints| wrong(name, &complaints))?;
    Ok(Month {
        name: shown(name).into_owned(),
        source: name.to_string_lossy().into_owned(),
        settled: packed.month,
        file: packed.file,
        calls: packed.calls,
        series: lines::files(bytes, &folder),
        files: packed.files,
    })
}

/// The calls of a message file, as far as it is whole.
pub fn unpacked(file: &[u8]) -> Vec<Call> {
    let mut calls = Vec::new();
    let mut reader = library::Reader::new(file);
    while let library::Read::Call(call) = reader.next() {
        calls.push(Call {
            place: Place {
                line: 0,
                number: calls.len() + 1,
                offset: call.offset,
            },
            ..call.into()
        });
    }
    calls
}

/// The month of a message file, with its calls as far as they are asked for.
pub fn message(wanted: &Wanted, file: Vec<u8>, calls: Vec<Call>) -> Month {
    Month {
        name: shown(&wanted.file).into_owned(),
        source: wanted.file.to_string_lossy().into_owned(),
        settled: wanted.month,
        file,
        calls,
        series: Vec::new(),
        files: Files::new(Path::new("")),
    }
}

/// The month that a file holds.
pub fn month(wanted: &Wanted) -> Result<Month, Failure> {
    let name = &wanted.file;
    let bytes = read(name)?;
    let shown = shown(name);
    if bytes.iter().all(|byte| byte.is_ascii_whitespace()) {
        return Err(Failure::new(format!("{shown}: is empty: it has no calls")));
    }
    encoded(name, &bytes)?;
    if is_text(&bytes) {
        let month = packed(wanted, &bytes)?;
        if month.calls.is_empty() {
            return Err(Failure::new(format!("{shown}: is text without a call")));
        }
        return Ok(month);
    }
    let calls = unpacked(&bytes);
    Ok(message(wanted, bytes, calls))
}
