//! What a command reads is not written over: `-o` takes another file.

use std::ffi::{OsStr, OsString};
use std::fs;
use std::os::unix::fs::MetadataExt;
use std::path::{Path, PathBuf};

use crate::arguments::Wanted;
use crate::output::{self, Failure};

const STANDARD_INPUT: &str = "/dev/stdin";

/// The file behind a path, by links too; none where it is no file of a disk.
fn file_of(path: &Path) -> Option<(u64, u64)> {
    let found = fs::metadata(path).ok().filter(fs::Metadata::is_file)?;
    Some((found.dev(), found.ino()))
}

/// Each file that is read, and what it is. `series` are those that the texts name.
fn sources(wanted: &Wanted, series: &[PathBuf]) -> Vec<(PathBuf, &'static str)> {
    let path = |name: &OsString| match name == "-" {
        true => PathBuf::from(STANDARD_INPUT),
        false => PathBuf::from(name),
    };
    let month = std::iter::once((path(&wanted.file), "the month itself"));
    let plan = wanted.schedules.iter().map(path);
    let plan = plan.map(|path| (path, "the text of schedules"));
    let series = series.iter().cloned();
    let series = series.map(|path| (path, "a series that is read"));
    month.chain(plan).chain(series).collect()
}

/// What the file of `-o` is, where the command reads it; with its other name, where it has one.
fn read_as(wanted: &Wanted, series: &[PathBuf], to: &OsStr) -> Option<String> {
    let target = file_of(Path::new(to))?;
    let mut sources = sources(wanted, series).into_iter();
    let (path, what) = sources.find(|(path, _)| file_of(path) == Some(target))?;
    Some(if path.as_os_str() == to {
        what.to_string()
    } else if path == Path::new(STANDARD_INPUT) {
        format!("{what}, on standard input")
    } else {
        format!("{what}, {}", path.display())
    })
}

/// The bytes to the file that is asked for, or to standard output.
pub fn deliver(wanted: &Wanted, series: &[PathBuf], bytes: &[u8]) -> Result<(), Failure> {
    let Some(to) = &wanted.to else {
        return output::write(bytes);
    };
    if let Some(what) = read_as(wanted, series, to) {
        return Err(Failure::new(format!(
            "-o {} is {what}; name another file: nothing is written",
            to.to_string_lossy()
        )));
    }
    output::write_file(Path::new(to), bytes)
}
