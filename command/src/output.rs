//! What the program writes: standard output, a file whole or not at all, complaints on standard error.

use std::fs::{self, File, OpenOptions};
use std::io::{self, ErrorKind, IsTerminal, Write};
use std::path::Path;
use std::sync::atomic::{AtomicBool, Ordering};

use crate::NOTHING;

/// Why there is nothing to show.
pub struct Failure {
    pub lines: Vec<String>,
    pub status: i32,
    /// What stands in front of each line.
    pub front: &'static str,
}

/// The program's name, in front of its complaints.
const NAME: &str = "desk: ";

impl Failure {
    /// Nothing could be run.
    pub fn new(line: impl Into<String>) -> Failure {
        Failure::of(vec![line.into()])
    }

    /// Nothing could be run, for several reasons.
    pub fn of(lines: Vec<String>) -> Failure {
        Failure {
            lines,
            status: NOTHING,
            front: NAME,
        }
    }

    /// A text in the place of an answer.
    pub fn text(text: &str) -> Failure {
        Failure {
            front: "",
            ..Failure::of(text.lines().map(str::to_string).collect())
        }
    }

    /// Says it on standard error. Where that cannot be written there is nobody left to tell.
    pub fn tell(&self) {
        let text: String = self
            .lines
            .iter()
            .map(|line| format!("{}{line}\n", self.front))
            .collect();
        let _ = io::stderr().write_all(text.as_bytes());
    }
}

/// An error of the operating system, in its words and without its number.
pub fn words(error: &io::Error) -> String {
    match error.kind() {
        ErrorKind::NotFound => "no such file".to_string(),
        ErrorKind::PermissionDenied => "no permission".to_string(),
        ErrorKind::IsADirectory => "is a folder".to_string(),
        ErrorKind::StorageFull => "no space left".to_string(),
        ErrorKind::FileTooLarge => "it is larger than a file may be".to_string(),
        _ => {
            let text = error.to_string();
            text.split(" (os error").next().unwrap_or(&text).to_string()
        }
    }
}

fn is_open(stream: u32) -> bool {
    fs::symlink_metadata(format!("/proc/self/fd/{stream}")).is_ok()
        || !Path::new("/proc/self/fd").exists()
}

extern "C" {
    fn signal(number: i32, action: usize) -> usize;
}

/// A file that may not grow further is an error of a write, as a full disk is, and not the program's end.
fn ignore_limit() {
    const SIGXFSZ: i32 = 25;
    const IGNORE: usize = 1;
    unsafe { signal(SIGXFSZ, IGNORE) };
}

static INPUT_CLOSED: AtomicBool = AtomicBool::new(false);

/// Whether standard input was closed at the start.
pub fn input_closed() -> bool {
    INPUT_CLOSED.load(Ordering::Relaxed)
}

/// Standard output is open. A stream that is closed gets nothing in its place, so that no file that is opened later takes it.
pub fn streams() -> Result<(), Failure> {
    ignore_limit();
    let closed = [0, 1, 2].map(|stream| !is_open(stream));
    INPUT_CLOSED.store(closed[0], Ordering::Relaxed);
    for _ in closed.iter().filter(|closed| **closed) {
        // The lowest free number is this stream's.
        let nothing = OpenOptions::new().read(true).write(true).open("/dev/null");
        std::mem::forget(nothing);
    }
    if closed[1] {
        return Err(Failure::new("standard output is closed"));
    }
    Ok(())
}

/// The bytes to standard output.
pub fn write(bytes: &[u8]) -> Result<(), Failure> {
    let mut out = io::stdout().lock();
    out.write_all(bytes)
        .and_then(|()| out.flush())
        .map_err(|error| {
            Failure::new(format!(
                "standard output cannot be written: {}",
                words(&error)
            ))
        })
}

/// Whether standard output is a terminal that shows colours.
pub fn colours() -> bool {
    io::stdout().is_terminal()
        && std::env::var_os("NO_COLOR").is_none_or(|word| word.is_empty())
        && std::env::var_os("TERM").is_some_and(|term| term != "dumb")
}

/// A word on standard error; the work goes on.
pub fn warn(line: &str) {
    let _ = writeln!(io::stderr(), "{NAME}{line}");
}

/// The bytes to a file, whole or not at all: to a neighbour first, which then takes its name.
pub fn write_file(path: &Path, bytes: &[u8]) -> Result<(), Failure> {
    let refused = |error: io::Error| {
        Failure::new(format!(
            "{} cannot be written: {}",
            path.display(),
            words(&error)
        ))
    };
    if path.exists() && !path.is_file() {
        // A device or a named pipe has no neighbour.
        return fs::write(path, bytes).map_err(refused);
    }
    let target = fs::canonicalize(path).unwrap_or_else(|_| path.to_path_buf());
    let mut neighbour = target.clone().into_os_string();
    neighbour.push(format!(".{}.part", std::process::id()));
    let written = File::create(&neighbour)
        .and_then(|mut file| file.write_all(bytes).and_then(|()| file.sync_all()))
        .and_then(|()| fs::rename(&neighbour, &target));
    written.map_err(|error| {
        let _ = fs::remove_file(&neighbour);
        refused(error)
    })
}
