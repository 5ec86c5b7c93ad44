//! The command line.

use std::ffi::OsString;

use crate::calendar::{Month, MOST_DAY};
use crate::help;
use crate::output::Failure;

/// What is asked for.
#[derive(Clone, Copy, PartialEq)]
pub enum Command {
    Overview,
    HelpOn(&'static str),
    Manual,
    Version,
    Run,
    Figures,
    Log,
    Points,
    Runs,
    Deltas,
    Report,
    Page,
    Pack,
    Print,
    Day,
    Date,
    Calendar,
    Causes,
}

/// How a list is written.
#[derive(Clone, Copy, PartialEq)]
pub enum Form {
    Text,
    Csv,
    Json,
}

/// A command with its options.
pub struct Wanted {
    pub command: Command,
    pub file: OsString,
    pub words: Vec<OsString>,
    /// The text of schedules.
    pub schedules: Option<OsString>,
    pub form: Form,
    pub run: Option<u64>,
    pub group: Option<u64>,
    pub all: bool,
    pub to: Option<OsString>,
    pub month: Option<Month>,
    /// First delivery, clearing and correction: a number or a date each.
    pub deadlines: [Option<OsString>; 3],
    /// The last day number of a calendar.
    pub last: Option<u64>,
}

impl Wanted {
    /// Without any option.
    fn new() -> Wanted {
        Wanted {
            command: Command::Overview,
            file: OsString::new(),
            words: Vec::new(),
            schedules: None,
            form: Form::Text,
            run: None,
            group: None,
            all: false,
            to: None,
            month: None,
            deadlines: [None, None, None],
            last: None,
        }
    }
}

const DEADLINES: [&str; 3] = ["--first", "--clearing", "--correction"];

/// The commands by name, each with the options that it takes.
pub const COMMANDS: [(&str, Command, &[&str]); 14] = [
    ("run", Command::Run, &["--all", "--month"]),
    (
        "figures",
        Command::Figures,
        &["--csv", "--json", "--run", "--group", "--all", "--month"],
    ),
    (
        "log",
        Command::Log,
        &["--csv", "--json", "--run", "--group", "--month"],
    ),
    (
        "points",
        Command::Points,
        &["--csv", "--json", "--run", "--group", "--month"],
    ),
    (
        "runs",
        Command::Runs,
        &["--csv", "--json", "--run", "--month"],
    ),
    (
        "deltas",
        Command::Deltas,
        &["--csv", "--json", "--run", "--group", "--all", "--month"],
    ),
    (
        "report",
        Command::Report,
        &["--csv", "--json", "--run", "--group", "--all", "--month"],
    ),
    ("page", Command::Page, &["--schedules", "--month", "-o"]),
    ("pack", Command::Pack, &["--month", "-o"]),
    ("print", Command::Print, &["--month", "-o"]),
    ("day", Command::Day, &["--csv", "--json"]),
    ("date", Command::Date, &["--csv", "--json"]),
    (
        "calendar",
        Command::Calendar,
        &[
            "--csv",
            "--json",
            DEADLINES[0],
            DEADLINES[1],
            DEADLINES[2],
            "--to",
        ],
    ),
    ("causes", Command::Causes, &["--csv", "--json"]),
];

fn wrong(line: String) -> Failure {
    Failure::of(vec![line, "`desk --help` shows how it is used".to_string()])
}

/// An option that a command does not take: which commands take it, or what it takes itself.
fn no_option(name: &str, options: &[&str], option: &str) -> Failure {
    let having: Vec<&str> = COMMANDS
        .iter()
        .filter(|(_, _, options)| options.contains(&option))
        .map(|(name, _, _)| *name)
        .collect();
    let rest = match having[..] {
        [] if options.is_empty() => "it takes none".to_string(),
        [] => format!("its options are {}", options.join(", ")),
        [one] => format!("desk {one} has it"),
        _ => format!("{} have it", having.join(", ")),
    };
    wrong(format!("desk {name} has no option {option}; {rest}"))
}

fn number(option: &str, word: Option<OsString>, most: u64) -> Result<Option<u64>, Failure> {
    let word = word.unwrap_or_default().to_string_lossy().into_owned();
    match word.parse() {
        Ok(number) if (1..=most).contains(&number) => Ok(Some(number)),
        _ => Err(wrong(format!(
            "{option} takes a number from 1 to {most}: '{word}'"
        ))),
    }
}

/// The month of `--month`.
fn month(word: Option<OsString>) -> Result<Option<Month>, Failure> {
    let word = word.unwrap_or_default().to_string_lossy().into_owned();
    match Month::read(&word).map(Month::known) {
        Some(Ok(month)) => Ok(Some(month)),
        _ => Err(wrong(format!(
            "--month takes a month of 2020 to 2059, written YYYY-MM: '{word}'"
        ))),
    }
}

fn no_command(word: &str) -> Failure {
    let names: Vec<&str> = COMMANDS.iter().map(|(name, _, _)| *name).collect();
    wrong(format!(
        "there is no command '{word}'; commands are {}",
        names.join(", ")
    ))
}

/// `desk --help`, perhaps with a command's name behind it.
fn help_on(word: Option<OsString>) -> Result<Command, Failure> {
    let Some(word) = word else {
        return Ok(Command::Overview);
    };
    let found = COMMANDS.iter().find(|(name, _, _)| word == *name);
    found.map_or_else(
        || Err(no_command(&word.to_string_lossy())),
        |(name, _, _)| Ok(Command::HelpOn(name)),
    )
}

/// The command that the words ask for.
pub fn read(words: Vec<OsString>) -> Result<Wanted, Failure> {
    let mut wanted = Wanted::new();
    let mut words = words.into_iter();
    let Some(first) = words.next() else {
        return Err(Failure::text(&help::overview()));
    };
    let first = first.to_string_lossy();
    wanted.command = match &*first {
        "--help" | "-h" | "help" => help_on(words.next())?,
        "--version" => Command::Version,
        "--man" => Command::Manual,
        _ => {
            let found = COMMANDS.iter().find(|(name, _, _)| *name == first);
            let (name, command, options) = found.ok_or_else(|| no_command(&first))?;
            wanted.command = *command;
            rest(&mut wanted, name, options, words)?;
            return Ok(wanted);
        }
    };
    match words.next() {
        Some(word) => Err(wrong(format!(
            "nothing follows: '{}'",
            word.to_string_lossy()
        ))),
        None => Ok(wanted),
    }
}

/// A word that begins with `--`, or `-o` and the like, with the value behind its `=`.
fn option_of(word: &OsString) -> Option<(String, Option<OsString>)> {
    let text = word.to_string_lossy();
    if text == "-" || !text.starts_with('-') {
        return None;
    }
    match text.split_once('=') {
        Some((option, value)) if text.starts_with("--") => {
            Some((option.to_string(), Some(value.into())))
        }
        _ => Some((text.into_owned(), None)),
    }
}

/// The options and names behind a command.
fn rest(
    wanted: &mut Wanted,
    name: &'static str,
    options: &[&str],
    mut words: impl Iterator<Item = OsString>,
) -> Result<(), Failure> {
    let mut bare = false;
    let mut seen: Vec<String> = Vec::new();
    while let Some(word) = words.next() {
        let Some((option, value)) = option_of(&word).filter(|_| !bare) else {
            wanted.words.push(word);
            continue;
        };
        match option.as_str() {
            "--" => {
                bare = true;
                continue;
            }
            "--help" | "-h" => {
                wanted.command = Command::HelpOn(name);
                return Ok(());
            }
            known if !options.contains(&known) => return Err(no_option(name, options, known)),
            _ => {}
        }
        if seen.contains(&option) {
            return Err(wrong(format!("{option} stands twice")));
        }
        take(wanted, &option, value, &mut words)?;
        seen.push(option);
    }
    if ["--csv", "--json"]
        .iter()
        .all(|form| seen.iter().any(|option| option == form))
    {
        return Err(wrong("--csv and --json do not go together".to_string()));
    }
    named(wanted, name)
}

/// What the words are that are no options: a file or two, or a question to the calendar.
fn named(wanted: &mut Wanted, name: &str) -> Result<(), Failure> {
    let (words, what) = match wanted.command {
        Command::Causes => return Ok(()),
        Command::Day => (2, "a month and a date: desk day 2026-10 2026-11-12"),
        Command::Date => (2, "a month and a day number: desk date 2026-10 9"),
        Command::Calendar => (1, "one month: desk calendar 2026-10"),
        Command::Report => (
            2,
            "two files, a month and its schedules: desk report month.calls month.schedules",
        ),
        _ => (1, "one file; `-` is standard input"),
    };
    if wanted.words.len() != words {
        return Err(wrong(format!("desk {name} takes {what}")));
    }
    if matches!(
        wanted.command,
        Command::Day | Command::Date | Command::Calendar
    ) {
        return Ok(());
    }
    wanted.file = wanted.words.remove(0);
    if wanted.command == Command::Report {
        wanted.schedules = wanted.words.pop();
    }
    if wanted.file == "-" && wanted.schedules.as_ref().is_some_and(|name| name == "-") {
        return Err(wrong(
            "the month and its schedules cannot both be standard input".to_string(),
        ));
    }
    Ok(())
}

/// An option that the command has.
fn take(
    wanted: &mut Wanted,
    option: &str,
    value: Option<OsString>,
    words: &mut impl Iterator<Item = OsString>,
) -> Result<(), Failure> {
    if matches!(option, "--csv" | "--json" | "--all") && value.is_some() {
        return Err(wrong(format!("{option} takes no value")));
    }
    match option {
        "--csv" => wanted.form = Form::Csv,
        "--json" => wanted.form = Form::Json,
        "--all" => wanted.all = true,
        "--run" => wanted.run = number(option, value.or_else(|| words.next()), 2)?,
        "--group" => wanted.group = number(option, value.or_else(|| words.next()), 64)?,
        "--to" => wanted.last = number(option, value.or_else(|| words.next()), MOST_DAY)?,
        "--month" => wanted.month = month(value.or_else(|| words.next()))?,
        _ => word(wanted, option, value.or_else(|| words.next()))?,
    }
    Ok(())
}

/// An option whose word is looked at later: a deadline, or a file's name.
fn word(wanted: &mut Wanted, option: &str, word: Option<OsString>) -> Result<(), Failure> {
    let deadline = DEADLINES.iter().position(|name| *name == option);
    match (deadline, word) {
        (Some(at), Some(day)) => wanted.deadlines[at] = Some(day),
        (Some(_), None) => return Err(wrong(format!("{option} takes a day number or a date"))),
        (None, Some(file)) if option == "--schedules" => wanted.schedules = Some(file),
        (None, Some(file)) => wanted.to = Some(file),
        (None, None) => return Err(wrong(format!("{option} takes a file"))),
    }
    Ok(())
}
