//! `desk`: a month of calls through the proved settlement desk, told in words.
#![no_main]

mod arguments;
mod before;
mod calendar;
mod calls;
mod causes;
mod dates;
mod days;
mod deltas;
mod deviation;
mod energies;
mod entries;
mod fields;
mod guard;
mod help;
mod input;
mod library;
mod lines;
mod lists;
mod month;
mod numbers;
mod output;
mod page;
mod past;
mod print;
mod reasons;
mod refusals;
mod report;
mod rows;
mod schedules;
mod selections;
mod series;
mod sheet;
mod summary;
mod table;
mod text;
mod trials;

use arguments::{Command, Wanted};
use output::Failure;

/// Everything was accepted.
pub const ACCEPTED: i32 = 0;
/// Some calls were refused, or the file is damaged behind answered calls; or a question to the calendar was refused; or the sums of reports do not add up.
pub const REFUSED: i32 = 1;
/// Nothing could be run, or the output could not be written.
pub const NOTHING: i32 = 2;

/// The program's own start, and not Rust's: that one opens closed streams on nothing, and a closed output would pass for a written one.
#[no_mangle]
pub extern "C" fn main() -> i32 {
    let words = std::env::args_os().skip(1).collect();
    let outcome = output::streams()
        .and_then(|()| arguments::read(words))
        .and_then(|wanted| perform(&wanted));
    outcome.unwrap_or_else(|failure| {
        failure.tell();
        failure.status
    })
}

fn perform(wanted: &Wanted) -> Result<i32, Failure> {
    match wanted.command {
        Command::Overview => said(&help::overview()),
        Command::HelpOn(name) => said(&help::on(name)),
        Command::Manual => said(&help::manual()),
        Command::Version => said(&help::version()),
        Command::Causes => causes::tell(&wanted.words, wanted.form),
        Command::Run => summary::run(wanted),
        Command::Figures => lists::figures(wanted),
        Command::Log => lists::log(wanted),
        Command::Points => lists::points(wanted),
        Command::Runs => lists::runs(wanted),
        Command::Deltas => lists::deltas(wanted),
        Command::Report => report::report(wanted),
        Command::Page => page::write(wanted),
        Command::Pack => text::pack(wanted),
        Command::Print => print::print(wanted),
        Command::Day => days::day(wanted),
        Command::Date => days::date(wanted),
        Command::Calendar => days::calendar(wanted),
    }
}

fn said(text: &str) -> Result<i32, Failure> {
    output::write(text.as_bytes())?;
    Ok(ACCEPTED)
}
