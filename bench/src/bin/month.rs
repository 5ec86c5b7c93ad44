//! A month through five desks, each fed one message file: the host's entry (linked), the amending desk in Rust that tests
//! cause 1 at each call (amending), the one that does not test it at all (untested) and the one that also has each point's
//! versions in a chain (chained), and the plain desk in Rust (plain).
//!
//!     month                             compares the five, then times whole months
//!     month growth                      times a submission by the versions held
//!     month stack DESK                  the stack of one replay
//!     month DESK month QUARTERS         one replay of a month, for a count of its instructions
//!     month DESK growth QUARTERS HELD   one replay of so many submissions
//!
//! A desk is linked, amending, untested, chained or plain, and in the last two forms also none: all but the replay is done.
//!
//! All desks are lent the same buffers by turns. They are not cleared between two replays, and were written before the
//! first. Times are processor times of the one thread.

use emorizugu_bench::buffers::{Buffers, Replay, COUNTS};
use emorizugu_bench::cause::{LAST_CAUSE, VERSIONS};
use emorizugu_bench::compare::{compare, Desk};
use emorizugu_bench::months::{any_calls, growth, month, Month, WINDOWS};
use emorizugu_bench::series::DELTAS;
use emorizugu_bench::{amending, clock, linked, plain, stack};
use std::env;
use std::hint::black_box;
use std::process::exit;

const DESKS: [Desk; 5] = [
    ("linked", bench_linked),
    ("amending", bench_amending),
    ("untested", bench_untested),
    ("chained", bench_chained),
    ("plain", bench_plain),
];

/// Files of any calls that are compared before the months.
const COMPARED: u64 = 2_000;

/// Quarter hours of a day, a week and 31 days, and in how many rounds the plain desk takes part.
const MONTHS: [(usize, usize); 3] = [(96, 20), (672, 10), (2_976, 5)];

/// Rounds of a month.
const ROUNDS: usize = 100;

/// The host's entry, under a name for the count of its instructions.
#[no_mangle]
#[inline(never)]
pub fn bench_linked(file: &[u8], buffers: &mut Buffers) -> u64 {
    linked::replay(file, buffers)
}

/// The amending desk, called as the host's entry is.
#[no_mangle]
#[inline(never)]
pub fn bench_amending(file: &[u8], buffers: &mut Buffers) -> u64 {
    amending::replay(file, buffers)
}

/// The amending desk that does not test cause 1.
#[no_mangle]
#[inline(never)]
pub fn bench_untested(file: &[u8], buffers: &mut Buffers) -> u64 {
    amending::replay_untested(file, buffers)
}

/// The amending desk with the versions of each point in a chain.
#[no_mangle]
#[inline(never)]
pub fn bench_chained(file: &[u8], buffers: &mut Buffers) -> u64 {
    amending::replay_chained(file, buffers)
}

/// The plain desk, called as the host's entry is.
#[no_mangle]
#[inline(never)]
pub fn bench_plain(file: &[u8], buffers: &mut Buffers) -> u64 {
    plain::replay(file, buffers)
}

/// Ends the program with a message.
fn stop(message: &str) -> ! {
    eprintln!("month: {message}");
    exit(1);
}

fn buffers(month: &Month, word: u64) -> Buffers {
    Buffers::new(month.quarters, VERSIONS, month.calls, word)
}

/// Compares the desks on files of any calls, with values, logs and answers that are sometimes too short.
fn compare_any() {
    let (mut answers, mut apart) = ([0; LAST_CAUSE + 1], 0);
    for seed in 1..=COMPARED {
        let month = any_calls(seed);
        let mut lent = buffers(&month, u64::MAX);
        let short = (seed / 4 % 32) as usize;
        match seed % 4 {
            0 => lent.values.truncate(short),
            1 => lent.log.truncate(2 * short),
            2 if short < 8 => lent.answers.truncate(short),
            _ => {}
        }
        match compare(&month.file, &lent, &DESKS) {
            Err(difference) => stop(&format!("file {seed} of any calls: {difference}")),
            Ok(left) => {
                for &answer in &left.answers[..left.summary[0] as usize] {
                    answers[answer as usize] += 1;
                }
                let (first, second) = left.summary[COUNTS..].split_at(DELTAS);
                apart += usize::from(first != second);
            }
        }
    }
    let given = (0..).zip(answers).filter(|&(_, count)| count > 0);
    let given: Vec<String> = given.map(|(n, count)| format!("{n}: {count}")).collect();
    println!("The five desks are the same in answers, summary, statuses, log, series, values, book and schedules on {COMPARED} files");
    println!("of any calls, with these answers: {};", given.join(", "));
    println!("at the end of {apart} of them a delta has another group in run 2;");
    println!("and on each month below, where every call is accepted.");
    println!();
}

/// Compares the desks on a month, whose calls are all accepted, and gives buffers that hold it.
fn compare_month(month: &Month) -> Buffers {
    let left = match compare(&month.file, &buffers(month, 0), &DESKS) {
        Err(difference) => stop(&format!("Q = {}: {difference}", month.quarters)),
        Ok(left) => left,
    };
    let accepted = left.answers.iter().filter(|&&answer| answer == 0).count();
    if (accepted, left.summary[0]) != (month.calls, month.calls as u64) {
        stop(&format!("Q = {}: a call is refused", month.quarters));
    }
    left
}

/// The desks that take part in a round.
fn desks(round: usize, plain_rounds: usize) -> &'static [Desk] {
    if round < plain_rounds {
        &DESKS
    } else {
        &DESKS[..4]
    }
}

/// The processor time of one replay.
fn time(replay: Replay, month: &Month, buffers: &mut Buffers) -> f64 {
    clock::taken(|| {
        black_box(replay(black_box(&month.file), black_box(buffers)));
    })
}

/// Times whole months.
fn months() {
    compare_any();
    println!("quarters  calls   file MB  linked calls/s  amending calls/s  untested calls/s  chained calls/s  plain calls/s (rounds)  linked : amending  linked : untested  linked : chained  plain : linked");
    for (quarters, plain_rounds) in MONTHS {
        let month = month(quarters);
        let mut buffers = compare_month(&month);
        let mut best = [f64::INFINITY; 5];
        for round in 0..ROUNDS {
            for (best, (_, replay)) in best.iter_mut().zip(desks(round, plain_rounds)) {
                *best = best.min(time(*replay, &month, &mut buffers));
            }
        }
        let [linked, amending, untested, chained, plain] = best;
        let rate = |time: f64| 1e9 * month.calls as f64 / time;
        println!(
            "{quarters:8} {:6} {:9.2} {:15.0} {:17.0} {:17.0} {:16.0} {:14.0} {plain_rounds:8} {:18.2} {:18.2} {:17.2} {:15.1}",
            month.calls,
            month.file.len() as f64 / 1e6,
            rate(linked),
            rate(amending),
            rate(untested),
            rate(chained),
            rate(plain),
            linked / amending,
            linked / untested,
            linked / chained,
            plain / linked
        );
    }
    println!(
        "Best of {ROUNDS} rounds, of plain as many as are told; all calls of the month in each."
    );
}

/// The middle one of some numbers.
fn median(mut numbers: Vec<f64>) -> f64 {
    numbers.sort_by(f64::total_cmp);
    numbers[numbers.len() / 2]
}

/// Times a submission. A file with the submissions of a window and one without them are replayed one after the other,
/// and what the one takes longer is the time of these submissions.
fn submission(quarters: usize, (from, to): (usize, usize), rounds: usize, plain_rounds: usize) {
    let months = [growth(quarters, from), growth(quarters, to)];
    let mut buffers = compare_month(&months[1]);
    let mut times: [Vec<f64>; 5] = Default::default();
    for round in 0..rounds {
        for (times, (_, replay)) in times.iter_mut().zip(desks(round, plain_rounds)) {
            let [without, with] = [0, 1].map(|i| time(*replay, &months[i], &mut buffers));
            times.push((with - without) / (to - from) as f64);
        }
    }
    let [linked, amending, untested, chained, plain] = times.map(median);
    println!(
        "{quarters:8} {:>14} {linked:10.0} {amending:12.0} {untested:12.0} {chained:11.0} {plain:9.0} {:18.2} {:18.2} {:17.2} {:15.1}   {rounds}, {plain_rounds}",
        format!("{from} to {}", to - 1),
        linked / amending,
        linked / untested,
        linked / chained,
        plain / linked
    );
}

/// Times a submission by the versions held.
fn growing() {
    println!("quarters  versions held  linked ns  amending ns  untested ns  chained ns  plain ns  linked : amending  linked : untested  linked : chained  plain : linked   rounds");
    for window in WINDOWS {
        submission(96, window, 301, 101);
    }
    submission(2_976, WINDOWS[WINDOWS.len() - 1], 61, 7);
    println!("The middle one of the rounds' differences between two replays; the second number of rounds is that of plain.");
}

/// The stack of one replay of a month. What it is lent stands elsewhere.
fn stack_of(name: &str) {
    let month = month(96);
    let mut buffers = buffers(&month, 0);
    let mut tables = Box::new(linked::Tables::EMPTY);
    let used = match desk(name) {
        _ if name == "linked" => stack::used(move || {
            black_box(linked::replay_to(&month.file, &mut buffers, &mut tables));
        }),
        replay => stack::used(move || {
            black_box(replay(&month.file, &mut buffers));
        }),
    };
    match used {
        Some(bytes) => println!("{name:8} {bytes} bytes"),
        None => println!("{name:8} not known"),
    }
}

fn desk(name: &str) -> Replay {
    let desk = DESKS.iter().find(|desk| desk.0 == name);
    desk.unwrap_or_else(|| stop("a desk is linked, amending, untested, chained or plain"))
        .1
}

/// One replay, or none.
fn once(name: &str, month: &Month) {
    let mut buffers = buffers(month, 0);
    let result = match name {
        "none" => 0,
        _ => desk(name)(&month.file, &mut buffers),
    };
    println!("{name}: {result}, {:?}", &buffers.summary[..COUNTS]);
}

fn number(word: &str) -> usize {
    word.parse().unwrap_or_else(|_| stop("not a number"))
}

fn main() {
    let words: Vec<String> = env::args().skip(1).collect();
    let words: Vec<&str> = words.iter().map(String::as_str).collect();
    match words[..] {
        [] => months(),
        ["growth"] => growing(),
        ["stack", name] => stack_of(name),
        [name, "month", quarters] => once(name, &month(number(quarters))),
        [name, "growth", quarters, held] => once(name, &growth(number(quarters), number(held))),
        _ => stop("[growth | stack DESK | DESK month QUARTERS | DESK growth QUARTERS HELD]"),
    }
}
