//! Lodgings and reports: the script driver of `test_drive` (linked) beside the amending desk in Rust that tests cause 1 at each
//! call (amending) and the one that does not test it (untested), each fed one script; and reports by the host's entries beside
//! plain Rust over the same bytes.
//!
//!     reports                               compares all, then times
//!     reports DESK lodge QUARTERS CALLS     one script with so many lodgings behind a month, for a count of its instructions
//!     reports DESK report QUARTERS CALLS    the same with so many reports
//!     reports HOW bytes QUARTERS            every report of both runs from bytes
//!
//! A desk is linked, amending or untested. HOW is linked, once (plain Rust that works both sums out in one pass) or twice (a pass
//! for each, as the entries have it).

use emorizugu_bench::buffers::Buffers;
use emorizugu_bench::cause::VERSIONS;
use emorizugu_bench::months::{growth, Month};
use emorizugu_bench::series::{BOOK_ROWS, GROUPS, ROWS};
use emorizugu_bench::{amending, best, clock, linked, row};
use emorizugu_tests::call::{Call, Lengths};
use emorizugu_tests::generator::Random;
use emorizugu_tests::script::Record;
use emorizugu_tests::{linked as entries, message, replay, report};
use std::env;
use std::hint::black_box;
use std::process::exit;

/// A script through a fresh desk: how many places of the output are filled.
type Script = fn(&[u64], &mut Buffers, &mut [u64]) -> usize;

/// The report of a run and a group from a book and schedules of bytes.
type Sums = fn(&[u8], &[u8], u64, u64, u64) -> [u64; 2];

const DESKS: [(&str, Script); 3] = [
    ("linked", bench_linked),
    ("amending", bench_amending),
    ("untested", bench_untested),
];

const BYTES: [(&str, Sums); 3] = [
    ("linked", entries::report),
    ("once", once),
    ("twice", twice),
];

/// Quarter hours of a day, a week and 31 days.
const QUARTERS: [usize; 3] = [96, 672, 2_976];

/// Versions held where scripts are timed, and where their instructions are counted.
const TIMED: usize = 64;
const COUNTED: usize = VERSIONS;

/// Calls behind a month, and rounds.
const CALLS: usize = 256;
const ROUNDS: usize = 41;

/// The script driver, under a name for the count of its instructions.
#[no_mangle]
#[inline(never)]
pub fn bench_linked(script: &[u64], buffers: &mut Buffers, out: &mut [u64]) -> usize {
    linked::script(script, buffers, out)
}

/// The amending desk, called as the driver is.
#[no_mangle]
#[inline(never)]
pub fn bench_amending(script: &[u64], buffers: &mut Buffers, out: &mut [u64]) -> usize {
    amending::script(script, buffers, out)
}

/// The amending desk that does not test cause 1.
#[no_mangle]
#[inline(never)]
pub fn bench_untested(script: &[u64], buffers: &mut Buffers, out: &mut [u64]) -> usize {
    amending::script_untested(script, buffers, out)
}

/// Every report of both runs from bytes, under a name for the count of its instructions.
#[no_mangle]
#[inline(never)]
pub fn bench_bytes(how: Sums, book: &[u8], schedules: &[u8], quarters: u64) -> [u64; 2] {
    let mut all = [0u64; 2];
    for run in 1..=2 {
        for group in 1..=GROUPS {
            let sums = how(book, schedules, quarters, run, group);
            all = [0, 1].map(|side| all[side].wrapping_mul(3).wrapping_add(sums[side]));
        }
    }
    all
}

/// Ends the program with a message.
fn stop(message: &str) -> ! {
    eprintln!("reports: {message}");
    exit(1);
}

/// A group's rows of a book and schedules of bytes; none where a number is outside its range or a length is wrong.
#[inline(always)]
fn rows<'a>(
    book: &'a [u8],
    schedules: &'a [u8],
    quarters: u64,
    run: u64,
    group: u64,
) -> Option<[&'a [[u8; 8]]; 2]> {
    let in_range =
        (1..=2_980).contains(&quarters) && (1..=2).contains(&run) && (1..=GROUPS).contains(&group);
    let quarters = quarters as usize;
    if !in_range
        || book.len() != 8 * BOOK_ROWS * quarters
        || schedules.len() != 8 * GROUPS as usize * quarters
    {
        return None;
    }
    let (book, _) = book.as_chunks();
    let (schedules, _) = schedules.as_chunks();
    let (run, group) = (run as usize - 1, group as usize - 1);
    Some([
        &schedules[group * quarters..][..quarters],
        &book[(run * ROWS + group) * quarters..][..quarters],
    ])
}

/// Both sums in one pass.
#[inline(never)]
fn once(book: &[u8], schedules: &[u8], quarters: u64, run: u64, group: u64) -> [u64; 2] {
    let Some([schedule, figures]) = rows(book, schedules, quarters, run, group) else {
        return [0, 0];
    };
    let word = |bytes: &[u8; 8]| u64::from_le_bytes(*bytes);
    row::deviations(schedule.iter().map(word).zip(figures.iter().map(word)))
}

/// The sum of one side.
#[inline(always)]
fn side(rows: Option<[&[[u8; 8]]; 2]>) -> u64 {
    let Some([from, less]) = rows else {
        return 0;
    };
    let mut sum = 0u64;
    for (from, less) in from.iter().zip(less) {
        let difference = u64::from_le_bytes(*from).wrapping_sub(u64::from_le_bytes(*less)) as i64;
        sum = sum.wrapping_add(difference.max(0) as u64);
    }
    sum
}

#[inline(never)]
fn surplus(book: &[u8], schedules: &[u8], quarters: u64, run: u64, group: u64) -> u64 {
    side(rows(book, schedules, quarters, run, group))
}

#[inline(never)]
fn shortfall(book: &[u8], schedules: &[u8], quarters: u64, run: u64, group: u64) -> u64 {
    side(rows(book, schedules, quarters, run, group).map(|[schedule, figures]| [figures, schedule]))
}

/// A pass for each sum.
fn twice(book: &[u8], schedules: &[u8], quarters: u64, run: u64, group: u64) -> [u64; 2] {
    [surplus, shortfall].map(|sum| sum(book, schedules, quarters, run, group))
}

/// The call of a lodging or a report by its number, counted from 0: groups and runs by turns.
fn call(what: &str, quarters: usize, number: usize) -> Call {
    let group = 1 + number as u64 % GROUPS;
    let run = 1 + number as u64 / GROUPS % 2;
    let mut random = Random::new(1 + number as u64);
    let mut energy = || (random.below(2_000_000) as u64).wrapping_sub(500_000);
    match what {
        "lodge" => Call::Lodge {
            group,
            day: 2,
            series: (0..quarters).map(|_| energy()).collect(),
        },
        "report" => Call::Report { run, group },
        _ => stop("lodge or report"),
    }
}

/// The script of a month's calls and of calls behind them, each lent the whole buffers.
fn script(month: &Month, buffers: &Buffers, more: &[Call]) -> Vec<u64> {
    let lent = Lengths {
        values: buffers.values.len() as u64,
        book: buffers.book.len() as u64,
        log: buffers.log.len() as u64,
        schedules: buffers.schedules.len() as u64,
    };
    let (mut start, mut series) = (0, vec![0; month.quarters]);
    let mut numbers = Vec::new();
    while let Some(read) = message::read(&month.file, start, &mut series).expect("a call") {
        let call = replay::call_of(&read, &series);
        numbers.extend(Record::Call(call, lent).numbers());
        start = read.next;
    }
    for call in more {
        numbers.extend(Record::Call(call.clone(), lent).numbers());
    }
    numbers
}

/// A month with scripts of it: without more calls, and with so many.
struct Case {
    scripts: [Vec<u64>; 2],
    buffers: Buffers,
    out: Vec<u64>,
}

impl Case {
    fn new(what: &str, quarters: usize, held: usize, calls: usize) -> Case {
        let month = growth(quarters, held);
        let buffers = Buffers::new(quarters, VERSIONS, 0, 0);
        let more: Vec<Call> = (0..calls).map(|at| call(what, quarters, at)).collect();
        let scripts = [&[][..], &more].map(|more| script(&month, &buffers, more));
        let out = vec![0; month.calls + 3 * calls + buffers.book.len() + 3];
        Case {
            scripts,
            buffers,
            out,
        }
    }

    /// Every desk answers the same and leaves the same stores, and no call is refused.
    fn compare(&mut self, answers: usize) {
        let mut left = DESKS.map(|(name, run)| {
            let (mut buffers, mut out) = (self.buffers.clone(), self.out.clone());
            let filled = run(&self.scripts[1], &mut buffers, &mut out);
            out.truncate(filled);
            (name, out, buffers)
        });
        let (_, out, buffers) = left[0].clone();
        for (name, other, others) in &mut left {
            let same = out == *other && buffers.named() == others.named();
            if !same || out.len() != answers {
                stop(&format!("linked and {name} differ, or calls are not run"));
            }
        }
        self.buffers = buffers;
    }

    /// The processor time of each call behind the month, by each desk: the middle one of the rounds' differences.
    fn times(&mut self, calls: usize) -> [f64; 3] {
        let mut times: [Vec<f64>; 3] = Default::default();
        for _ in 0..ROUNDS {
            for (times, (_, run)) in times.iter_mut().zip(DESKS) {
                let [without, with] = [0, 1].map(|at: usize| {
                    let (script, buffers, out) =
                        (&self.scripts[at], &mut self.buffers, &mut self.out);
                    clock::taken(|| {
                        black_box(run(black_box(script), black_box(buffers), black_box(out)));
                    })
                });
                times.push((with - without) / calls as f64);
            }
        }
        times.map(|mut times| {
            times.sort_by(f64::total_cmp);
            times[ROUNDS / 2]
        })
    }
}

/// Times lodgings and reports by scripts.
fn scripts() {
    println!("call    quarters  linked ns  amending ns  untested ns  linked : amending  linked : untested");
    for what in ["lodge", "report"] {
        for quarters in QUARTERS {
            let mut case = Case::new(what, quarters, TIMED, CALLS);
            let answers =
                growth(quarters, TIMED).calls + CALLS * if what == "report" { 3 } else { 1 };
            case.compare(answers);
            let [linked, amending, untested] = case.times(CALLS);
            println!(
                "{what:7} {quarters:8} {linked:10.0} {amending:12.0} {untested:12.0} {:18.2} {:18.2}",
                linked / amending,
                linked / untested
            );
        }
    }
    println!("The middle one of {ROUNDS} rounds; {CALLS} calls behind a month of 256 points and {TIMED} versions.");
    println!();
}

/// A book and schedules with figures as of a month, in bytes.
fn month_in_bytes(quarters: usize) -> (Vec<u8>, Vec<u8>) {
    let mut case = Case::new("lodge", quarters, COUNTED, GROUPS as usize);
    let Case {
        scripts,
        buffers,
        out,
    } = &mut case;
    amending::script(&scripts[1], buffers, out);
    (
        report::bytes(&buffers.book),
        report::bytes(&buffers.schedules),
    )
}

/// Times every report of both runs from bytes.
fn bytes() {
    println!("quarters  linked ns  once ns  twice ns  linked : once  linked : twice");
    for quarters in QUARTERS {
        let (book, schedules) = month_in_bytes(quarters);
        let sums = BYTES.map(|(_, how)| bench_bytes(how, &book, &schedules, quarters as u64));
        if sums[0] != sums[1] || sums[0] != sums[2] {
            stop(&format!("reports from bytes differ: {sums:?}"));
        }
        let [mut linked, mut once, mut twice] = BYTES.map(|(_, how)| {
            let (book, schedules) = (&book, &schedules);
            move || {
                black_box(bench_bytes(
                    how,
                    black_box(book),
                    black_box(schedules),
                    quarters as u64,
                ));
            }
        });
        let all: [&mut dyn FnMut(); 3] = [&mut linked, &mut once, &mut twice];
        let times = best(60, 1 + 3_000 / quarters, all);
        let [linked, once, twice] = times.map(|time| time / 128.0);
        println!(
            "{quarters:8} {linked:10.0} {once:8.0} {twice:9.0} {:14.2} {:15.2}",
            linked / once,
            linked / twice
        );
    }
    println!(
        "A report of one group, the best of 60 rounds over all groups of both runs, by the clock."
    );
}

fn number(word: &str) -> usize {
    word.parse().unwrap_or_else(|_| stop("not a number"))
}

/// The one of a list with this name.
fn named<T: Copy>(list: &[(&str, T)], name: &str) -> T {
    let found = list.iter().find(|one| one.0 == name);
    found.unwrap_or_else(|| stop("no such desk")).1
}

fn main() {
    let words: Vec<String> = env::args().skip(1).collect();
    let words: Vec<&str> = words.iter().map(String::as_str).collect();
    match words[..] {
        [] => {
            scripts();
            bytes();
        }
        [how, "bytes", quarters] => {
            let quarters = number(quarters);
            let (book, schedules) = month_in_bytes(quarters);
            let sums = bench_bytes(named(&BYTES, how), &book, &schedules, quarters as u64);
            println!("{how}: {sums:?}");
        }
        [desk, what, quarters, calls] => {
            let mut case = Case::new(what, number(quarters), COUNTED, number(calls));
            let filled = named(&DESKS, desk)(&case.scripts[1], &mut case.buffers, &mut case.out);
            println!("{desk}: {filled} places");
        }
        _ => stop("[DESK lodge|report QUARTERS CALLS | linked|once|twice bytes QUARTERS]"),
    }
}
