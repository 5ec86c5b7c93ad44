//! A valid message file checked by the host's entry (linked), by the reader of `tests/` with its number reader inlined by
//! force (inlined), by the reader of the benches' desks (straight); and copied as it is (copy).
//!
//!     message                  a line for each file and size: nanoseconds of each
//!     message NAME FILE SIZE   one check or copy, for a count of its instructions
//!
//! Three files: `month` has submissions whose energies are of one level each, as a network's are, `mixed` has energies
//! of any number of bytes from one to six, `calls` has calls without a series alone.
//!
//! No reader has a buffer to clear: all only read the file, and have read it before the first round. The copy goes to memory
//! that was written before.

use emorizugu_bench::{best, reader};
use emorizugu_tests::generator::Random;
use emorizugu_tests::{linked, message, numbers};
use std::arch::asm;
use std::env;
use std::hint::black_box;
use std::process::exit;

const FILES: [&str; 3] = ["month", "mixed", "calls"];
const SIZES: [usize; 3] = [64 << 10, 1 << 20, 16 << 20];

/// Bytes that each checks in a round, if the file is not longer, and in all rounds.
const ROUND: usize = 256 << 10;
const TOTAL: usize = 80 << 20;

/// Where the linker puts the readers, in steps of 16 bytes: `PLACE` at the build. Branches at other places in the
/// processor's lines can take more than half as much time again, so the readers are timed at several.
const PLACE: usize = match option_env!("PLACE") {
    Some(digit) => (digit.as_bytes()[0] - b'0') as usize,
    None => 0,
};

/// Bytes that move what the linker puts behind them.
#[inline(never)]
fn space() {
    unsafe { asm!("jmp 2f", ".skip {}", "2:", const 16 * PLACE) }
}

/// The host's entry, under a name for the count of its instructions.
#[no_mangle]
#[inline(never)]
pub fn bench_linked(file: &[u8]) -> u64 {
    linked::file_refusal(file)
}

/// The reader of `tests/`, called as the host's entry is.
#[no_mangle]
#[inline(never)]
pub fn bench_inlined(file: &[u8]) -> u64 {
    numbers::verdict(file).0
}

/// The reader of the benches' desks.
#[no_mangle]
#[inline(never)]
pub fn bench_straight(file: &[u8]) -> u64 {
    reader::check(file).map_or_else(|refusal| refusal.cause.number(), |()| 0)
}

/// A plain copy.
#[no_mangle]
#[inline(never)]
pub fn bench_copy(file: &[u8], to: &mut [u8]) {
    to.copy_from_slice(file);
}

/// A file as it grows, and room for one call.
struct Growing {
    file: Vec<u8>,
    call: Vec<u8>,
    random: Random,
}

impl Growing {
    fn append(&mut self, kind: u64, fields: &[u64], series: &[u64]) {
        let length = message::write(kind, fields, series, &mut self.call).expect("a call");
        self.file.extend_from_slice(&self.call[..length]);
    }

    /// A submission of 2,976 energies.
    fn submission(&mut self, mut energy: impl FnMut(&mut Random) -> u64) {
        let series: Vec<u64> = (0..2_976).map(|_| energy(&mut self.random)).collect();
        let point = 1 + self.random.below(256) as u64;
        self.append(message::SUBMIT, &[point, 20_250_101_120_000, 2], &series);
    }

    /// A call without a series, as a desk would get it.
    fn short(&mut self) {
        let point = 1 + self.random.below(256) as u64;
        let day = self.random.below(400) as u64;
        match self.random.below(6) {
            0 => {
                let mut fields = [3; message::MOST_FIELDS];
                fields[..7].copy_from_slice(&[2_976, 10, 30, 150, 4, 1, 2]);
                self.append(1, &fields, &[]);
            }
            1 => self.append(2, &[point, 2, 1, 5, day], &[]),
            2 => self.append(3, &[point, day], &[]),
            3 => self.append(5, &[point, 20_250_101_120_000, 1, day], &[]),
            4 => self.append(6, &[3, 17, day], &[]),
            _ => self.append(7 + point % 2, &[1, day], &[]),
        }
    }

    /// The next call of a file of this name.
    fn grow(&mut self, name: &str) {
        match name {
            "month" => {
                let level = 1_000 << self.random.below(12);
                self.submission(|random| (level / 2 + random.below(level)) as u64);
            }
            "mixed" => self.submission(|random| random.bits(40)),
            _ => self.short(),
        }
    }
}

/// A valid file of exactly `size` bytes.
fn file(name: &str, size: usize) -> Vec<u8> {
    let mut growing = Growing {
        file: Vec::new(),
        call: vec![0; 1 << 16],
        random: Random::new(5),
    };
    let mut whole = 0;
    while growing.file.len() + 6 <= size {
        whole = growing.file.len();
        growing.grow(name);
    }
    growing.file.truncate(whole);
    // Closes of three and four bytes fill the rest, which has at least six.
    while growing.file.len() < size {
        let day = match (size - growing.file.len()) % 3 {
            0 => 31,
            _ => 151,
        };
        growing.append(7, &[1, day], &[]);
    }
    growing.file
}

/// Times all on each file, by turns.
fn time() {
    for name in FILES {
        for size in SIZES {
            let file = file(name, size);
            assert_eq!(file.len(), size);
            let verdicts = [bench_linked, bench_inlined, bench_straight].map(|check| check(&file));
            assert_eq!(verdicts, [0; 3]);
            let mut to = vec![1; size];
            let mut linked = || {
                black_box(bench_linked(black_box(&file)));
            };
            let mut inlined = || {
                black_box(bench_inlined(black_box(&file)));
            };
            let mut straight = || {
                black_box(bench_straight(black_box(&file)));
            };
            let mut copy = || bench_copy(black_box(&file), black_box(&mut to));
            let calls = (ROUND / size).max(1);
            let all: [&mut dyn FnMut(); 4] = [&mut linked, &mut inlined, &mut straight, &mut copy];
            let times = best(TOTAL / (calls * size), calls, all);
            let times = times.map(|time| format!("{time:.0}")).join(" ");
            println!("{name} {size} {times}");
        }
    }
}

fn main() {
    let words: Vec<String> = env::args().skip(1).collect();
    let words: Vec<&str> = words.iter().map(String::as_str).collect();
    match words[..] {
        [] => time(),
        [which, name, size] if FILES.contains(&name) => {
            let file = file(name, size.parse().expect("a size in bytes"));
            let answer = match which {
                "linked" => bench_linked(&file),
                "inlined" => bench_inlined(&file),
                "straight" => bench_straight(&file),
                _ => {
                    bench_copy(&file, &mut vec![1; file.len()]);
                    0
                }
            };
            println!("{which} {name} {size}: {answer}");
        }
        _ => {
            space();
            eprintln!("usage: message [linked|inlined|straight|copy month|mixed|calls SIZE]");
            exit(2);
        }
    }
}
