//! The row adder of the book: a series added to a row, beside the same loop in plain Rust; and an old series out and a
//! new one in, in one pass and in two.

use emorizugu_bench::best;
use emorizugu_tests::generator::Random;
use std::hint::black_box;

extern "C" {
    fn drive_add_row(row: *mut u64, length: usize, series: *const u64, series_length: usize);
    fn drive_replace_row(
        row: *mut u64,
        length: usize,
        old: *const u64,
        old_length: usize,
        new: *const u64,
        new_length: usize,
    );
    fn drive_replace_row_twice(
        row: *mut u64,
        length: usize,
        old: *const u64,
        old_length: usize,
        new: *const u64,
        new_length: usize,
    );
}

const FIGURES: usize = 2_980;
const CALLS: usize = 1_000;
const ROUNDS: usize = 200;

fn linked_add_row(row: &mut [u64], series: &[u64]) {
    unsafe { drive_add_row(row.as_mut_ptr(), row.len(), series.as_ptr(), series.len()) }
}

fn replace_row(row: &mut [u64], old: &[u64], new: &[u64]) {
    unsafe {
        drive_replace_row(
            row.as_mut_ptr(),
            row.len(),
            old.as_ptr(),
            old.len(),
            new.as_ptr(),
            new.len(),
        )
    }
}

fn replace_row_twice(row: &mut [u64], old: &[u64], new: &[u64]) {
    unsafe {
        drive_replace_row_twice(
            row.as_mut_ptr(),
            row.len(),
            old.as_ptr(),
            old.len(),
            new.as_ptr(),
            new.len(),
        )
    }
}

#[inline(never)]
fn rust_add_row(row: &mut [u64], series: &[u64]) {
    for (figure, energy) in row.iter_mut().zip(series) {
        *figure = figure.wrapping_add(*energy);
    }
}

fn main() {
    let mut random = Random::new(6);
    let series: Vec<u64> = (0..FIGURES).map(|_| random.word()).collect();
    let new: Vec<u64> = (0..FIGURES).map(|_| random.word()).collect();

    let mut linked_row = vec![0; FIGURES];
    let mut rust_row = vec![0; FIGURES];
    let mut linked = || linked_add_row(black_box(&mut linked_row), black_box(&series));
    let mut rust = || rust_add_row(black_box(&mut rust_row), black_box(&series));
    let [linked, rust] = best(ROUNDS, CALLS, [&mut linked, &mut rust]);
    assert_eq!(linked_row, rust_row, "both rows after as many additions");
    println!(
        "row of {FIGURES} added: linked {linked:.0} ns, rust {rust:.0} ns, linked : rust {:.3}",
        linked / rust
    );

    let mut once_row = vec![0; FIGURES];
    let mut twice_row = vec![0; FIGURES];
    let mut once = || {
        replace_row(
            black_box(&mut once_row),
            black_box(&series),
            black_box(&new),
        )
    };
    let mut twice = || {
        replace_row_twice(
            black_box(&mut twice_row),
            black_box(&series),
            black_box(&new),
        )
    };
    let [once, twice] = best(ROUNDS, CALLS, [&mut once, &mut twice]);
    assert_eq!(once_row, twice_row, "both rows after as many replacements");
    println!(
        "old out and new in: one pass {once:.0} ns, two passes {twice:.0} ns, one : two {:.3}",
        once / twice
    );
    println!("Best of {ROUNDS} rounds of {CALLS} calls, both in one process by turns; rows and series in the cache,");
    println!("not cleared between calls.");
}
