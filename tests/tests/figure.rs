//! Figures in books of bytes, right and wrong ones.

use emorizugu_tests::generator::{self, Random};
use emorizugu_tests::tally::Tally;
use emorizugu_tests::{figure, linked};

/// How often each answer is to have been compared at least.
const LEAST: u64 = 1_000;

/// Numbers far outside every range.
const FAR: [u64; 4] = [1 << 32, 1 << 63, u64::MAX - 1, u64::MAX];

/// One figure with both, its refusal and its word.
fn compare(tally: &mut Tally, book: &[u8], numbers: [u64; 4]) -> (u64, u64) {
    let [quarters, run, group, quarter] = numbers;
    let refusal = figure::refusal(book, quarters, run, group, quarter);
    let word = figure::figure(book, quarters, run, group, quarter);
    let linked = (
        linked::figure_refusal(book, quarters, run, group, quarter),
        linked::figure(book, quarters, run, group, quarter),
    );
    let length = book.len();
    assert_eq!(
        (refusal, word),
        linked,
        "{numbers:?} of a book of {length} bytes"
    );
    tally.add("figure", refusal);
    (refusal, word)
}

/// Books of a length that does not fit the quarter hours.
fn wrong_lengths(quarters: usize) -> Vec<usize> {
    let right = 1_296 * quarters;
    vec![
        0,
        right - 1_296,
        right - 8,
        right - 1,
        right + 1,
        right + 8,
        right + 1_296,
        162 * quarters,
    ]
}

#[test]
fn small_books_agree_at_every_number() {
    let (mut random, mut tally) = (Random::new(3), Tally::new());
    for quarters in 1..=5 {
        let right = 1_296 * quarters;
        let book = generator::book(&mut random, quarters + 1);
        let mut lengths = wrong_lengths(quarters);
        lengths.push(right);
        for length in lengths {
            every_number(&mut tally, &book[..length], quarters as u64);
        }
    }
    tally.print();
    tally.demand("figure", &[0, 2, 3], LEAST);
    for what in ["quarters", "run", "group", "quarter"] {
        tally.demand(what, &[3], LEAST);
    }
}

/// Every run, group and quarter hour in range, just outside it and far outside it, and other quarters than the book's.
fn every_number(tally: &mut Tally, book: &[u8], quarters: u64) {
    let upto = |last: u64| (0..=last + 1).chain(FAR);
    for run in upto(2) {
        for group in upto(64) {
            for quarter in upto(quarters) {
                let (refusal, _) = compare(tally, book, [quarters, run, group, quarter]);
                let in_range = |n: u64, last: u64| n >= 1 && n <= last;
                let ranges = [
                    ("run", in_range(run, 2)),
                    ("group", in_range(group, 64)),
                    ("quarter", in_range(quarter, quarters)),
                ];
                for (what, _) in ranges.iter().filter(|(_, holds)| !holds) {
                    tally.add(what, refusal);
                }
            }
            for other in [0, 2_981].into_iter().chain(FAR) {
                let (refusal, _) = compare(tally, book, [other, run, group, 1]);
                tally.add("quarters", refusal);
            }
        }
    }
}

#[test]
fn large_books_agree() {
    let (mut random, mut tally) = (Random::new(4), Tally::new());
    for quarters in [95, 96, 2_876, 2_976, 2_979, 2_980] {
        let whole = generator::book(&mut random, quarters + 1);
        let book = &whole[..1_296 * quarters];
        let last = quarters as u64;
        for run in 0..=3 {
            for group in 0..=65 {
                for quarter in [0, 1, 2, last / 2, last - 1, last, last + 1] {
                    compare(&mut tally, book, [last, run, group, quarter]);
                }
            }
        }
        for _ in 0..20_000 {
            let run = 1 + random.below(2) as u64;
            let group = 1 + random.below(64) as u64;
            let quarter = 1 + random.below(quarters) as u64;
            compare(&mut tally, book, [last, run, group, quarter]);
        }
        for length in wrong_lengths(quarters) {
            for group in 0..=65 {
                compare(&mut tally, &whole[..length], [last, 1, group, last]);
            }
        }
    }
    tally.print();
    tally.demand("figure", &[0, 2, 3], LEAST);
}

/// A book in which each figure is where the paper's rule puts it, both ends of the 64-bit range included.
#[test]
fn figures_stand_where_the_paper_puts_them() {
    let mut tally = Tally::new();
    let quarters = 3;
    let at = |run: u64, row: u64, quarter: u64| ((run - 1) * 81 + row) * quarters + quarter - 1;
    let ends = [i64::MIN, i64::MIN + 1, i64::MAX, i64::MAX - 1, -1, 0, 1];
    for shift in 0..ends.len() as u64 {
        let value = |index: u64| ends[((index + shift) % ends.len() as u64) as usize];
        let figures = (0..162 * quarters).flat_map(|index| value(index).to_le_bytes());
        let book: Vec<u8> = figures.collect();
        for run in 1..=2 {
            for group in 1..=64 {
                for quarter in 1..=quarters {
                    let read = compare(&mut tally, &book, [quarters, run, group, quarter]);
                    let stored = value(at(run, group - 1, quarter));
                    assert_eq!(read, (0, stored as u64));
                }
            }
        }
    }
    tally.print();
    tally.demand("figure", &[0], LEAST);
}
