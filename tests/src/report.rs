//! The report on a book and schedules that may hold anything: as rows of words, and in books and schedules of bytes, eight to
//! a number, lowest first, two's complement. Differences and sums wrap at 64 bits.

use crate::figure;

/// Rows of one run of a book: groups 1 to 64, delta T, areas 1 to 16.
const ROWS: usize = 81;

/// Surplus and shortfall of a quarter hour: the larger of 0 and the signed word of schedule minus figure, and of figure minus
/// schedule, each wrapped by itself.
pub fn deviation(schedule: u64, figure: u64) -> [u64; 2] {
    let surplus = schedule.wrapping_sub(figure) as i64;
    let shortfall = figure.wrapping_sub(schedule) as i64;
    [surplus.max(0) as u64, shortfall.max(0) as u64]
}

/// The sums of surplus and shortfall over a month.
pub fn sums(schedule: &[u64], figures: &[u64]) -> [u64; 2] {
    let mut sums = [0u64; 2];
    for (schedule, figure) in schedule.iter().zip(figures) {
        let deviation = deviation(*schedule, *figure);
        sums = [0, 1].map(|side| sums[side].wrapping_add(deviation[side]));
    }
    sums
}

/// A group's row of schedules, and its row of a run in a book, of so many items each.
pub fn rows<'a, T>(
    schedules: &'a [T],
    book: &'a [T],
    length: usize,
    run: u64,
    group: u64,
) -> [&'a [T]; 2] {
    let (run, group) = (run as usize - 1, group as usize - 1);
    let row = |store: &'a [T], row: usize| &store[row * length..][..length];
    [row(schedules, group), row(book, run * ROWS + group)]
}

/// 3 for a number outside its range, else 2 for a book of another length than 1,296 bytes a quarter hour or schedules of
/// another length than 512, else 0.
pub fn refusal(book: &[u8], schedules: &[u8], quarters: u64, run: u64, group: u64) -> u64 {
    match figure::refusal(book, quarters, run, group, 1) {
        0 if schedules.len() as u64 != 512 * quarters => 2,
        refusal => refusal,
    }
}

/// The sums of surplus and shortfall over the month, both 0 where `refusal` is not 0.
pub fn of_bytes(book: &[u8], schedules: &[u8], quarters: u64, run: u64, group: u64) -> [u64; 2] {
    if refusal(book, schedules, quarters, run, group) != 0 {
        return [0, 0];
    }
    let [schedule, figures] = rows(schedules, book, 8 * quarters as usize, run, group);
    sums(&words(schedule), &words(figures))
}

/// The numbers of bytes.
pub fn words(bytes: &[u8]) -> Vec<u64> {
    let word = |eight: &[u8]| u64::from_le_bytes(eight.try_into().expect("eight bytes"));
    bytes.chunks_exact(8).map(word).collect()
}

/// The bytes of numbers.
pub fn bytes(words: &[u64]) -> Vec<u8> {
    words.iter().flat_map(|word| word.to_le_bytes()).collect()
}
