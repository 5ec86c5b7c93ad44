//! The figure in a book of bytes, eight to a figure, lowest first, two's complement.

/// Rows of one run: groups 1 to 64, delta T, areas 1 to 16.
const ROWS: u64 = 81;

/// 3 for a number outside its range, else 2 for a book of another length than 1,296 bytes a quarter hour, else 0.
pub fn refusal(book: &[u8], quarters: u64, run: u64, group: u64, quarter: u64) -> u64 {
    let in_range = (1..=2_980).contains(&quarters)
        && (1..=2).contains(&run)
        && (1..=64).contains(&group)
        && (1..=quarters).contains(&quarter);
    if !in_range {
        3
    } else if book.len() as u64 != 1_296 * quarters {
        2
    } else {
        0
    }
}

/// The figure as a 64-bit word, 0 where `refusal` is not 0.
pub fn figure(book: &[u8], quarters: u64, run: u64, group: u64, quarter: u64) -> u64 {
    if refusal(book, quarters, run, group, quarter) != 0 {
        return 0;
    }
    let row = (run - 1) * ROWS + (group - 1);
    let at = 8 * (row * quarters + quarter - 1) as usize;
    let bytes = book[at..at + 8].try_into().expect("eight bytes");
    u64::from_le_bytes(bytes)
}
