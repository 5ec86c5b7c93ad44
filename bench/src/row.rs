//! A row of the book, the series that are posted to it, and how far it is from a schedule. Sums wrap at 64 bits.

/// A series added to a row.
pub fn add(row: &mut [u64], series: &[u64]) {
    for (figure, energy) in row.iter_mut().zip(series) {
        *figure = figure.wrapping_add(*energy);
    }
}

/// A series subtracted from a row.
pub fn subtract(row: &mut [u64], series: &[u64]) {
    for (figure, energy) in row.iter_mut().zip(series) {
        *figure = figure.wrapping_sub(*energy);
    }
}

/// One series subtracted and another added, in one pass.
pub fn exchange(row: &mut [u64], out: &[u64], into: &[u64]) {
    for ((figure, out), into) in row.iter_mut().zip(out).zip(into) {
        *figure = figure.wrapping_sub(*out).wrapping_add(*into);
    }
}

/// What goes out of a row subtracted and what comes into it added.
pub fn change(row: &mut [u64], out: Option<&[u64]>, into: Option<&[u64]>) {
    match (out, into) {
        (None, None) => {}
        (None, Some(into)) => add(row, into),
        (Some(out), None) => subtract(row, out),
        (Some(out), Some(into)) => exchange(row, out, into),
    }
}

/// The sums of surplus and shortfall of schedules and figures: of the larger of 0 and the signed word of schedule minus figure,
/// and of figure minus schedule. The shortfall is the surplus less the difference, but for the least difference, which is
/// neither; so a quarter hour takes one comparison.
#[inline(always)]
pub fn deviations(pairs: impl Iterator<Item = (u64, u64)>) -> [u64; 2] {
    let (mut surplus, mut differences, mut least) = (0u64, 0u64, 0u64);
    for (planned, figure) in pairs {
        let difference = planned.wrapping_sub(figure);
        surplus = surplus.wrapping_add((difference as i64).max(0) as u64);
        differences = differences.wrapping_add(difference);
        least = least.wrapping_add(difference & difference.wrapping_neg() & 1 << 63);
    }
    let shortfall = surplus.wrapping_sub(differences).wrapping_sub(least);
    [surplus, shortfall]
}
