//! Rows of a csv that are missing, or there twice: by a column that counts beside the energies, in numbers or in times of day.

use crate::numbers::quoted;
use crate::table::Table;

/// The minutes of a day.
const DAY: i64 = 1440;

/// The first time of day in a cell, in minutes.
fn minutes(cell: &str) -> Option<i64> {
    let (front, behind) = cell.split_once(':')?;
    let hours = front
        .rsplit(|letter: char| !letter.is_ascii_digit())
        .next()?;
    let (hours, minutes): (i64, i64) = (hours.parse().ok()?, behind.get(..2)?.parse().ok()?);
    Some(60 * hours + minutes)
}

/// From each cell to the next: numbers, or times that go on with the next day.
fn steps(cells: &[&str]) -> Option<Vec<i64>> {
    let numbers: Option<Vec<i64>> = cells.iter().map(|cell| cell.parse().ok()).collect();
    let steps = |places: Vec<i64>| {
        places
            .windows(2)
            .map(|two| two[1].wrapping_sub(two[0]))
            .collect()
    };
    if let Some(numbers) = numbers {
        return Some(steps(numbers));
    }
    let times: Option<Vec<i64>> = cells.iter().map(|cell| minutes(cell)).collect();
    let times: Vec<i64> = steps(times?);
    let half = DAY / 2;
    Some(
        times
            .iter()
            .map(|step| (step + half).rem_euclid(DAY) - half)
            .collect(),
    )
}

/// The step that a column goes by: nearly all are that, and it leads on.
fn usual(steps: &[i64]) -> Option<i64> {
    let times = |step: &i64| steps.iter().filter(|other| *other == step).count();
    let mut rising: Vec<i64> = steps.iter().copied().filter(|step| *step > 0).collect();
    rising.sort_unstable();
    rising.dedup();
    // Of two that are as frequent the smaller.
    let step = rising.into_iter().rev().max_by_key(times)?;
    (steps.len() - times(&step) <= 1 + steps.len() / 8).then_some(step)
}

/// A column's cells and their steps, where it counts.
struct Count {
    cells: Vec<&'static str>,
    steps: Vec<i64>,
    usual: i64,
}

impl Count {
    /// Of the first column that counts, beside that of the energies.
    fn of(table: &Table, energies: usize) -> Option<Count> {
        let count = |column: usize| {
            let cells = table.column(column);
            let steps = steps(&cells)?;
            let usual = usual(&steps)?;
            Some(Count {
                cells,
                steps,
                usual,
            })
        };
        (0..table.columns())
            .filter(|column| *column != energies)
            .find_map(count)
    }

    /// The first step that is one of these, told by the lines around it, and how many more there are.
    fn told(
        &self,
        is_odd: impl Fn(i64) -> bool,
        words: impl Fn(usize, &str, &str) -> String,
    ) -> Option<String> {
        let odd = |at: &usize| is_odd(self.steps[*at]);
        let mut places = (0..self.steps.len()).filter(odd);
        let at = places.next()?;
        let more = match places.count() {
            0 => String::new(),
            more => format!(", and {more} more so"),
        };
        // The first row stands in line 2, and a step leads to the row behind it.
        let [before, behind] = [self.cells[at], self.cells[at + 1]].map(quoted);
        Some(words(at + 3, &before, &behind) + &more)
    }
}

/// What is odd about the rows of a table with too many or too few energies in a column.
pub fn odd(table: &Table, energies: usize, too_many: bool) -> Option<String> {
    let count = Count::of(table, energies)?;
    let told = if too_many {
        let twice = |line, _: &str, behind: &str| {
            format!(
                "line {line} is there twice ({behind}, as line {})",
                line - 1
            )
        };
        let back = |line, before: &str, behind: &str| {
            format!("line {line} goes back ({behind} behind {before})")
        };
        count
            .told(|step| step == 0, twice)
            .or_else(|| count.told(|step| step < 0, back))
    } else {
        let missing = |line, before: &str, behind: &str| {
            format!("a row is missing in front of line {line} ({behind} behind {before})")
        };
        count.told(|step| step > count.usual, missing)
    };
    let ends = || {
        let (first, last) = (count.cells.first()?, count.cells.last()?);
        Some(format!(
            "they go from {} to {}",
            quoted(first),
            quoted(last)
        ))
    };
    told.or_else(ends)
}
