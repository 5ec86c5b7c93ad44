//! A csv with a header: its columns by name, its cells without quotes.

use crate::numbers::quoted;

const BLANK: [char; 2] = [' ', '\t'];

/// What a row of sums begins with.
const SUMS: [&str; 6] = [
    "summe",
    "gesamt",
    "gesamtsumme",
    "insgesamt",
    "sum",
    "total",
];

/// The names of a csv's header, and the cells of its other lines, one line after the other.
pub struct Table {
    names: Vec<&'static str>,
    cells: Vec<&'static str>,
}

/// The lines of a text; the last line feed ends a line and begins none. None of them is blank.
pub fn lines(text: &'static str) -> Result<Vec<(usize, &'static str)>, String> {
    let whole = text.strip_suffix('\n').unwrap_or(text);
    let some = !text.is_empty();
    let lines: Vec<_> = (1..).zip(whole.split('\n').filter(move |_| some)).collect();
    match lines.iter().find(|(_, line)| line.trim().is_empty()) {
        Some((at, _)) => Err(format!("line {at}: is blank; take it away")),
        None => Ok(lines),
    }
}

/// Where a quote closes: one that is doubled is part of the cell.
fn closing(quoted: &str) -> Option<usize> {
    let mut from = 0;
    loop {
        let at = from + quoted[from..].find('"')?;
        if !quoted[at + 1..].starts_with('"') {
            return Some(at);
        }
        from = at + 2;
    }
}

/// What stands in quotes; one that is doubled is one.
fn undoubled(inside: &'static str) -> &'static str {
    if inside.contains('"') {
        inside.replace("\"\"", "\"").leak()
    } else {
        inside
    }
}

/// The first cell of a line, without the quotes around it, and what stands behind it.
pub fn first_cell(
    line: &'static str,
    mark: char,
) -> Result<(&'static str, &'static str), &'static str> {
    if let Some(inside) = line.trim_start_matches(BLANK).strip_prefix('"') {
        let end = closing(inside).ok_or("has a quote that is not closed")?;
        let behind = inside[end + 1..].trim_start_matches(BLANK);
        return Ok((undoubled(&inside[..end]), behind));
    }
    let end = line.find(mark).unwrap_or(line.len());
    Ok((line[..end].trim_matches(BLANK), &line[end..]))
}

/// The cells of a line.
fn cells(line: &'static str, mark: char) -> Result<Vec<&'static str>, String> {
    let (mut cells, mut rest) = (Vec::new(), line);
    loop {
        let (cell, behind) = first_cell(rest, mark)?;
        cells.push(cell);
        match behind.strip_prefix(mark) {
            Some(next) => rest = next,
            None if behind.is_empty() => return Ok(cells),
            None => return Err("goes on behind a closing quote".to_string()),
        }
    }
}

/// What stands between a header's cells: semicolons where it has one outside of quotes, else commas.
fn mark_of(header: &str) -> char {
    let outside = header.split('"').step_by(2);
    if outside.into_iter().any(|part| part.contains(';')) {
        ';'
    } else {
        ','
    }
}

/// Whether a cell says that its row has sums.
fn is_sum(cell: &str) -> bool {
    let word = cell.trim_end_matches(':');
    SUMS.iter().any(|sum| word.eq_ignore_ascii_case(sum))
}

impl Table {
    pub fn of(text: &'static str) -> Result<Table, String> {
        let mut lines = lines(text)?.into_iter();
        let header = lines.next().map_or("", |(_, line)| line);
        let mark = mark_of(header);
        let names = cells(header, mark).map_err(|wrong| format!("line 1: {wrong}"))?;
        let mut table = Table {
            names,
            cells: Vec::new(),
        };
        for (at, line) in lines {
            let row = cells(line, mark).and_then(|row| table.fitted(row));
            table
                .cells
                .extend(row.map_err(|wrong| format!("line {at}: {wrong}"))?);
        }
        Ok(table)
    }

    /// A row of quarter hours: with as many cells as the header has, and no sums.
    fn fitted(&self, row: Vec<&'static str>) -> Result<Vec<&'static str>, String> {
        let first = row.iter().find(|cell| !cell.is_empty());
        if let Some(cell) = first.filter(|cell| is_sum(cell)) {
            let cell = quoted(cell);
            return Err(format!(
                "has sums and is no quarter hour: {cell}; take it away"
            ));
        }
        if row.len() != self.names.len() {
            let (cells, header) = (row.len(), self.names.len());
            return Err(format!("has {cells} cells, and the header {header}"));
        }
        Ok(row)
    }

    /// How many columns it has.
    pub fn columns(&self) -> usize {
        self.names.len()
    }

    /// The cells of a column, in the lines from the second on.
    pub fn column(&self, place: usize) -> Vec<&'static str> {
        let rows = self.cells.chunks(self.names.len());
        rows.map(|row| row[place]).collect()
    }

    /// Where a column stands.
    pub fn place(&self, name: &str) -> Result<usize, String> {
        let mut places = (0..self.names.len()).filter(|at| self.names[*at] == name);
        match (places.next(), places.next()) {
            (Some(at), None) => Ok(at),
            (None, _) => Err(format!(
                "line 1: has no column {}; its columns are {}",
                quoted(name),
                self.names.join(", ")
            )),
            _ => Err(format!("line 1: has two columns {}", quoted(name))),
        }
    }
}
