//! Series in files: a number a line, or a column of a csv with a header. Each file is read once, and kept to the program's end.

use std::collections::HashMap;
use std::fs;
use std::path::{Path, PathBuf};
use std::rc::Rc;

use crate::calls::counted;
use crate::energies::{Limits, Style};
use crate::numbers::quoted;
use crate::output;
use crate::rows;
use crate::table::{first_cell, lines, Table};

/// The most line numbers that a complaint names.
const NAMED: usize = 8;

/// Cells with the lines that they stand in.
type Cells = Vec<(usize, &'static str)>;

type Kept<T> = HashMap<String, Result<T, String>>;

/// The files that a text's series stand in, looked up beside it.
pub struct Files {
    folder: PathBuf,
    texts: Kept<&'static str>,
    tables: Kept<Rc<Table>>,
}

fn text_of(path: &Path) -> Result<&'static str, String> {
    let bytes = fs::read(path).map_err(|error| output::words(&error))?;
    if bytes.starts_with(b"\xEF\xBB\xBF") {
        return Err("begins with a byte order mark; save it as UTF-8 without one".to_string());
    }
    let text = String::from_utf8(bytes).map_err(|_| "is no text in UTF-8".to_string())?;
    if let Some(at) = text.split('\n').position(|line| line.contains('\r')) {
        return Err(format!(
            "line {}: has a carriage return; line ends are line feeds alone",
            at + 1
        ));
    }
    Ok(text.leak())
}

/// The energies of lines of cells, in watt-hours; the first line that does not fit is told, and which others.
fn energies_of(cells: &Cells, style: Style, limits: Limits) -> Result<Vec<u64>, String> {
    let (mut series, mut wrong) = (Vec::new(), Vec::new());
    for (line, cell) in cells {
        match style.energy(cell, limits) {
            Ok(number) => series.push(number),
            Err(_) if cell.is_empty() => wrong.push((line, "has no energy".to_string())),
            Err(complaint) => wrong.push((line, complaint)),
        }
    }
    let Some((line, first)) = wrong.first() else {
        return decided(cells, style).map(|()| series);
    };
    let named: Vec<String> = wrong[1..]
        .iter()
        .take(NAMED)
        .map(|(line, _)| line.to_string())
        .collect();
    let rest = match wrong.len() - 1 {
        0 => String::new(),
        1 => format!("; line {} does not fit either", named[0]),
        more if more > NAMED => format!(
            "; {more} further lines do not fit: {}, ..",
            named.join(", ")
        ),
        more => format!("; {more} further lines do not fit: {}", named.join(", ")),
    };
    Err(format!("line {line}: {first}{rest}"))
}

/// A column whose points can have one meaning alone.
fn decided(cells: &Cells, style: Style) -> Result<(), String> {
    let words: Vec<&str> = cells.iter().map(|(_, cell)| *cell).collect();
    let Some((marked, bare)) = style.doubtful(&words) else {
        return Ok(());
    };
    Err(format!(
        "line {}: {} may have decimals or thousands: every number with a point has three digits behind it, and line {} has no point; say decimal=point or thousands=point",
        cells[marked].0,
        quoted(words[marked]),
        cells[bare].0
    ))
}

/// A file's name, and the column that stands behind it.
pub fn parts(source: &str) -> (&str, Option<&str>) {
    match source.rsplit_once(':') {
        Some((name, column)) => (name, Some(column)),
        None => (source, None),
    }
}

/// The lines that the energies of a file stand in.
pub fn lines_of(source: &str, energies: usize) -> String {
    let first = if parts(source).1.is_some() { 2 } else { 1 };
    match energies {
        0 => String::new(),
        1 => format!(" (line {first})"),
        more => format!(" (lines {first} to {})", first + more - 1),
    }
}

impl Files {
    pub fn new(folder: &Path) -> Files {
        Files {
            folder: folder.to_path_buf(),
            texts: HashMap::new(),
            tables: HashMap::new(),
        }
    }

    fn text(&mut self, name: &str) -> Result<&'static str, String> {
        let path = self.folder.join(name);
        let kept = self.texts.entry(name.to_string());
        kept.or_insert_with(|| text_of(&path)).clone()
    }

    fn table(&mut self, name: &str) -> Result<Rc<Table>, String> {
        let text = self.text(name)?;
        let kept = self.tables.entry(name.to_string());
        kept.or_insert_with(|| Table::of(text).map(Rc::new)).clone()
    }

    /// The cells of a column.
    fn column(&mut self, name: &str, column: &str) -> Result<Cells, String> {
        let table = self.table(name)?;
        let place = table.place(column)?;
        Ok((2..).zip(table.column(place)).collect())
    }

    /// The numbers of a file with one a line.
    fn numbers(&mut self, name: &str) -> Result<Cells, String> {
        let only = |line| first_cell(line, '\n').map_or(line, |(cell, _)| cell);
        let lines = lines(self.text(name)?)?.into_iter();
        Ok(lines.map(|(at, line)| (at, only(line))).collect())
    }

    /// What is odd about the rows of a series that was read, with other energies than wanted.
    pub fn odd(&self, source: &str, energies: usize, wanted: usize) -> String {
        let (name, column) = parts(source);
        let table = self.tables.get(name).and_then(|kept| kept.as_ref().ok());
        let odd = table.zip(column).and_then(|(table, column)| {
            rows::odd(table, table.place(column).ok()?, energies > wanted)
        });
        odd.map_or(String::new(), |odd| format!(": {odd}"))
    }

    /// A series with as many energies as it may have.
    fn fitting(&self, source: &str, series: Vec<u64>, limits: Limits) -> Result<Vec<u64>, String> {
        let energies = series.len();
        let Some((wanted, words)) = limits.unlike(energies) else {
            return Ok(series);
        };
        let (lines, odd) = (
            lines_of(source, energies),
            self.odd(source, energies, wanted),
        );
        let energies = counted(energies, "energ", "y", "ies");
        Err(format!("{energies}{lines}, and {words}{odd}"))
    }

    /// The energies of `FILE`, with a number a line, or of `FILE:COLUMN`.
    pub fn energies(
        &mut self,
        source: &str,
        style: Style,
        limits: Limits,
    ) -> Result<Vec<u64>, String> {
        let (name, cells) = match parts(source) {
            (name, Some(column)) => (name, self.column(name, column)),
            (name, None) => (name, self.numbers(name)),
        };
        if name.is_empty() {
            return Err(format!(
                "energies names no file: {}",
                quoted(&format!("@{source}"))
            ));
        }
        cells
            .and_then(|cells| energies_of(&cells, style, limits))
            .and_then(|series| self.fitting(source, series, limits))
            .map_err(|wrong| format!("{name}: {wrong}"))
    }
}
