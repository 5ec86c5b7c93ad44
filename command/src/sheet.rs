//! A list in one of its forms: columns for people, csv, or json.

use crate::arguments::Form;
use crate::summary::grouped;

/// A cell.
pub enum Cell<'a> {
    Number(i64),
    /// A sum over the month: for people its digits are in groups of three.
    Sum(i64),
    Word(&'a str),
    Nothing,
}

/// A column: its name in csv and json, its width in text; below 0 it is filled from the left.
pub struct Column(pub &'static str, pub isize);

/// A list as it grows.
pub struct Sheet {
    form: Form,
    columns: &'static [Column],
    rows: usize,
    text: String,
}

impl Sheet {
    pub fn new(form: Form, columns: &'static [Column]) -> Sheet {
        let names: Vec<&str> = columns.iter().map(|column| column.0).collect();
        let text = match form {
            Form::Csv => format!("{}\n", names.join(",")),
            Form::Json => "[".to_string(),
            Form::Text => {
                let head: String = columns
                    .iter()
                    .map(|column| padded(&column.0.replace('_', " "), column.1))
                    .collect();
                format!("{}\n", head.trim_end())
            }
        };
        Sheet {
            form,
            columns,
            rows: 0,
            text,
        }
    }

    /// One row more; a cell for each column.
    pub fn row(&mut self, cells: &[Cell]) {
        use std::fmt::Write;
        let start = self.text.len();
        if self.form == Form::Json {
            self.text
                .push_str(if self.rows == 0 { "\n{" } else { ",\n{" });
        }
        for (at, (cell, column)) in cells.iter().zip(self.columns).enumerate() {
            let between = if at == 0 { "" } else { "," };
            // Writing to a string does not fail.
            let _ = match self.form {
                Form::Csv => write!(self.text, "{between}{}", csv(cell)),
                Form::Json => write!(self.text, "{between}\"{}\":{}", column.0, json(cell)),
                Form::Text => write!(self.text, "{}", padded(&shown(cell), column.1)),
            };
        }
        if self.form == Form::Json {
            self.text.push('}');
            self.rows += 1;
            return;
        }
        let end = start + self.text[start..].trim_end().len();
        self.text.truncate(end);
        self.text.push('\n');
        self.rows += 1;
    }

    pub fn end(mut self) -> String {
        if self.form == Form::Json {
            self.text.push_str("\n]\n");
        }
        self.text
    }
}

/// A cell for people.
fn shown(cell: &Cell) -> String {
    match cell {
        Cell::Sum(number) => grouped(*number),
        _ => plain(cell),
    }
}

fn plain(cell: &Cell) -> String {
    match cell {
        Cell::Number(number) | Cell::Sum(number) => number.to_string(),
        Cell::Word(word) => word.to_string(),
        Cell::Nothing => String::new(),
    }
}

fn json(cell: &Cell) -> String {
    match cell {
        Cell::Number(number) | Cell::Sum(number) => number.to_string(),
        Cell::Word(word) => json_word(word),
        Cell::Nothing => "null".to_string(),
    }
}

/// A word of json; it may stand in a page too.
pub fn json_word(word: &str) -> String {
    let escaped = |letter: char| match letter {
        '"' | '\\' => format!("\\{letter}"),
        '<' | '\0'..='\x1f' => format!("\\u{:04x}", u32::from(letter)),
        _ => letter.to_string(),
    };
    format!("\"{}\"", word.chars().map(escaped).collect::<String>())
}

/// A cell of csv, in quotes where it has a comma or a quote.
fn csv(cell: &Cell) -> String {
    let word = plain(cell);
    if word.contains([',', '"']) {
        format!("\"{}\"", word.replace('"', "\"\""))
    } else {
        word
    }
}

fn padded(word: &str, width: isize) -> String {
    let room = width.unsigned_abs();
    if width < 0 {
        format!("{word:<room$}  ")
    } else {
        format!("{word:>room$}  ")
    }
}
