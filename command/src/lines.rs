//! Lines of a text: the words in front of a comment, fields by name, and what is wrong with each bad line.

use std::path::{Path, PathBuf};

use crate::calls::DELTAS;
use crate::numbers::{has_hard_blank, quoted, shortened};
use crate::series;

/// A line's fields by name, each once.
pub struct Given<'a> {
    call: &'static str,
    fields: Vec<(&'a str, &'a str)>,
}

/// What is wrong with a word that is no field, by those behind it.
fn no_field(words: &[&str]) -> String {
    // A field that blanks take apart.
    let rest = words.get(1..words.len().min(3)).unwrap_or_default();
    let parts = match (words[0].strip_suffix('='), rest) {
        (Some(name), [value, ..]) if !name.is_empty() && !value.contains('=') => 2,
        (None, ["=", value]) if !value.contains('=') => 3,
        (None, [value, ..]) if value.len() > 1 && value.starts_with('=') => 2,
        _ => 1,
    };
    if parts > 1 {
        let [apart, whole] = [" ", ""].map(|between| words[..parts].join(between));
        return format!(
            "write {} without a blank: {}",
            shortened(&whole),
            quoted(&apart)
        );
    }
    if let Some(name) = words[0].strip_suffix('=').filter(|name| !name.is_empty()) {
        return format!("{} has no value: {}", shortened(name), quoted(words[0]));
    }
    let digits = words[0].bytes().all(|byte| byte.is_ascii_digit());
    let hint = if digits {
        "; write the digits of a number together"
    } else {
        ""
    };
    format!("a field is written name=number: {}{hint}", quoted(words[0]))
}

impl<'a> Given<'a> {
    pub fn read(call: &'static str, words: &[&'a str]) -> Result<Given<'a>, String> {
        let mut fields: Vec<(&str, &str)> = Vec::new();
        for (at, word) in words.iter().enumerate() {
            let (name, value) = word.split_once('=').unwrap_or(("", ""));
            if name.is_empty() || value.is_empty() {
                return Err(no_field(&words[at..]));
            }
            if fields.iter().any(|(other, _)| *other == name) {
                return Err(format!("{name} stands twice"));
            }
            fields.push((name, value));
        }
        Ok(Given { call, fields })
    }

    /// Takes a field away.
    pub fn take(&mut self, name: &str) -> Option<&'a str> {
        let at = self.fields.iter().position(|(other, _)| *other == name)?;
        Some(self.fields.remove(at).1)
    }

    /// The words of the fields named; each is there, and nothing else is. `further` are fields that were taken away.
    pub fn words(
        mut self,
        names: &[&str],
        others: Option<&'a str>,
        further: &str,
    ) -> Result<Vec<&'a str>, String> {
        if let Some((name, _)) = self.fields.iter().find(|(name, _)| !names.contains(name)) {
            return Err(format!(
                "{} has no field {}; its fields are {}{further}",
                self.call,
                quoted(name),
                names.join(", ")
            ));
        }
        let stands = |name: &str| if DELTAS.contains(&name) { others } else { None };
        let values: Vec<(&str, Option<&str>)> = names
            .iter()
            .map(|name| (*name, self.take(name).or_else(|| stands(name))))
            .collect();
        let missing: Vec<&str> = values
            .iter()
            .filter(|(_, value)| value.is_none())
            .map(|(name, _)| *name)
            .collect();
        if !missing.is_empty() {
            return Err(format!("{} lacks {}", self.call, missing.join(", ")));
        }
        Ok(values.iter().filter_map(|(_, value)| *value).collect())
    }
}

/// A line in front of its comment.
fn content(line: &[u8]) -> &[u8] {
    line.split(|byte| *byte == b'#').next().unwrap_or(line)
}

/// The words of a line in front of its comment. A carriage return at the end is told of apart.
fn words_of(line: &[u8]) -> Result<Vec<&str>, String> {
    let text = std::str::from_utf8(content(line))
        .map_err(|_| "has bytes that are no text in UTF-8, and not in a comment".to_string())?;
    let words = text.trim_end_matches('\r').split([' ', '\t']);
    let words: Vec<&str> = words.filter(|word| !word.is_empty()).collect();
    match words.iter().find(|word| has_hard_blank(word)) {
        Some(word) => Err(format!(
            "has a hard blank: {}; type a plain one",
            quoted(word)
        )),
        None => Ok(words),
    }
}

/// The first word of each line that has one, in bytes.
pub fn first_words(text: &[u8]) -> impl Iterator<Item = &[u8]> {
    let lines = text.split(|byte| *byte == b'\n').map(content);
    lines.filter_map(|line| {
        let mut words = line.split(|byte| b" \t\r".contains(byte));
        words.find(|word| !word.is_empty())
    })
}

/// The files of a text's series, looked up in a folder.
pub fn files(text: &[u8], folder: &Path) -> Vec<PathBuf> {
    let lines = text.split(|byte| *byte == b'\n');
    let words = lines.filter_map(|line| words_of(line).ok()).flatten();
    let sources = words.filter_map(|word| word.strip_prefix("energies=@"));
    sources
        .map(|source| folder.join(series::parts(source).0))
        .collect()
}

/// The carriage returns of a text, told at the first.
fn returns(text: &[u8]) -> Option<(usize, String)> {
    let mut lines = text.split(|byte| *byte == b'\n').zip(1..);
    let has = |(line, _): &(&[u8], usize)| content(line).contains(&b'\r');
    let (_, first) = lines.find(has)?;
    let others = match lines.filter(has).count() {
        0 => String::new(),
        others => format!(", as {} lines have", others + 1),
    };
    Some((
        first,
        format!("has a carriage return{others}; line ends are line feeds alone"),
    ))
}

/// What is wrong with a text: the number of a line, and the words for it.
pub type Complaints = Vec<(usize, String)>;

/// Each line's number and words, one line after the other; what is wrong with each bad line.
pub fn each<'a>(
    text: &'a [u8],
    mut read: impl FnMut(usize, &[&'a str]) -> Result<(), String>,
) -> Complaints {
    let mut complaints: Complaints = returns(text).into_iter().collect();
    for (line, number) in text.split(|byte| *byte == b'\n').zip(1..) {
        let wrong = words_of(line).and_then(|words| read(number, &words)).err();
        complaints.extend(wrong.map(|wrong| (number, wrong)));
    }
    complaints
}

/// Complaints as they are told, in the order of their lines.
pub fn told(mut complaints: Complaints) -> Vec<String> {
    complaints.sort_by_key(|(line, _)| *line);
    let told = |(line, wrong)| format!("line {line}: {wrong}");
    complaints.into_iter().map(told).collect()
}
