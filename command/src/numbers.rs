//! Numbers as people write them: fields by number or by name.

use crate::calls::{is_day, named, names_of};

/// From where to where a number goes, and why.
pub struct Range(pub i128, pub i128, pub &'static str);

pub const CARRIED: &str = ", what a file can carry";
const FIELDS: Range = Range(0, (1 << 63) - 1, CARRIED);

/// A word as complaints show it, cut where it is long.
pub fn shortened(word: &str) -> String {
    let short: String = word.chars().take(32).collect();
    let end = if short.len() < word.len() { ".." } else { "" };
    let plain = short.escape_debug().to_string().replace("\\'", "'");
    format!("{plain}{end}")
}

/// A word as complaints quote it.
pub fn quoted(word: &str) -> String {
    format!("'{}'", shortened(word))
}

/// Whether a letter is a blank that looks like a plain one, and is none.
pub fn is_hard_blank(letter: char) -> bool {
    !letter.is_ascii() && letter.is_whitespace()
}

pub fn has_hard_blank(word: &str) -> bool {
    word.contains(is_hard_blank)
}

/// Whether a word is digits in groups of three with marks between.
fn grouped(word: &str) -> bool {
    let digits = word.strip_prefix('-').unwrap_or(word);
    let is_mark = |letter| ".,'_ ".contains(letter) || is_hard_blank(letter);
    let parts: Vec<&str> = digits.split(is_mark).collect();
    let whole = |part: &&str| !part.is_empty() && part.bytes().all(|byte| byte.is_ascii_digit());
    parts.len() > 1 && parts.iter().all(whole) && parts[1..].iter().all(|part| part.len() == 3)
}

/// Whether a word is digits with marks between, as dates have them.
fn like_a_date(word: &str) -> bool {
    let parts: Vec<&str> = word.split(['-', '.', '/']).collect();
    let digits = |part: &&str| !part.is_empty() && part.bytes().all(|byte| byte.is_ascii_digit());
    parts.iter().all(digits) && (parts.len() > 2 || word.contains(['-', '/']))
}

/// The whole number of a word of digits, perhaps with a minus; None where it is none.
pub fn whole(word: &str) -> Option<Result<i128, ()>> {
    let digits = word.strip_prefix('-').unwrap_or(word);
    let plain = !digits.is_empty() && digits.bytes().all(|byte| byte.is_ascii_digit());
    if !plain || (digits.len() > 1 && digits.starts_with('0')) {
        return None;
    }
    // More digits than any number here has.
    Some(if digits.len() > 30 {
        Err(())
    } else {
        word.parse().map_err(|_| ())
    })
}

/// What is wrong with a word that is no whole number.
pub fn no_number(name: &str, word: &str) -> String {
    let digits = word.strip_prefix('-').unwrap_or(word);
    if grouped(word) {
        return format!(
            "{name} has its digits in groups: {}; write them together",
            quoted(word)
        );
    }
    if digits.len() > 1
        && digits.starts_with('0')
        && digits.bytes().all(|byte| byte.is_ascii_digit())
    {
        return format!(
            "{name} has zeros in front: {}; write a number without them, and its digits together",
            quoted(word)
        );
    }
    if is_day(name) && like_a_date(word) {
        return format!("{name} is no date: {}; write YYYY-MM-DD", quoted(word));
    }
    format!("{name} is no whole number: {}", quoted(word))
}

/// A number that lies in its range.
pub fn within(
    name: &str,
    word: &str,
    number: Result<i128, ()>,
    Range(least, most, why): Range,
) -> Result<i128, String> {
    match number {
        Ok(number) if least <= number && number <= most => Ok(number),
        _ => Err(format!(
            "{name} is outside {least} to {most}{why}: {}",
            quoted(word)
        )),
    }
}

/// A number from 1 on.
pub fn counting(name: &str, word: &str, most: u64) -> Result<u64, String> {
    let number = whole(word).ok_or_else(|| no_number(name, word))?;
    Ok(within(name, word, number, Range(1, most.into(), ""))? as u64)
}

/// A field's number, by its name or in digits.
pub fn field(name: &str, word: &str) -> Result<u64, String> {
    if let Some(number) = named(name, word) {
        return Ok(number);
    }
    let Some(number) = whole(word) else {
        let names = names_of(name);
        if names.is_empty()
            || word.starts_with(|first: char| first.is_ascii_digit() || first == '-')
        {
            return Err(no_number(name, word));
        }
        return Err(format!(
            "{name} is no number and no name: {}; names are {}",
            quoted(word),
            names.join(", ")
        ));
    };
    Ok(within(name, word, number, FIELDS)? as u64)
}
