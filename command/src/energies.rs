//! Energies as people write them: watt-hours, or kilowatt-hours with decimals; with marks between thousands where the text says so.

use std::borrow::Cow;

use crate::calls::{counted, MOST_ENERGY, MOST_QUARTERS};
use crate::lines::Given;
use crate::numbers::{has_hard_blank, no_number, quoted, whole, within, Range, CARRIED};
use crate::series::Files;

const NAME: &str = "an energy";

/// The fields of a line that say how its energies are written.
pub const FIELDS: &str = "unit, decimal, thousands";

/// What a series is read for, which limits its energies and their number.
#[derive(Clone, Copy)]
pub enum Limits {
    /// A message file: energies from -2^62 to 2^62 - 1.
    File,
    /// A schedule, in a month of so many quarter hours.
    Schedule(usize),
}

impl Limits {
    fn energies(self) -> Range {
        let most = MOST_ENERGY as i128;
        match self {
            Limits::File => Range(-(1 << 62), (1 << 62) - 1, CARRIED),
            Limits::Schedule(_) => Range(-most, most, ", in watt-hours"),
        }
    }

    /// How many energies there may be, and in words, where there are others.
    pub fn unlike(self, energies: usize) -> Option<(usize, String)> {
        match self {
            Limits::File if energies > MOST_QUARTERS => {
                let words = format!("a file carries at most {MOST_QUARTERS}");
                Some((MOST_QUARTERS, words))
            }
            Limits::Schedule(quarters) if energies != quarters => {
                let month = counted(quarters, "quarter hour", "", "s");
                Some((quarters, format!("the month has {month}")))
            }
            _ => None,
        }
    }
}

/// Watt-hours, or kilowatt-hours with up to three decimals.
#[derive(Clone, Copy, PartialEq)]
enum Unit {
    WattHours,
    KilowattHours,
}

/// What stands in front of decimals, or between thousands.
#[derive(Clone, Copy, PartialEq)]
enum Mark {
    Point,
    Comma,
}

impl Mark {
    fn read(field: &str, word: &str) -> Result<Mark, String> {
        match word {
            "point" => Ok(Mark::Point),
            "comma" => Ok(Mark::Comma),
            _ => Err(format!("{field} is point or comma: {}", quoted(word))),
        }
    }

    fn letter(self) -> char {
        match self {
            Mark::Point => '.',
            Mark::Comma => ',',
        }
    }

    fn name(self) -> &'static str {
        match self {
            Mark::Point => "point",
            Mark::Comma => "comma",
        }
    }
}

/// How the energies of a line are written: their unit, and the marks that the line names.
#[derive(Clone, Copy, PartialEq)]
pub struct Style {
    unit: Unit,
    decimal: Option<Mark>,
    thousands: Option<Mark>,
}

/// Other marks for energies, and the words that say so.
const OTHERS: [(Option<Mark>, Option<Mark>, &str); 3] = [
    (Some(Mark::Comma), None, "decimal=comma"),
    (None, Some(Mark::Point), "thousands=point"),
    (None, Some(Mark::Comma), "thousands=comma"),
];

impl Style {
    /// That of a line, whose fields on it are taken away.
    pub fn take(given: &mut Given) -> Result<Style, String> {
        let unit = match given.take("unit") {
            None | Some("Wh") => Unit::WattHours,
            Some("kWh") => Unit::KilowattHours,
            Some(other) => return Err(format!("unit is Wh or kWh: {}", quoted(other))),
        };
        let mut mark = |field| {
            let word = given.take(field);
            word.map(|word| Mark::read(field, word)).transpose()
        };
        let (decimal, thousands) = (mark("decimal")?, mark("thousands")?);
        match decimal {
            Some(mark) if thousands == decimal => Err(format!(
                "decimal and thousands are both {}; a mark has one meaning",
                mark.name()
            )),
            Some(_) if unit == Unit::WattHours => {
                Err("decimal goes with kilowatt-hours: is unit=kWh missing?".to_string())
            }
            _ => Ok(Style {
                unit,
                decimal,
                thousands,
            }),
        }
    }

    /// The mark in front of decimals: that which is named, else a point, but where that stands between thousands.
    fn decimal_mark(&self) -> Mark {
        let usual = match self.thousands {
            Some(Mark::Point) => Mark::Comma,
            _ => Mark::Point,
        };
        self.decimal.unwrap_or(usual)
    }

    /// Digits without the marks between thousands; none where such a mark stands elsewhere.
    fn ungrouped<'a>(&self, digits: &'a str) -> Option<Cow<'a, str>> {
        let mark = self.thousands.filter(|mark| digits.contains(mark.letter()));
        let Some(mark) = mark else {
            return Some(digits.into());
        };
        let mut parts = digits.split(mark.letter());
        let first = parts.next().unwrap_or("").trim_start_matches('-');
        let fits = (1..=3).contains(&first.len()) && parts.all(|part| part.len() == 3);
        fits.then(|| digits.replace(mark.letter(), "").into())
    }

    /// A word's whole part and its decimals.
    fn split<'a>(&self, word: &'a str) -> (&'a str, Option<&'a str>) {
        let parts = word.split_once(self.decimal_mark().letter());
        match parts.filter(|_| self.unit == Unit::KilowattHours) {
            Some((front, decimals)) => (front, Some(decimals)),
            None => (word, None),
        }
    }

    /// A word's number in watt-hours; none where it is no number so written.
    fn number(&self, word: &str) -> Option<Result<i128, ()>> {
        let (front, decimals) = self.split(word);
        let front = self.ungrouped(front)?;
        let digits = |part: &str| part.bytes().all(|byte| byte.is_ascii_digit());
        if decimals.is_some_and(|part| !(1..=3).contains(&part.len()) || !digits(part)) {
            return None;
        }
        let number = whole(&front)?;
        if self.unit == Unit::WattHours {
            return Some(number);
        }
        let joined = format!("{front}{:0<3}", decimals.unwrap_or(""));
        Some(number.and_then(|_| joined.parse().map_err(|_| ())))
    }

    /// Whether a word is a number with decimals, so written.
    fn has_decimals(&self, word: &str) -> bool {
        self.split(word).1.is_some() && self.number(word).is_some()
    }

    /// The words for other marks by which a number is one, in this unit.
    fn others(&self, word: &str) -> Vec<&'static str> {
        if self.decimal.is_some() || self.thousands.is_some() {
            return Vec::new();
        }
        let of = |(decimal, thousands, words): &(_, _, &'static str)| {
            let style = Style {
                unit: self.unit,
                decimal: *decimal,
                thousands: *thousands,
            };
            // A mark between thousands stands in the word.
            let used = thousands.is_none_or(|mark: Mark| word.contains(mark.letter()));
            style.number(word).filter(|_| used).map(|_| *words)
        };
        OTHERS.iter().filter_map(of).collect()
    }

    /// What is wrong with a word that is no number of watt-hours.
    fn no_watt_hours(&self, word: &str) -> String {
        let plain = Style {
            unit: Unit::KilowattHours,
            decimal: None,
            thousands: None,
        };
        let with = |(decimal, thousands, _): &(_, _, _)| Style {
            decimal: *decimal,
            thousands: *thousands,
            ..plain
        };
        let decimals =
            plain.has_decimals(word) || OTHERS.iter().any(|other| with(other).has_decimals(word));
        let shown = quoted(word);
        match (decimals, &self.others(word)[..]) {
            (true, []) => format!("{NAME} has decimals: is unit=kWh missing? {shown}"),
            (true, [other, ..]) => format!(
                "{NAME} has decimals, or its digits in groups: is unit=kWh missing, or {other}? {shown}"
            ),
            (false, [other, ..]) => format!(
                "{NAME} has its digits in groups: {shown}; write them together, or say {other}"
            ),
            _ => no_number(NAME, word),
        }
    }

    /// What is wrong with a word that is no number of kilowatt-hours.
    fn no_kilowatt_hours(&self, word: &str) -> String {
        let groups = self.thousands.map_or(String::new(), |mark| {
            format!(", thousands with a {} between", mark.name())
        });
        let hint = match &self.others(word)[..] {
            [] => String::new(),
            others => format!("; is {} missing?", others.join(" or ")),
        };
        format!(
            "{NAME} in kWh is digits with up to three decimals behind a {}{groups}: {}{hint}",
            self.decimal_mark().name(),
            quoted(word)
        )
    }

    /// An energy in watt-hours.
    pub fn energy(&self, word: &str, limits: Limits) -> Result<u64, String> {
        if let Some(number) = self.number(word) {
            return Ok(within(NAME, word, number, limits.energies())? as i64 as u64);
        }
        Err(match self.unit {
            _ if has_hard_blank(word) => {
                format!("{NAME} has a hard blank: {}; take it away", quoted(word))
            }
            Unit::WattHours => self.no_watt_hours(word),
            Unit::KilowattHours => self.no_kilowatt_hours(word),
        })
    }

    /// Where a column of kilowatt-hours may have thousands as well as decimals: every number with a point has three digits behind it, and some
    /// have no point. The places of the first with a point and the first without.
    pub fn doubtful(&self, words: &[&str]) -> Option<(usize, usize)> {
        let plain = self.decimal.is_none() && self.thousands.is_none();
        if !plain || self.unit == Unit::WattHours {
            return None;
        }
        let behind = |word: &&str| word.split_once('.').map(|(_, digits)| digits.len());
        let marked = words.iter().position(|word| behind(word).is_some())?;
        let bare = words.iter().position(|word| behind(word).is_none())?;
        let alike = words.iter().filter_map(behind).all(|digits| digits == 3);
        alike.then_some((marked, bare))
    }

    /// The energies that stand in a line.
    fn listed(&self, word: &str, limits: Limits) -> Result<Vec<u64>, String> {
        for (field, mark) in [("decimal", self.decimal), ("thousands", self.thousands)] {
            if mark == Some(Mark::Comma) {
                return Err(format!(
                    "{field}=comma is for a file: in a line commas stand between the energies"
                ));
            }
        }
        let words = word.split(',');
        words.map(|word| self.energy(word, limits)).collect()
    }
}

/// A line's energies: `none`, numbers with commas between, `@FILE` or `@FILE:COLUMN`.
pub fn read(
    word: &str,
    style: Style,
    limits: Limits,
    files: &mut Files,
) -> Result<Vec<u64>, String> {
    if let Some(source) = word.strip_prefix('@') {
        return files.energies(source, style, limits);
    }
    let series = match word {
        "none" => Vec::new(),
        _ => style.listed(word, limits)?,
    };
    match limits.unlike(series.len()) {
        None => Ok(series),
        Some((_, wanted)) => {
            let energies = counted(series.len(), "energ", "y", "ies");
            Err(format!("{energies}, and {wanted}"))
        }
    }
}
