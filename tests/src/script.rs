//! Scripts: calls as numbers in a slice, the form in which `test_drive` takes them, and what a run of one gives.

use crate::call::{Call, Lengths, DELTAS};
use crate::generator::Random;
use crate::linked;
use std::fmt;

/// The number of a record that overwrites a field of the desk's state.
const DAMAGE: u64 = 13;

/// The number of a record by which somebody else writes in a store.
const WRITE: u64 = 14;

/// What an accepted status is in a script's output: this and the status. So it is the number of no cause.
pub const STATUS_FROM: u64 = 100;

/// A field of the desk's state and what it is overwritten with.
#[derive(Clone, Copy, Debug, PartialEq, Eq)]
pub struct Damage {
    /// The field.
    pub which: u64,
    /// Its place in a table, else 0. Run 1's delta groups have places 0 to 16, run 2's 17 to 33.
    pub place: u64,
    /// The field's new value, or those of a record's fields.
    pub to: [u64; 4],
}

/// A number that somebody else writes in a store.
#[derive(Clone, Copy, Debug, PartialEq, Eq)]
pub struct Write {
    /// The store: values 0, book 1, log 2, schedules 3.
    pub store: u64,
    /// Its place in the store; nothing is written where there is no such store or place.
    pub place: u64,
    /// The number.
    pub number: u64,
}

/// A record of a script.
#[derive(Clone, Debug)]
pub enum Record {
    /// A call with the lengths of the stores lent to it.
    Call(Call, Lengths),
    /// A field of the state overwritten.
    Damage(Damage),
    /// A store overwritten by somebody else.
    Write(Write),
}

impl Record {
    /// The record's numbers: what it is, the lengths lent, its own numbers.
    pub fn numbers(&self) -> Vec<u64> {
        match self {
            Record::Call(call, lent) => {
                let mut fields = call.fields();
                if let Some(energies) = call.energies() {
                    let count = energies.len();
                    fields.insert(fields.len() - count, count as u64);
                }
                record(call.number(), *lent, &fields)
            }
            Record::Damage(Damage { which, place, to }) => {
                let fields = [&[*which, *place], &to[..]].concat();
                record(DAMAGE, Lengths::default(), &fields)
            }
            Record::Write(Write {
                store,
                place,
                number,
            }) => record(WRITE, Lengths::default(), &[*store, *place, *number]),
        }
    }
}

fn record(number: u64, lent: Lengths, fields: &[u64]) -> Vec<u64> {
    [&[number], &lent.each()[..], fields].concat()
}

impl fmt::Display for Damage {
    fn fmt(&self, f: &mut fmt::Formatter) -> fmt::Result {
        const NAMES: [&str; 20] = [
            "nothing",
            "quarters",
            "F",
            "C",
            "K",
            "opening length of values",
            "opening length of book",
            "opening length of log",
            "day",
            "delta group",
            "version count",
            "log rows used",
            "run 1 closed",
            "run 2 closed",
            "point made free, at",
            "point's since, kind, area, partner, at",
            "version's number, point, row, status, at",
            "opening length of schedules",
            "run 1 issued",
            "run 2 issued",
        ];
        let Damage { which, place, to } = self;
        let name = NAMES.get(*which as usize).unwrap_or(&NAMES[0]);
        match which {
            9 => {
                let (run, delta) = (1 + place / DELTAS as u64, place % DELTAS as u64);
                write!(f, "damage {name} {delta} of run {run} = {}", to[0])
            }
            14 => write!(f, "damage {name} {place}"),
            15 | 16 => write!(f, "damage {name} {place} = {to:?}"),
            _ => write!(f, "damage {name} = {}", to[0]),
        }
    }
}

impl fmt::Display for Write {
    fn fmt(&self, f: &mut fmt::Formatter) -> fmt::Result {
        let Write { store, place, .. } = self;
        let names = ["values", "book", "log", "schedules"];
        let name = names.get(*store as usize).unwrap_or(&"no store");
        write!(f, "write {name} {place} = {}", self.number as i64)
    }
}

impl fmt::Display for Record {
    fn fmt(&self, f: &mut fmt::Formatter) -> fmt::Result {
        match self {
            Record::Call(call, lent) => write!(f, "{call}; {lent}"),
            Record::Damage(damage) => write!(f, "{damage}"),
            Record::Write(write) => write!(f, "{write}"),
        }
    }
}

/// The four stores, as long as the longest that is lent of each.
#[derive(Clone, Debug, PartialEq, Eq)]
pub struct Stores {
    /// The values.
    pub values: Vec<u64>,
    /// The book.
    pub book: Vec<u64>,
    /// The log.
    pub log: Vec<u64>,
    /// The schedules.
    pub schedules: Vec<u64>,
}

impl Stores {
    /// Stores of so many places, filled with words from a seed.
    pub fn filled(places: Lengths, seed: u64) -> Stores {
        let mut random = Random::new(seed);
        let mut filled = |places| (0..places).map(|_| random.word()).collect();
        Stores {
            values: filled(places.values),
            book: filled(places.book),
            log: filled(places.log),
            schedules: filled(places.schedules),
        }
    }

    /// Values, book, log and schedules, to be lent.
    pub fn each_mut(&mut self) -> [&mut [u64]; 4] {
        [
            &mut self.values,
            &mut self.book,
            &mut self.log,
            &mut self.schedules,
        ]
    }

    /// Somebody else writes.
    pub fn write(&mut self, write: Write) {
        let mut stores = self.each_mut();
        let store = stores.get_mut(write.store as usize);
        if let Some(place) = store.and_then(|store| store.get_mut(write.place as usize)) {
            *place = write.number;
        }
    }
}

/// What a run of a script gives: for each call its number, a status's with [`STATUS_FROM`] added, for a show the length of its
/// part and its words, for a report its surplus and its shortfall; and the stores.
#[derive(Clone, Debug, PartialEq, Eq)]
pub struct Outcome {
    /// The calls' answers in their order.
    pub answers: Vec<Vec<u64>>,
    /// The stores after the last call.
    pub stores: Stores,
}

/// Runs a script with the linked desk. An answer that is missing is left out; what the run writes beyond its answers,
/// or says to have written beyond its output, is a panic.
pub fn run(records: &[Record], mut stores: Stores) -> Outcome {
    let script: Vec<u64> = records.iter().flat_map(Record::numbers).collect();
    let calls: Vec<&Call> = records
        .iter()
        .filter_map(|record| match record {
            Record::Call(call, _) => Some(call),
            Record::Damage(_) | Record::Write(_) => None,
        })
        .collect();
    let shows = calls
        .iter()
        .filter(|call| matches!(call, Call::Show { .. }));
    let places = 3 * calls.len() + shows.count() * stores.book.len() / 162 + stores.book.len() + 8;
    let untouched = 0x5eed_5eed_5eed_5eed;
    let mut out = vec![untouched; places];
    let written = linked::script(&script, stores.each_mut(), &mut out) as usize;
    assert!(written <= out.len(), "{written} of {places} places written");
    let (mut rest, beyond) = out.split_at(written);
    assert!(beyond.iter().all(|&word| word == untouched));
    let mut answers = Vec::new();
    for call in calls {
        let length = match (call, rest) {
            (_, []) => break,
            (Call::Show { .. }, [_, part, ..]) => (*part as usize).saturating_add(2),
            (Call::Report { .. }, _) => 3,
            _ => 1,
        };
        let (answer, after) = rest.split_at(length.min(rest.len()));
        answers.push(answer.to_vec());
        rest = after;
    }
    assert!(rest.is_empty(), "{} places beyond the answers", rest.len());
    Outcome { answers, stores }
}
