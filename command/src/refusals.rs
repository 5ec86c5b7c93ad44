//! What was refused: call by call with its words, how many more there are of a cause, and the calls that several refusals come from.

use std::collections::BTreeMap;

use crate::before::Before;
use crate::calls::{Call, SUBMIT};
use crate::library::Reader;
use crate::month::Ran;
use crate::trials::Trials;

/// How many refused calls of one cause are told one by one, where not all are.
pub const TOLD: usize = 20;
/// The most calls that are named as those to look at.
const SOURCES: usize = 20;

const BAD_FIELD: u64 = 3;
const PAST_DAY: u64 = 5;

/// A refused call that is told.
pub struct Refusal<'a> {
    pub call: &'a Call,
    pub number: u64,
    pub why: String,
    pub mend: String,
}

impl Refusal<'_> {
    /// `line 13, call 12: submit point 4 version 2: refused, 5: ..`
    pub fn line(&self) -> String {
        format!(
            "{}: {}: refused, {}: {}",
            self.call.place.whole(),
            self.call.title(),
            self.number,
            self.why
        )
    }
}

/// The refused calls of a month, in its order.
#[derive(Default)]
pub struct Refusals<'a> {
    pub told: Vec<Refusal<'a>>,
    /// How many there are of each cause.
    causes: BTreeMap<u64, usize>,
    /// The calls that refusals come from, by number, with how many do.
    sources: BTreeMap<usize, (&'a Call, usize)>,
}

/// The energies of a refused submission, for the words on a field.
fn energies_of(ran: &Ran, call: &Call, number: u64) -> Vec<i64> {
    if number != BAD_FIELD || call.kind != SUBMIT {
        return Vec::new();
    }
    let mut reader = Reader::from(&ran.month.file, call.place.offset);
    reader.next();
    reader.energies(call.energies).collect()
}

impl<'a> Refusals<'a> {
    /// The refused calls of a month; of each cause so many are told.
    pub fn of(ran: &'a Ran, most: usize) -> Refusals<'a> {
        let mut before = Before::new(ran.month.settled);
        let (mut refusals, mut trials) = (Refusals::default(), Trials::new(ran));
        for (call, answer) in ran.month.calls.iter().zip(&ran.replay.answers) {
            if *answer == 0 {
                before.accept(call);
                continue;
            }
            let count = refusals.causes.entry(*answer).or_default();
            *count += 1;
            let told = *count <= most;
            let root = refusals.take(ran, call, *answer, &before, told.then_some(&mut trials));
            before.refuse(call, *answer, root);
        }
        refusals
    }

    /// Takes a refused call, with trials where it is told; the call that it comes from.
    fn take(
        &mut self,
        ran: &Ran,
        call: &'a Call,
        number: u64,
        before: &Before<'a>,
        trials: Option<&mut Trials>,
    ) -> Option<&'a Call> {
        let energies = match trials {
            Some(_) => energies_of(ran, call, number),
            None => Vec::new(),
        };
        let (why, mut mend, by) = before.words(call, number, &energies, &ran.month.files);
        let root = by.map(|by| before.root(by));
        if let Some(root) = root {
            self.sources.entry(root.place.number).or_insert((root, 0)).1 += 1;
        }
        if let Some(trials) = trials {
            if number == PAST_DAY {
                mend = before.mend_past(call, trials).unwrap_or(mend);
            }
            self.told.push(Refusal {
                call,
                number,
                why,
                mend,
            });
        }
        root
    }

    /// How many there are.
    fn count(&self) -> usize {
        self.causes.values().sum()
    }

    /// Where several come from, in words: those with most first.
    pub fn sources(&self) -> Vec<String> {
        let several = self.sources.values().filter(|(_, count)| *count > 1);
        let mut several: Vec<_> = several.collect();
        several.sort_by_key(|(_, count)| std::cmp::Reverse(*count));
        let all = self.count();
        let line = |(at, (call, count)): (usize, &&(&Call, usize))| {
            let (place, title) = (call.place.short(), call.title());
            let first = if at == 0 { "; look there first" } else { "" };
            format!("{count} of {all} refused calls come from {place}: {title}{first}")
        };
        several.iter().take(SOURCES).enumerate().map(line).collect()
    }

    /// How many of each cause are not told, in words, with the name of the file.
    pub fn more(&self, name: &str) -> Vec<String> {
        let line = |(number, count): (&u64, &usize)| {
            let told = self.told.iter().filter(|refusal| refusal.number == *number);
            let more = count - told.count();
            (more > 0).then(|| {
                format!("{more} more are refused with {number}; desk run {name} --all names each")
            })
        };
        self.causes.iter().filter_map(line).collect()
    }
}
