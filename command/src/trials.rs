//! The month run once more by the library, with one call in another place or on another day.

use std::ops::Range;

use crate::calls::Call;
use crate::library::{self, Reader, Replay};
use crate::month::Ran;

/// How many bytes are run again at most, and how many a trial and a call of it count beside their own.
const WORK: usize = 256 << 20;
const TRIAL: usize = 256 << 10;
const CALL: usize = 32;

/// A month with one call changed.
pub struct Trial {
    /// The library's answer to that call.
    pub answer: u64,
    /// Whether no other call is refused that was accepted.
    pub keeps: bool,
    pub replay: Replay,
}

/// Trials of a month, as long as there is work left.
pub struct Trials<'a> {
    ran: &'a Ran,
    left: usize,
}

/// A call's place among all.
fn at(call: &Call) -> usize {
    call.place.number - 1
}

impl<'a> Trials<'a> {
    pub fn new(ran: &'a Ran) -> Trials<'a> {
        Trials { ran, left: WORK }
    }

    /// The bytes of the calls that were answered.
    fn file(&self) -> &'a [u8] {
        match self.ran.replay.ending {
            0 => &self.ran.month.file,
            _ => &self.ran.month.file[..self.ran.replay.offset],
        }
    }

    /// Where a call's bytes stand.
    fn bytes(&self, call: &Call) -> Range<usize> {
        let next = self.ran.month.calls.get(at(call) + 1);
        let end = next.map_or(self.file().len(), |next| next.place.offset);
        call.place.offset..end
    }

    /// Runs the parts of a file, in which the call has another place than in the month.
    fn run(&mut self, parts: &[&[u8]], call: &Call, place: usize) -> Option<Trial> {
        let before = &self.ran.replay.answers;
        let bytes: usize = parts.iter().map(|part| part.len()).sum();
        self.left = self.left.checked_sub(TRIAL + CALL * before.len() + bytes)?;
        let replay = library::replay(&parts.concat(), before.len() + 1);
        let answer = *replay.answers.get(place)?;
        let others = |answers: &[u64], place: usize| -> Vec<u64> {
            let mut answers = answers.to_vec();
            answers.remove(place);
            answers
        };
        let pairs = others(before, at(call)).into_iter();
        let mut pairs = pairs.zip(others(&replay.answers, place));
        let keeps = pairs.all(|(before, now)| before != 0 || now == 0);
        Some(Trial {
            answer,
            keeps,
            replay,
        })
    }

    /// With a call in front of an earlier one.
    pub fn moved(&mut self, call: &Call, front: &Call) -> Option<Trial> {
        let (file, own) = (self.file(), self.bytes(call));
        let start = front.place.offset;
        let parts = [
            &file[..start],
            &file[own.clone()],
            &file[start..own.start],
            &file[own.end..],
        ];
        self.run(&parts, call, at(front))
    }

    /// With a call on another day.
    pub fn on(&mut self, call: &Call, day: u64) -> Option<Trial> {
        let (file, own) = (self.file(), self.bytes(call));
        let named = call.form().fields.iter().zip(&call.fields);
        let fields: Vec<u64> = named
            .map(|(name, number)| if *name == "day" { day } else { *number })
            .collect();
        let mut reader = Reader::from(file, own.start);
        reader.next();
        let energies: Vec<u64> = reader
            .energies(call.energies)
            .map(|energy| energy as u64)
            .collect();
        let mut bytes = Vec::new();
        library::write(call.kind, &fields, &energies, &mut bytes).ok()?;
        self.run(
            &[&file[..own.start], &bytes, &file[own.end..]],
            call,
            at(call),
        )
    }
}
