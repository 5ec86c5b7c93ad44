//! A day that lies before the desk's (5): whether the call is accepted further up, and what a later day would cost. Both are tried, by the library.

use crate::before::Before;
use crate::calls::{Call, ACTIVATE, ASSIGN, NOTICE, SUBMIT};
use crate::library::Replay;
use crate::reasons::Words;
use crate::trials::{Trial, Trials};

/// The cause of a submission less than two days after its point's activation.
const TOO_EARLY: u64 = 13;

/// The status of a version, where the month has it.
fn status_of(replay: &Replay, call: &Call) -> Option<u64> {
    let mut versions = replay.versions_of(call.field("point"));
    let version = versions.find(|one| one.version == call.field("version"))?;
    Some(version.status)
}

/// A call in front of another one, as a mend says it.
fn above(front: &Call) -> String {
    let place = front.place.short();
    if front.place.line > 0 {
        format!("move this line above {place}")
    } else {
        format!("move this call in front of {place}")
    }
}

impl<'a> Before<'a> {
    /// The words on a past day, as far as they go without a trial.
    pub fn past_day(&self, call: &Call) -> Words<'a> {
        let by = self.day.map_or(self.opening_place(), |by| by.place.short());
        let (given, desk) = (self.day_of(call), self.desk_day());
        let least = self.day.map_or(self.shown(desk), |by| self.day_of(by));
        let front = self.first_behind(call.field("day"));
        let front = front.map_or(by.clone(), |front| front.place.short());
        (
            format!("day {given} lies before the desk's day {least}, which {by} set"),
            format!("put it in front of {front}; {}", self.mistake()),
            self.day,
        )
    }

    /// That the desk's day may be wrong.
    fn mistake(&self) -> String {
        let by = self.day.map_or(self.opening_place(), |by| by.place.short());
        format!("if day {} is a mistake, correct {by}", self.desk_day())
    }

    /// What would mend a past day, by trials; none where there is no work left for them.
    pub fn mend_past(&self, call: &Call, trials: &mut Trials) -> Option<String> {
        let front = self.first_behind(call.field("day"))?;
        let moved = trials.moved(call, front)?;
        let (least, later) = self.later(call, trials)?;
        let mistake = self.mistake();
        let day = self.shown(least);
        let cost = self.cost(call, least, &later.replay);
        let moves = moved.answer == 0 && moved.keeps;
        Some(match (moves, later.answer, later.keeps, cost) {
            (true, 0, true, Some(cost)) => {
                format!("{}; a later day {cost}; {mistake}", above(front))
            }
            (true, 0, true, None) => {
                format!("{}, or give it day {day} or later; {mistake}", above(front))
            }
            (true, ..) => format!("{}; {mistake}", above(front)),
            (_, 0, true, Some(cost)) => {
                format!("give it day {day} or later, which {cost}; {mistake}")
            }
            (_, 0, true, None) => format!("give it day {day} or later; {mistake}"),
            (_, 0, false, _) => format!(
                "{mistake}; on day {day} it is accepted, and a call below it is refused then"
            ),
            (_, cause, ..) => format!("{mistake}; on a later day it is refused with {cause}"),
        })
    }

    /// The first later day on which the call has a chance, and the month then.
    fn later(&self, call: &Call, trials: &mut Trials) -> Option<(u64, Trial)> {
        let desk = self.desk_day();
        let trial = trials.on(call, desk)?;
        let active = self.active.get(&call.field("point"));
        match active.filter(|_| call.kind == SUBMIT && trial.answer == TOO_EARLY) {
            Some(by) => {
                let day = by.field("day") + 2;
                Some((day, trials.on(call, day)?))
            }
            None => Some((desk, trial)),
        }
    }

    /// What is lost by a later day, in the month that has it.
    fn cost(&self, call: &Call, later: u64, replay: &Replay) -> Option<String> {
        let (day, status) = (call.field("day"), status_of(replay, call));
        let passes = |deadline| (day..later).contains(&self.opening(deadline));
        let [area, group] = ["area", "group"].map(|name| call.field(name));
        let alone = "would have it count in run 2 alone".to_string();
        match (call.kind, status) {
            (ACTIVATE, _) => {
                let first = self.shown(later + 2);
                Some(format!("would put off its submissions to day {first}"))
            }
            (SUBMIT, Some(1)) if passes("first") => {
                Some("would make it check data, counted only after a positive notice".to_string())
            }
            (SUBMIT, Some(4 | 5)) if passes("first") => Some(alone),
            (NOTICE, Some(4 | 5)) if passes("clearing") => Some(alone),
            (ASSIGN, _)
                if passes("clearing") && area <= 16 && replay.delta_group(1, area) != group =>
            {
                Some("would move the delta in run 2 alone".to_string())
            }
            _ => None,
        }
    }
}
