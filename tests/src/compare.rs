//! A month of calls with both desks: what the plain desk makes of it, whether the linked desk makes the same, and the
//! shortest list of calls where not.

use crate::call::{Call, Lengths, DELTAS};
use crate::counts;
use crate::damage::{undone, Damages, FIELDS};
use crate::desk::{Answer, Desk};
use crate::groups;
use crate::report;
use crate::schedules;
use crate::script::{self, Outcome, Record, Stores, Write, STATUS_FROM};
use crate::tally::Tally;
use crate::worked::{Month, GROUPS, ROWS};
use std::fmt::Write as _;

/// A step of a month.
#[derive(Clone, Debug)]
pub enum Step {
    /// A call, with the lengths of the stores lent to it.
    Call(Call, Lengths),
    /// Calls to a desk of which a field is damaged to outside its limits. The damage is then undone.
    Damaged {
        /// The field.
        field: usize,
        /// Which of the damages to it, counted round.
        choice: usize,
        /// The calls.
        calls: Vec<(Call, Lengths)>,
    },
    /// Somebody else writes in a store. From there on no submission, notice, assignment or opening is accepted.
    Write(Write),
}

/// A month of calls: the stores' places, the seed of what they hold, and the steps.
#[derive(Clone, Debug)]
pub struct Trial {
    /// Places of the stores, as many as the most that is lent.
    pub places: Lengths,
    /// The seed of what they hold before the first step.
    pub seed: u64,
    /// The steps.
    pub steps: Vec<Step>,
}

impl Trial {
    /// The stores before the first step.
    pub fn stores(&self) -> Stores {
        Stores::filled(self.places, self.seed)
    }
}

/// A month's script, and what a run of it has to give.
pub struct Expected {
    /// The script.
    pub records: Vec<Record>,
    /// What the plain desk makes of it.
    pub outcome: Outcome,
    /// The plain desk after the last step.
    pub desk: Desk,
}

/// An answer as a script gives it: the number; of a show the length of its part and the part, of a report its two sums.
pub fn words(call: &Call, answer: &Answer) -> Vec<u64> {
    let number = match answer {
        Answer::Status(status) => STATUS_FROM + status,
        _ => answer.number(),
    };
    let more = match (call, answer) {
        (Call::Show { .. }, Answer::Row(figures)) => {
            let row: Vec<u64> = figures.iter().map(word).collect();
            [&[row.len() as u64], &row[..]].concat()
        }
        (Call::Show { .. }, _) => vec![0],
        (Call::Report { .. }, Answer::Sums(sums)) => sums.map(sum_word).to_vec(),
        (Call::Report { .. }, _) => vec![0, 0],
        _ => vec![],
    };
    [&[number], &more[..]].concat()
}

/// A figure as a word. No figure exceeds 256 × 10^12 in size.
fn word(figure: &i128) -> u64 {
    assert!(figure.abs() <= 256_000_000_000_000, "figure {figure}");
    *figure as u64
}

/// A sum of a report as a word: of 2,980 quarter hours, none of which has more than 257 × 10^12.
fn sum_word(sum: i128) -> u64 {
    let most = 2_980 * 257_000_000_000_000;
    assert!((0..=most).contains(&sum), "sum {sum}");
    sum as u64
}

/// A choice of damages to a field in a month, none where the month has no such damage.
fn damages(month: &Month, field: usize, choice: usize) -> Option<Damages> {
    let mut outside = (FIELDS[field].limits)(month).outside;
    if outside.is_empty() {
        return None;
    }
    Some(outside.swap_remove(choice % outside.len()))
}

/// A month as it is run with the plain desk.
struct Course<'a> {
    trial: &'a Trial,
    tally: &'a mut Tally,
    desk: Desk,
    records: Vec<Record>,
    answers: Vec<Vec<u64>>,
    /// The stores from the first time on that somebody else writes in them.
    written: Option<Stores>,
}

impl Course<'_> {
    fn step(&mut self, step: &Step) {
        match step {
            Step::Call(call, lent) => self.call(call, *lent),
            Step::Damaged {
                field,
                choice,
                calls,
            } => self.damaged(*field, *choice, calls),
            Step::Write(write) => self.write(*write),
        }
    }

    fn asked(&mut self, call: &Call, lent: Lengths, answer: Vec<u64>) {
        self.records.push(Record::Call(call.clone(), lent));
        self.answers.push(answer);
    }

    fn call(&mut self, call: &Call, lent: Lengths) {
        let answer = counts::called(self.tally, &mut self.desk, call, lent);
        let mut words = words(call, &answer);
        if let (Some(stores), 0) = (&mut self.written, words[0]) {
            let quarters = self.desk.month().map_or(0, |month| month.quarters);
            called_written(self.tally, stores, quarters as usize, call, &mut words);
        }
        self.asked(call, lent, words);
    }

    /// Calls to a desk of which a field is damaged.
    fn damaged(&mut self, field: usize, choice: usize, calls: &[(Call, Lengths)]) {
        let Some(month) = self.desk.month() else {
            return;
        };
        let Some(damages) = damages(&month, field, choice) else {
            return;
        };
        let undone = damages.iter().map(|damage| undone(&month, damage));
        let undone: Damages = undone.collect();
        self.records.extend(damages.into_iter().map(Record::Damage));
        for (call, lent) in calls {
            let opening = matches!(call, Call::Open { .. });
            let answer = Answer::Refused(if opening { 6 } else { 1 });
            self.tally.add(FIELDS[field].name, answer.number());
            self.tally.add("call to a damaged desk", call.number());
            self.asked(call, *lent, words(call, &answer));
        }
        self.records.extend(undone.into_iter().map(Record::Damage));
    }

    fn write(&mut self, write: Write) {
        let stores = || stores_after(&self.desk, self.trial.stores());
        self.written.get_or_insert_with(stores).write(write);
        self.records.push(Record::Write(write));
    }

    /// Asks for the status of every version and for the report of every run and group.
    fn ask(&mut self, stores: &Stores) {
        let Some(month) = self.desk.month() else {
            return;
        };
        let mut asked = Vec::new();
        for (&point, active) in &month.points {
            for v in &active.versions {
                let version = v.number;
                let answer = vec![STATUS_FROM + v.status];
                asked.push((Call::Status { point, version }, answer));
                self.tally.add("status given", v.status);
            }
        }
        for run in 1..=2 {
            let reports = reports(&month, run, stores, self.written.is_none());
            asked.extend((1..).zip(reports).map(|(group, sums)| {
                let answer = vec![0, sums[0], sums[1]];
                (Call::Report { run, group }, answer)
            }));
        }
        let lent = Lengths {
            values: 0,
            log: 0,
            ..month.lengths
        };
        for (call, answer) in asked {
            self.asked(&call, lent, answer);
        }
    }
}

/// What an accepted call makes of stores that somebody else wrote in, and what it is answered of them.
fn called_written(
    tally: &mut Tally,
    stores: &mut Stores,
    quarters: usize,
    call: &Call,
    words: &mut [u64],
) {
    let rows = |run, group| report::rows(&stores.schedules, &stores.book, quarters, run, group);
    match call {
        Call::Show { run, group } => words[2..].copy_from_slice(rows(*run, *group)[1]),
        Call::Report { run, group } => {
            let [schedule, figures] = rows(*run, *group);
            schedules::count_wraps(tally, schedule, figures);
            words[1..].copy_from_slice(&report::sums(schedule, figures));
        }
        Call::Lodge { group, series, .. } => {
            let start = (*group as usize - 1) * quarters;
            stores.schedules[start..start + quarters].copy_from_slice(series);
        }
        Call::Submit { .. } | Call::Notice { .. } | Call::Assign { .. } | Call::Open { .. } => {
            panic!("{call} after somebody else wrote")
        }
        Call::Activate { .. }
        | Call::Deactivate { .. }
        | Call::Status { .. }
        | Call::Close { .. }
        | Call::Issue { .. } => {}
    }
}

/// The sums of each group in a run, by the words of the stores. Where nobody else wrote, they are those of the plain desk.
fn reports(month: &Month, run: u64, stores: &Stores, plain: bool) -> Vec<[u64; 2]> {
    let quarters = month.quarters as usize;
    let sums = |group| {
        let [schedule, figures] =
            report::rows(&stores.schedules, &stores.book, quarters, run, group);
        report::sums(schedule, figures)
    };
    let sums: Vec<[u64; 2]> = (1..=GROUPS).map(sums).collect();
    if plain {
        let figures = month.figures(run);
        let exact = (1..=GROUPS).map(|group| month.report(&figures, group).map(sum_word));
        assert_eq!(sums, exact.collect::<Vec<_>>(), "run {run}");
    }
    sums
}

/// Runs a month with the plain desk. At the end it asks for the status of every version and for every report.
pub fn expected(trial: &Trial, tally: &mut Tally) -> Expected {
    let mut course = Course {
        trial,
        tally,
        desk: Desk::new(),
        records: Vec::new(),
        answers: Vec::new(),
        written: None,
    };
    for step in &trial.steps {
        course.step(step);
    }
    let stores = match &course.written {
        Some(stores) => stores.clone(),
        None => stores_after(&course.desk, trial.stores()),
    };
    course.ask(&stores);
    let Course {
        desk,
        records,
        answers,
        ..
    } = course;
    Expected {
        records,
        outcome: Outcome { answers, stores },
        desk,
    }
}

/// What the stores hold after the desk's list: used rows of values and log, every figure of the book and every schedule; the
/// rest as it was. The groups' figures add up to the outside exchange, their deviations to what the schedules have more.
pub fn stores_after(desk: &Desk, mut stores: Stores) -> Stores {
    let Some(month) = desk.month() else {
        return stores;
    };
    let quarters = month.quarters as usize;
    for run in 1..=2 {
        let figures = month.figures(run);
        for (quarter, outside) in month.outside(run).into_iter().enumerate() {
            let groups = (0..64).map(|row| figures[row * quarters + quarter]);
            assert_eq!(groups.sum::<i128>(), outside, "the groups add up");
        }
        schedules::assert_adds_up(&month, run, &figures);
        let start = (run as usize - 1) * ROWS * quarters;
        for (place, figure) in stores.book[start..].iter_mut().zip(&figures) {
            *place = word(figure);
        }
    }
    for (row, series) in month.rows.iter().enumerate() {
        stores.values[row * quarters..][..quarters].copy_from_slice(series);
    }
    for (place, word) in stores.log.iter_mut().zip(month.log.concat()) {
        *place = word;
    }
    for (group, row) in (1..=GROUPS).zip(stores.schedules.chunks_mut(quarters)) {
        for (place, energy) in row.iter_mut().zip(month.schedule(group)) {
            *place = energy as u64;
        }
    }
    stores
}

/// The first place in which two slices differ, as text.
fn first_difference(name: &str, plain: &[u64], linked: &[u64]) -> Option<String> {
    let at = (0..plain.len()).find(|&at| plain[at] != linked[at])?;
    let (one, other) = (plain[at] as i64, linked[at] as i64);
    Some(format!("{name} at {at}: {one}, linked {other}"))
}

/// Where the linked desk differs from what is expected, its delta groups included, as text.
pub fn difference(trial: &Trial, expected: &Expected) -> Option<String> {
    let Outcome { answers, stores } = &expected.outcome;
    let Some(month) = expected.desk.month() else {
        let linked = script::run(&expected.records, trial.stores());
        return outcomes_differ(answers, stores, &linked);
    };
    let mut stores = stores.clone();
    let told = groups::brought_out(&month, &mut stores.book);
    let told = [&expected.records[..], &told].concat();
    let answers = [&answers[..], &vec![vec![0]; DELTAS]].concat();
    let linked = script::run(&told, trial.stores());
    outcomes_differ(&answers, &stores, &linked).map(|difference| {
        let linked = script::run(&expected.records, trial.stores());
        let Outcome { answers, stores } = &expected.outcome;
        let before = outcomes_differ(answers, stores, &linked);
        before.unwrap_or(format!("delta groups brought out: {difference}"))
    })
}

/// Where a run of the linked desk differs from these answers and stores, as text.
fn outcomes_differ(answers: &[Vec<u64>], stores: &Stores, linked: &Outcome) -> Option<String> {
    for (at, answer) in answers.iter().enumerate() {
        let other = linked.answers.get(at);
        if Some(answer) != other {
            let other = other.map_or("none".to_string(), |other| format!("{other:?}"));
            return Some(format!("answer {}: {answer:?}, linked {other}", at + 1));
        }
    }
    first_difference("log", &stores.log, &linked.stores.log)
        .or_else(|| first_difference("book", &stores.book, &linked.stores.book))
        .or_else(|| first_difference("values", &stores.values, &linked.stores.values))
        .or_else(|| {
            let (one, other) = (&stores.schedules, &linked.stores.schedules);
            first_difference("schedules", one, other)
        })
}

/// Compares a month. Where the desks differ, the panic's text is the shortest list of calls that still differs.
pub fn compare(trial: &Trial, tally: &mut Tally) {
    if difference(trial, &expected(trial, tally)).is_some() {
        panic!("{}", text(&shortest(trial.clone())));
    }
}

fn differs(trial: &Trial) -> bool {
    difference(trial, &expected(trial, &mut Tally::new())).is_some()
}

/// Leaves out items of a list, many at a time and then one at a time, while the rest differs.
pub fn shortest_list<T: Clone>(mut list: Vec<T>, differs: impl Fn(&[T]) -> bool) -> Vec<T> {
    let mut size = list.len();
    while size > 0 {
        let (mut at, mut dropped) = (0, false);
        while at < list.len() {
            let mut shorter = list.clone();
            shorter.drain(at..list.len().min(at + size));
            if differs(&shorter) {
                (list, dropped) = (shorter, true);
            } else {
                at += size;
            }
        }
        if size > 1 || !dropped {
            size /= 2;
        }
    }
    list
}

/// Leaves out steps, and calls to a damaged desk, while the rest differs.
pub fn shortest(mut trial: Trial) -> Trial {
    let steps = std::mem::take(&mut trial.steps);
    trial.steps = shortest_list(steps, |steps| {
        differs(&Trial {
            steps: steps.to_vec(),
            ..trial
        })
    });
    for at in 0..trial.steps.len() {
        shorten_damaged(&mut trial, at);
    }
    trial
}

/// Leaves out calls of a damaged step while the month differs.
fn shorten_damaged(trial: &mut Trial, at: usize) {
    let mut place = 0;
    loop {
        let mut shorter = trial.clone();
        match &mut shorter.steps[at] {
            Step::Damaged { calls, .. } if place < calls.len() => calls.remove(place),
            _ => return,
        };
        if differs(&shorter) {
            *trial = shorter;
        } else {
            place += 1;
        }
    }
}

/// A month's calls, one a line, each with the answer of both desks, and where they differ.
pub fn text(trial: &Trial) -> String {
    let expected = expected(trial, &mut Tally::new());
    let difference = difference(trial, &expected);
    let linked = script::run(&expected.records, trial.stores());
    let mut text = String::from("the desks differ:\n");
    let mut answers = expected.outcome.answers.iter().zip(1..);
    for record in &expected.records {
        let _ = match record {
            Record::Damage(damage) => writeln!(text, "      {damage}"),
            Record::Write(write) => writeln!(text, "      {write}"),
            Record::Call(call, lent) => {
                let (answer, number) = answers.next().expect("an answer");
                let other = linked.answers.get(number - 1);
                let mark = if other == Some(answer) { ' ' } else { '>' };
                let other = other.map_or(&[][..], |other| other);
                writeln!(
                    text,
                    "{mark}{number:4} {call}; {lent}: {answer:?}, linked {other:?}"
                )
            }
        };
    }
    text + &difference.unwrap_or_default()
}
