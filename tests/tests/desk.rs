//! The desk: both desks on months of calls from a seed, their delta groups included, on every number at the ends of its range, on
//! calls that are refused, and where somebody else writes in the stores.

use emorizugu_tests::acts;
use emorizugu_tests::call::{Call, Lengths};
use emorizugu_tests::compare::{compare, expected, Step, Trial};
use emorizugu_tests::damage::FIELDS;
use emorizugu_tests::desk::CAUSES;
use emorizugu_tests::generator::Random;
use emorizugu_tests::groups;
use emorizugu_tests::linked;
use emorizugu_tests::months::{self, Size, BEYOND, ENDS};
use emorizugu_tests::notices::{FULL_LOG, NOTICES};
use emorizugu_tests::schedules;
use emorizugu_tests::script::{self, Record, Stores, Write};
use emorizugu_tests::tally::Tally;

/// Months of some 70 calls.
const MONTHS: usize = 20_000;

/// Months that reach 512 versions, and months that reach 256 points.
const LONG: usize = 100;

/// How often each answer is to have been compared at least.
const LEAST: u64 = 500;

/// How often each case of lodgings and reports, and of closes and issues, is to have been compared at least.
const LEAST_CASES: u64 = 100;

/// How often each case of assignments, and of calls where the runs have other delta groups, is to have been compared at least.
const LEAST_GROUPS: u64 = 200;

/// The answers of each call to an open desk, but for an accepted status.
const ANSWERS: [(&str, &[u64]); 12] = [
    ("open", &[0, 4, 6]),
    ("activate", &[0, 3, 5, 11, 21, 22]),
    ("deactivate", &[0, 3, 5, 11, 12, 23]),
    ("submit", &[0, 2, 3, 5, 11, 12, 13, 14, 15, 16, 17]),
    ("notice", &[0, 2, 3, 5, 11, 12, 17, 24, 25, 37]),
    ("assign", &[0, 2, 3, 5, 26]),
    ("show", &[0, 2, 3]),
    ("status", &[3, 12, 24]),
    ("close", &[0, 3, 5, 27, 28, 29]),
    ("lodge", &[0, 2, 3, 5, 26]),
    ("report", &[0, 2, 3]),
    ("issue", &[0, 3, 5, 38, 39]),
];

/// Cases that a month can have, with the numbers that they are counted by.
const CASES: [(&str, &[u64]); 15] = [
    ("desk not open", &[1]),
    (
        "call to a desk not open",
        &[2, 3, 4, 5, 6, 7, 8, 9, 10, 11, 12],
    ),
    (
        "call to a damaged desk",
        &[1, 2, 3, 4, 5, 6, 7, 8, 9, 10, 11, 12],
    ),
    ("status given", &[1, 2, 3, 4, 5]),
    ("values of another length", &[2]),
    ("book of another length", &[2]),
    ("log of another length", &[2]),
    ("schedules of another length", &[2]),
    ("next row exceeds values", &[16]),
    ("kind of the series submitted", &[1, 2, 3, 4, 5]),
    ("both sides on one row", &[1, 2, 3, 4, 5]),
    ("run closed", &[1, 2]),
    ("run issued", &[1, 2]),
    ("assign that moves a delta", &[0, 1]),
    ("log full and no row due", &[0]),
];

/// Fields of the state that have no value outside their limits.
const WIDE: [&str; 4] = [
    "run closed",
    "run issued",
    "version's status",
    "unused version",
];

/// The month up to some step.
fn cut(trial: &Trial, steps: usize) -> Trial {
    Trial {
        steps: trial.steps[..steps].to_vec(),
        ..*trial
    }
}

#[test]
fn months_agree() {
    let (mut random, mut tally) = (Random::new(5), Tally::new());
    for _ in 0..MONTHS {
        let size = match random.below(16) {
            0..=3 => Size::Issued(1 + random.below(4) as u64),
            4..=6 => Size::Apart(1 + random.below(4) as u64),
            _ => Size::Short,
        };
        let month = months::month(&mut random, size);
        compare(&month, &mut tally);
        let steps = random.below(month.steps.len());
        compare(&cut(&month, steps), &mut Tally::new());
    }
    tally.print();
    let cases = CASES.into_iter().chain(NOTICES).chain([FULL_LOG]);
    for (what, numbers) in ANSWERS.into_iter().chain(cases) {
        tally.demand(what, numbers, LEAST);
    }
    let cases = schedules::CASES.into_iter().chain(schedules::WRAPS);
    let cases = cases.chain(acts::CASES).chain(acts::BETWEEN);
    for (what, numbers) in cases {
        tally.demand(what, numbers, LEAST_CASES);
    }
    let cases = groups::DAYS.into_iter().chain(groups::CASES);
    let cases = cases.chain(groups::APART).chain(groups::SIDES);
    for (what, numbers) in cases.chain(groups::ASKED) {
        tally.demand(what, numbers, LEAST_GROUPS);
    }
    for field in FIELDS.iter().filter(|field| !WIDE.contains(&field.name)) {
        assert!(tally.all(field.name) >= LEAST, "damage to {}", field.name);
    }
}

#[test]
fn long_months_agree() {
    let (mut random, mut tally) = (Random::new(6), Tally::new());
    for _ in 0..LONG {
        for size in [Size::Versions, Size::Points] {
            let month = months::month(&mut random, size);
            compare(&month, &mut tally);
        }
    }
    tally.print();
    tally.demand("512 versions held", &[16], LEAST);
    tally.demand("256 points active", &[0], 50);
}

#[test]
fn months_of_many_quarter_hours_agree() {
    let (mut random, mut tally) = (Random::new(7), Tally::new());
    for quarters in [5, 96, 100, 2_879, 2_976, 2_979, 2_980] {
        for _ in 0..4 {
            let month = months::month(&mut random, Size::Quarters(quarters));
            compare(&month, &mut tally);
        }
    }
    tally.print();
    tally.demand("kind of the series submitted", &[1, 2, 3, 4, 5], 10);
    assert!(tally.all("show") >= 50);
}

/// A month, and the same month with refused calls at its end: the linked desk leaves the same stores, and answers the
/// rest of the month in the same way.
#[test]
fn refused_calls_change_nothing() {
    let (mut random, mut tally) = (Random::new(8), Tally::new());
    for _ in 0..3_000 {
        let month = months::month(&mut random, Size::Short);
        let steps = random.below(month.steps.len() + 1);
        let start = cut(&month, steps);
        let plain = expected(&start, &mut Tally::new());
        let refused = months::refused(&mut random, &start, &plain.desk, 12);
        let mut with_refused = start.clone();
        with_refused.steps.extend(refused.iter().cloned());
        compare(&with_refused, &mut Tally::new());
        with_refused
            .steps
            .extend(month.steps[steps..].iter().cloned());
        compare(&with_refused, &mut Tally::new());
        let mut records = plain.records;
        let without = script::run(&records, month.stores());
        let rest: Vec<Record> = calls(&month.steps[steps..]);
        let from = records.len();
        records.extend(calls(&refused));
        let with = script::run(&records, month.stores());
        assert_eq!(with.stores, without.stores, "{}", lines(&records));
        let refusals = with.answers.len() - refused.len();
        for (answer, step) in with.answers[refusals..].iter().zip(&refused) {
            let Step::Call(call, _) = step else { continue };
            assert!(CAUSES.contains(&answer[0]), "{call}: {}", lines(&records));
            tally.add(call.name(), answer[0]);
        }
        let mut going_on = records.clone();
        going_on.extend(rest.iter().cloned());
        let with = script::run(&going_on, month.stores());
        records.truncate(from);
        records.extend(rest);
        let without = script::run(&records, month.stores());
        assert_eq!(with.stores, without.stores, "{}", lines(&going_on));
        let at = without.answers.len() - (records.len() - from);
        let end = &with.answers[at + refused.len()..];
        assert_eq!(end, &without.answers[at..], "{}", lines(&going_on));
    }
    tally.print();
    for (call, number) in [("notice", 37), ("issue", 38), ("issue", 39)] {
        let count = tally.count(call, number);
        assert!(count >= LEAST_CASES, "{call}: {number} only {count} times");
    }
    assert_eq!(
        ANSWERS.iter().map(|(call, _)| tally.all(call)).sum::<u64>(),
        36_000
    );
}

/// The calls among steps.
fn calls(steps: &[Step]) -> Vec<Record> {
    let call = |step: &Step| match step {
        Step::Call(call, lent) => Some(Record::Call(call.clone(), *lent)),
        Step::Damaged { .. } | Step::Write(_) => None,
    };
    steps.iter().filter_map(call).collect()
}

fn lines(records: &[Record]) -> String {
    let lines: Vec<String> = records.iter().map(Record::to_string).collect();
    lines.join("\n")
}

/// Calls that are all accepted, of every sort.
fn accepted() -> Trial {
    let lent = Lengths {
        values: 9,
        book: 324,
        log: 20,
        schedules: 128,
    };
    let fields: [&[u64]; 29] = [
        &[
            1, 2, 10, 30, 150, 4, 1, 2, 3, 3, 3, 3, 3, 3, 3, 3, 3, 3, 3, 3, 3, 3,
        ],
        &[2, 1, 1, 1, 0, 0],
        &[2, 256, 1, 16, 15, 0],
        &[2, 2, 2, 1, 5, 0],
        &[2, 3, 4, 0, 64, 1],
        &[2, 4, 5, 2, 0, 1],
        &[3, 4, 1],
        &[4, 1, 5, 3, 100, 200],
        &[4, 256, 99_999_999_999_990, 10, 1_000_000_000_000, 7],
        &[6, 0, 64, 10],
        &[6, 16, 1, 10],
        &[10, 64, 10, 7, 1_000_000_000_000],
        &[10, 1, 10, 150, u64::MAX],
        &[7, 1, 64],
        &[7, 2, 1],
        &[8, 1, 5],
        &[11, 1, 64],
        &[11, 2, 1],
        &[4, 2, 1, 11, 10, 20],
        &[10, 64, 30, 8, 9],
        &[5, 2, 1, 1, 30],
        &[4, 2, 3, 30, 11, 21],
        &[5, 2, 3, 1, 31],
        &[9, 1, 31],
        &[12, 1, 31],
        &[6, 16, 3, 31],
        &[6, 0, 9, 150],
        &[9, 2, 151],
        &[12, 2, 152],
    ];
    let step = |numbers: &&[u64]| {
        let call = Call::of(numbers[0], &numbers[1..]).expect("a call");
        Step::Call(call, lent)
    };
    Trial {
        places: Lengths {
            values: 12,
            book: 330,
            log: 28,
            schedules: 195,
        },
        seed: 9,
        steps: fields.iter().map(step).collect(),
    }
}

/// Lengths of the stores about the right ones: every three of the first three, and each of the last.
fn lengths(right: Lengths) -> Vec<Lengths> {
    let schedules = [0, 63, 64, 65, 127, 128, 129, 192];
    let with = |schedules| Lengths { schedules, ..right };
    let mut lengths = schedules.map(with).to_vec();
    for values in [0, 8, 9, 10] {
        for book in [0, 162, 323, 324, 325] {
            for log in [0, 16, 19, 20, 21, 24] {
                lengths.push(Lengths {
                    values,
                    book,
                    log,
                    ..right
                });
            }
        }
    }
    lengths
}

/// Each call of a month with each of its numbers, and each length lent to it, at the ends of ranges, next to what it
/// is, and where its lower bits only are right.
#[test]
fn numbers_at_the_ends_of_their_ranges_agree() {
    let month = accepted();
    let mut tally = Tally::new();
    compare(&month, &mut tally);
    for (call, _) in ANSWERS.iter().filter(|(call, _)| *call != "status") {
        tally.demand(call, &[0], 1);
    }
    for (at, step) in month.steps.iter().enumerate() {
        let Step::Call(call, lent) = step else {
            continue;
        };
        let mut other = cut(&month, month.steps.len());
        for field in 0..call.fields().len() {
            let right = call.fields()[field];
            let near = [1, 2, 3, u64::MAX, u64::MAX - 1].map(|n| right.wrapping_add(n));
            let beyond = BEYOND.map(|n| right.wrapping_add(n));
            let energies = [1_000_000_000_000_u64, 1_000_000_000_001];
            let negative = energies.map(u64::wrapping_neg);
            let numbers = ENDS.iter().chain(&near).chain(&beyond);
            for &number in numbers.chain(&energies).chain(&negative) {
                let mut fields = call.fields();
                fields[field] = number;
                let changed = Call::of(call.number(), &fields).expect("a call");
                other.steps[at] = Step::Call(changed, *lent);
                compare(&other, &mut tally);
            }
        }
        for lent in lengths(*lent) {
            other.steps[at] = Step::Call(call.clone(), lent);
            compare(&other, &mut tally);
        }
    }
    tally.print();
    tally.demand("desk not open", &[1], LEAST);
    for (call, _) in ANSWERS {
        assert!(tally.all(call) >= LEAST, "{call}");
    }
}

/// A script is run up to the record that it cannot run.
#[test]
fn scripts_stop_before_what_they_cannot_run() {
    let month = accepted();
    let records = expected(&month, &mut Tally::new()).records;
    let script: Vec<u64> = records.iter().flat_map(Record::numbers).collect();
    let whole = run(&script, &month, 3_000);
    let mut ends = vec![0];
    for record in &records {
        ends.push(ends[ends.len() - 1] + record.numbers().len());
    }
    for length in 0..=script.len() {
        let full = ends.iter().rev().find(|&&end| end <= length);
        let full = *full.expect("a beginning");
        let stopped = run(&script[..length], &month, 3_000);
        assert_eq!(stopped, run(&script[..full], &month, 3_000), "{length}");
        assert!(whole.0.starts_with(&stopped.0));
    }
    for (at, &start) in ends[..records.len()].iter().enumerate() {
        let foreign = [
            (0, 0),
            (0, 15),
            (0, u64::MAX),
            (1, 13),
            (2, 331),
            (3, 29),
            (4, 196),
            (4, u64::MAX),
        ];
        for (place, number) in foreign {
            let mut other = script.clone();
            other[start + place] = number;
            let stopped = run(&other, &month, 3_000);
            assert_eq!(stopped, run(&script[..start], &month, 3_000), "{at}");
        }
    }
    for places in [0, 1, 325, 326, 327, 330, 340] {
        let stopped = run(&script, &month, places);
        assert_eq!(stopped.0.is_empty(), places < 326);
        assert!(whole.0.starts_with(&stopped.0));
    }
}

/// The numbers that a script writes to an output of so many places, and the stores.
fn run(script: &[u64], month: &Trial, places: usize) -> (Vec<u64>, Stores) {
    let (mut out, mut stores) = (vec![0; places], month.stores());
    let written = linked::script(script, stores.each_mut(), &mut out);
    out.truncate(written as usize);
    (out, stores)
}

/// A number that somebody else writes in values, book or schedules.
fn write(random: &mut Random, places: Lengths) -> Write {
    let (store, places) = random.of(&[(0, places.values), (1, places.book), (3, places.schedules)]);
    let place = random.below(places as usize) as u64;
    let number = random.word();
    Write {
        store,
        place,
        number,
    }
}

/// "Answer numbers, statuses and log rows never depend on what the stores hold": months in which somebody else writes between
/// the calls.
#[test]
fn answers_do_not_depend_on_what_the_stores_hold() {
    let (mut random, mut tally) = (Random::new(21), Tally::new());
    for _ in 0..3_000 {
        let mut month = months::month(&mut random, Size::Short);
        month.steps.retain(|step| !matches!(step, Step::Write(_)));
        let plain = expected(&month, &mut Tally::new());
        let mut records = Vec::new();
        for record in &plain.records {
            if random.once_in(3) {
                let write = write(&mut random, month.places);
                tally.add("written in store", write.store);
                records.push(Record::Write(write));
            }
            records.push(record.clone());
        }
        let linked = script::run(&records, month.stores());
        assert_eq!(linked.answers.len(), plain.outcome.answers.len());
        for (answer, other) in plain.outcome.answers.iter().zip(&linked.answers) {
            assert_eq!(answer[0], other[0], "{}", lines(&records));
            tally.add(
                "a row or sums of what was written",
                (answer != other).into(),
            );
        }
        let log = &plain.outcome.stores.log;
        assert_eq!(log, &linked.stores.log, "{}", lines(&records));
    }
    tally.print();
    tally.demand("written in store", &[0, 1, 3], LEAST);
    tally.demand("a row or sums of what was written", &[0, 1], LEAST);
}
