//! Months of calls from a seed. The plain desk goes along, so that most calls are such as a desk accepts, and each
//! refusal comes up.

use crate::call::{Call, Lengths, DELTAS};
use crate::compare::{Step, Trial};
use crate::damage::FIELDS;
use crate::desk::Desk;
use crate::generator::Random;
use crate::pick::Pick;
use crate::script::Write;
use crate::worked::{Month, GROUPS, ROWS};

/// What a month is like.
#[derive(Clone, Copy, Debug, PartialEq, Eq)]
pub enum Size {
    /// Some 70 calls.
    Short,
    /// So many submissions that 512 versions are held.
    Versions,
    /// So many activations that 256 points are active.
    Points,
    /// Some 70 calls in a month of so many quarter hours.
    Quarters(u64),
    /// Some 85 calls in a month of so many quarter hours, of which mostly both runs are closed and issued.
    Issued(u64),
    /// Some 100 calls in a month of so many quarter hours, in which mostly some deltas get another group in run 2.
    Apart(u64),
}

/// Numbers at the ends of a field's range, beyond them, and such as a narrower number takes for others.
pub const ENDS: [u64; 27] = [
    0,
    1,
    2,
    3,
    5,
    6,
    15,
    16,
    17,
    63,
    64,
    65,
    255,
    256,
    257,
    399,
    400,
    401,
    2_980,
    2_981,
    65_535,
    65_536,
    99_999_999_999_999,
    100_000_000_000_000,
    1 << 63,
    u64::MAX - 1,
    u64::MAX,
];

/// What is added to a right number, so that its lower bits stay right.
pub const BEYOND: [u64; 4] = [1 << 8, 1 << 16, 1 << 32, 1 << 63];

/// Places of a month's stores beyond the lengths of its opening.
pub const SPARE: Lengths = Lengths {
    values: 5,
    book: 165,
    log: 8,
    schedules: 67,
};

/// A schedule and a figure whose difference is at the end of the 64-bit range or beyond it, or 0.
const PAIRS: [(i64, i64); 14] = [
    (i64::MAX, -1),
    (i64::MAX, 0),
    (i64::MAX, -2),
    (i64::MAX, i64::MIN),
    (i64::MAX, i64::MAX),
    (i64::MIN, 0),
    (i64::MIN, 1),
    (i64::MIN, i64::MAX),
    (i64::MIN, i64::MIN),
    (0, i64::MIN),
    (0, i64::MAX),
    (-1, i64::MAX),
    (-2, i64::MAX),
    (1, i64::MIN + 1),
];

/// What the calls of a month are chosen from.
pub(crate) struct Plan {
    pub(crate) opening: Call,
    pub(crate) quarters: u64,
    pub(crate) lengths: Lengths,
    pub(crate) places: Lengths,
    pub(crate) size: Size,
    /// Days that the month goes through, some more than once.
    pub(crate) days: Vec<u64>,
    pub(crate) points: Vec<u64>,
    pub(crate) groups: Vec<u64>,
    pub(crate) areas: Vec<u64>,
    /// Whether run 2 is mostly issued before run 1.
    pub(crate) second_first: bool,
}

/// A month from the seed.
pub fn month(random: &mut Random, size: Size) -> Trial {
    let plan = plan(random, size);
    let calls = match size {
        Size::Short | Size::Quarters(_) => 46 + random.below(47),
        Size::Issued(_) => 62 + random.below(47),
        Size::Apart(_) => 76 + random.below(47),
        Size::Versions => 690 + random.below(40),
        Size::Points => 440 + random.below(260),
    };
    let mut trial = Trial {
        places: plan.places,
        seed: random.word(),
        steps: Vec::new(),
    };
    let mut desk = Desk::new();
    let pace = match size {
        Size::Versions => 50,
        Size::Issued(_) => 85 + random.below(35),
        _ => 70 + random.below(50),
    };
    for at in 0..calls {
        let progress = (plan.days.len() * at * pace) / (calls * 100);
        let planned = plan.days[progress.min(plan.days.len() - 1)];
        let step = step(random, &plan, &desk, planned);
        if let Step::Call(call, lent) = &step {
            desk.call(call, *lent);
        }
        trial.steps.push(step);
    }
    if random.once_in(4) {
        let written = written(random, &plan, desk);
        trial.steps.extend(written);
    }
    trial
}

/// Somebody else writes in the stores of an open desk; shows, reports, lodgings and statuses between and behind.
fn written(random: &mut Random, plan: &Plan, mut desk: Desk) -> Vec<Step> {
    let mut steps = Vec::new();
    for _ in 0..1 + random.below(3) {
        let Some(month) = desk.month() else {
            return vec![];
        };
        let (run, group) = (1 + random.below(2) as u64, random.of(&plan.groups));
        steps.extend(writes(random, plan, &month, (run, group)).map(Step::Write));
        let mut pick = Pick {
            random,
            plan,
            month: &month,
            planned: month.day,
        };
        let (asked, lent) = pick.asked();
        steps.push(Step::Call(Call::Report { run, group }, month.lengths));
        steps.push(Step::Call(asked.clone(), lent));
        desk.call(&asked, lent);
    }
    steps
}

/// Numbers in some quarter hours of a group's schedule and of its figures in a run, and in any places.
fn writes(
    random: &mut Random,
    plan: &Plan,
    month: &Month,
    (run, group): (u64, u64),
) -> impl Iterator<Item = Write> {
    let (quarters, mut writes) = (month.quarters, Vec::new());
    let row = |row: u64| row * quarters;
    for _ in 0..1 + random.below(4) {
        let quarter = random.below(quarters as usize) as u64;
        let (schedule, figure) = random.of(&PAIRS);
        let figure_row = (run - 1) * ROWS as u64 + group - 1;
        let places = [(3, row(group - 1), schedule), (1, row(figure_row), figure)];
        writes.extend(places.map(|(store, start, number)| Write {
            store,
            place: start + quarter,
            number: number as u64,
        }));
    }
    let [values, book, log, schedules] = plan.places.each();
    for (store, places) in [(0, values), (1, book), (2, log), (3, schedules), (4, 1)] {
        let place = random.below(places as usize + 2) as u64;
        let number = random.word();
        writes.push(Write {
            store,
            place,
            number,
        });
    }
    writes.into_iter()
}

/// Calls from the seed that the desk refuses as it stands.
pub fn refused(random: &mut Random, trial: &Trial, desk: &Desk, calls: usize) -> Vec<Step> {
    let mut plan = plan(random, Size::Short);
    plan.places = trial.places;
    let mut refused = Vec::new();
    while refused.len() < calls {
        let day = desk.month().map_or(0, |month| month.day);
        let Step::Call(call, lent) = step(random, &plan, desk, day) else {
            continue;
        };
        let lent = lent.within(trial.places);
        let mut desk = desk.clone();
        let before = desk.list().len();
        desk.call(&call, lent);
        if desk.list().len() == before {
            refused.push(Step::Call(call, lent));
        }
    }
    refused
}

fn plan(random: &mut Random, size: Size) -> Plan {
    let quarters = match size {
        Size::Quarters(quarters) | Size::Issued(quarters) | Size::Apart(quarters) => quarters,
        Size::Short => random.of(&[1, 1, 2, 2, 3, 4]),
        Size::Versions | Size::Points => random.of(&[1, 1, 1, 2]),
    };
    let long = matches!(size, Size::Versions | Size::Points);
    let (first, clearing, correction) = match random.below(10) {
        0 if !long => (1, 2, 3),
        1 if !long => (397, 398, 399),
        2 => (5, 6, 399),
        _ => {
            let first = 2 + random.below(12) as u64;
            let clearing = first + 1 + random.below(30) as u64;
            (first, clearing, clearing + 1 + random.below(120) as u64)
        }
    };
    let (rows, log_rows) = match size {
        Size::Versions => (512 + random.below(3), 600),
        Size::Points => (600, random.of(&[100, 512])),
        Size::Issued(_) | Size::Apart(_) => (40, 40),
        _ => (
            random.of(&[0, 3, 7, 40, 40, 40, 40, 600]),
            random.of(&[0, 1, 2, 4, 8, 40, 40, 40, 40]),
        ),
    };
    let lengths = Lengths {
        values: rows as u64 * quarters + random.below(quarters as usize) as u64,
        book: 162 * quarters,
        log: 4 * log_rows as u64,
        schedules: GROUPS * quarters,
    };
    let groups = (0..3 + random.below(4)).map(|_| 1 + random.below(64) as u64);
    let groups: Vec<u64> = groups.chain([1, 64]).collect();
    let others = match size {
        Size::Apart(_) => 1,
        _ => 2 + random.below(3),
    };
    let areas = (0..others).map(|_| 1 + random.below(16) as u64);
    let areas = areas.chain([1, 16]).collect();
    let points = match size {
        Size::Points => (1..=256).collect(),
        Size::Versions => (0..40).map(|_| 1 + random.below(256) as u64).collect(),
        _ => {
            let points = (0..5 + random.below(6)).map(|_| 1 + random.below(256) as u64);
            points.chain([1, 256]).collect()
        }
    };
    let mut delta_groups = [0; DELTAS];
    delta_groups.fill_with(|| random.of(&groups));
    Plan {
        opening: Call::Open {
            quarters,
            first,
            clearing,
            correction,
            groups: delta_groups,
        },
        quarters,
        lengths,
        places: Lengths {
            values: lengths.values + SPARE.values,
            book: lengths.book + SPARE.book,
            log: lengths.log + SPARE.log,
            schedules: lengths.schedules + SPARE.schedules,
        },
        size,
        days: days(random, size, first, clearing, correction),
        points,
        groups,
        areas,
        second_first: random.once_in(3),
    }
}

/// The days that a month goes through: before and after each deadline.
fn days(random: &mut Random, size: Size, f: u64, c: u64, k: u64) -> Vec<u64> {
    let mut between = |from: u64, to: u64| from + random.below((to - from + 1) as usize) as u64;
    let (early, middle, late) = (between(0, f), between(f, c), between(c, k));
    let mut days = vec![0, early.min(2), 2.min(f), f, f];
    match size {
        Size::Versions => {}
        Size::Points => days.extend([0; 16]),
        Size::Issued(_) => days.extend([0, late, k + 1, k + 1, k + 1, k + 1]),
        Size::Apart(_) => {
            days.extend([0, 0, 0, c + 1, c + 1, c + 1, c + 1, late, late, late]);
            days.extend([late, late, k - 1, k - 1, k - 1, k, k, k + 1, k + 1]);
        }
        _ => days.push(0),
    }
    days.extend([f + 1, f + 1, f + 1, middle, c - 1, c, c, c]);
    days.extend([c + 1, c + 1, late, late, k - 1, k, k, k + 1, 400]);
    days.sort_unstable();
    days
}

/// One step: mostly a call, seldom a few of them to a damaged desk.
fn step(random: &mut Random, plan: &Plan, desk: &Desk, planned: u64) -> Step {
    let month = desk.month();
    let Some(month) = &month else {
        return unopened(random, plan);
    };
    let mut pick = Pick {
        random,
        plan,
        month,
        planned,
    };
    if !pick.random.once_in(50) {
        let (call, lent) = pick.call();
        return Step::Call(call, lent);
    }
    let calls = 1 + pick.random.below(4);
    Step::Damaged {
        field: pick.random.below(FIELDS.len()),
        choice: pick.random.below(1 << 20),
        calls: (0..calls).map(|_| pick.call()).collect(),
    }
}

/// A step before the opening: the opening, often with something wrong in it, or another call.
fn unopened(random: &mut Random, plan: &Plan) -> Step {
    let mut lent = plan.lengths;
    let call = match random.below(5) {
        0 => any_call(random, plan.quarters),
        1 => {
            let length = 1 + random.below(5) as u64;
            match random.below(4) {
                0 => lent.book = plan.places.book - length,
                1 => lent.log += 1 + random.below(3) as u64,
                2 => lent.schedules = other_schedules(random, plan),
                _ => return Step::Call(changed(random, &plan.opening), lent),
            }
            plan.opening.clone()
        }
        _ => plan.opening.clone(),
    };
    Step::Call(call, lent)
}

/// A length that the schedules have at no opening of the plan.
fn other_schedules(random: &mut Random, plan: &Plan) -> u64 {
    let (right, most) = (plan.lengths.schedules, plan.places.schedules);
    random.of(&[0, 1, right - 1, right + 1, right - 64, right + 64, most])
}

/// A call with numbers of no meaning.
pub(crate) fn any_call(random: &mut Random, quarters: u64) -> Call {
    let number = 2 + random.below(11) as u64;
    let energies = quarters as usize;
    let fields = [0, 21, 5, 2, 3 + energies, 4, 3, 2, 2, 2, 2 + energies, 2, 2];
    let fields = fields[number as usize];
    let fields: Vec<u64> = (0..fields).map(|_| random.of(&ENDS)).collect();
    Call::of(number, &fields).expect("so many fields")
}

/// A call with one of its numbers changed to one at the end of a range, beyond it, or far beyond it.
pub(crate) fn changed(random: &mut Random, call: &Call) -> Call {
    let mut fields = call.fields();
    let field = random.below(fields.len());
    let number = fields[field];
    fields[field] = match random.below(4) {
        0 => number.wrapping_add(random.of(&BEYOND)),
        1 => number.wrapping_add(random.of(&[1, u64::MAX])),
        _ => random.of(&ENDS),
    };
    Call::of(call.number(), &fields).expect("as many fields")
}
