//! Lists of calls with lodgings and reports, and what each is answered, written out by hand from document 02; with the plain desk
//! and with the linked one.

use emorizugu_tests::call::{Call, Lengths};
use emorizugu_tests::compare::{difference, expected, Expected, Step, Trial};
use emorizugu_tests::script::{self, Outcome, Stores, Write};
use emorizugu_tests::tally::Tally;

/// The stores of a month of two quarter hours.
const LENT: Lengths = Lengths {
    values: 24,
    book: 324,
    log: 32,
    schedules: 128,
};

/// The same without a row of the log.
const NO_LOG: Lengths = Lengths { log: 0, ..LENT };

/// The stores are longer than what is lent of them.
const PLACES: Lengths = Lengths {
    values: 30,
    book: 330,
    log: 40,
    schedules: 200,
};

/// A line of a list.
#[derive(Clone, Copy)]
enum Line {
    /// A call, its number and its fields, and its answer. A refused show has a row of no length behind its number, a report two
    /// sums; an accepted status has 100 added.
    To(&'static [i64], &'static [i64]),
    /// The same with one store lent in another length: values 0, book 1, log 2, schedules 3.
    Lent(usize, u64, &'static [i64], &'static [i64]),
    /// Somebody else writes in a store: which, where, what.
    Wrote(u64, u64, i64),
}

use Line::{Lent, To, Wrote};

/// A group and its schedule.
type Schedule = (usize, [i64; 2]);

/// Calls that are all accepted, then the lines; afterwards the schedules, those of other groups 0, and the used rows of the log.
struct List {
    why: &'static str,
    lent: Lengths,
    start: &'static [&'static [i64]],
    lines: &'static [Line],
    schedules: &'static [Schedule],
    log: &'static [[u64; 4]],
}

/// Q 2, F 10, C 30, K 150; delta groups T 4, area 1: 1, area 2: 2, others 3.
const OPEN: &[i64] = &[
    1, 2, 10, 30, 150, 4, 1, 2, 3, 3, 3, 3, 3, 3, 3, 3, 3, 3, 3, 3, 3, 3,
];

/// Document 01's sample month. Its groups have 11000, 7000 (1), 30200, 19900 (2), 300, -100 (4), 50000, 45000 (5), 8500, 8200 (6).
const SAMPLE: &[&[i64]] = &[
    OPEN,
    &[2, 1, 1, 1, 0, 0],
    &[2, 2, 1, 2, 1, 0],
    &[2, 3, 2, 1, 5, 0],
    &[2, 4, 3, 1, 0, 0],
    &[2, 5, 4, 0, 6, 0],
    &[2, 6, 5, 2, 0, 0],
    &[4, 1, 1, 2, 100_000, 80_000],
    &[4, 2, 1, 2, 30_000, 20_000],
    &[4, 3, 1, 2, 50_000, 45_000],
    &[4, 4, 1, 2, 9_000, 8_000],
    &[4, 5, 1, 2, 8_500, 8_200],
    &[4, 6, 1, 2, 200, -100],
];

const SAMPLE_LOG: &[[u64; 4]] = &[
    [2, 1, 1, 1],
    [2, 2, 1, 1],
    [2, 3, 1, 1],
    [2, 4, 1, 1],
    [2, 5, 1, 1],
    [2, 6, 1, 1],
];

/// Point 1, sum of group 5 in area 1: version 1 by F, version 2 after it; a schedule of group 5.
const CORRECTED: &[&[i64]] = &[
    OPEN,
    &[2, 1, 2, 1, 5, 0],
    &[4, 1, 1, 2, 100, 200],
    &[4, 1, 2, 11, 150, 160],
    &[10, 5, 12, 120, 180],
];

/// The largest energy.
const MOST: i64 = 1_000_000_000_000;

const LISTS: [List; 19] = [
    List {
        why: "a lodging sets the day",
        lent: LENT,
        start: &[OPEN],
        lines: &[
            To(&[10, 3, 20, 5, 6], &[0]),
            To(&[2, 1, 1, 1, 0, 19], &[5]),
            To(&[3, 1, 19], &[5]),
            To(&[4, 1, 1, 19, 1, 1], &[5]),
            To(&[5, 1, 1, 1, 19], &[5]),
            To(&[6, 1, 1, 19], &[5]),
            To(&[9, 1, 19], &[5]),
            To(&[12, 1, 19], &[5]),
            To(&[10, 3, 19, 7, 8], &[5]),
            To(&[2, 1, 1, 1, 0, 20], &[0]),
        ],
        schedules: &[(3, [5, 6])],
        log: &[],
    },
    List {
        why: "a refused lodging moves no day and lodges nothing",
        lent: LENT,
        start: &[OPEN],
        lines: &[
            To(&[10, 3, 31, 5, 6], &[26]),
            To(&[10, 0, 20, 5, 6], &[3]),
            Lent(3, 127, &[10, 3, 20, 5, 6], &[2]),
            To(&[2, 1, 1, 1, 0, 0], &[0]),
            To(&[11, 1, 3], &[0, 0, 0]),
        ],
        schedules: &[],
        log: &[],
    },
    List {
        why: "up to day C; behind it 26, behind K too",
        lent: LENT,
        start: &[OPEN],
        lines: &[
            To(&[10, 3, 31, 1, 1], &[26]),
            To(&[10, 3, 150, 1, 1], &[26]),
            To(&[10, 3, 151, 1, 1], &[26]),
            To(&[10, 3, 400, 1, 1], &[26]),
            To(&[10, 3, 401, 1, 1], &[3]),
            To(&[10, 3, 29, 2, 2], &[0]),
            To(&[10, 3, 30, 3, 4], &[0]),
            To(&[10, 3, 31, 1, 1], &[26]),
            To(&[10, 3, 29, 1, 1], &[5]),
            To(&[2, 1, 1, 1, 0, 30], &[0]),
        ],
        schedules: &[(3, [3, 4])],
        log: &[],
    },
    List {
        why: "5 before 26",
        lent: LENT,
        start: &[OPEN, &[10, 3, 0, 1, 2], &[9, 1, 160]],
        lines: &[
            To(&[10, 3, 30, 9, 9], &[5]),
            To(&[10, 3, 31, 9, 9], &[5]),
            To(&[10, 3, 159, 9, 9], &[5]),
            To(&[10, 3, 160, 9, 9], &[26]),
        ],
        schedules: &[(3, [1, 2])],
        log: &[],
    },
    List {
        why: "ranges: group, day, energies",
        lent: LENT,
        start: &[OPEN],
        lines: &[
            To(&[10, 0, 0, 1, 1], &[3]),
            To(&[10, 65, 0, 1, 1], &[3]),
            To(&[10, 4_294_967_297, 0, 1, 1], &[3]),
            To(&[10, -1, 0, 1, 1], &[3]),
            To(&[10, 1, -1, 1, 1], &[3]),
            To(&[10, 1, 65_536, 1, 1], &[3]),
            To(&[10, 1, 0], &[3]),
            To(&[10, 1, 0, 1], &[3]),
            To(&[10, 1, 0, 1, 1, 1], &[3]),
            To(&[10, 1, 0, MOST + 1, 0], &[3]),
            To(&[10, 1, 0, 0, MOST + 1], &[3]),
            To(&[10, 1, 0, -MOST - 1, 0], &[3]),
            To(&[10, 1, 0, 0, -MOST - 1], &[3]),
            To(&[10, 1, 0, i64::MAX, 0], &[3]),
            To(&[10, 1, 0, 0, i64::MIN], &[3]),
            To(&[10, 1, 0, MOST, -MOST], &[0]),
            To(&[10, 64, 0, -MOST, MOST], &[0]),
        ],
        schedules: &[(1, [MOST, -MOST]), (64, [-MOST, MOST])],
        log: &[],
    },
    List {
        why: "1 before 2 before 3 before 5 and 26",
        lent: LENT,
        start: &[],
        lines: &[
            To(&[10, 3, 0, 1, 1], &[1]),
            To(&[11, 1, 3], &[1, 0, 0]),
            Lent(3, 0, &[10, 3, 0, 1, 1], &[1]),
            Lent(3, 0, &[11, 3, 99], &[1, 0, 0]),
            To(&[10, 99, 999], &[1]),
            To(OPEN, &[0]),
            To(&[10, 3, 20, 1, 1], &[0]),
            Lent(3, 127, &[10, 65, 19, 1, 1], &[2]),
            Lent(3, 129, &[10, 3, 31, 1, 1], &[2]),
            To(&[10, 65, 19, 1, 1], &[3]),
            To(&[10, 3, 19, 1], &[3]),
            To(&[10, 65, 31, 1, 1], &[3]),
            Lent(3, 127, &[11, 3, 1], &[2, 0, 0]),
            Lent(1, 323, &[11, 1, 65], &[2, 0, 0]),
            To(&[11, 3, 1], &[3, 0, 0]),
        ],
        schedules: &[(3, [1, 1])],
        log: &[],
    },
    List {
        why: "a lodging takes the schedules, and no other store",
        lent: LENT,
        start: &[OPEN],
        lines: &[
            Lent(3, 0, &[10, 3, 0, 1, 1], &[2]),
            Lent(3, 64, &[10, 3, 0, 1, 1], &[2]),
            Lent(3, 127, &[10, 3, 0, 1, 1], &[2]),
            Lent(3, 129, &[10, 3, 0, 1, 1], &[2]),
            Lent(3, 192, &[10, 3, 0, 1, 1], &[2]),
            Lent(0, 0, &[10, 1, 0, 1, 2], &[0]),
            Lent(1, 0, &[10, 2, 0, 3, 4], &[0]),
            Lent(2, 3, &[10, 3, 0, 5, 6], &[0]),
        ],
        schedules: &[(1, [1, 2]), (2, [3, 4]), (3, [5, 6])],
        log: &[],
    },
    List {
        why: "a report takes the schedules and the book, and no other store",
        lent: LENT,
        start: SAMPLE,
        lines: &[
            Lent(3, 127, &[11, 1, 5], &[2, 0, 0]),
            Lent(3, 129, &[11, 1, 5], &[2, 0, 0]),
            Lent(3, 0, &[11, 2, 5], &[2, 0, 0]),
            Lent(1, 323, &[11, 1, 5], &[2, 0, 0]),
            Lent(1, 325, &[11, 1, 5], &[2, 0, 0]),
            Lent(1, 162, &[11, 2, 5], &[2, 0, 0]),
            Lent(0, 0, &[11, 1, 5], &[0, 0, 95_000]),
            Lent(2, 0, &[11, 2, 5], &[0, 0, 95_000]),
        ],
        schedules: &[],
        log: SAMPLE_LOG,
    },
    List {
        why: "no other call after the opening takes the schedules",
        lent: LENT,
        start: &[OPEN, &[10, 5, 0, 1, 1]],
        lines: &[
            Lent(3, 0, &[2, 1, 2, 1, 5, 0], &[0]),
            Lent(3, 127, &[4, 1, 1, 2, 7, 8], &[0]),
            Lent(3, 129, &[4, 1, 2, 11, 9, 9], &[0]),
            Lent(3, 0, &[5, 1, 2, 1, 12], &[0]),
            Lent(3, 1, &[6, 1, 6, 12], &[0]),
            Lent(3, 0, &[7, 1, 5], &[0, 2, 9, 9]),
            Lent(3, 0, &[8, 1, 2], &[102]),
            Lent(3, 0, &[2, 2, 1, 1, 0, 12], &[0]),
            Lent(3, 0, &[3, 2, 12], &[0]),
            Lent(3, 0, &[9, 1, 31], &[0]),
            Lent(3, 0, &[12, 1, 31], &[0]),
            Lent(3, 0, OPEN, &[6]),
        ],
        schedules: &[(5, [1, 1])],
        log: &[[2, 1, 1, 1], [12, 1, 1, 2]],
    },
    List {
        why: "a schedule is replaced, and a refused lodging leaves it",
        lent: LENT,
        start: SAMPLE,
        lines: &[
            To(&[10, 5, 3, 49_000, 45_000], &[0]),
            To(&[11, 1, 5], &[0, 0, 1_000]),
            To(&[10, 5, 3, 50_000, 45_700], &[0]),
            To(&[11, 1, 5], &[0, 700, 0]),
            To(&[10, 5, 2, 1, 1], &[5]),
            To(&[10, 5, 31, 1, 1], &[26]),
            To(&[10, 5, 3, 1, MOST + 1], &[3]),
            Lent(3, 129, &[10, 5, 3, 1, 1], &[2]),
            To(&[11, 1, 5], &[0, 700, 0]),
            To(&[10, 5, 4, 0, 0], &[0]),
            To(&[11, 1, 5], &[0, 0, 95_000]),
        ],
        schedules: &[],
        log: SAMPLE_LOG,
    },
    List {
        why: "surplus is schedule over figure, shortfall figure over schedule, and they do not cancel between quarter hours",
        lent: LENT,
        start: SAMPLE,
        lines: &[
            To(&[10, 2, 3, 40_000, 30_000], &[0]),
            To(&[10, 5, 3, 49_000, 46_000], &[0]),
            To(&[10, 6, 3, 8_500, 8_200], &[0]),
            To(&[10, 4, 3, 299, -99], &[0]),
            To(&[11, 1, 2], &[0, 19_900, 0]),
            To(&[11, 1, 5], &[0, 1_000, 1_000]),
            To(&[11, 1, 6], &[0, 0, 0]),
            To(&[11, 1, 4], &[0, 1, 1]),
            To(&[11, 2, 2], &[0, 19_900, 0]),
            To(&[11, 2, 5], &[0, 1_000, 1_000]),
            To(&[7, 1, 5], &[0, 2, 50_000, 45_000]),
        ],
        schedules: &[
            (2, [40_000, 30_000]),
            (4, [299, -99]),
            (5, [49_000, 46_000]),
            (6, [8_500, 8_200]),
        ],
        log: SAMPLE_LOG,
    },
    List {
        why: "a group that never lodged has schedule 0 and is reported",
        lent: LENT,
        start: SAMPLE,
        lines: &[
            To(&[11, 1, 1], &[0, 0, 18_000]),
            To(&[11, 2, 2], &[0, 0, 50_100]),
            To(&[11, 1, 4], &[0, 100, 300]),
            To(&[11, 2, 64], &[0, 0, 0]),
            To(&[11, 1, 0], &[3, 0, 0]),
            To(&[11, 1, 65], &[3, 0, 0]),
            To(&[11, 0, 1], &[3, 0, 0]),
            To(&[11, 3, 1], &[3, 0, 0]),
            To(&[11, 4_294_967_297, 1], &[3, 0, 0]),
            To(&[11, 1, -1], &[3, 0, 0]),
        ],
        schedules: &[],
        log: SAMPLE_LOG,
    },
    List {
        why: "over all groups surplus minus shortfall is the schedules' sum minus the outside exchange: 112,000 less 180,000",
        lent: LENT,
        start: SAMPLE,
        lines: &[
            To(&[10, 5, 2, 49_000, 46_000], &[0]),
            To(&[10, 6, 2, 8_000, 9_000], &[0]),
            To(&[10, 64, 2, -5, 5], &[0]),
            To(&[11, 1, 1], &[0, 0, 18_000]),
            To(&[11, 1, 2], &[0, 0, 50_100]),
            To(&[11, 1, 3], &[0, 0, 0]),
            To(&[11, 1, 4], &[0, 100, 300]),
            To(&[11, 1, 5], &[0, 1_000, 1_000]),
            To(&[11, 1, 6], &[0, 800, 500]),
            To(&[11, 1, 64], &[0, 5, 5]),
        ],
        schedules: &[
            (5, [49_000, 46_000]),
            (6, [8_000, 9_000]),
            (64, [-5, 5]),
        ],
        log: SAMPLE_LOG,
    },
    List {
        why: "each run by its own figures, before and after it is closed and issued",
        lent: LENT,
        start: CORRECTED,
        lines: &[
            To(&[11, 1, 5], &[0, 20, 20]),
            To(&[11, 2, 5], &[0, 20, 20]),
            To(&[11, 1, 1], &[0, 300, 0]),
            To(&[5, 1, 2, 1, 31], &[0]),
            To(&[11, 1, 5], &[0, 20, 20]),
            To(&[11, 2, 5], &[0, 20, 30]),
            To(&[11, 2, 1], &[0, 310, 0]),
            To(&[9, 1, 31], &[0]),
            To(&[11, 1, 5], &[0, 20, 20]),
            To(&[12, 1, 31], &[0]),
            To(&[11, 1, 5], &[0, 20, 20]),
            To(&[9, 2, 151], &[0]),
            To(&[11, 2, 5], &[0, 20, 30]),
            To(&[12, 2, 151], &[0]),
            To(&[11, 2, 5], &[0, 20, 30]),
            To(&[11, 1, 5], &[0, 20, 20]),
        ],
        schedules: &[(5, [120, 180])],
        log: &[[2, 1, 1, 1], [31, 1, 2, 2]],
    },
    List {
        why: "a report follows the book: a submission, a notice and an assignment behind the lodging",
        lent: LENT,
        start: CORRECTED,
        lines: &[
            To(&[5, 1, 2, 1, 12], &[0]),
            To(&[11, 1, 5], &[0, 20, 30]),
            To(&[6, 1, 5, 12], &[0]),
            To(&[11, 1, 5], &[0, 300, 0]),
            To(&[11, 1, 1], &[0, 0, 0]),
            To(&[6, 1, 7, 12], &[0]),
            To(&[11, 1, 5], &[0, 20, 30]),
            To(&[11, 2, 7], &[0, 310, 0]),
        ],
        schedules: &[(5, [120, 180])],
        log: &[[2, 1, 1, 1], [12, 1, 1, 2]],
    },
    List {
        why: "no row of the log is due, and a lodging changes no figure",
        lent: NO_LOG,
        start: &[OPEN],
        lines: &[
            To(&[10, 1, 2, 1, 2], &[0]),
            To(&[10, 64, 2, -3, 4], &[0]),
            To(&[11, 1, 1], &[0, 3, 0]),
            To(&[11, 2, 64], &[0, 4, 3]),
            To(&[7, 1, 64], &[0, 2, 0, 0]),
            To(&[2, 1, 2, 1, 64, 2], &[0]),
            To(&[4, 1, 1, 4, 5, 5], &[17]),
            To(&[10, 64, 30, 9, 9], &[0]),
        ],
        schedules: &[(1, [1, 2]), (64, [9, 9])],
        log: &[],
    },
    List {
        why: "an opening of an open desk leaves the schedules",
        lent: LENT,
        start: &[OPEN, &[10, 1, 7, 1, 2], &[10, 33, 7, 3, 4]],
        lines: &[
            To(OPEN, &[6]),
            Lent(3, 127, OPEN, &[6]),
            To(&[11, 1, 33], &[0, 7, 0]),
            To(&[10, 2, 6, 1, 1], &[5]),
        ],
        schedules: &[(1, [1, 2]), (33, [3, 4])],
        log: &[],
    },
    List {
        why: "2^63 - 1 against -1 is neither over nor under, and sums wrap; group 5 begins at 8 in both stores",
        lent: LENT,
        start: &[OPEN, &[10, 5, 0, 0, 1]],
        lines: &[
            Wrote(3, 8, i64::MAX),
            Wrote(1, 8, -1),
            To(&[11, 1, 5], &[0, 1, 0]),
            To(&[11, 2, 5], &[0, i64::MIN, 0]),
            Wrote(3, 9, i64::MAX),
            To(&[11, 1, 5], &[0, i64::MAX, 0]),
            To(&[11, 2, 5], &[0, -2, 0]),
            Wrote(1, 170, -3),
            Wrote(1, 171, i64::MIN),
            To(&[11, 2, 5], &[0, 0, i64::MAX]),
            To(&[7, 2, 5], &[0, 2, -3, i64::MIN]),
            To(&[11, 1, 4], &[0, 0, 0]),
            To(&[11, 1, 6], &[0, 0, 0]),
        ],
        schedules: &[(5, [i64::MAX, i64::MAX])],
        log: &[],
    },
    List {
        why: "a lodging replaces what somebody else wrote in its row, and leaves the other rows; values and log are not read",
        lent: LENT,
        start: SAMPLE,
        lines: &[
            Wrote(3, 7, 77),
            Wrote(3, 8, 88),
            Wrote(3, 9, 99),
            Wrote(3, 10, 111),
            Wrote(0, 4, 1),
            Wrote(0, 5, 1),
            Wrote(2, 0, 1),
            Wrote(4, 0, 1),
            Wrote(3, 200, 1),
            To(&[10, 5, 3, 50_000, 45_001], &[0]),
            To(&[11, 1, 5], &[0, 1, 0]),
            To(&[11, 1, 4], &[0, 177, 300]),
            To(&[11, 2, 6], &[0, 0, 16_589]),
        ],
        schedules: &[(4, [0, 77]), (5, [50_000, 45_001]), (6, [111, 0])],
        log: &[[1, 1, 1, 1], [2, 2, 1, 1], [2, 3, 1, 1], [2, 4, 1, 1], [2, 5, 1, 1], [2, 6, 1, 1]],
    },
];

fn call(numbers: &[i64]) -> Call {
    let words: Vec<u64> = numbers.iter().map(|&number| number as u64).collect();
    Call::of(words[0], &words[1..]).expect("a call")
}

impl Line {
    fn step(self, lent: Lengths) -> Step {
        match self {
            To(numbers, _) => Step::Call(call(numbers), lent),
            Lent(store, length, numbers, _) => {
                let mut each = lent.each();
                each[store] = length;
                let [values, book, log, schedules] = each;
                let lent = Lengths {
                    values,
                    book,
                    log,
                    schedules,
                };
                Step::Call(call(numbers), lent)
            }
            Wrote(store, place, number) => Step::Write(Write {
                store,
                place,
                number: number as u64,
            }),
        }
    }

    fn answer(self) -> Option<Vec<u64>> {
        match self {
            To(_, answer) | Lent(_, _, _, answer) => {
                Some(answer.iter().map(|&number| number as u64).collect())
            }
            Wrote(..) => None,
        }
    }
}

impl List {
    fn trial(&self) -> Trial {
        let start = self.start.iter().map(|numbers| To(numbers, &[]));
        let lines = start.chain(self.lines.iter().copied());
        Trial {
            places: PLACES,
            seed: 29,
            steps: lines.map(|line| line.step(self.lent)).collect(),
        }
    }

    /// The answers that are written out, the schedules and the log; what is asked behind the list is left out.
    fn compare(&self, given: &Outcome) {
        let start = vec![vec![0]; self.start.len()];
        let lines = self.lines.iter().filter_map(|line| line.answer());
        let answers: Vec<Vec<u64>> = start.into_iter().chain(lines).collect();
        for (at, answer) in answers.iter().enumerate() {
            assert_eq!(
                given.answers.get(at),
                Some(answer),
                "{}, {}",
                self.why,
                at + 1
            );
        }
        let Stores {
            mut schedules,
            mut log,
            ..
        } = self.trial().stores();
        schedules[..128].fill(0);
        for &(group, schedule) in self.schedules {
            schedules[2 * group - 2..2 * group].copy_from_slice(&schedule.map(|e| e as u64));
        }
        log[..4 * self.log.len()].copy_from_slice(&self.log.concat());
        assert_eq!(given.stores.schedules, schedules, "{}", self.why);
        assert_eq!(given.stores.log, log, "{}", self.why);
    }

    fn expected(&self) -> Expected {
        expected(&self.trial(), &mut Tally::new())
    }
}

#[test]
fn the_plain_desk_answers_the_lists() {
    for list in &LISTS {
        list.compare(&list.expected().outcome);
    }
}

#[test]
fn the_linked_desk_answers_the_lists() {
    for list in &LISTS {
        let plain = list.expected();
        let linked = script::run(&plain.records, list.trial().stores());
        list.compare(&linked);
        assert_eq!(linked, plain.outcome, "{}", list.why);
        assert_eq!(difference(&list.trial(), &plain), None, "{}", list.why);
    }
}

/// Lengths of the schedules at an opening of two quarter hours: another one is 4 and leaves them as they are, the right one
/// fills as many with 0 and leaves the rest.
#[test]
fn an_opening_fills_the_schedules_or_leaves_them() {
    for schedules in [0, 1, 63, 64, 126, 127, 128, 129, 130, 192, 200] {
        let answer = if schedules == 128 { 0 } else { 4 };
        let trial = Trial {
            places: PLACES,
            seed: 30,
            steps: vec![Step::Call(call(OPEN), Lengths { schedules, ..LENT })],
        };
        let mut after = trial.stores();
        if answer == 0 {
            after.schedules[..128].fill(0);
            after.book[..324].fill(0);
        }
        let plain = expected(&trial, &mut Tally::new());
        let linked = script::run(&plain.records, trial.stores());
        for given in [plain.outcome, linked] {
            assert_eq!(given.answers[0], [answer], "{schedules}");
            assert_eq!(given.stores, after, "{schedules}");
        }
    }
}
