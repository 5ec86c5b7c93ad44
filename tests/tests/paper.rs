//! The files that document 01 writes out, and those that its decided points and document 02's lines of selected versions, its
//! notices and its close and issue do.

use emorizugu_tests::call::Lengths;
use emorizugu_tests::linked;
use emorizugu_tests::message;
use emorizugu_tests::numbers::{self, ANSWER, NO_CALL};
use emorizugu_tests::program;
use emorizugu_tests::replay::{self, Lent, POINT, POINTS, SUMMARY, VERSIONS};
use emorizugu_tests::script::{self, Outcome, Record, Stores};
use std::env;

/// The bytes of a line of hexadecimal pairs; `XX*n` is the pair n times.
fn bytes(line: &str) -> Vec<u8> {
    let pair = |word: &str| {
        let (digits, times) = word.split_once('*').unwrap_or((word, "1"));
        let byte = u8::from_str_radix(digits, 16).expect("two hexadecimal digits");
        vec![byte; times.parse().expect("a number of times")]
    };
    line.split_whitespace().flat_map(pair).collect()
}

/// "Hexadecimal input" of document 01.
const EXAMPLE: &str =
    "01 01 0A 1E 96 01 04 01 02 03*14  02 01 01 01 00 00  04 01 07 02 01 D0 0F  04 01 07 02 01 D0 0F";

/// The answer slice of a call: next, kind, fields, count.
fn call(next: u64, kind: u64, fields: &[u64], count: u64) -> Vec<u64> {
    let mut answer = vec![0; ANSWER];
    answer[0] = next;
    answer[1] = kind;
    answer[2..2 + fields.len()].copy_from_slice(fields);
    answer[ANSWER - 1] = count;
    answer
}

#[test]
fn the_example_is_read_as_its_calls() {
    let file = bytes(EXAMPLE);
    let mut open = vec![1, 10, 30, 150, 4, 1, 2];
    open.resize(21, 3);
    let submit = [1, 7, 2];
    let calls = [
        call(23, 1, &open, 0),
        call(29, 2, &[1, 1, 1, 0, 0], 0),
        call(36, 4, &submit, 1),
        call(43, 4, &submit, 1),
    ];
    for read in [numbers::read, linked::read] {
        let mut start = 0;
        for expected in &calls {
            let (mut series, mut answer) = ([9; 2], [9; ANSWER]);
            assert_eq!(read(&file, start, &mut series, &mut answer), 0);
            assert_eq!(answer[..], expected[..]);
            let submitted = expected[1] == 4;
            assert_eq!(series, if submitted { [1000, 9] } else { [9, 9] });
            start = answer[0];
        }
        let (mut series, mut answer) = ([9; 2], [9; ANSWER]);
        assert_eq!(read(&file, start, &mut series, &mut answer), NO_CALL);
        assert_eq!((start, answer), (43, [9; ANSWER]));
        assert_eq!(series, [9, 9]);
    }
}

#[test]
fn verdicts_on_written_out_files() {
    let accepted = [
        ("", "an empty file has no calls"),
        (EXAMPLE, "the example"),
        ("04 01 01 02 00", "count 0 is read"),
        ("07 FF*8 7F 00", "2^63 - 1 in nine bytes"),
        ("08 01 1F", "kind 8"),
        (
            "08 00 FF*8 7F 07 01 1F",
            "kind 8 with any fields, and kind 7",
        ),
        ("04 01 01 02 A4 17 00*2980", "2,980 energies"),
    ];
    for (line, why) in accepted {
        let file = bytes(line);
        let verdict = (0, file.len() as u64);
        assert_eq!(numbers::verdict(&file), verdict, "{why}");
        assert_eq!(linked::file_refusal(&file), 0, "{why}");
        assert_eq!(linked::file_offset(&file), verdict.1, "{why}");
    }
    let refused = [
        ("80 00", 32, 0, "P12"),
        ("80", 31, 0, "the file ends inside the kind"),
        ("80*8", 31, 0, "eight bytes that say that more follow"),
        (
            "80*9",
            32,
            0,
            "the ninth byte has the top bit set, also at the file's end",
        ),
        ("80*8 00", 32, 0, "the ninth byte is 0"),
        ("07 FF*9 01 00", 32, 0, "a tenth byte"),
        ("00", 33, 0, "kind 0"),
        ("09", 33, 0, "kind 9"),
        ("0A", 33, 0, "kind 10"),
        ("08", 31, 0, "the file ends behind kind 8"),
        ("08 01", 31, 0, "the file ends behind the run of kind 8"),
        ("88 01", 33, 0, "kind 136, its form is right"),
        ("88 00", 32, 0, "kind 8 in two bytes: form before meaning"),
        ("89 00", 32, 0, "kind 9 in two bytes"),
        ("04 01 01 02 A5 17", 34, 0, "count 2,981 before any energy"),
        ("04 01 01 02 A5 97 00", 32, 0, "a longer form of 2,981"),
        (
            "04 01 01 02 A4 17 00*2979",
            31,
            0,
            "2,980 energies, one missing",
        ),
        (
            "07 01 1F 07 01",
            31,
            3,
            "the second call is cut: the offset is the call's",
        ),
        (
            "07 01 1F 07 01 80 00",
            32,
            3,
            "the second call's last field",
        ),
        ("07 01 1F 08 01 20 09", 33, 6, "the third call's kind"),
        ("08 01 1F 08 01 80 00", 32, 3, "the second issue's day"),
        (
            "07 01 1F 04 01 01 02 A5 17",
            34,
            3,
            "the second call's count",
        ),
    ];
    for (line, number, offset, why) in refused {
        let file = bytes(line);
        assert_eq!(numbers::verdict(&file), (number, offset), "{why}");
        assert_eq!(linked::file_refusal(&file), number, "{why}");
        assert_eq!(linked::file_offset(&file), offset, "{why}");
    }
}

#[test]
fn buffers_and_starts_written_out() {
    // File, start, length of the series buffer, answer, offset or next.
    let cases = [
        (
            "04 01 01 02 02 01 02",
            0,
            2,
            0,
            7,
            "two energies, two places",
        ),
        (
            "04 01 01 02 02 01 02",
            0,
            1,
            35,
            0,
            "two energies, one place",
        ),
        (
            "04 01 01 02 02 01",
            0,
            1,
            35,
            0,
            "35 before a cut inside the energies",
        ),
        (
            "04 01 01 02 02 01",
            0,
            2,
            31,
            0,
            "a cut inside the energies",
        ),
        (
            "04 01 01 02 02 01 80 00",
            0,
            2,
            32,
            0,
            "the second energy's form",
        ),
        ("04 01 01 02 A5 17", 0, 0, 34, 0, "34 before 35"),
        ("07 01 1F", 3, 0, 1, 3, "no call follows"),
        ("07 01 1F", 4, 0, 31, 4, "a start beyond the end"),
        (
            "07 01 1F",
            u64::MAX,
            0,
            31,
            u64::MAX,
            "a start far beyond the end",
        ),
        ("", 0, 0, 1, 0, "an empty file"),
        ("", 1, 0, 31, 1, "beyond an empty file"),
        (
            "07 01 1F",
            1,
            0,
            31,
            1,
            "a start inside a call: `01 1F` is an open that is cut",
        ),
        ("07 01 1F", 2, 0, 33, 2, "a start inside a call: kind 31"),
    ];
    for (line, start, room, number, offset, why) in cases {
        let file = bytes(line);
        for read in [numbers::read, linked::read] {
            let (mut series, mut answer) = (vec![9; room], [9; ANSWER]);
            assert_eq!(
                read(&file, start, &mut series, &mut answer),
                number,
                "{why}"
            );
            if number == 0 {
                assert_eq!(answer[0], offset, "{why}");
                assert_eq!(series, [u64::MAX, 1], "energies -1 and 1");
            } else {
                assert_eq!(series, vec![9; room], "{why}");
                assert_eq!(answer, [9; ANSWER], "{why}");
            }
        }
        for read_offset in [numbers::read_offset, linked::read_offset] {
            assert_eq!(read_offset(&file, start, room as u64), offset, "{why}");
        }
    }
}

#[test]
fn energies_at_the_ends_written_out() {
    let cases = [
        (0_i64, "00"),
        (-1, "01"),
        (1, "02"),
        (-64, "7F"),
        (64, "80 01"),
        (1000, "D0 0F"),
        ((1 << 62) - 1, "FE FF*7 7F"),
        (-(1 << 62), "FF*8 7F"),
    ];
    for (energy, line) in cases {
        let expected = [bytes("04 01 07 02 01"), bytes(line)].concat();
        for write in [numbers::write, linked::write] {
            let (mut output, mut length) = ([0xee; 20], [9]);
            let number = write(4, &[1, 7, 2], &[energy as u64], &mut output, &mut length);
            assert_eq!((number, length[0]), (0, expected.len() as u64), "{energy}");
            assert_eq!(output[..expected.len()], expected[..], "{energy}");
            assert!(output[expected.len()..].iter().all(|&byte| byte == 0xee));
        }
    }
    let outside: [i64; 4] = [1 << 62, -(1 << 62) - 1, i64::MAX, i64::MIN];
    for energy in outside {
        for write in [numbers::write, linked::write] {
            let (mut output, mut length) = ([0xee; 20], [9]);
            let number = write(4, &[1, 7, 2], &[energy as u64], &mut output, &mut length);
            assert_eq!((number, length, output), (34, [9], [0xee; 20]), "{energy}");
        }
    }
}

/// Calls in two lists, each call a line of hexadecimal pairs, and what comes of them.
struct Selections {
    why: &'static str,
    calls: [&'static [&'static str]; 2],
    answers: &'static [u64],
    /// The lines G and T of the desk program.
    figures: &'static str,
    /// Its lines S behind them.
    selected: &'static str,
    /// The rows of the log: day, point, run, new version.
    log: &'static [[u64; 4]],
}

impl Selections {
    fn file(&self) -> Vec<u8> {
        bytes(&self.calls.concat().join(" "))
    }

    fn printed(&self) -> String {
        let answers = self.answers.iter().zip(1..);
        let answers: String = answers.map(|(a, call)| format!("{call} {a}\n")).collect();
        answers + self.figures + self.selected
    }
}

/// Q 1, F 10, C 30, K 150; delta groups T 4, area 1: 1, area 2: 2, others 3.
const OPEN: &str = "01 01 0A 1E 96 01 04 01 02 03*14";

/// The same for two quarter hours.
const OPEN_2: &str = "01 02 0A 1E 96 01 04 01 02 03*14";

/// Point 1, exchange of area 1 with the outside.
const POINT_1: &str = "02 01 01 01 00 00";

/// Point 2, sum of group 5 in area 1.
const POINT_2: &str = "02 02 02 01 05 00";

/// Version 1 of point 1, 5 Wh, on day 2; version 2, 6 Wh, on day 3.
const BY_FIRST: [&str; 4] = [OPEN, POINT_1, "04 01 01 02 01 0A", "04 01 02 03 01 0C"];

/// Versions 1 and 2 of point 1, 5 and 6 Wh, both on day 11.
const AFTER_FIRST: [&str; 4] = [OPEN, POINT_1, "04 01 01 0B 01 0A", "04 01 02 0B 01 0C"];

/// Version 7 of point 1, 1,000 Wh, and version 1 of point 2, 10 Wh, on day 2; version 2 of point 2, 20 Wh, on day 11, with a
/// positive notice on day 31.
const CORRECTED: [&str; 7] = [
    OPEN,
    POINT_1,
    POINT_2,
    "04 01 07 02 01 D0 0F",
    "04 02 01 02 01 14",
    "04 02 02 0B 01 28",
    "05 02 02 01 1F",
];

const CORRECTED_FIGURES: &str =
    "G 1 1 1 990\nG 1 1 5 10\nT 1 1 1000\nG 2 1 1 980\nG 2 1 5 20\nT 2 1 1000\n";

const CORRECTED_LOG: [[u64; 4]; 3] = [[2, 1, 1, 7], [2, 2, 1, 1], [31, 2, 2, 2]];

const CLOSE_1: &str = "07 01 1F";
const ISSUE_1: &str = "08 01 1F";
const CLOSE_2: &str = "07 02 97 01";
const ISSUE_2: &str = "08 02 97 01";

/// Document 02: "After the T lines the desk program prints `S run point version status`, runs rising, then points rising, for
/// points with a selection."
const SELECTIONS: [Selections; 15] = [
    Selections {
        why: "the case of document 01",
        calls: [&[EXAMPLE], &[]],
        answers: &[0, 0, 0, 14],
        figures: "G 1 1 1 1000\nT 1 1 1000\nG 2 1 1 1000\nT 2 1 1000\n",
        selected: "S 1 1 7 2\nS 2 1 7 2\n",
        log: &[[2, 1, 1, 7]],
    },
    Selections {
        why: "behind all lines T of both runs",
        calls: [&[OPEN_2, POINT_1], &["04 01 07 02 02 0A 05"]],
        answers: &[0; 3],
        figures: "G 1 1 1 5\nT 1 1 5\nG 1 2 1 -3\nT 1 2 -3\nG 2 1 1 5\nT 2 1 5\nG 2 2 1 -3\nT 2 2 -3\n",
        selected: "S 1 1 7 2\nS 2 1 7 2\n",
        log: &[[2, 1, 1, 7]],
    },
    Selections {
        why: "run 2's own has 4, above run 1's with 2; point 1 is as in run 1",
        calls: [&CORRECTED, &[]],
        answers: &[0; 7],
        figures: CORRECTED_FIGURES,
        selected: "S 1 1 7 2\nS 1 2 1 2\nS 2 1 7 2\nS 2 2 2 4\n",
        log: &CORRECTED_LOG,
    },
    Selections {
        why: "run 1 issued: 3, in run 2 too where it has no own; no row of the log",
        calls: [&CORRECTED, &[CLOSE_1, ISSUE_1]],
        answers: &[0; 9],
        figures: CORRECTED_FIGURES,
        selected: "S 1 1 7 3\nS 1 2 1 3\nS 2 1 7 3\nS 2 2 2 4\n",
        log: &CORRECTED_LOG,
    },
    Selections {
        why: "both runs issued: 5 for run 2's own alone; no row of the log",
        calls: [&CORRECTED, &[CLOSE_1, ISSUE_1, CLOSE_2, ISSUE_2]],
        answers: &[0; 11],
        figures: CORRECTED_FIGURES,
        selected: "S 1 1 7 3\nS 1 2 1 3\nS 2 1 7 3\nS 2 2 2 5\n",
        log: &CORRECTED_LOG,
    },
    Selections {
        why: "run 1 closed and issued behind K: run 2's own keeps 4",
        calls: [&CORRECTED, &["07 01 97 01", "08 01 97 01"]],
        answers: &[0; 9],
        figures: CORRECTED_FIGURES,
        selected: "S 1 1 7 3\nS 1 2 1 3\nS 2 1 7 3\nS 2 2 2 4\n",
        log: &CORRECTED_LOG,
    },
    Selections {
        why: "refused closes, on a day that has passed, too early, and of run 2 before run 1",
        calls: [&CORRECTED, &["07 01 1E", "07 02 1F", CLOSE_2]],
        answers: &[0, 0, 0, 0, 0, 0, 0, 5, 27, 29],
        figures: CORRECTED_FIGURES,
        selected: "S 1 1 7 2\nS 1 2 1 2\nS 2 1 7 2\nS 2 2 2 4\n",
        log: &CORRECTED_LOG,
    },
    Selections {
        why: "the version below keeps 2, and it is not the selected one",
        calls: [&BY_FIRST, &[CLOSE_1, ISSUE_1]],
        answers: &[0; 6],
        figures: "G 1 1 1 6\nT 1 1 6\nG 2 1 1 6\nT 2 1 6\n",
        selected: "S 1 1 2 3\nS 2 1 2 3\n",
        log: &[[2, 1, 1, 1], [3, 1, 1, 2]],
    },
    Selections {
        why: "check data above the selected version; points with check data alone or no version have no line",
        calls: [
            &[OPEN, POINT_1, POINT_2, "02 03 03 01 00 00"],
            &["04 01 01 02 01 0A", "04 01 02 0B 01 0C", "04 02 01 0B 01 0E"],
        ],
        answers: &[0; 7],
        figures: "G 1 1 1 5\nT 1 1 5\nG 2 1 1 5\nT 2 1 5\n",
        selected: "S 1 1 1 2\nS 2 1 1 2\n",
        log: &[[2, 1, 1, 1]],
    },
    Selections {
        why: "no version is selected after a negative notice",
        calls: [&AFTER_FIRST, &["05 01 02 00 0C"]],
        answers: &[0; 5],
        figures: "T 1 1 0\nT 2 1 0\n",
        selected: "",
        log: &[],
    },
    Selections {
        why: "run 2 has no own below what run 1 selects",
        calls: [
            &AFTER_FIRST,
            &["05 01 02 01 1E", "05 01 01 01 1F", CLOSE_1, ISSUE_1],
        ],
        answers: &[0, 0, 0, 0, 0, 37, 0, 0],
        figures: "G 1 1 1 6\nT 1 1 6\nG 2 1 1 6\nT 2 1 6\n",
        selected: "S 1 1 2 3\nS 2 1 2 3\n",
        log: &[[30, 1, 1, 2]],
    },
    Selections {
        why: "run 2's own, and none in run 1",
        calls: [&AFTER_FIRST, &["05 01 02 01 1F"]],
        answers: &[0; 5],
        figures: "T 1 1 0\nG 2 1 1 6\nT 2 1 6\n",
        selected: "S 2 1 2 4\n",
        log: &[[31, 1, 2, 2]],
    },
    Selections {
        why: "a version submitted after the issue is check data",
        calls: [&BY_FIRST, &[CLOSE_1, ISSUE_1, "04 01 03 20 01 0E"]],
        answers: &[0; 7],
        figures: "G 1 1 1 6\nT 1 1 6\nG 2 1 1 6\nT 2 1 6\n",
        selected: "S 1 1 2 3\nS 2 1 2 3\n",
        log: &[[2, 1, 1, 1], [3, 1, 1, 2]],
    },
    Selections {
        why: "and becomes run 2's own",
        calls: [
            &BY_FIRST,
            &[CLOSE_1, ISSUE_1, "04 01 03 20 01 0E", "05 01 03 01 21"],
        ],
        answers: &[0; 8],
        figures: "G 1 1 1 6\nT 1 1 6\nG 2 1 1 7\nT 2 1 7\n",
        selected: "S 1 1 2 3\nS 2 1 3 4\n",
        log: &[[2, 1, 1, 1], [3, 1, 1, 2], [33, 1, 2, 3]],
    },
    Selections {
        why: "points rise by their numbers, whatever the order of their calls; the last point and version",
        calls: [
            &[
                OPEN,
                "02 80 02 01 10 00 00",
                "02 0A 01 02 00 00",
                "02 09 01 01 00 00",
            ],
            &[
                "04 80 02 FF FF E8 83 B1 DE 16 02 01 02",
                "04 0A 03 02 01 04",
                "04 09 05 02 01 06",
            ],
        ],
        answers: &[0; 7],
        figures: "G 1 1 1 3\nG 1 1 2 2\nG 1 1 3 1\nT 1 1 6\nG 2 1 1 3\nG 2 1 2 2\nG 2 1 3 1\nT 2 1 6\n",
        selected: "S 1 9 5 2\nS 1 10 3 2\nS 1 256 99999999999999 2\nS 2 9 5 2\nS 2 10 3 2\nS 2 256 99999999999999 2\n",
        log: &[
            [2, 256, 1, 99_999_999_999_999],
            [2, 10, 1, 3],
            [2, 9, 1, 5],
        ],
    },
];

/// Versions 5 and 7 of point 1, 5 and 7 Wh, both on day 11.
const WITH_A_GAP: [&str; 4] = [OPEN, POINT_1, "04 01 05 0B 01 0A", "04 01 07 0B 01 0E"];

/// Version 1 of point 1, 5 Wh, on day 2; version 2, 6 Wh, on day 11, with a positive notice on day 31; run 1 closed and issued;
/// version 3, 7 Wh, on day 32.
const ISSUED_AND_CORRECTED: [&str; 8] = [
    OPEN,
    POINT_1,
    "04 01 01 02 01 0A",
    "04 01 02 0B 01 0C",
    "05 01 02 01 1F",
    CLOSE_1,
    ISSUE_1,
    "04 01 03 20 01 0E",
];

/// Document 02: "a notice counts only for the highest version that a point has"; else 37, "checked after 24 and before 25".
const NOTICES: [Selections; 13] = [
    Selections {
        why: "a positive and a negative notice on check data below check data",
        calls: [&AFTER_FIRST, &["05 01 01 01 0C", "05 01 01 00 0C"]],
        answers: &[0, 0, 0, 0, 37, 37],
        figures: "T 1 1 0\nT 2 1 0\n",
        selected: "",
        log: &[],
    },
    Selections {
        why: "on check data below a version of status 2",
        calls: [
            &WITH_A_GAP,
            &["05 01 07 01 0C", "05 01 05 01 0D", "05 01 05 00 0D"],
        ],
        answers: &[0, 0, 0, 0, 0, 37, 37],
        figures: "G 1 1 1 7\nT 1 1 7\nG 2 1 1 7\nT 2 1 7\n",
        selected: "S 1 1 7 2\nS 2 1 7 2\n",
        log: &[[12, 1, 1, 7]],
    },
    Selections {
        why: "on check data below a version of status 3",
        calls: [
            &WITH_A_GAP,
            &[
                "05 01 07 01 1E",
                CLOSE_1,
                ISSUE_1,
                "05 01 05 01 1F",
                "05 01 05 00 1F",
            ],
        ],
        answers: &[0, 0, 0, 0, 0, 0, 0, 37, 37],
        figures: "G 1 1 1 7\nT 1 1 7\nG 2 1 1 7\nT 2 1 7\n",
        selected: "S 1 1 7 3\nS 2 1 7 3\n",
        log: &[[30, 1, 1, 7]],
    },
    Selections {
        why: "on check data below a version of status 4",
        calls: [
            &WITH_A_GAP,
            &["05 01 07 01 1F", "05 01 05 01 20", "05 01 05 00 20"],
        ],
        answers: &[0, 0, 0, 0, 0, 37, 37],
        figures: "T 1 1 0\nG 2 1 1 7\nT 2 1 7\n",
        selected: "S 2 1 7 4\n",
        log: &[[31, 1, 2, 7]],
    },
    Selections {
        why: "on an older version of status 2: 37 before 25; on the highest 25",
        calls: [
            &BY_FIRST,
            &[
                "05 01 01 01 0C",
                "05 01 01 00 0C",
                "05 01 02 01 0C",
                "05 01 02 00 0C",
            ],
        ],
        answers: &[0, 0, 0, 0, 37, 37, 25, 25],
        figures: "G 1 1 1 6\nT 1 1 6\nG 2 1 1 6\nT 2 1 6\n",
        selected: "S 1 1 2 2\nS 2 1 2 2\n",
        log: &[[2, 1, 1, 1], [3, 1, 1, 2]],
    },
    Selections {
        why: "on older versions of status 3 and 4; the highest becomes run 2's own",
        calls: [
            &ISSUED_AND_CORRECTED,
            &[
                "05 01 01 01 21",
                "05 01 01 00 21",
                "05 01 02 01 21",
                "05 01 02 00 21",
                "05 01 03 01 21",
                "05 01 03 00 21",
            ],
        ],
        answers: &[0, 0, 0, 0, 0, 0, 0, 0, 37, 37, 37, 37, 0, 25],
        figures: "G 1 1 1 5\nT 1 1 5\nG 2 1 1 7\nT 2 1 7\n",
        selected: "S 1 1 1 3\nS 2 1 3 4\n",
        log: &[[2, 1, 1, 1], [31, 1, 2, 2], [33, 1, 2, 3]],
    },
    Selections {
        why: "on numbers below, between and above the versions: 24 before 37",
        calls: [
            &WITH_A_GAP,
            &[
                "05 01 06 01 0C",
                "05 01 06 00 0C",
                "05 01 04 01 0C",
                "05 01 08 01 0C",
                "05 01 05 01 0C",
                "05 01 07 01 0C",
            ],
        ],
        answers: &[0, 0, 0, 0, 24, 24, 24, 24, 37, 0],
        figures: "G 1 1 1 7\nT 1 1 7\nG 2 1 1 7\nT 2 1 7\n",
        selected: "S 1 1 7 2\nS 2 1 7 2\n",
        log: &[[12, 1, 1, 7]],
    },
    Selections {
        why: "another point has a higher version",
        calls: [
            &[
                OPEN,
                POINT_1,
                POINT_2,
                "04 01 01 0B 01 0A",
                "04 02 09 0B 01 14",
            ],
            &[
                "05 01 09 01 0C",
                "05 01 01 00 0C",
                "05 01 01 01 0C",
                "05 02 09 01 0C",
            ],
        ],
        answers: &[0, 0, 0, 0, 0, 24, 0, 0, 0],
        figures: "G 1 1 1 -5\nG 1 1 5 10\nT 1 1 5\nG 2 1 1 -5\nG 2 1 5 10\nT 2 1 5\n",
        selected: "S 1 1 1 2\nS 1 2 9 2\nS 2 1 1 2\nS 2 2 9 2\n",
        log: &[[12, 1, 1, 1], [12, 2, 1, 9]],
    },
    Selections {
        why: "37 moves no day; a version is the highest until the next is submitted",
        calls: [
            &AFTER_FIRST,
            &[
                "05 01 01 01 14",
                "05 01 02 00 0C",
                "04 01 03 0D 01 0E",
                "05 01 02 01 14",
                "05 01 03 01 0D",
                "05 01 03 01 0C",
            ],
        ],
        answers: &[0, 0, 0, 0, 37, 0, 0, 37, 0, 5],
        figures: "G 1 1 1 7\nT 1 1 7\nG 2 1 1 7\nT 2 1 7\n",
        selected: "S 1 1 3 2\nS 2 1 3 2\n",
        log: &[[13, 1, 1, 3]],
    },
    Selections {
        why: "on a confirmed version, before and after a newer one",
        calls: [
            &[OPEN, POINT_1, "04 01 01 0B 01 0A", "05 01 01 01 0C"],
            &[
                "05 01 01 01 0C",
                "04 01 02 0D 01 0C",
                "05 01 01 01 0D",
                "05 01 01 00 0D",
            ],
        ],
        answers: &[0, 0, 0, 0, 25, 0, 37, 37],
        figures: "G 1 1 1 5\nT 1 1 5\nG 2 1 1 5\nT 2 1 5\n",
        selected: "S 1 1 1 2\nS 2 1 1 2\n",
        log: &[[12, 1, 1, 1]],
    },
    Selections {
        why: "3, 5, 11 and 12 before 37; the days C, C + 1 and K",
        calls: [
            &AFTER_FIRST,
            &[
                "05 01 01 02 0C",
                "05 01 01 01 0A",
                "05 01 01 01 97 01",
                "05 02 01 01 0C",
                "05 01 01 01 1E",
                "05 01 01 01 1F",
                "05 01 01 01 96 01",
                "05 01 02 01 96 01",
            ],
        ],
        answers: &[0, 0, 0, 0, 3, 5, 11, 12, 37, 37, 37, 0],
        figures: "T 1 1 0\nG 2 1 1 6\nT 2 1 6\n",
        selected: "S 2 1 2 4\n",
        log: &[[150, 1, 2, 2]],
    },
    Selections {
        why: "on an older version of status 5: 5 or 11, since run 2 is closed after K",
        calls: [
            &ISSUED_AND_CORRECTED,
            &[CLOSE_2, ISSUE_2, "05 01 02 01 96 01", "05 01 02 01 97 01"],
        ],
        answers: &[0, 0, 0, 0, 0, 0, 0, 0, 0, 0, 5, 11],
        figures: "G 1 1 1 5\nT 1 1 5\nG 2 1 1 6\nT 2 1 6\n",
        selected: "S 1 1 1 3\nS 2 1 2 5\n",
        log: &[[2, 1, 1, 1], [31, 1, 2, 2]],
    },
    Selections {
        why: "the last versions that there are",
        calls: [
            &[
                OPEN,
                POINT_1,
                "04 01 FE FF E8 83 B1 DE 16 0B 01 0A",
                "04 01 FF FF E8 83 B1 DE 16 0B 01 0C",
            ],
            &[
                "05 01 FE FF E8 83 B1 DE 16 01 0C",
                "05 01 FF FF E8 83 B1 DE 16 01 0C",
            ],
        ],
        answers: &[0, 0, 0, 0, 37, 0],
        figures: "G 1 1 1 6\nT 1 1 6\nG 2 1 1 6\nT 2 1 6\n",
        selected: "S 1 1 99999999999999 2\nS 2 1 99999999999999 2\n",
        log: &[[12, 1, 1, 99_999_999_999_999]],
    },
];

/// Document 02: "Settle becomes close (records that the run is closed) and issue (sets status 3 or 5)"; "an older file's settle
/// is read as close"; "issue asks nothing of the other run"; "38, issue of a run not closed, after 5; 39, issue of a run already
/// issued, after 38".
const ACTS: [Selections; 13] = [
    Selections {
        why: "run 1 closed: every status is as before",
        calls: [&CORRECTED, &[CLOSE_1]],
        answers: &[0; 8],
        figures: CORRECTED_FIGURES,
        selected: "S 1 1 7 2\nS 1 2 1 2\nS 2 1 7 2\nS 2 2 2 4\n",
        log: &CORRECTED_LOG,
    },
    Selections {
        why: "both runs closed, as by the settles of an older file: 2 and 4",
        calls: [&CORRECTED, &[CLOSE_1, CLOSE_2]],
        answers: &[0; 9],
        figures: CORRECTED_FIGURES,
        selected: "S 1 1 7 2\nS 1 2 1 2\nS 2 1 7 2\nS 2 2 2 4\n",
        log: &CORRECTED_LOG,
    },
    Selections {
        why: "run 2 closed and issued, run 1 closed alone: 5 for run 2's own, and 2 where it has none",
        calls: [&CORRECTED, &[CLOSE_1, CLOSE_2, ISSUE_2]],
        answers: &[0; 10],
        figures: CORRECTED_FIGURES,
        selected: "S 1 1 7 2\nS 1 2 1 2\nS 2 1 7 2\nS 2 2 2 5\n",
        log: &CORRECTED_LOG,
    },
    Selections {
        why: "and run 1 issued behind it",
        calls: [&CORRECTED, &[CLOSE_1, CLOSE_2, ISSUE_2, "08 01 97 01"]],
        answers: &[0; 11],
        figures: CORRECTED_FIGURES,
        selected: "S 1 1 7 3\nS 1 2 1 3\nS 2 1 7 3\nS 2 2 2 5\n",
        log: &CORRECTED_LOG,
    },
    Selections {
        why: "both runs closed, and run 1 issued before run 2",
        calls: [&CORRECTED, &[CLOSE_1, CLOSE_2, "08 01 97 01", ISSUE_2]],
        answers: &[0; 11],
        figures: CORRECTED_FIGURES,
        selected: "S 1 1 7 3\nS 1 2 1 3\nS 2 1 7 3\nS 2 2 2 5\n",
        log: &CORRECTED_LOG,
    },
    Selections {
        why: "issues of runs that are not closed: 38, of run 2 too where run 1 is closed or issued",
        calls: [
            &CORRECTED,
            &[ISSUE_1, "08 02 1F", CLOSE_1, "08 02 1F", ISSUE_1, ISSUE_2],
        ],
        answers: &[0, 0, 0, 0, 0, 0, 0, 38, 38, 0, 38, 0, 38],
        figures: CORRECTED_FIGURES,
        selected: "S 1 1 7 3\nS 1 2 1 3\nS 2 1 7 3\nS 2 2 2 4\n",
        log: &CORRECTED_LOG,
    },
    Selections {
        why: "an issue of a run that is issued: 39, which moves no day; a close of one that is closed, and issued or not: 28",
        calls: [
            &CORRECTED,
            &[CLOSE_1, CLOSE_1, ISSUE_1, "08 01 97 01", ISSUE_1, CLOSE_1],
        ],
        answers: &[0, 0, 0, 0, 0, 0, 0, 0, 28, 0, 39, 39, 28],
        figures: CORRECTED_FIGURES,
        selected: "S 1 1 7 3\nS 1 2 1 3\nS 2 1 7 3\nS 2 2 2 4\n",
        log: &CORRECTED_LOG,
    },
    Selections {
        why: "3 and 5 before 38 and 39",
        calls: [
            &CORRECTED,
            &[
                "08 00 1F",
                "08 03 1F",
                "08 01 91 03",
                "08 01 1E",
                CLOSE_1,
                ISSUE_1,
                "08 01 1E",
                "08 01 91 03",
            ],
        ],
        answers: &[0, 0, 0, 0, 0, 0, 0, 3, 3, 3, 5, 0, 0, 5, 3],
        figures: CORRECTED_FIGURES,
        selected: "S 1 1 7 3\nS 1 2 1 3\nS 2 1 7 3\nS 2 2 2 4\n",
        log: &CORRECTED_LOG,
    },
    Selections {
        why: "a submission and its notice between close and issue: the issue restates what run 1 selected",
        calls: [
            &BY_FIRST,
            &[CLOSE_1, "04 01 03 20 01 0E", "05 01 03 01 21", "08 01 22"],
        ],
        answers: &[0; 8],
        figures: "G 1 1 1 6\nT 1 1 6\nG 2 1 1 7\nT 2 1 7\n",
        selected: "S 1 1 2 3\nS 2 1 3 4\n",
        log: &[[2, 1, 1, 1], [3, 1, 1, 2], [33, 1, 2, 3]],
    },
    Selections {
        why: "both set the day",
        calls: [
            &BY_FIRST,
            &[
                "07 01 28",
                "04 01 03 27 01 0E",
                "08 01 29",
                "04 01 03 28 01 0E",
                "04 01 03 29 01 0E",
            ],
        ],
        answers: &[0, 0, 0, 0, 0, 5, 0, 5, 0],
        figures: "G 1 1 1 6\nT 1 1 6\nG 2 1 1 6\nT 2 1 6\n",
        selected: "S 1 1 2 3\nS 2 1 2 3\n",
        log: &[[2, 1, 1, 1], [3, 1, 1, 2]],
    },
    Selections {
        why: "a close on both sides of C and of K, and of run 2 before run 1",
        calls: [
            &[OPEN],
            &[
                "07 01 1E",
                "07 02 96 01",
                CLOSE_2,
                CLOSE_1,
                "07 02 96 01",
                CLOSE_2,
                CLOSE_2,
                "07 01 97 01",
            ],
        ],
        answers: &[0, 27, 27, 29, 0, 27, 0, 28, 28],
        figures: "T 1 1 0\nT 2 1 0\n",
        selected: "",
        log: &[],
    },
    Selections {
        why: "with no version both acts of both runs are accepted",
        calls: [&[OPEN], &[CLOSE_1, ISSUE_1, CLOSE_2, ISSUE_2]],
        answers: &[0; 5],
        figures: "T 1 1 0\nT 2 1 0\n",
        selected: "",
        log: &[],
    },
    Selections {
        why: "with check data alone, which an issue leaves",
        calls: [&AFTER_FIRST, &[CLOSE_1, ISSUE_1, CLOSE_2, ISSUE_2]],
        answers: &[0; 8],
        figures: "T 1 1 0\nT 2 1 0\n",
        selected: "",
        log: &[],
    },
];

/// Calls with their answers where the log has one row, which version 1 of point 1 takes on day 2; versions 2 and 3 are check
/// data.
const FULL_LOG: [(&str, u64); 11] = [
    (OPEN, 0),
    (POINT_1, 0),
    ("04 01 01 02 01 0A", 0),
    ("04 01 02 0B 01 0C", 0),
    ("04 01 03 0B 01 0E", 0),
    ("05 01 02 01 0C", 37),
    ("05 01 02 00 0C", 37),
    ("05 01 01 01 0C", 37),
    ("05 01 03 01 0C", 17),
    ("05 01 03 00 0B", 0),
    ("05 01 03 01 1F", 17),
];

/// The lists that are written out.
fn written_out() -> impl Iterator<Item = &'static Selections> {
    SELECTIONS.iter().chain(&NOTICES).chain(&ACTS)
}

/// Files without a line S: refused ones, and those of a desk that is not open or has no version.
const NONE_SELECTED: [(&str, &str); 6] = [
    ("07 01 1F", "1 1\n"),
    ("08 01 1F", "1 1\n"),
    (OPEN, "1 0\nT 1 1 0\nT 2 1 0\n"),
    (
        "01 09 0A 1E 96 01 04 01 02 03*14  02 01 01 01 00 00  04 01 07 02 01 D0 0F",
        "1 4\n2 1\n3 1\n",
    ),
    (
        "01 01 0A 1E 96 01 04 01 02 03*14  02 01 01 01 00 00  04 01 07 02 01 D0 0F  80 00",
        "1 0\n2 0\n3 0\nF 32 36\n",
    ),
    (
        "01 01 0A 1E 96 01 04 01 02 03*14  02 01 01 01 00 00  04 01 07 02 01 D0 0F  04 01 07",
        "1 0\n2 0\n3 0\nF 31 36\n",
    ),
];

/// What a replay is lent, with a log of so many rows.
fn lent(rows: usize) -> Lent {
    let lengths = Lengths {
        values: 16,
        book: 324,
        log: 4 * rows as u64,
        schedules: 128,
    };
    Lent::filled(lengths, 2, 16, [SUMMARY, POINTS, VERSIONS], 19)
}

fn plain_replay(file: &[u8], lent: &mut Lent) {
    replay::replay(file, lent).expect("tables with their places");
}

fn linked_replay(file: &[u8], lent: &mut Lent) {
    let stores = lent.stores.each_mut();
    let [summary, points, versions] = &mut lent.tables;
    let (series, answers) = (&mut lent.series, &mut lent.answers);
    linked::replay(file, stores, series, answers, [summary, points, versions]);
}

/// The versions that a table of points tells, as the desk program prints them.
fn told(points: &[u64]) -> String {
    let mut text = String::new();
    for run in 1..=2 {
        for (point, places) in (1..).zip(points.chunks(POINT)) {
            let (version, status) = (places[4 + run], places[6 + run]);
            assert_eq!(version == 0, status == 0, "both or none");
            if version != 0 {
                text += &format!("S {run} {point} {version} {status}\n");
            }
        }
    }
    text
}

#[test]
fn the_plain_desk_prints_the_selected_versions() {
    for case in written_out() {
        let printed = program::printed(&program::run(&case.file()));
        assert_eq!(printed, case.printed(), "{}", case.why);
    }
    for (file, printed) in NONE_SELECTED {
        assert_eq!(program::printed(&program::run(&bytes(file))), printed);
    }
}

/// A replay's answers, the versions that it tells, and the rows of a log that has some rows left at the end.
fn compare_replay(case: &Selections, replay: fn(&[u8], &mut Lent), left: usize) {
    let used = case.log.len();
    let mut lent = lent(used + left);
    let mut log = lent.stores.log.clone();
    log[..4 * used].copy_from_slice(&case.log.concat());
    replay(&case.file(), &mut lent);
    let [summary, points, _] = &lent.tables;
    let answers = &lent.answers[..case.answers.len()];
    assert_eq!(answers, case.answers, "{}", case.why);
    assert_eq!(told(points), case.selected, "{}", case.why);
    let logged = (summary[3], lent.stores.log);
    assert_eq!(logged, (used as u64, log), "{}", case.why);
}

/// A close and an issue take no row of the log: they are accepted where none is left.
#[test]
fn a_replay_tells_the_selected_versions() {
    for case in written_out() {
        for left in [0, 2] {
            compare_replay(case, plain_replay, left);
            compare_replay(case, linked_replay, left);
        }
    }
}

/// A positive notice on the highest version owes a row, on another one it is refused before.
#[test]
fn a_replay_with_a_full_log_refuses_positive_notices() {
    let (calls, answers): (Vec<&str>, Vec<u64>) = FULL_LOG.into_iter().unzip();
    for replay in [plain_replay, linked_replay] {
        let mut lent = lent(1);
        replay(&bytes(&calls.join(" ")), &mut lent);
        assert_eq!(lent.answers[..answers.len()], answers);
        assert_eq!(lent.stores.log, [2, 1, 1, 1]);
        assert_eq!(told(&lent.tables[1]), "S 1 1 1 2\nS 2 1 1 2\n");
    }
    let scripted = scripted(&bytes(&calls.join(" ")), 1);
    assert_eq!(scripted.answers.concat(), answers);
    assert_eq!(scripted.stores.log, [2, 1, 1, 1]);
}

/// The calls of a file of one quarter hour as a script, with a log of so many rows.
fn scripted(file: &[u8], rows: usize) -> Outcome {
    let lent = Lengths {
        values: 16,
        book: 162,
        log: 4 * rows as u64,
        schedules: 64,
    };
    let (mut start, mut series, mut records) = (0, [0; 1], Vec::new());
    while let Some(read) = message::read(file, start, &mut series).expect("a call") {
        records.push(Record::Call(replay::call_of(&read, &series), lent));
        start = read.next;
    }
    script::run(&records, Stores::filled(lent, 20))
}

#[test]
fn a_script_answers_the_notices_the_closes_and_the_issues() {
    for case in NOTICES.iter().chain(&ACTS) {
        let Outcome { answers, stores } = scripted(&case.file(), 8);
        assert_eq!(answers.concat(), case.answers, "{}", case.why);
        let log = case.log.concat();
        assert_eq!(stores.log[..log.len()], log, "{}", case.why);
    }
}

/// Of a refused file a replay tells what it came to, although the program prints nothing of it.
#[test]
fn a_replay_tells_the_selected_versions_of_a_refused_file() {
    let example = "S 1 1 7 2\nS 2 1 7 2\n";
    let selected = ["", "", "", "", example, example];
    for ((file, _), selected) in NONE_SELECTED.into_iter().zip(selected) {
        for replay in [plain_replay, linked_replay] {
            let mut lent = lent(1);
            replay(&bytes(file), &mut lent);
            assert_eq!(told(&lent.tables[1]), selected, "{file}");
        }
    }
}

#[test]
#[ignore = "EMORIZUGU_PROGRAM names the desk program"]
fn the_program_prints_the_selected_versions() {
    let named = env::var_os("EMORIZUGU_PROGRAM").expect("EMORIZUGU_PROGRAM");
    let printed = |file: &[u8]| {
        let output = program::output(&named, file, file.len()).expect("a program that runs");
        String::from_utf8(output.stdout).expect("text")
    };
    for case in written_out() {
        assert_eq!(printed(&case.file()), case.printed(), "{}", case.why);
    }
    for (file, text) in NONE_SELECTED {
        assert_eq!(printed(&bytes(file)), text);
    }
}
