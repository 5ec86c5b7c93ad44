//! The message file: both readers and both writers on files and calls from a seed.

use emorizugu_tests::generator::{self, Random, Sample, Shape};
use emorizugu_tests::linked;
use emorizugu_tests::message::{self, MOST_ENERGIES, MOST_FIELDS, SUBMIT};
use emorizugu_tests::numbers::{self, ANSWER, NO_CALL, SHORT};
use emorizugu_tests::tally::Tally;

/// Files that are compared.
const FILES: u64 = 240_000;

/// Calls that are given to the writers, besides those that are read from files and written again.
const WRITES: u64 = 240_000;

/// How often each answer is to have been compared at least.
const LEAST: u64 = 1_000;

/// Numbers of which a field is to have been read `LEAST` times each.
const EDGES: [u64; 6] = [0, 127, 128, (1 << 14) - 1, 1 << 62, (1 << 63) - 1];

/// Longest call: kind, fields, count and energies of nine bytes each.
const LONGEST: usize = 9 * (2 + MOST_FIELDS + MOST_ENERGIES);

/// A run of comparisons: its random numbers, its counts, and room for what one reader or writer alone is asked.
struct Run {
    random: Random,
    tally: Tally,
    series: Vec<u64>,
    output: Vec<u8>,
}

/// What a reader answered: its number, the answer slice and the series buffer.
struct Answer {
    number: u64,
    out: Vec<u64>,
    series: Vec<u64>,
}

/// What the writer is handed, and what is peculiar about it.
struct Handed {
    what: &'static str,
    kind: u64,
    fields: Vec<u64>,
    series: Vec<u64>,
}

impl Run {
    fn new(seed: u64) -> Run {
        Run {
            random: Random::new(seed),
            tally: Tally::new(),
            series: vec![0; MOST_ENERGIES],
            output: vec![0; LONGEST],
        }
    }

    /// Places with contents of their own, that an answer is not likely to have.
    fn filled(&mut self, places: usize) -> Vec<u64> {
        let first = self.random.word();
        (0..places as u64).map(|i| first ^ i).collect()
    }

    /// Reads one call with both, a series buffer of `room` places and mostly a right answer slice, and compares the
    /// numbers, the offsets and both slices whole; an answer other than 0 leaves both slices.
    fn read(&mut self, file: &[u8], start: u64, room: usize) -> Answer {
        let places = match self.random.below(64) {
            0 => self.random.below(ANSWER),
            1 => ANSWER + 1 + self.random.below(3),
            _ => ANSWER,
        };
        let (buffer, before) = (self.filled(room), self.filled(places));
        let (mut series, mut out) = (buffer.clone(), before.clone());
        let number = numbers::read(file, start, &mut series, &mut out);
        let (mut linked_series, mut linked_out) = (buffer.clone(), before.clone());
        let linked = linked::read(file, start, &mut linked_series, &mut linked_out);
        let place = || format!("at {start}, room {room}: {file:02x?}");
        assert_eq!(number, linked, "{}", place());
        assert_eq!(out, linked_out, "answer slice {}", place());
        assert_eq!(series, linked_series, "series buffer {}", place());
        for room in [room as u64, u64::MAX] {
            let offset = numbers::read_offset(file, start, room);
            let linked_offset = linked::read_offset(file, start, room);
            assert_eq!(offset, linked_offset, "offset, room {room} {}", place());
        }
        if number == 0 {
            let offset = numbers::read_offset(file, start, room as u64);
            assert_eq!(offset, out[0], "offset behind the call {}", place());
        } else {
            assert_eq!(series, buffer, "buffer after {number} {}", place());
            assert_eq!(out, before, "answer slice after {number} {}", place());
        }
        self.tally.add("read", number);
        Answer {
            number,
            out,
            series,
        }
    }

    /// Writes one call with both to an output of `room` bytes, and compares the numbers and both slices whole. Gives
    /// the number and the bytes written.
    fn write(&mut self, kind: u64, fields: &[u64], series: &[u64], room: usize) -> (u64, Vec<u8>) {
        let places = match self.random.below(64) {
            0 => 0,
            1 => 2 + self.random.below(3),
            _ => 1,
        };
        let byte = self.random.word() as u8;
        let (before, mut out) = (vec![byte; room], self.filled(places));
        let kept = out.clone();
        let (mut linked_output, mut linked_out) = (before.clone(), out.clone());
        let linked = linked::write(kind, fields, series, &mut linked_output, &mut linked_out);
        let mut output = before.clone();
        let number = numbers::write(kind, fields, series, &mut output, &mut out);
        let call = || format!("kind {kind}, fields {fields:?}, series {series:?}, room {room}");
        assert_eq!(number, linked, "{}", call());
        assert_eq!(out, linked_out, "answer slice, {}", call());
        assert_eq!(output, linked_output, "output, {}", call());
        if number != 0 {
            assert_eq!(out, kept, "answer slice after {number}, {}", call());
        }
        self.tally.add("write", number);
        let bytes = if number == 0 { out[0] as usize } else { 0 };
        assert_eq!(
            output[bytes..],
            before[bytes..],
            "what is not written stays, {}",
            call()
        );
        output.truncate(bytes);
        (number, output)
    }

    /// A length of the series buffer that tells something about a submission of `count` energies.
    fn room(&mut self, count: usize) -> usize {
        match self.random.below(8) {
            0 => 0,
            1 | 2 => count.saturating_sub(1),
            3 => count + 1 + self.random.below(3),
            4 if self.random.once_in(16) => self.random.of(&[MOST_ENERGIES, 4_096]),
            _ => count,
        }
    }

    /// The call at `start`: read, and where it is accepted written again. Gives the next start.
    fn call(&mut self, file: &[u8], start: u64) -> Option<u64> {
        match message::read(file, start, &mut self.series) {
            Ok(Some(call)) => {
                self.accepted(file, start, &call);
                Some(call.next)
            }
            Ok(None) => {
                let room = self.room(3);
                self.read(file, start, room);
                None
            }
            Err(refusal) => {
                self.refused(file, start, refusal.cause.number());
                None
            }
        }
    }

    /// A call that is read, if the buffer is long enough for it.
    fn accepted(&mut self, file: &[u8], start: u64, call: &message::Call) {
        let room = self.room(call.count);
        let answer = self.read(file, start, room);
        if answer.number == SHORT {
            return;
        }
        let expected = if call.count > room { 35 } else { 0 };
        assert_eq!(
            answer.number, expected,
            "at {start}, room {room}: {file:02x?}"
        );
        if answer.number != 0 {
            return;
        }
        self.tally.add("kind read", call.kind);
        let fields = &answer.out[2..ANSWER - 1];
        let used = message::fields_of(call.kind).expect("a kind");
        for &field in fields[..used].iter().filter(|field| EDGES.contains(field)) {
            self.tally.add("field read", field);
        }
        if call.count + 1 >= MOST_ENERGIES {
            self.tally.add("count read", call.count as u64);
        }
        let bytes = &file[start as usize..call.next as usize];
        let short = usize::from(self.random.once_in(4));
        let series = &answer.series[..call.count];
        let (number, written) = self.write(call.kind, fields, series, bytes.len() - short);
        match number {
            0 => assert_eq!(written, bytes, "the bytes that were read, written again"),
            SHORT => {}
            _ => assert_eq!((number, short), (35, 1), "writing {bytes:02x?} again"),
        }
    }

    /// A call that is refused with this number, however long the buffer.
    fn refused(&mut self, file: &[u8], start: u64, expected: u64) {
        let room = self.random.of(&[8, 8, 8, 8, 8, 140, MOST_ENERGIES, 4_096]);
        let answer = self.read(file, start, room);
        if answer.number != expected {
            assert!(
                [SHORT, 35].contains(&answer.number),
                "at {start}: {file:02x?}"
            );
            return;
        }
        let with_none = self.read(file, start, 0);
        if with_none.number == 35 {
            self.tally.add("refused inside the energies", expected);
        }
        if start > file.len() as u64 {
            self.tally.add("start beyond the end", expected);
        }
    }

    /// A start that no walk through the calls would take.
    fn odd_start(&mut self, length: u64) -> u64 {
        match self.random.below(8) {
            0 => length + 1 + self.random.below(3) as u64,
            1 => self.random.of(&[1 << 32, 1 << 63, u64::MAX - 1, u64::MAX]),
            2 => length,
            _ => self.random.below(length as usize + 1) as u64,
        }
    }

    /// One file: its verdict from the host's entries, then call by call, then from an odd start.
    fn file(&mut self, sample: &Sample) {
        let file = &sample.bytes[..];
        let shape = sample.shape.name();
        let verdict = numbers::verdict(file);
        let linked = (linked::file_refusal(file), linked::file_offset(file));
        assert_eq!(verdict, linked, "{shape}: {file:02x?}");
        if let Some(known) = sample.verdict {
            assert_eq!(verdict, known, "{shape}: {file:02x?}");
        }
        self.tally.add("file", verdict.0);
        self.tally.add(shape, verdict.0);
        let mut start = 0;
        while let Some(next) = self.call(file, start) {
            start = next;
        }
        assert_eq!(
            start, verdict.1,
            "the calls lead to the verdict's offset: {file:02x?}"
        );
        let start = self.odd_start(file.len() as u64);
        self.call(file, start);
    }

    /// A call for the writer: one that a file can carry, often with something changed.
    fn handed(&mut self) -> Handed {
        let random = &mut self.random;
        let kind = 1 + random.below(8) as u64;
        let generator::Call { fields, series, .. } = generator::call(random, kind);
        let mut handed = Handed {
            what: "call as it is",
            kind,
            fields,
            series,
        };
        let used = handed.fields.len();
        match random.below(12) {
            0 => {
                handed.what = "kind not 1 to 8";
                let foreign = random.of(&generator::FOREIGN_KINDS);
                let any = random.word().max(9);
                handed.kind = random.of(&[foreign, foreign, any, 1 << 63, u64::MAX]);
                if random.once_in(2) {
                    handed.fields.fill(u64::MAX);
                    handed.series = vec![i64::MAX as u64; random.of(&[1, MOST_ENERGIES + 1])];
                }
            }
            1 => {
                handed.what = "field of 2^63 or more";
                let any = random.word() | 1 << 63;
                handed.fields[random.below(used)] = random.of(&[1 << 63, u64::MAX, any]);
            }
            2 => {
                handed.what = "fields beyond those of the kind";
                let more = 1 + random.below(MOST_FIELDS + 3);
                handed.fields.extend(vec![u64::MAX; more]);
            }
            3 => {
                handed.what = "fields missing";
                handed.fields.truncate(random.below(used));
            }
            4 if kind != SUBMIT => {
                handed.what = "series beside another kind";
                let places = random.of(&[1, 5, MOST_ENERGIES + 1]);
                handed.series = vec![i64::MAX as u64; places];
            }
            4..=7 if kind == SUBMIT => Run::change_series(random, &mut handed),
            _ => {}
        }
        handed
    }

    /// A submission with an energy that a file cannot carry, or with a series about as long as it can.
    fn change_series(random: &mut Random, handed: &mut Handed) {
        let changed = random.below(16);
        if changed < 8 {
            handed.what = "energy outside -2^62 to 2^62 - 1";
            let foreign = random.of(&generator::FOREIGN_ENERGIES) as u64;
            let at = random.below(handed.series.len().min(MOST_ENERGIES - 1) + 1);
            handed.series.truncate(MOST_ENERGIES - 1);
            handed.series.insert(at, foreign);
            return;
        }
        let (what, energies) = match changed {
            8..=9 => ("series of 2,980", MOST_ENERGIES),
            10..=11 => ("series of 2,981", MOST_ENERGIES + 1),
            12..=13 => ("longer series", MOST_ENERGIES + 2 + random.below(2_000)),
            _ => return,
        };
        handed.what = what;
        handed.series = (0..energies).map(|_| generator::energy(random)).collect();
    }

    /// One call to both writers with an output of any length about the one that it needs.
    fn write_handed(&mut self, handed: &Handed) {
        let Handed {
            what,
            kind,
            fields,
            series,
        } = handed;
        let needed = message::write(*kind, fields, series, &mut self.output);
        let bytes = needed.unwrap_or_else(|_| self.random.below(40));
        let room = match self.random.below(8) {
            0 => bytes.saturating_sub(1),
            1 => self.random.below(bytes + 1),
            2 => 0,
            3 => bytes + 1 + self.random.below(20),
            _ => bytes,
        };
        let (number, written) = self.write(*kind, fields, series, room);
        if number == SHORT {
            return;
        }
        let expected = match needed {
            Err(cause) => cause.number(),
            Ok(bytes) if bytes > room => 35,
            Ok(_) => 0,
        };
        assert_eq!(
            number, expected,
            "{what}: {kind} {fields:?} {series:?}, room {room}"
        );
        self.tally.add(what, number);
        if number == 0 {
            self.read_back(handed, &written);
        }
    }

    /// What was written is read as the call that was handed over.
    fn read_back(&mut self, handed: &Handed, written: &[u8]) {
        let used = message::fields_of(handed.kind).expect("a kind");
        let count = if handed.kind == SUBMIT {
            handed.series.len()
        } else {
            0
        };
        let answer = self.read(written, 0, count);
        if answer.number == SHORT {
            return;
        }
        let mut expected = vec![0; ANSWER];
        expected[0] = written.len() as u64;
        expected[1] = handed.kind;
        let given = handed.fields.len().min(used);
        expected[2..2 + given].copy_from_slice(&handed.fields[..given]);
        expected[ANSWER - 1] = count as u64;
        assert_eq!(answer.number, 0, "{written:02x?}");
        assert_eq!(answer.out[..ANSWER], expected, "{written:02x?}");
        assert_eq!(answer.series, handed.series[..count], "{written:02x?}");
    }
}

#[test]
fn readers_agree_on_files() {
    let mut run = Run::new(1);
    for _ in 0..FILES {
        let sample = generator::sample(&mut run.random);
        run.file(&sample);
    }
    let tally = &run.tally;
    tally.print();
    assert_eq!(tally.all("file"), FILES);
    tally.demand("file", &[0, 31, 32, 33, 34], LEAST);
    for (_, name, verdicts) in Shape::ALL {
        tally.demand(name, verdicts, 1);
        assert!(tally.all(name) >= LEAST, "{name}");
    }
    tally.demand("read", &[0, NO_CALL, SHORT, 31, 32, 33, 34, 35], LEAST);
    tally.demand("refused inside the energies", &[31, 32], LEAST);
    tally.demand("start beyond the end", &[31], LEAST);
    tally.demand("kind read", &[1, 2, 3, 4, 5, 6, 7, 8], LEAST);
    tally.demand("field read", &EDGES, LEAST);
    let most = MOST_ENERGIES as u64;
    tally.demand("count read", &[most - 1, most], LEAST);
    tally.demand("write", &[0, SHORT, 35], LEAST);
}

#[test]
fn writers_agree_on_calls() {
    let mut run = Run::new(2);
    for _ in 0..WRITES {
        let handed = run.handed();
        run.write_handed(&handed);
    }
    let tally = &run.tally;
    tally.print();
    assert_eq!(tally.all("write"), WRITES);
    tally.demand("write", &[0, SHORT, 33, 34, 35], LEAST);
    let refusals = [
        ("kind not 1 to 8", 33),
        ("field of 2^63 or more", 34),
        ("energy outside -2^62 to 2^62 - 1", 34),
        ("series of 2,981", 34),
        ("longer series", 34),
    ];
    for (what, number) in refusals {
        tally.demand(what, &[number], LEAST);
    }
    let written = [
        "call as it is",
        "fields beyond those of the kind",
        "fields missing",
        "series beside another kind",
        "series of 2,980",
    ];
    for what in written {
        tally.demand(what, &[0, 35], LEAST / 4);
    }
}
