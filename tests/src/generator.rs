//! Message files, calls and books from a seed. The files are spelled here and not by the writer under comparison, and
//! where the paper decides a file's verdict by how the file was made, the file comes with it.

use crate::message::{fields_of, MOST_ENERGIES, SUBMIT};

/// Numbers from a seed (xorshift64*).
pub struct Random(u64);

impl Random {
    /// The sequence of a seed.
    pub fn new(seed: u64) -> Random {
        Random(seed.max(1))
    }

    /// The next word.
    pub fn word(&mut self) -> u64 {
        self.0 ^= self.0 >> 12;
        self.0 ^= self.0 << 25;
        self.0 ^= self.0 >> 27;
        self.0.wrapping_mul(0x2545_f491_4f6c_dd1d)
    }

    /// A number below `end`.
    pub fn below(&mut self, end: usize) -> usize {
        ((self.word() >> 11) % end as u64) as usize
    }

    /// True once in `times`.
    pub fn once_in(&mut self, times: usize) -> bool {
        self.below(times) == 0
    }

    /// One of a list.
    pub fn of<T: Copy>(&mut self, list: &[T]) -> T {
        list[self.below(list.len())]
    }

    /// A word of any number of bits up to `bits`, small ones as often as large ones.
    pub fn bits(&mut self, bits: usize) -> u64 {
        let wanted = self.below(bits + 1) as u32;
        self.word().checked_shr(64 - wanted).unwrap_or(0)
    }
}

/// Numbers at the edges of the forms that a file has for them.
pub const NUMBERS: [u64; 10] = [
    0,
    1,
    127,
    128,
    (1 << 14) - 1,
    1 << 14,
    (1 << 56) - 1,
    1 << 56,
    1 << 62,
    (1 << 63) - 1,
];

/// Energies at the edges of what a file can carry, and of its forms.
pub const ENERGIES: [i64; 10] = [
    0,
    -1,
    63,
    -64,
    64,
    -65,
    1_000_000_000_000,
    -1_000_000_000_000,
    (1 << 62) - 1,
    -(1 << 62),
];

/// Energies just outside what a file can carry, and the ends of the 64-bit range.
pub const FOREIGN_ENERGIES: [i64; 4] = [1 << 62, -(1 << 62) - 1, i64::MAX, i64::MIN];

/// Kinds that no call has: beside the range, and such as a narrower number takes for kind 8.
pub const FOREIGN_KINDS: [u64; 11] = [
    0,
    9,
    10,
    11,
    127,
    128,
    136,
    264,
    (1 << 32) + 8,
    1 << 62,
    (1 << 63) - 1,
];

/// Counts that no submission has.
pub const FOREIGN_COUNTS: [u64; 5] = [2_981, 2_982, 1 << 14, 1 << 62, (1 << 63) - 1];

/// A number that a file can carry.
pub fn number(random: &mut Random) -> u64 {
    if random.once_in(2) {
        random.of(&NUMBERS)
    } else {
        random.bits(63)
    }
}

/// An energy that a file can carry, as a word.
pub fn energy(random: &mut Random) -> u64 {
    if random.once_in(2) {
        return random.of(&ENERGIES) as u64;
    }
    let size = random.bits(62);
    if random.once_in(2) {
        size
    } else {
        !size
    }
}

/// How many energies a submission has: mostly few, seldom as many as a file can carry.
pub fn count(random: &mut Random) -> usize {
    match random.below(200) {
        0 => random.of(&[MOST_ENERGIES, MOST_ENERGIES - 1]),
        1 => random.of(&[127, 128, 129]),
        _ => random.below(7),
    }
}

/// A call that a file can carry: its kind, its fields and a submission's energies as words.
#[derive(Clone, Debug)]
pub struct Call {
    /// 1 to 8.
    pub kind: u64,
    /// As many as the kind has.
    pub fields: Vec<u64>,
    /// Empty for every other kind than a submission.
    pub series: Vec<u64>,
}

/// A call of a kind.
pub fn call(random: &mut Random, kind: u64) -> Call {
    let fields = fields_of(kind).unwrap_or(0);
    let energies = if kind == SUBMIT { count(random) } else { 0 };
    Call {
        kind,
        fields: (0..fields).map(|_| number(random)).collect(),
        series: (0..energies).map(|_| energy(random)).collect(),
    }
}

/// What a number in a file is.
#[derive(Clone, Copy, PartialEq, Eq)]
enum Role {
    Kind,
    Field,
    Count,
    Energy,
}

/// A number in a file: what it is, the offset of its call, its value, and the place of its bytes.
#[derive(Clone, Copy)]
struct Spelled {
    role: Role,
    call: usize,
    value: u64,
    from: usize,
    to: usize,
}

/// A number's shortest form, made longer by `more` groups of zero bits.
fn spelled(mut value: u64, more: usize) -> Vec<u8> {
    let mut bytes = Vec::new();
    while value > 127 {
        bytes.push((value % 128) as u8 + 128);
        value /= 128;
    }
    bytes.push(value as u8);
    for _ in 0..more {
        *bytes.last_mut().expect("a byte") += 128;
        bytes.push(0);
    }
    bytes
}

/// So many bytes with the top bit set.
fn going_on(random: &mut Random, bytes: usize) -> Vec<u8> {
    (0..bytes).map(|_| random.word() as u8 | 128).collect()
}

/// A valid file with the places of its numbers.
#[derive(Default)]
struct File {
    bytes: Vec<u8>,
    numbers: Vec<Spelled>,
    calls: Vec<usize>,
}

impl File {
    fn push(&mut self, role: Role, value: u64) {
        let from = self.bytes.len();
        self.bytes.extend(spelled(value, 0));
        let call = *self.calls.last().expect("a call");
        let to = self.bytes.len();
        self.numbers.push(Spelled {
            role,
            call,
            value,
            from,
            to,
        });
    }

    fn append(&mut self, call: &Call) {
        self.calls.push(self.bytes.len());
        self.push(Role::Kind, call.kind);
        for &field in &call.fields {
            self.push(Role::Field, field);
        }
        if call.kind == SUBMIT {
            self.push(Role::Count, call.series.len() as u64);
        }
        for &word in &call.series {
            let doubled = word << 1;
            let sent = if word >> 63 == 0 { doubled } else { !doubled };
            self.push(Role::Energy, sent);
        }
    }

    fn one(call: &Call) -> File {
        let mut file = File::default();
        file.append(call);
        file
    }

    fn of(random: &mut Random, calls: usize) -> File {
        let mut file = File::default();
        for _ in 0..calls {
            let kind = 1 + random.below(8) as u64;
            file.append(&call(random, kind));
        }
        file
    }

    /// One of the numbers, of a role where one is given. The file has such a number.
    fn number(&self, random: &mut Random, role: Option<Role>) -> Spelled {
        loop {
            let spelled = random.of(&self.numbers);
            if role.is_none_or(|role| role == spelled.role) {
                return spelled;
            }
        }
    }
}

/// How a file was made.
#[derive(Clone, Copy, PartialEq, Eq, Debug)]
pub enum Shape {
    /// Calls of all eight kinds.
    Valid,
    /// No bytes.
    Empty,
    /// A valid file's beginning.
    Cut,
    /// A valid file with one to three bytes changed.
    Flipped,
    /// One number in a longer form than its shortest, as `80 00`.
    Longer,
    /// One number whose ninth byte has the top bit set.
    Ninth,
    /// A number of up to eight bytes that ends with the file, each with the top bit set.
    Unended,
    /// A kind other than 1 to 8.
    Kind,
    /// A count above 2,980.
    Count,
    /// A submission of 2,980 or 2,979 energies.
    Full,
    /// Bytes of no meaning.
    Noise,
}

impl Shape {
    /// Each shape, with its name and the verdicts that its files can have.
    pub const ALL: [(Shape, &'static str, &'static [u64]); 11] = [
        (Shape::Valid, "valid file", &[0]),
        (Shape::Empty, "empty file", &[0]),
        (Shape::Cut, "cut file", &[0, 31]),
        (Shape::Flipped, "bytes changed", &[0, 31, 32, 33, 34]),
        (Shape::Longer, "longer form", &[32]),
        (Shape::Ninth, "ninth byte's top bit", &[32]),
        (Shape::Unended, "number unended", &[31]),
        (Shape::Kind, "kind not 1 to 8", &[33]),
        (Shape::Count, "count above 2,980", &[34]),
        (Shape::Full, "2,980 energies or one less", &[0]),
        (Shape::Noise, "noise", &[0, 31, 32, 33, 34]),
    ];

    /// The shape's name.
    pub fn name(self) -> &'static str {
        Shape::ALL[self as usize].1
    }
}

/// A file, how it was made, and its verdict where its making decides it: 0 and the length, or refusal and offset.
pub struct Sample {
    /// How it was made.
    pub shape: Shape,
    /// The file.
    pub bytes: Vec<u8>,
    /// What the paper says of it.
    pub verdict: Option<(u64, u64)>,
}

/// A file from the seed, of any shape.
pub fn sample(random: &mut Random) -> Sample {
    let shape = match random.below(32) {
        0..=7 => Shape::Valid,
        8 => Shape::Empty,
        9..=12 => Shape::Cut,
        13..=17 => Shape::Flipped,
        18..=20 => Shape::Longer,
        21..=22 => Shape::Ninth,
        23..=24 => Shape::Unended,
        25..=26 => Shape::Kind,
        27..=28 => Shape::Count,
        29 if random.once_in(2) => Shape::Full,
        _ => Shape::Noise,
    };
    sample_of(random, shape)
}

/// A file of one shape.
pub fn sample_of(random: &mut Random, shape: Shape) -> Sample {
    let (bytes, verdict) = match shape {
        Shape::Empty => (Vec::new(), Verdict::Accepted),
        Shape::Noise => (noise(random), Verdict::Open),
        Shape::Full => (full(random), Verdict::Accepted),
        _ => damaged(random, shape),
    };
    let verdict = match verdict {
        Verdict::Accepted => Some((0, bytes.len() as u64)),
        Verdict::Refused(number, call) => Some((number, call as u64)),
        Verdict::Open => None,
    };
    Sample {
        shape,
        bytes,
        verdict,
    }
}

/// What the making of a file says of it.
enum Verdict {
    Accepted,
    Refused(u64, usize),
    Open,
}

/// Calls, with the damage of a shape.
fn damaged(random: &mut Random, shape: Shape) -> (Vec<u8>, Verdict) {
    let calls = 1 + random.below(5);
    let mut file = File::of(random, calls);
    match shape {
        Shape::Valid => (file.bytes, Verdict::Accepted),
        Shape::Cut => cut(random, &file),
        Shape::Flipped => (flipped(random, file.bytes), Verdict::Open),
        _ => {
            file.append(&call(random, SUBMIT));
            number_changed(random, shape, &file)
        }
    }
}

/// One number of a file in another form. What comes after the number, and is often left out, changes no verdict.
fn number_changed(random: &mut Random, shape: Shape, file: &File) -> (Vec<u8>, Verdict) {
    let role = match shape {
        Shape::Kind => Some(Role::Kind),
        Shape::Count => Some(Role::Count),
        _ => None,
    };
    let changed = file.number(random, role);
    let (form, refusal) = match shape {
        Shape::Longer => (spelled(changed.value, 1 + random.below(9)), 32),
        Shape::Kind => (spelled(random.of(&FOREIGN_KINDS), 0), 33),
        Shape::Count => (spelled(random.of(&FOREIGN_COUNTS), 0), 34),
        Shape::Ninth => {
            let bytes = 9 + random.below(3);
            (going_on(random, bytes), 32)
        }
        _ => {
            let bytes = 1 + random.below(8);
            (going_on(random, bytes), 31)
        }
    };
    let mut bytes = file.bytes[..changed.from].to_vec();
    bytes.extend(form);
    if shape != Shape::Unended && !random.once_in(4) {
        bytes.extend(&file.bytes[changed.to..]);
    }
    (bytes, Verdict::Refused(refusal, changed.call))
}

/// A file's beginning: accepted where the cut is between two calls, else the call that is cut ends too soon.
fn cut(random: &mut Random, file: &File) -> (Vec<u8>, Verdict) {
    let end = random.below(file.bytes.len());
    let bytes = file.bytes[..end].to_vec();
    if file.calls.contains(&end) {
        return (bytes, Verdict::Accepted);
    }
    let begun = file.calls.iter().filter(|&&call| call < end);
    let call = begun.max().copied().unwrap_or(0);
    (bytes, Verdict::Refused(31, call))
}

/// One to three bytes changed.
pub(crate) fn flipped(random: &mut Random, mut bytes: Vec<u8>) -> Vec<u8> {
    for _ in 0..1 + random.below(3) {
        let at = random.below(bytes.len());
        bytes[at] ^= if random.once_in(4) {
            random.word() as u8
        } else {
            1 << random.below(8)
        };
    }
    bytes
}

/// Up to forty bytes, mostly small.
pub(crate) fn noise(random: &mut Random) -> Vec<u8> {
    let bytes = random.below(41);
    let mut byte = || {
        if random.once_in(4) {
            random.word() as u8
        } else {
            random.below(11) as u8
        }
    };
    (0..bytes).map(|_| byte()).collect()
}

/// A call, then a submission of 2,980 energies or one less.
fn full(random: &mut Random) -> Vec<u8> {
    let mut file = File::of(random, 1);
    file.append(&full_call(random));
    file.bytes
}

/// A submission of 2,980 energies or one less.
pub(crate) fn full_call(random: &mut Random) -> Call {
    let energies = MOST_ENERGIES - random.below(2);
    Call {
        kind: SUBMIT,
        fields: (0..3).map(|_| number(random)).collect(),
        series: (0..energies).map(|_| energy(random)).collect(),
    }
}

/// A call's bytes.
pub(crate) fn bytes(call: &Call) -> Vec<u8> {
    File::one(call).bytes
}

/// A call's bytes with one of its numbers in another form, as in a file of the shape. Only a submission has a count.
pub(crate) fn bytes_changed(random: &mut Random, call: &Call, shape: Shape) -> Vec<u8> {
    number_changed(random, shape, &File::one(call)).0
}

/// A book for so many quarter hours, with any numbers.
pub fn book(random: &mut Random, quarters: usize) -> Vec<u8> {
    numbers(random, 2 * 81 * quarters)
}

/// Schedules for so many quarter hours, with any numbers.
pub fn schedules(random: &mut Random, quarters: usize) -> Vec<u8> {
    numbers(random, 64 * quarters)
}

/// So many numbers as bytes: at the ends of the 64-bit range, about 0, and any others.
fn numbers(random: &mut Random, numbers: usize) -> Vec<u8> {
    let mut number = || {
        let edge = random.of(&[i64::MIN, i64::MAX, -1, 0, 1, 256_000_000_000_000]);
        if random.once_in(2) {
            edge as u64
        } else {
            random.word()
        }
    };
    (0..numbers).flat_map(|_| number().to_le_bytes()).collect()
}
