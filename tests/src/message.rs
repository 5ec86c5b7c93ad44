//! The message file: a reader and a writer.
//!
//! The reader allocates nothing, and checking a file keeps no calls.

use std::iter::once;

/// Most energies that a submission carries in a file.
pub const MOST_ENERGIES: usize = 2_980;

/// Fields of open, the call that has the most: Q, F, C, K and 17 delta groups.
pub const MOST_FIELDS: usize = 21;

/// Bits of the longest number: nine groups of seven.
const BITS: usize = 63;

/// The kind of a submission.
pub const SUBMIT: u64 = 4;

/// Why the reader or the writer refuses.
#[derive(Clone, Copy, Debug, PartialEq, Eq)]
pub enum Cause {
    /// The file ends inside a call.
    Ends,
    /// A number is not in its shortest form, or its ninth byte has the top bit set.
    Form,
    /// The call's kind is not 1 to 8.
    Kind,
    /// A count above 2,980; in the writer also a field or an energy that a file cannot carry.
    Limit,
    /// The series buffer, or the writer's output, is too short.
    Room,
}

impl Cause {
    /// The cause's number in the table of causes.
    pub fn number(self) -> u64 {
        match self {
            Cause::Ends => 31,
            Cause::Form => 32,
            Cause::Kind => 33,
            Cause::Limit => 34,
            Cause::Room => 35,
        }
    }
}

/// How many fields stand after a kind; of a submission those before the count.
pub fn fields_of(kind: u64) -> Option<usize> {
    match kind {
        1 => Some(MOST_FIELDS),
        2 => Some(5),
        3 => Some(2),
        SUBMIT => Some(3),
        5 => Some(4),
        6 => Some(3),
        7 | 8 => Some(2),
        _ => None,
    }
}

/// A refusal of the reader: the cause, and the offset of the refused call.
#[derive(Clone, Copy, Debug, PartialEq, Eq)]
pub struct Refusal {
    /// Why.
    pub cause: Cause,
    /// Offset of the call's first byte, or a start beyond the file's end.
    pub offset: u64,
}

/// A call as read. The energies of a submission are in the series buffer.
#[derive(Clone, Copy, Debug, PartialEq, Eq)]
pub struct Call {
    /// 1 to 8.
    pub kind: u64,
    /// The fields of the kind, then 0.
    pub fields: [u64; MOST_FIELDS],
    /// How many energies; 0 for every other kind than a submission.
    pub count: usize,
    /// Where the next call starts.
    pub next: u64,
}

/// What is left of a file.
struct Rest<'a>(&'a [u8]);

impl Rest<'_> {
    /// Takes a number.
    #[cfg_attr(feature = "inlined", inline(always))]
    fn number(&mut self) -> Result<u64, Cause> {
        let mut value = 0;
        for bits in (0..BITS).step_by(7) {
            let (&byte, rest) = self.0.split_first().ok_or(Cause::Ends)?;
            self.0 = rest;
            value |= u64::from(byte & 0x7f) << bits;
            if byte < 0x80 {
                let shortest = byte > 0 || bits == 0;
                return shortest.then_some(value).ok_or(Cause::Form);
            }
        }
        Err(Cause::Form)
    }

    /// Takes a call, a submission only where there is room for its energies.
    fn call(&mut self, room: usize) -> Result<(), Cause> {
        let kind = self.number()?;
        for _ in 0..fields_of(kind).ok_or(Cause::Kind)? {
            self.number()?;
        }
        if kind != SUBMIT {
            return Ok(());
        }
        let count = self.number()?;
        if count > MOST_ENERGIES as u64 {
            return Err(Cause::Limit);
        }
        if count > room as u64 {
            return Err(Cause::Room);
        }
        for _ in 0..count {
            self.number()?;
        }
        Ok(())
    }
}

/// The first refusal in a file, or none. The series buffer counts as one of 2,980 places.
pub fn check(file: &[u8]) -> Result<(), Refusal> {
    let mut rest = Rest(file);
    while !rest.0.is_empty() {
        let offset = (file.len() - rest.0.len()) as u64;
        let refused = |cause| Refusal { cause, offset };
        rest.call(MOST_ENERGIES).map_err(refused)?;
    }
    Ok(())
}

/// The energy that was sent as a number, as a word in two's complement.
fn energy(sent: u64) -> u64 {
    let half = (sent / 2) as i64;
    let energy = match sent % 2 {
        0 => half,
        _ => -half - 1,
    };
    energy as u64
}

/// Reads the call at `start`, or says that none follows. An accepted submission fills the first places of `series`;
/// every other answer leaves it as it is.
pub fn read(file: &[u8], start: u64, series: &mut [u64]) -> Result<Option<Call>, Refusal> {
    let length = file.len() as u64;
    if start == length {
        return Ok(None);
    }
    let refused = |cause| Refusal {
        cause,
        offset: start,
    };
    if start > length {
        return Err(refused(Cause::Ends));
    }
    let file = &file[start as usize..];
    let mut rest = Rest(file);
    rest.call(series.len()).map_err(refused)?;
    let next = length - rest.0.len() as u64;
    Ok(Some(checked_call(file, next, series)))
}

/// The call at a file's start, which `Rest::call` has taken. The next one starts at `next`.
fn checked_call(file: &[u8], next: u64, series: &mut [u64]) -> Call {
    let mut rest = Rest(file);
    let mut take = || rest.number().expect("a number that was checked");
    let kind = take();
    let mut fields = [0; MOST_FIELDS];
    let used = fields_of(kind).expect("a kind that was checked");
    for field in &mut fields[..used] {
        *field = take();
    }
    let count = if kind == SUBMIT { take() as usize } else { 0 };
    for place in &mut series[..count] {
        *place = energy(take());
    }
    Call {
        kind,
        fields,
        count,
        next,
    }
}

/// The number that an energy, a word in two's complement, is sent as. None outside -2^62 to 2^62 - 1.
fn sent(word: u64) -> Option<u64> {
    let energy = i128::from(word as i64);
    if !(-(1 << 62)..1 << 62).contains(&energy) {
        return None;
    }
    let number = if energy >= 0 {
        2 * energy
    } else {
        -2 * energy - 1
    };
    Some(number as u64)
}

/// Bytes of a number's shortest form.
fn length(mut value: u64) -> usize {
    let mut bytes = 1;
    while value >= 0x80 {
        value >>= 7;
        bytes += 1;
    }
    bytes
}

/// Writes a number to the start of `output`, and gives what is left of it.
fn put(output: &mut [u8], mut value: u64) -> &mut [u8] {
    let bytes = length(value);
    let (here, rest) = output.split_at_mut(bytes);
    for place in &mut here[..bytes - 1] {
        *place = (value & 0x7f) as u8 | 0x80;
        value >>= 7;
    }
    here[bytes - 1] = value as u8;
    rest
}

/// Writes one call to the start of `output`, and gives the number of its bytes. A refusal leaves `output` as it is.
/// Of `fields` only those of the kind count, a missing one is 0; `series` counts for a submission only.
pub fn write(kind: u64, fields: &[u64], series: &[u64], output: &mut [u8]) -> Result<usize, Cause> {
    let used = fields_of(kind).ok_or(Cause::Kind)?;
    let series = if kind == SUBMIT { series } else { &[] };
    if series.len() > MOST_ENERGIES {
        return Err(Cause::Limit);
    }
    let numbers = || {
        let field = |i: usize| fields.get(i).copied().unwrap_or(0);
        let fields = (0..used).map(move |i| Some(field(i)).filter(|&field| field < 1 << 63));
        let count = (kind == SUBMIT).then_some(Some(series.len() as u64));
        let energies = series.iter().map(|&word| sent(word));
        once(Some(kind)).chain(fields).chain(count).chain(energies)
    };
    let mut bytes = 0;
    for number in numbers() {
        bytes += length(number.ok_or(Cause::Limit)?);
    }
    if bytes > output.len() {
        return Err(Cause::Room);
    }
    let mut rest = output;
    for number in numbers().flatten() {
        rest = put(rest, number);
    }
    Ok(bytes)
}
