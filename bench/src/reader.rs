//! The reader of the two desks in Rust, and a check of a whole file by it: its number reader is inlined by force and takes a
//! number of one to four bytes with no loop, and it looks for the file's end once a number, not once a byte.
//!
//! A submission's energies are read once, into a room that is made once a replay. They are copied to the series buffer when
//! the last one is accepted, since a refused call leaves that buffer as it is.

use emorizugu_tests::message::{
    fields_of, Call, Cause, Refusal, MOST_ENERGIES, MOST_FIELDS, SUBMIT,
};

/// The most bytes of a number.
const MOST_BYTES: usize = 9;

/// A number and what follows it. Both are handed back by value, so that they stay in registers.
type Taken<'a> = Result<(u64, &'a [u8]), Cause>;

/// The number at the start of some bytes.
#[inline(always)]
fn number(bytes: &[u8]) -> Taken<'_> {
    let Some(&[a, b, c, d, ..]) = bytes.first_chunk::<MOST_BYTES>() else {
        return long(bytes);
    };
    let [a, b, c, d] = [a, b, c, d].map(u64::from);
    if a < 0x80 {
        return Ok((a, &bytes[1..]));
    }
    let value = a - 0x80 + (b << 7);
    if b < 0x80 {
        return shortest(b, value, &bytes[2..]);
    }
    let value = value - (0x80 << 7) + (c << 14);
    if c < 0x80 {
        return shortest(c, value, &bytes[3..]);
    }
    let value = value - (0x80 << 14) + (d << 21);
    if d < 0x80 {
        return shortest(d, value, &bytes[4..]);
    }
    long(bytes)
}

/// A number of more than one byte, whose last one is not 0.
#[inline(always)]
fn shortest(last: u64, value: u64, rest: &[u8]) -> Taken<'_> {
    if last == 0 {
        return Err(Cause::Form);
    }
    Ok((value, rest))
}

/// A number of any length, or one near the file's end.
#[inline(never)]
fn long(bytes: &[u8]) -> Taken<'_> {
    let mut value = 0;
    for place in 0..MOST_BYTES {
        let byte = *bytes.get(place).ok_or(Cause::Ends)?;
        value |= u64::from(byte & 0x7f) << (7 * place);
        if byte < 0x80 {
            if byte == 0 && place > 0 {
                return Err(Cause::Form);
            }
            return Ok((value, &bytes[place + 1..]));
        }
    }
    Err(Cause::Form)
}

/// A count of energies for which there is room.
#[inline(always)]
fn counted(bytes: &[u8], room: usize) -> Result<(usize, &[u8]), Cause> {
    let (count, rest) = number(bytes)?;
    if count > MOST_ENERGIES as u64 {
        return Err(Cause::Limit);
    }
    if count > room as u64 {
        return Err(Cause::Room);
    }
    Ok((count as usize, rest))
}

/// The energy that was sent as a number, as a word in two's complement.
#[inline(always)]
fn energy(sent: u64) -> u64 {
    (sent >> 1) ^ (sent & 1).wrapping_neg()
}

/// A reader with its room for energies.
pub struct Reader {
    room: [u64; MOST_ENERGIES],
}

impl Reader {
    /// A reader for a whole replay.
    pub fn new() -> Reader {
        Reader {
            room: [0; MOST_ENERGIES],
        }
    }

    /// Reads the call at `start`, or says that none follows. An accepted submission fills the first places of `series`;
    /// every other answer leaves it as it is.
    pub fn read(
        &mut self,
        file: &[u8],
        start: u64,
        series: &mut [u64],
    ) -> Result<Option<Call>, Refusal> {
        if start == file.len() as u64 {
            return Ok(None);
        }
        let refused = |cause| Refusal {
            cause,
            offset: start,
        };
        let rest = file.get(start as usize..).ok_or(refused(Cause::Ends))?;
        let call = self.call(rest, series).map_err(refused)?;
        let next = start + call.next;
        Ok(Some(Call { next, ..call }))
    }

    /// The call at a file's start; the next one starts so many bytes behind it.
    #[inline(always)]
    fn call(&mut self, file: &[u8], series: &mut [u64]) -> Result<Call, Cause> {
        let (kind, mut rest) = number(file)?;
        let used = fields_of(kind).ok_or(Cause::Kind)?;
        let mut fields = [0; MOST_FIELDS];
        for field in &mut fields[..used] {
            (*field, rest) = number(rest)?;
        }
        let mut count = 0;
        if kind == SUBMIT {
            (count, rest) = counted(rest, series.len())?;
            let room = &mut self.room[..count];
            for place in room.iter_mut() {
                let (sent, behind) = number(rest)?;
                *place = energy(sent);
                rest = behind;
            }
            series[..count].copy_from_slice(room);
        }
        let next = (file.len() - rest.len()) as u64;
        Ok(Call {
            kind,
            fields,
            count,
            next,
        })
    }
}

impl Default for Reader {
    fn default() -> Reader {
        Reader::new()
    }
}

/// The first refusal in a file, or none. The series buffer counts as one of 2,980 places.
pub fn check(file: &[u8]) -> Result<(), Refusal> {
    let mut rest = file;
    while !rest.is_empty() {
        let offset = (file.len() - rest.len()) as u64;
        rest = passed(rest).map_err(|cause| Refusal { cause, offset })?;
    }
    Ok(())
}

/// What follows the call at the start of some bytes.
#[inline(always)]
fn passed(bytes: &[u8]) -> Result<&[u8], Cause> {
    let (kind, mut rest) = number(bytes)?;
    for _ in 0..fields_of(kind).ok_or(Cause::Kind)? {
        rest = number(rest)?.1;
    }
    if kind != SUBMIT {
        return Ok(rest);
    }
    let (count, mut rest) = counted(rest, MOST_ENERGIES)?;
    for _ in 0..count {
        rest = number(rest)?.1;
    }
    Ok(rest)
}
