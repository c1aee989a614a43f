//! The numbers of a body, and the answer's body while it is made.

use super::layout::{MAX_GROUPS, MAX_LENGTH_BYTES, MAX_SUB_AUTHORITIES, SID_ROW};
use super::memory::SidRow;

/// Bits of a number in each byte, and the bit that says that more follow.
pub const BITS: usize = 7;
pub const MORE: u8 = 0x80;
/// Most bytes of a number of 64 and of 32 bits.
const U64_BYTES: usize = 10;
const U32_BYTES: usize = 5;

/// Reads fields; what is not in its layout stays noted in `bad`.
#[derive(Clone)]
pub struct Reader<'a> {
    bytes: &'a [u8],
    bad: bool,
}

impl<'a> Reader<'a> {
    pub fn new(bytes: &'a [u8]) -> Self {
        Reader { bytes, bad: false }
    }

    #[inline]
    fn number(&mut self, largest: u64) -> u64 {
        match *self.bytes {
            [byte @ ..MORE, ref rest @ ..] => {
                self.bytes = rest;
                byte.into()
            }
            _ => self.long_number(largest),
        }
    }

    fn long_number(&mut self, largest: u64) -> u64 {
        let mut value = 0;
        for (at, &byte) in self.bytes.iter().take(U64_BYTES).enumerate() {
            value |= u64::from(byte & !MORE) << (BITS * at);
            if byte < MORE {
                self.bytes = &self.bytes[at + 1..];
                let is_shortest = byte != 0 && (at + 1 < U64_BYTES || byte == 1);
                self.bad |= !is_shortest || value > largest;
                return value;
            }
        }
        self.fail();
        0
    }

    fn fail(&mut self) {
        self.bad = true;
        self.bytes = &[];
    }

    #[inline]
    pub fn u16(&mut self) -> u16 {
        self.number(u16::MAX.into()) as u16
    }

    #[inline]
    pub fn u32(&mut self) -> u32 {
        self.number(u32::MAX.into()) as u32
    }

    #[inline]
    pub fn u64(&mut self) -> u64 {
        self.number(u64::MAX)
    }

    /// The next bytes.
    pub fn take(&mut self, count: u32) -> &'a [u8] {
        match self.bytes.split_at_checked(count as usize) {
            Some((taken, rest)) => {
                self.bytes = rest;
                taken
            }
            None => {
                self.fail();
                &[]
            }
        }
    }

    /// A packed SID, as it stands in a row.
    pub fn sid(&mut self) -> SidRow {
        let mut row = [0; SID_ROW];
        let head = self.take(8).try_into().map_or(0, u64::from_le_bytes);
        let (revision, count) = (head as u8, (head >> 8) as u8);
        if revision != 1 || count > MAX_SUB_AUTHORITIES {
            self.fail();
            return row;
        }
        let (pairs, rest) = self.take(4 * u32::from(count)).as_chunks();
        row[0] = head;
        for (word, pair) in row[1..].iter_mut().zip(pairs) {
            *word = u64::from_le_bytes(*pair);
        }
        if let Ok(last) = rest.try_into() {
            row[1 + pairs.len()] = u32::from_le_bytes(last).into();
        }
        row
    }

    /// So many entries, read one by one; stops where one is not in its layout.
    pub fn each(&mut self, count: u32, mut entry: impl FnMut(&mut Self)) {
        for _ in 0..count {
            if self.bad {
                return;
            }
            entry(self);
        }
    }

    /// The bytes not yet read; refusal 1 if something was not in its layout.
    pub fn rest(&self) -> Result<&'a [u8], Refused> {
        refuse(1, !self.bad)?;
        Ok(self.bytes)
    }

    /// Refusal 1 unless all was read and nothing is left.
    pub fn end(&self) -> Result<(), Refused> {
        refuse(1, !self.bad && self.bytes.is_empty())
    }
}

/// A refusal, with the size that 9 tells.
pub struct Refused {
    pub status: u8,
    pub size: u64,
}

/// The refusal unless the check passes.
#[inline]
pub fn refuse(status: u8, passes: bool) -> Result<(), Refused> {
    if passes {
        Ok(())
    } else {
        Err(Refused { status, size: 0 })
    }
}

/// Bytes that any answer's body fits in: the status, a count and the longest groups.
const BODY_BYTES: usize = (1 + U32_BYTES + MAX_GROUPS * 2 * U32_BYTES).next_multiple_of(16);

/// The answer's body.
pub struct Body {
    bytes: [u8; BODY_BYTES],
    length: usize,
}

impl Body {
    pub fn new() -> Self {
        Body { bytes: [0; BODY_BYTES], length: 0 }
    }

    pub fn clear(&mut self) {
        self.length = 0;
    }

    pub fn len(&self) -> usize {
        self.length
    }

    #[inline]
    pub fn number(&mut self, mut number: u64) {
        while number >= MORE.into() {
            self.bytes[self.length] = number as u8 | MORE;
            self.length += 1;
            number >>= BITS;
        }
        self.bytes[self.length] = number as u8;
        self.length += 1;
    }

    pub fn extend(&mut self, bytes: &[u8]) {
        self.bytes[self.length..][..bytes.len()].copy_from_slice(bytes);
        self.length += bytes.len();
    }

    /// Writes the frame and gives its length.
    pub fn write(&self, answer: &mut [u8]) -> usize {
        let body = &self.bytes[..self.length];
        let head = if body.len() < MORE.into() {
            answer[0] = body.len() as u8;
            1
        } else {
            answer[0] = body.len() as u8 | MORE;
            answer[1] = (body.len() >> BITS) as u8;
            MAX_LENGTH_BYTES
        };
        answer[head..][..body.len()].copy_from_slice(body);
        head + body.len()
    }
}
