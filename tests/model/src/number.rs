//! Numbers on the wire: seven bits a byte, low bits first, the shortest form only.

/// Bits of a number in each of its bytes.
pub const NUMBER_BITS: u32 = 7;
/// The bit of a byte that says that more of the number follows.
pub const MORE: u8 = 1 << NUMBER_BITS;

/// Appends the number's one form.
pub fn write_number(number: u64, out: &mut Vec<u8>) {
    let (low, rest) = (number as u8 & !MORE, number >> NUMBER_BITS);
    if rest == 0 {
        out.push(low);
    } else {
        out.push(low | MORE);
        write_number(rest, out);
    }
}

/// How many bytes the number's one form has.
pub const fn number_length(number: u64) -> usize {
    if number >> NUMBER_BITS == 0 {
        1
    } else {
        1 + number_length(number >> NUMBER_BITS)
    }
}

/// Reads fields from a request's body; `None` when the next field is not in its layout.
pub struct Reader<'a> {
    bytes: &'a [u8],
    at: usize,
}

impl<'a> Reader<'a> {
    /// A reader at the first byte.
    pub fn new(bytes: &'a [u8]) -> Self {
        Reader { bytes, at: 0 }
    }

    /// Whether no byte is left.
    pub fn at_end(&self) -> bool {
        self.at == self.bytes.len()
    }

    /// The next `count` bytes.
    pub fn take(&mut self, count: usize) -> Option<&'a [u8]> {
        let end = self.at.checked_add(count)?;
        let taken = self.bytes.get(self.at..end)?;
        self.at = end;
        Some(taken)
    }

    /// A number up to `largest`, in its shortest form.
    fn number(&mut self, largest: u64) -> Option<u64> {
        let mut value: u128 = 0;
        for place in 0..number_length(u64::MAX) {
            let byte = *self.take(1)?.first()?;
            value += u128::from(byte & !MORE) << (place * NUMBER_BITS as usize);
            if byte & MORE == 0 {
                let shortest = place == 0 || byte != 0;
                let value = u64::try_from(value).ok()?;
                return (shortest && value <= largest).then_some(value);
            }
        }
        None
    }

    /// A number of 16 bits.
    pub fn u16(&mut self) -> Option<u16> {
        self.number(u16::MAX.into())?.try_into().ok()
    }

    /// A number of 32 bits.
    pub fn u32(&mut self) -> Option<u32> {
        self.number(u32::MAX.into())?.try_into().ok()
    }

    /// A number of 64 bits.
    pub fn u64(&mut self) -> Option<u64> {
        self.number(u64::MAX)
    }

    /// `count` numbers of 32 bits.
    pub fn list(&mut self, count: u32) -> Option<Vec<u32>> {
        (0..count).map(|_| self.u32()).collect()
    }

    /// `count` pairs of numbers of 32 bits.
    pub fn pairs(&mut self, count: u32) -> Option<Vec<(u32, u32)>> {
        (0..count).map(|_| Some((self.u32()?, self.u32()?))).collect()
    }
}
