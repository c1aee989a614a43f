//! Writing into a caller's buffer.

use crate::number;

/// Bytes that are written from a buffer's begin; those that it does not hold are only counted.
pub(crate) struct Writer<'b> {
    buffer: &'b mut [u8],
    written: usize,
}

impl<'b> Writer<'b> {
    pub fn new(buffer: &'b mut [u8]) -> Self {
        Writer { buffer, written: 0 }
    }

    pub fn written(&self) -> usize {
        self.written
    }
}

impl Extend<u8> for Writer<'_> {
    fn extend<I: IntoIterator<Item = u8>>(&mut self, bytes: I) {
        for byte in bytes {
            if let Some(place) = self.buffer.get_mut(self.written) {
                *place = byte;
            }
            self.written += 1;
        }
    }
}

/// Writes numbers one after the other.
pub(crate) fn put(numbers: &[u64], out: &mut impl Extend<u8>) {
    numbers.iter().for_each(|&number| number::write(number, out));
}
