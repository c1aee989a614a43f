//! Reading the fields of a frame, front to back.

use super::error::ReadError;
use super::list::{Item, List};
use crate::number;

/// A frame and the place of its first byte that is not read yet.
pub struct Reader<'a> {
    bytes: &'a [u8],
    place: usize,
}

impl<'a> Reader<'a> {
    pub fn new(bytes: &'a [u8]) -> Self {
        Reader { bytes, place: 0 }
    }

    pub fn place(&self) -> usize {
        self.place
    }

    pub fn rest(&self) -> &'a [u8] {
        &self.bytes[self.place..]
    }

    /// The next number, as what it stands for.
    pub fn value<T>(
        &mut self,
        expected: &'static str,
        meaning: impl Fn(u64) -> Option<T>,
    ) -> Result<T, ReadError> {
        let read = number::read(self.rest()).and_then(|(n, rest)| Some((meaning(n)?, rest)));
        let (value, rest) = read.ok_or(ReadError { place: self.place, expected })?;
        self.place = self.bytes.len() - rest.len();
        Ok(value)
    }

    pub fn u64(&mut self, expected: &'static str) -> Result<u64, ReadError> {
        self.value(expected, Some)
    }

    pub fn u32(&mut self, expected: &'static str) -> Result<u32, ReadError> {
        self.value(expected, |number| number.try_into().ok())
    }

    pub fn u16(&mut self, expected: &'static str) -> Result<u16, ReadError> {
        self.value(expected, |number| number.try_into().ok())
    }

    /// The next number of 32 bits, as what it is the number of.
    pub fn named<T>(
        &mut self,
        expected: &'static str,
        from_number: fn(u32) -> Option<T>,
    ) -> Result<T, ReadError> {
        self.value(expected, |number| u32::try_from(number).ok().and_then(from_number))
    }

    /// A count of at most so many.
    pub fn count(&mut self, most: usize, expected: &'static str) -> Result<usize, ReadError> {
        self.value(expected, |n| usize::try_from(n).ok().filter(|&count| count <= most))
    }

    /// So many plain bytes.
    pub fn plain(&mut self, count: usize, expected: &'static str) -> Result<&'a [u8], ReadError> {
        let Some(bytes) = self.rest().get(..count) else {
            return Err(ReadError { place: self.bytes.len(), expected });
        };
        self.place += count;
        Ok(bytes)
    }

    /// So many items.
    pub fn list<T: Item>(
        &mut self,
        count: usize,
        expected: &'static str,
    ) -> Result<List<'a, T>, ReadError> {
        let start = self.place;
        for _ in 0..count {
            T::read(self, expected)?;
        }
        Ok(List::of_bytes(count, &self.bytes[start..self.place]))
    }

    /// Nothing is left.
    pub fn finish(self) -> Result<(), ReadError> {
        if self.rest().is_empty() {
            return Ok(());
        }
        Err(ReadError { place: self.place, expected: "the end of the body" })
    }
}
