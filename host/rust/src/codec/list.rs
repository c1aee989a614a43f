//! Lists of requests and answers, without an allocation.

use core::fmt;

use super::error::ReadError;
use super::reader::Reader;
use crate::number;
use crate::terms::Group;

/// What lists have for items.
pub(super) mod sealed {
    use super::{ReadError, Reader};

    pub trait Fields: Copy {
        /// Takes its fields; where a number is not there, this was expected.
        fn read(reader: &mut Reader, expected: &'static str) -> Result<Self, ReadError>;

        /// Writes its fields.
        fn write(self, out: &mut impl Extend<u8>);
    }
}

/// An item of a [`List`]: a [`Group`], an entry of request 5 or 6, the number of a SID or an index;
/// in requests 14 and 15 a [`SidGroup`](super::SidGroup) or a [`Sid`](super::Sid).
pub trait Item: sealed::Fields {}

/// A list of a request or an answer: values that are lent, or those of a frame that was read.
///
/// ```
/// use obriska::codec::List;
///
/// let sids = [100, 101];
/// let list = List::from(&sids);
/// assert_eq!(list.len(), 2);
/// assert!(list.iter().eq([100, 101]));
/// ```
#[derive(Clone, Copy)]
pub struct List<'a, T> {
    form: Form<'a, T>,
}

#[derive(Clone, Copy)]
enum Form<'a, T> {
    Lent(&'a [T]),
    /// The bytes of so many items, which were read once.
    Read {
        count: usize,
        bytes: &'a [u8],
    },
}

impl<'a, T: Item> List<'a, T> {
    /// No items.
    pub const EMPTY: Self = List { form: Form::Lent(&[]) };

    pub(super) fn of_bytes(count: usize, bytes: &'a [u8]) -> Self {
        List { form: Form::Read { count, bytes } }
    }

    /// How many items there are.
    pub fn len(&self) -> usize {
        match self.form {
            Form::Lent(values) => values.len(),
            Form::Read { count, .. } => count,
        }
    }

    /// Whether there are none.
    pub fn is_empty(&self) -> bool {
        self.len() == 0
    }

    /// The items, in their order.
    pub fn iter(&self) -> Items<'a, T> {
        Items { list: *self }
    }

    /// Writes the items, without their count.
    pub(super) fn write(&self, out: &mut impl Extend<u8>) {
        self.iter().for_each(|item| item.write(out));
    }
}

/// The items of a [`List`].
#[derive(Clone)]
pub struct Items<'a, T> {
    list: List<'a, T>,
}

impl<T: Item> Iterator for Items<'_, T> {
    type Item = T;

    fn next(&mut self) -> Option<T> {
        match &mut self.list.form {
            Form::Lent(values) => {
                let (first, rest) = values.split_first()?;
                *values = rest;
                Some(*first)
            }
            Form::Read { count, bytes } => {
                *count = count.checked_sub(1)?;
                let mut reader = Reader::new(bytes);
                let item = T::read(&mut reader, "what was read before").ok()?;
                *bytes = reader.rest();
                Some(item)
            }
        }
    }

    fn size_hint(&self) -> (usize, Option<usize>) {
        (self.list.len(), Some(self.list.len()))
    }
}

impl<T: Item> ExactSizeIterator for Items<'_, T> {}

impl<'a, T: Item> IntoIterator for List<'a, T> {
    type Item = T;
    type IntoIter = Items<'a, T>;

    fn into_iter(self) -> Items<'a, T> {
        self.iter()
    }
}

impl<'a, T> From<&'a [T]> for List<'a, T> {
    fn from(values: &'a [T]) -> Self {
        List { form: Form::Lent(values) }
    }
}

impl<'a, T, const N: usize> From<&'a [T; N]> for List<'a, T> {
    fn from(values: &'a [T; N]) -> Self {
        List { form: Form::Lent(values) }
    }
}

impl<T: Item + PartialEq> PartialEq for List<'_, T> {
    fn eq(&self, other: &Self) -> bool {
        self.iter().eq(other.iter())
    }
}

impl<T: Item + Eq> Eq for List<'_, T> {}

impl<T: Item + fmt::Debug> fmt::Debug for List<'_, T> {
    fn fmt(&self, f: &mut fmt::Formatter<'_>) -> fmt::Result {
        f.debug_list().entries(self.iter()).finish()
    }
}

impl Item for u32 {}

impl sealed::Fields for u32 {
    fn read(reader: &mut Reader, expected: &'static str) -> Result<Self, ReadError> {
        reader.u32(expected)
    }

    fn write(self, out: &mut impl Extend<u8>) {
        number::write(self.into(), out);
    }
}

impl Item for Group {}

impl sealed::Fields for Group {
    fn read(reader: &mut Reader, expected: &'static str) -> Result<Self, ReadError> {
        Ok(Group { sid: reader.u32(expected)?, attributes: reader.u32(expected)? })
    }

    fn write(self, out: &mut impl Extend<u8>) {
        number::write(self.sid.into(), out);
        number::write(self.attributes.into(), out);
    }
}
