//! Conditions as requests have them: without an allocation, where no tree is asked for.

use core::fmt;

use super::error::ReadError;
use super::reader::Reader;
#[cfg(feature = "alloc")]
use crate::condition::Condition;
use crate::limits::MAX_DEPTH;

/// The number that a condition begins with.
pub(crate) mod kind {
    pub const ALL: u64 = 1;
    pub const ANY: u64 = 2;
    pub const NOT: u64 = 3;
    pub const ENABLED: u64 = 4;
    pub const GROUP: u64 = 5;
}

/// A condition of a request: a [`Condition`](crate::Condition) that is lent, or the bytes of one.
///
/// ```
/// use obriska::{codec::ConditionRef, Condition};
///
/// let page = Condition::not(Condition::group(20));
/// let read = ConditionRef::read(&[0x03, 0x05, 0x14])?;
/// assert_eq!(read, ConditionRef::from(&page));
/// assert_eq!(read.to_condition(), page);
/// # Ok::<(), obriska::codec::ReadError>(())
/// ```
#[derive(Clone, Copy)]
pub struct ConditionRef<'a> {
    form: Form<'a>,
}

#[derive(Clone, Copy)]
enum Form<'a> {
    #[cfg(feature = "alloc")]
    Tree(&'a Condition),
    /// The bytes of a condition, which were read once.
    Read(&'a [u8]),
}

impl<'a> ConditionRef<'a> {
    /// The condition that these bytes are, as they stand behind the handle in a request.
    ///
    /// # Errors
    ///
    /// Where they are none, or one that is deeper than [`MAX_DEPTH`]; places are counted in them.
    pub fn read(bytes: &'a [u8]) -> Result<Self, ReadError> {
        let mut reader = Reader::new(bytes);
        let condition = Self::take(&mut reader)?;
        reader.finish()?;
        Ok(condition)
    }

    /// The condition that comes next.
    pub(super) fn take(reader: &mut Reader<'a>) -> Result<Self, ReadError> {
        let bytes = reader.rest();
        let start = reader.place();
        check(reader, MAX_DEPTH)?;
        Ok(ConditionRef { form: Form::Read(&bytes[..reader.place() - start]) })
    }

    /// The condition as a tree.
    #[cfg(feature = "alloc")]
    pub fn to_condition(&self) -> Condition {
        match self.form {
            Form::Tree(condition) => condition.clone(),
            Form::Read(bytes) => tree(&mut Reader::new(bytes)).expect("it was read as a condition"),
        }
    }

    /// Whether it is deeper than a request may have it.
    pub(super) fn is_too_deep(&self) -> bool {
        match self.form {
            #[cfg(feature = "alloc")]
            Form::Tree(condition) => condition.depth() > MAX_DEPTH,
            Form::Read(_) => false,
        }
    }

    pub(super) fn write(&self, out: &mut impl Extend<u8>) {
        match self.form {
            #[cfg(feature = "alloc")]
            Form::Tree(condition) => condition.write(out),
            Form::Read(bytes) => out.extend(bytes.iter().copied()),
        }
    }
}

#[cfg(feature = "alloc")]
impl<'a> From<&'a Condition> for ConditionRef<'a> {
    fn from(condition: &'a Condition) -> Self {
        ConditionRef { form: Form::Tree(condition) }
    }
}

impl PartialEq for ConditionRef<'_> {
    fn eq(&self, other: &Self) -> bool {
        match (self.form, other.form) {
            (Form::Read(bytes), Form::Read(others)) => bytes == others,
            #[cfg(feature = "alloc")]
            (Form::Tree(condition), Form::Tree(other)) => condition == other,
            #[cfg(feature = "alloc")]
            (Form::Tree(tree), Form::Read(bytes)) | (Form::Read(bytes), Form::Tree(tree)) => {
                let mut left = Left(Some(bytes));
                tree.write(&mut left);
                left.0 == Some(&[])
            }
        }
    }
}

impl Eq for ConditionRef<'_> {}

/// Bytes that are left once others are taken from their begin; `None` where those are not there.
#[cfg(feature = "alloc")]
struct Left<'a>(Option<&'a [u8]>);

#[cfg(feature = "alloc")]
impl Extend<u8> for Left<'_> {
    fn extend<I: IntoIterator<Item = u8>>(&mut self, bytes: I) {
        for byte in bytes {
            self.0 = self.0.and_then(|left| left.strip_prefix(&[byte]));
        }
    }
}

impl fmt::Debug for ConditionRef<'_> {
    fn fmt(&self, f: &mut fmt::Formatter<'_>) -> fmt::Result {
        match self.form {
            #[cfg(feature = "alloc")]
            Form::Tree(condition) => condition.fmt(f),
            Form::Read(bytes) => f.debug_tuple("ConditionRef").field(&bytes).finish(),
        }
    }
}

/// What a condition begins with.
#[cfg_attr(not(feature = "alloc"), allow(dead_code))] // only trees have all of it
enum Head {
    All(u32),
    Any(u32),
    Not,
    Enabled(u32),
    Group(u32),
}

fn head(reader: &mut Reader) -> Result<Head, ReadError> {
    let known = |kind| (kind::ALL..=kind::GROUP).contains(&kind).then_some(kind);
    match reader.value("a kind of condition", known)? {
        kind::ALL => reader.u32("a count of conditions").map(Head::All),
        kind::ANY => reader.u32("a count of conditions").map(Head::Any),
        kind::NOT => Ok(Head::Not),
        kind::ENABLED => reader.u32("a privilege").map(Head::Enabled),
        _ => reader.u32("a SID").map(Head::Group),
    }
}

/// Passes over a condition that is at most so deep.
fn check(reader: &mut Reader, depth: usize) -> Result<(), ReadError> {
    if depth == 0 {
        return Err(ReadError {
            place: reader.place(),
            expected: "no condition deeper than eight",
        });
    }
    let inner = match head(reader)? {
        Head::All(count) | Head::Any(count) => count,
        Head::Not => 1,
        Head::Enabled(_) | Head::Group(_) => 0,
    };
    (0..inner).try_for_each(|_| check(reader, depth - 1))
}

/// The tree of a condition that was checked.
#[cfg(feature = "alloc")]
fn tree(reader: &mut Reader) -> Result<Condition, ReadError> {
    Ok(match head(reader)? {
        Head::All(count) => {
            Condition::All((0..count).map(|_| tree(reader)).collect::<Result<_, _>>()?)
        }
        Head::Any(count) => {
            Condition::Any((0..count).map(|_| tree(reader)).collect::<Result<_, _>>()?)
        }
        Head::Not => Condition::not(tree(reader)?),
        Head::Enabled(privilege) => Condition::enabled(privilege),
        Head::Group(sid) => Condition::group(sid),
    })
}
