//! The form in which memory is kept: a head that names it, then the arrays.

use std::fmt;

use crate::layout::{MEMORY_BYTES, PARTS};
use crate::memory::Memory;
use crate::refusal::Refusal;
use crate::version::LAYOUT;

/// What kept memory begins with.
const MAGIC: [u8; 8] = *b"OBRISKA\0";
/// Bytes of the magic, the layout and the parts' sizes.
const HEAD_BYTES: usize = MAGIC.len() + (1 + PARTS.len()) * size_of::<u32>();

/// How many bytes [`Broker::to_bytes`](crate::Broker::to_bytes) gives: a head and the memory.
pub const KEPT_BYTES: usize = HEAD_BYTES + MEMORY_BYTES;

/// Why bytes are not the kept memory of a broker of this edition; the first that applies.
#[derive(Clone, Copy, Debug, PartialEq, Eq)]
#[non_exhaustive]
pub enum KeptError {
    /// They are something else: they don't begin as kept memory does.
    Magic,
    /// They were kept by another edition, of this layout and not of [`LAYOUT`].
    Layout(u32),
    /// Their head names another size of a part.
    Part {
        /// Its name: tokens, dacls, handles, control or pending.
        part: &'static str,
        /// How many bytes the head says.
        found: u32,
        /// How many it has in this edition.
        expected: u32,
    },
    /// They are this many and not [`KEPT_BYTES`]: cut short, or with more behind.
    Length(usize),
    /// The memory is not valid: [`Refusal::Memory`], by the proved test of every call.
    Refused(Refusal),
}

impl fmt::Display for KeptError {
    fn fmt(&self, f: &mut fmt::Formatter<'_>) -> fmt::Result {
        match self {
            KeptError::Magic => write!(f, "not kept memory: it begins otherwise"),
            KeptError::Layout(layout) => {
                write!(f, "kept memory of another edition: its layout is {layout}, not {LAYOUT}")
            }
            KeptError::Part { part, found, expected } => {
                write!(f, "kept memory with {found} bytes of {part}, not {expected}")
            }
            KeptError::Length(length) if *length < KEPT_BYTES => {
                write!(f, "kept memory cut short: {length} bytes, not {KEPT_BYTES}")
            }
            KeptError::Length(length) => {
                write!(f, "kept memory with more behind it: {length} bytes, not {KEPT_BYTES}")
            }
            KeptError::Refused(refusal) => write!(f, "kept memory {refusal}"),
        }
    }
}

impl std::error::Error for KeptError {}

/// The head, then the memory.
pub(crate) fn write(memory: &Memory) -> Vec<u8> {
    let mut bytes = Vec::with_capacity(KEPT_BYTES);
    bytes.extend(MAGIC);
    bytes.extend(LAYOUT.to_le_bytes());
    bytes.extend(PARTS.iter().flat_map(|(_, size)| size.to_le_bytes()));
    memory.write(&mut bytes);
    bytes
}

/// The memory behind the head, which may be not valid.
pub(crate) fn read(bytes: &[u8]) -> Result<Box<Memory>, KeptError> {
    let wrong_length = KeptError::Length(bytes.len());
    let head = bytes.strip_prefix(&MAGIC).ok_or(KeptError::Magic)?;
    let (layout, mut rest) = number(head).ok_or(wrong_length)?;
    if layout != LAYOUT {
        return Err(KeptError::Layout(layout));
    }
    for (part, expected) in PARTS {
        let (found, behind) = number(rest).ok_or(wrong_length)?;
        if found != expected {
            return Err(KeptError::Part { part, found, expected });
        }
        rest = behind;
    }
    Memory::from_bytes(rest).ok_or(wrong_length)
}

/// The number at the begin, and what is behind it.
fn number(bytes: &[u8]) -> Option<(u32, &[u8])> {
    let (number, behind) = bytes.split_first_chunk()?;
    Some((u32::from_le_bytes(*number), behind))
}
