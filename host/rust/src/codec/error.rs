//! What is wrong with bytes that are read, and why a request cannot be written.

use core::fmt;

use crate::limits::{MAX_BODY, MAX_DEPTH};

/// Bytes that are not what they should be.
///
/// ```
/// use obriska::codec::Request;
///
/// let cut_short = Request::read(&[0x03, 0x05, 0x01, 0x80]).unwrap_err();
/// assert_eq!(cut_short.to_string(), "byte 3: expected a count of entries");
/// ```
#[derive(Clone, Copy, Debug, PartialEq, Eq)]
#[non_exhaustive]
pub struct ReadError {
    /// The byte of the frame or of a SID's text, counted from 0, at which something else was expected.
    pub place: usize,
    /// What was expected there.
    pub expected: &'static str,
}

impl fmt::Display for ReadError {
    fn fmt(&self, f: &mut fmt::Formatter<'_>) -> fmt::Result {
        write!(f, "byte {}: expected {}", self.place, self.expected)
    }
}

#[cfg(feature = "std")]
impl std::error::Error for ReadError {}

/// Why a request is not written.
#[derive(Clone, Copy, Debug, PartialEq, Eq)]
#[non_exhaustive]
pub enum WriteError {
    /// The buffer is too short; nothing was written.
    Buffer {
        /// The bytes that the request's frame has.
        needed: usize,
    },
    /// Its body would be longer than [`MAX_BODY`].
    TooLong,
    /// Its condition is deeper than [`MAX_DEPTH`].
    TooDeep,
}

impl fmt::Display for WriteError {
    fn fmt(&self, f: &mut fmt::Formatter<'_>) -> fmt::Result {
        match self {
            WriteError::Buffer { needed } => write!(f, "the request needs {needed} bytes"),
            WriteError::TooLong => write!(f, "the request is over {MAX_BODY} bytes"),
            WriteError::TooDeep => write!(f, "the condition is over {MAX_DEPTH} deep"),
        }
    }
}

#[cfg(feature = "std")]
impl std::error::Error for WriteError {}
