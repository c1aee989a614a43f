//! Frames: a body length of one or two bytes, then the body.

use crate::number::{number_length, write_number, MORE, NUMBER_BITS};

/// The longest body of a frame.
pub const MAX_BODY: usize = 2048;
/// Most bytes of a body's length.
pub const MAX_LENGTH_BYTES: usize = number_length(MAX_BODY as u64);

/// What the first bytes of a stream, from a frame's begin on, amount to.
#[derive(Debug, PartialEq, Eq)]
pub(crate) enum Progress<'a> {
    /// A part of a frame, or nothing at all.
    Partial,
    /// One whole frame, with this body.
    Whole(&'a [u8]),
    /// The length bytes rule out every valid length.
    Broken,
}

/// Judges bytes that hold at most one frame.
pub(crate) fn progress(bytes: &[u8]) -> Progress<'_> {
    let (length, body) = match *bytes {
        [] => return Progress::Partial,
        [first, ref body @ ..] if first < MORE => (usize::from(first), body),
        [_] => return Progress::Partial,
        [_, 0 | MORE.., ..] => return Progress::Broken,
        [first, second, ref body @ ..] => {
            (usize::from(first & !MORE) | usize::from(second) << NUMBER_BITS, body)
        }
    };
    if length == 0 || length > MAX_BODY {
        Progress::Broken
    } else if body.len() < length {
        Progress::Partial
    } else {
        Progress::Whole(body)
    }
}

/// Whether a station may keep these bytes: a part of a frame, not yet whole.
pub(crate) fn may_be_pending(bytes: &[u8]) -> bool {
    progress(bytes) == Progress::Partial
}

/// The body with its length before it.
pub fn framed(body: &[u8]) -> Vec<u8> {
    let mut frame = Vec::with_capacity(MAX_LENGTH_BYTES + body.len());
    write_number(body.len() as u64, &mut frame);
    frame.extend_from_slice(body);
    frame
}
