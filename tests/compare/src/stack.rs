//! What the stack holds where a call's frames will stand.

use std::hint::black_box;

/// More than any call needs.
const FRAMES: usize = 64 * 1024;

/// Leaves the pattern in the bytes of the stack below the caller's frame.
#[inline(never)]
pub fn fill_stack(pattern: u8) {
    black_box(&mut [pattern; FRAMES]);
}
