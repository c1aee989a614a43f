//! The SID table: which SID has which number.

use crate::codec::Sid;
use crate::ffi;
use crate::layout::control_word;
use crate::limits::MAX_SID;
use crate::memory::Memory;

/// The numbers that SIDs have from the start, and the first that an entered one gets.
const STARTED: [u32; 2] = [7, 18];
const FIRST_ENTERED: u32 = 32;

/// The SID that has this number.
pub(crate) fn sid(memory: &Memory, number: u32) -> Option<Sid> {
    let mut packed = [0; MAX_SID];
    let length = ffi::sid(&memory.control, number, &mut packed);
    Sid::read(&packed[..length]).ok() // no bytes are no SID
}

/// All that have a number, upward.
pub(crate) fn all(memory: &Memory) -> impl Iterator<Item = (u32, Sid)> + '_ {
    let count = memory.control[control_word::SID_COUNT] as usize;
    let numbers = STARTED.into_iter().chain(FIRST_ENTERED..).take(count);
    numbers.filter_map(|number| Some((number, sid(memory, number)?)))
}
