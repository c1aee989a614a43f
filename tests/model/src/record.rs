//! A handle's record in the lent memory.

use crate::layout::{handle_byte, HANDLE_BYTES};
use crate::state::Handle;

/// A handle's record; a free one is all zero.
#[derive(Clone, Copy, Debug, Default, PartialEq, Eq)]
#[allow(missing_docs)] // named as the handle's fields
pub struct HandleRecord {
    pub station: u16,
    pub mask: u16,
    pub number: u32,
    pub token: u64,
}

impl HandleRecord {
    /// The record of a handle slot.
    pub(crate) fn of(slot: &Option<Handle>) -> Self {
        let Some(handle) = slot else {
            return HandleRecord::default();
        };
        HandleRecord {
            station: handle.station.try_into().expect("a station is below 8"),
            mask: handle.mask.try_into().expect("a mask is within 0x1EF"),
            number: handle.number,
            token: handle.token,
        }
    }

    /// The handle slot that the record stands for.
    pub(crate) fn slot(&self) -> Option<Handle> {
        let HandleRecord { station, mask, number, token } = *self;
        let handle = Handle { station: station.into(), number, token, mask: mask.into() };
        (number != 0).then_some(handle)
    }

    /// All its bytes.
    pub fn bytes(&self) -> [u8; HANDLE_BYTES] {
        let mut bytes = [0; HANDLE_BYTES];
        bytes[handle_byte::STATION].copy_from_slice(&self.station.to_ne_bytes());
        bytes[handle_byte::MASK].copy_from_slice(&self.mask.to_ne_bytes());
        bytes[handle_byte::NUMBER].copy_from_slice(&self.number.to_ne_bytes());
        bytes[handle_byte::TOKEN].copy_from_slice(&self.token.to_ne_bytes());
        bytes
    }

    /// The record of these bytes.
    pub fn from_bytes(bytes: &[u8; HANDLE_BYTES]) -> Self {
        HandleRecord {
            station: u16::from_ne_bytes(field(&bytes[handle_byte::STATION])),
            mask: u16::from_ne_bytes(field(&bytes[handle_byte::MASK])),
            number: u32::from_ne_bytes(field(&bytes[handle_byte::NUMBER])),
            token: u64::from_ne_bytes(field(&bytes[handle_byte::TOKEN])),
        }
    }
}

fn field<const WIDTH: usize>(bytes: &[u8]) -> [u8; WIDTH] {
    bytes.try_into().expect("a field is as wide as its place")
}
