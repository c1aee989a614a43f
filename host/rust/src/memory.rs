//! The memory that a broker works on, and its form as bytes.

use crate::ffi::Handle;
use crate::layout::{CONTROL_LEN, DACLS_LEN, MEMORY_BYTES, PENDING_LEN, TOKENS_LEN};
use crate::limits::HANDLES;

/// The five arrays of docs/MEMORY.md.
#[derive(Clone, PartialEq, Eq)]
pub(crate) struct Memory {
    pub tokens: [u64; TOKENS_LEN],
    pub dacls: [u8; DACLS_LEN],
    pub handles: [Handle; HANDLES],
    pub control: [u64; CONTROL_LEN],
    pub pending: [u8; PENDING_LEN],
}

impl Memory {
    pub(crate) fn zeroed() -> Box<Self> {
        Box::new(Memory {
            tokens: [0; TOKENS_LEN],
            dacls: [0; DACLS_LEN],
            handles: [Handle::default(); HANDLES],
            control: [0; CONTROL_LEN],
            pending: [0; PENDING_LEN],
        })
    }

    /// Appends the arrays one after the other, little-endian, as a C host has them in
    /// `struct obriska_memory`.
    pub(crate) fn write(&self, bytes: &mut Vec<u8>) {
        bytes.extend(self.tokens.iter().flat_map(|word| word.to_le_bytes()));
        bytes.extend(self.dacls);
        for handle in &self.handles {
            bytes.extend(handle.station.to_le_bytes());
            bytes.extend(handle.mask.to_le_bytes());
            bytes.extend(handle.number.to_le_bytes());
            bytes.extend(handle.token.to_le_bytes());
        }
        bytes.extend(self.control.iter().flat_map(|word| word.to_le_bytes()));
        bytes.extend(self.pending);
    }

    /// The memory that these bytes hold; `None` when their number is wrong.
    pub(crate) fn from_bytes(bytes: &[u8]) -> Option<Box<Self>> {
        if bytes.len() != MEMORY_BYTES {
            return None;
        }
        let mut memory = Memory::zeroed();
        let mut reader = Reader { rest: bytes };
        memory.tokens.fill_with(|| reader.u64());
        memory.dacls.fill_with(|| reader.u8());
        memory.handles.fill_with(|| {
            let (station, mask) = (reader.u16(), reader.u16());
            Handle { station, mask, number: reader.u32(), token: reader.u64() }
        });
        memory.control.fill_with(|| reader.u64());
        memory.pending.fill_with(|| reader.u8());
        Some(memory)
    }
}

/// Reads numbers from bytes that are long enough.
struct Reader<'a> {
    rest: &'a [u8],
}

impl Reader<'_> {
    fn take<const N: usize>(&mut self) -> [u8; N] {
        let (taken, rest) = self.rest.split_first_chunk().expect("the length was tested");
        self.rest = rest;
        *taken
    }

    fn u8(&mut self) -> u8 {
        u8::from_le_bytes(self.take())
    }

    fn u16(&mut self) -> u16 {
        u16::from_le_bytes(self.take())
    }

    fn u32(&mut self) -> u32 {
        u32::from_le_bytes(self.take())
    }

    fn u64(&mut self) -> u64 {
        u64::from_le_bytes(self.take())
    }
}
