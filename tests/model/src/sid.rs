//! SIDs, and how MS-DTYP packs them.

use crate::number::Reader;

/// The one revision.
pub const SID_REVISION: u8 = 1;
/// Most sub-authorities of a SID.
pub const MAX_SUB_AUTHORITIES: usize = 15;
/// Bytes of an authority, and of a sub-authority.
const AUTHORITY: usize = 6;
const SUB_AUTHORITY: usize = 4;
/// Bytes of a packed SID before its sub-authorities: revision, their count, authority.
const HEAD: usize = 2 + AUTHORITY;
/// Bytes of the longest packed SID.
pub const MAX_SID_BYTES: usize = HEAD + MAX_SUB_AUTHORITIES * SUB_AUTHORITY;

/// A security identifier. Two are equal exactly when their packed bytes are.
#[derive(Clone, Copy, Debug, PartialEq, Eq, PartialOrd, Ord)]
pub struct Sid {
    authority: [u8; AUTHORITY],
    count: usize,
    /// Zeros after the last.
    sub_authorities: [u32; MAX_SUB_AUTHORITIES],
}

impl Sid {
    /// The SID of any authority, and of at most [`MAX_SUB_AUTHORITIES`].
    pub fn new(authority: [u8; AUTHORITY], given: &[u32]) -> Option<Sid> {
        let mut sub_authorities = [0; MAX_SUB_AUTHORITIES];
        sub_authorities.get_mut(..given.len())?.copy_from_slice(given);
        Some(Sid { authority, count: given.len(), sub_authorities })
    }

    /// S-1-5 and one sub-authority.
    pub fn nt(sub_authority: u32) -> Sid {
        let (authority, count) = ([0, 0, 0, 0, 0, 5], 1);
        let mut sub_authorities = [0; MAX_SUB_AUTHORITIES];
        sub_authorities[0] = sub_authority;
        Sid { authority, count, sub_authorities }
    }

    /// The six bytes after the count.
    pub fn authority(&self) -> [u8; AUTHORITY] {
        self.authority
    }

    /// What stands after the authority.
    pub fn sub_authorities(&self) -> &[u32] {
        &self.sub_authorities[..self.count]
    }

    /// Reads a packed SID; `None` when the bytes are not in the layout, or too few.
    pub fn read(reader: &mut Reader) -> Option<Sid> {
        let head = reader.take(HEAD)?;
        let (revision, count) = (head[0], usize::from(head[1]));
        if revision != SID_REVISION || count > MAX_SUB_AUTHORITIES {
            return None;
        }
        let bytes = reader.take(count * SUB_AUTHORITY)?;
        let low_first = |bytes: &[u8]| bytes.iter().rev().fold(0, |n, &b| n << 8 | u32::from(b));
        let given: Vec<u32> = bytes.chunks(SUB_AUTHORITY).map(low_first).collect();
        Sid::new(head[2..].try_into().ok()?, &given)
    }

    /// The packed SID.
    pub fn packed(&self) -> Vec<u8> {
        let mut bytes = vec![SID_REVISION, self.count as u8];
        bytes.extend(self.authority);
        for sub_authority in self.sub_authorities() {
            bytes.extend(sub_authority.to_le_bytes());
        }
        bytes
    }
}
