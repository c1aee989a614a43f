//! The entries of requests 5 and 6.

use super::error::ReadError;
use super::list::{sealed::Fields, Item};
use super::reader::Reader;
use crate::number;

/// An entry of request 5: a privilege, and what is asked for.
#[derive(Clone, Copy, Debug, PartialEq, Eq, Hash)]
pub struct PrivilegeEntry {
    /// 2 to 36: see [`names::PRIVILEGES`](crate::names::PRIVILEGES).
    pub privilege: u32,
    /// [`DISABLE`](Self::DISABLE), [`ENABLE`](Self::ENABLE) or [`REMOVE`](Self::REMOVE).
    pub attributes: u32,
}

impl PrivilegeEntry {
    /// The attributes that disable it.
    pub const DISABLE: u32 = 0;
    /// The attributes that enable it.
    pub const ENABLE: u32 = 2;
    /// The attributes that remove it, for good.
    pub const REMOVE: u32 = 4;
    /// The single entry that makes the enabled privileges the default ones.
    pub const RESET: Self = PrivilegeEntry { privilege: 0, attributes: 0x8000_0000 };

    /// Disables a privilege.
    pub fn disable(privilege: u32) -> Self {
        PrivilegeEntry { privilege, attributes: Self::DISABLE }
    }

    /// Enables a privilege.
    pub fn enable(privilege: u32) -> Self {
        PrivilegeEntry { privilege, attributes: Self::ENABLE }
    }

    /// Removes a privilege, for good.
    pub fn remove(privilege: u32) -> Self {
        PrivilegeEntry { privilege, attributes: Self::REMOVE }
    }
}

impl Item for PrivilegeEntry {}

impl Fields for PrivilegeEntry {
    fn read(reader: &mut Reader, expected: &'static str) -> Result<Self, ReadError> {
        Ok(PrivilegeEntry { privilege: reader.u32(expected)?, attributes: reader.u32(expected)? })
    }

    fn write(self, out: &mut impl Extend<u8>) {
        number::write(self.privilege.into(), out);
        number::write(self.attributes.into(), out);
    }
}

/// An entry of request 6: a group, and what is asked for.
#[derive(Clone, Copy, Debug, PartialEq, Eq, Hash)]
pub struct GroupEntry {
    /// Its index among the token's groups, from 0.
    pub index: u32,
    /// 1 enables it, 0 disables it.
    pub enable: u32,
}

impl GroupEntry {
    /// The single entry that makes the enabled groups those enabled by default.
    pub const RESET: Self = GroupEntry { index: u32::MAX, enable: 0 };

    /// Disables a group.
    pub fn disable(index: u32) -> Self {
        GroupEntry { index, enable: 0 }
    }

    /// Enables a group.
    pub fn enable(index: u32) -> Self {
        GroupEntry { index, enable: 1 }
    }
}

impl Item for GroupEntry {}

impl Fields for GroupEntry {
    fn read(reader: &mut Reader, expected: &'static str) -> Result<Self, ReadError> {
        Ok(GroupEntry { index: reader.u32(expected)?, enable: reader.u32(expected)? })
    }

    fn write(self, out: &mut impl Extend<u8>) {
        number::write(self.index.into(), out);
        number::write(self.enable.into(), out);
    }
}
