//! The requests and their layouts.

use crate::condition::Condition;
use crate::number::Reader;
use crate::sid::Sid;

/// The index in a default request that asks for no change.
pub const NO_CHANGE: u16 = 0xFFFF;
/// An entry's attributes that disable its privilege.
pub const DISABLE: u32 = 0;
/// That enable it.
pub const ENABLE: u32 = 2;
/// That remove it.
pub const REMOVE: u32 = 4;
/// The single pair that resets the privileges.
pub const RESET_PRIVILEGES: (u32, u32) = (0, 0x8000_0000);
/// The single pair that resets the groups.
pub const RESET_GROUPS: (u32, u32) = (0xFFFF_FFFF, 0);

/// The number of the last request; the first is 1.
pub const LAST_REQUEST: u32 = 18;

/// A request in its layout; its values may still be bad.
#[derive(Clone, Debug, PartialEq, Eq)]
#[allow(missing_docs)] // the fields are named as in documents 01 and 02
pub enum Request {
    /// 1: a handle on the own token.
    Open { mask: u32 },
    /// 2: gives a handle back.
    Close { handle: u32 },
    /// 3: a new token.
    Create {
        user: u32,
        session: u64,
        integrity: u32,
        present: u64,
        default: u64,
        groups: Vec<(u32, u32)>,
    },
    /// 4: a report.
    Query { handle: u32, class: u32, capacity: u32 },
    /// 5: enables, disables, removes or resets privileges.
    Privileges { handle: u32, entries: Vec<(u32, u32)> },
    /// 6: enables, disables or resets groups.
    Groups { handle: u32, entries: Vec<(u32, u32)> },
    /// 7: sets the scope.
    Scope { handle: u32, value: u32 },
    /// 8: sets owner, primary group and DACL.
    Default { handle: u32, owner: u16, group: u16, flag: u32, dacl: Vec<u8> },
    /// 9: a copy.
    Duplicate { handle: u32, kind: u32, level: u32, mask: u32 },
    /// 10: a restricted copy.
    Restrict { handle: u32, write_restricted: u32, remove: u64, deny: Vec<u32>, sids: Vec<u32> },
    /// 11: makes a token the station's own.
    Install { handle: u32 },
    /// 12: acts for a token.
    Impersonate { handle: u32 },
    /// 13: acts for none.
    Revert,
    /// 14: a new token, with packed SIDs.
    CreatePacked {
        user: Sid,
        session: u64,
        integrity: u32,
        present: u64,
        default: u64,
        groups: Vec<(Sid, u32)>,
    },
    /// 15: a restricted copy, with packed SIDs.
    RestrictPacked {
        handle: u32,
        write_restricted: u32,
        remove: u64,
        deny: Vec<u32>,
        sids: Vec<Sid>,
    },
    /// 16: links two tokens of a session.
    Link { elevated: u32, filtered: u32, session: u64 },
    /// 17: a handle on the other of a pair, or on a clone of it.
    GetLinked { handle: u32 },
    /// 18: whether a token meets a condition.
    Evaluate { handle: u32, condition: Condition },
}

impl Request {
    /// Reads a whole body; `None` when it is not in the layout of a known request.
    pub fn read(body: &[u8]) -> Option<Request> {
        let mut reader = Reader::new(body);
        let request = Self::read_fields(&mut reader)?;
        reader.at_end().then_some(request)
    }

    fn read_fields(reader: &mut Reader) -> Option<Request> {
        Some(match reader.u32()? {
            1 => Request::Open { mask: reader.u32()? },
            2 => Request::Close { handle: reader.u32()? },
            3 => Self::read_create(reader)?,
            4 => Request::Query {
                handle: reader.u32()?,
                class: reader.u32()?,
                capacity: reader.u32()?,
            },
            5 => Request::Privileges { handle: reader.u32()?, entries: counted_pairs(reader)? },
            6 => Request::Groups { handle: reader.u32()?, entries: counted_pairs(reader)? },
            7 => Request::Scope { handle: reader.u32()?, value: reader.u32()? },
            8 => Self::read_default(reader)?,
            9 => Request::Duplicate {
                handle: reader.u32()?,
                kind: reader.u32()?,
                level: reader.u32()?,
                mask: reader.u32()?,
            },
            10 => Self::read_restrict(reader)?,
            11 => Request::Install { handle: reader.u32()? },
            12 => Request::Impersonate { handle: reader.u32()? },
            13 => Request::Revert,
            14 => Self::read_create_packed(reader)?,
            15 => Self::read_restrict_packed(reader)?,
            16 => Request::Link {
                elevated: reader.u32()?,
                filtered: reader.u32()?,
                session: reader.u64()?,
            },
            17 => Request::GetLinked { handle: reader.u32()? },
            18 => Self::read_evaluate(reader)?,
            _ => return None,
        })
    }

    fn read_create(reader: &mut Reader) -> Option<Request> {
        Some(Request::Create {
            user: reader.u32()?,
            session: reader.u64()?,
            integrity: reader.u32()?,
            present: reader.u64()?,
            default: reader.u64()?,
            groups: counted_pairs(reader)?,
        })
    }

    fn read_default(reader: &mut Reader) -> Option<Request> {
        let (handle, owner, group) = (reader.u32()?, reader.u16()?, reader.u16()?);
        let (flag, length) = (reader.u32()?, reader.u32()?);
        let dacl = reader.take(length as usize)?.to_vec();
        Some(Request::Default { handle, owner, group, flag, dacl })
    }

    fn read_restrict(reader: &mut Reader) -> Option<Request> {
        let (handle, write_restricted, remove) = (reader.u32()?, reader.u32()?, reader.u64()?);
        let (deny_count, sid_count) = (reader.u32()?, reader.u32()?);
        let (deny, sids) = (reader.list(deny_count)?, reader.list(sid_count)?);
        Some(Request::Restrict { handle, write_restricted, remove, deny, sids })
    }

    fn read_create_packed(reader: &mut Reader) -> Option<Request> {
        Some(Request::CreatePacked {
            user: Sid::read(reader)?,
            session: reader.u64()?,
            integrity: reader.u32()?,
            present: reader.u64()?,
            default: reader.u64()?,
            groups: counted_groups(reader)?,
        })
    }

    fn read_restrict_packed(reader: &mut Reader) -> Option<Request> {
        let (handle, write_restricted, remove) = (reader.u32()?, reader.u32()?, reader.u64()?);
        let (deny_count, sid_count) = (reader.u32()?, reader.u32()?);
        let deny = reader.list(deny_count)?;
        let sids = (0..sid_count).map(|_| Sid::read(reader)).collect::<Option<_>>()?;
        Some(Request::RestrictPacked { handle, write_restricted, remove, deny, sids })
    }

    fn read_evaluate(reader: &mut Reader) -> Option<Request> {
        let (handle, condition) = (reader.u32()?, Condition::read(reader)?);
        Some(Request::Evaluate { handle, condition })
    }
}

fn counted_pairs(reader: &mut Reader) -> Option<Vec<(u32, u32)>> {
    let count = reader.u32()?;
    reader.pairs(count)
}

/// Packed SIDs, each with attributes.
fn counted_groups(reader: &mut Reader) -> Option<Vec<(Sid, u32)>> {
    let count = reader.u32()?;
    (0..count).map(|_| Some((Sid::read(reader)?, reader.u32()?))).collect()
}
