//! Requests, and how they are written.

#[cfg(feature = "alloc")]
use alloc::{vec, vec::Vec};

use super::condition::ConditionRef;
use super::entry::{GroupEntry, PrivilegeEntry};
use super::error::WriteError;
use super::list::List;
use super::sid::{Sid, SidGroup};
use super::writer::{put, Writer};
use crate::limits::MAX_BODY;
use crate::terms::Group;

/// The owner or primary group of request 8 that leaves it as it is.
pub const KEEP: u16 = 0xFFFF;

/// A request. Its fields have the widths of docs/PROTOCOL.md, and every body in its layout is one:
/// what a value may be is the broker's to say, by refusal 5.
///
/// ```
/// use obriska::codec::{PrivilegeEntry, Request};
///
/// let mut buffer = [0; obriska::MAX_FRAME];
/// let entries = [PrivilegeEntry::disable(7)];
/// let request = Request::Privileges { handle: 1, entries: (&entries).into() };
/// let length = request.write(&mut buffer)?;
/// assert_eq!(buffer[..length], [0x05, 0x05, 0x01, 0x01, 0x07, 0x00]);
/// assert_eq!(Request::read(&buffer[..length]), Ok(request));
/// # Ok::<(), obriska::codec::WriteError>(())
/// ```
#[derive(Clone, Copy, Debug, PartialEq, Eq)]
#[non_exhaustive]
pub enum Request<'a> {
    /// Request 1 opens the station's own token.
    OpenOwn {
        /// The rights of the new handle: see [`names::right`](crate::names::right).
        mask: u32,
    },
    /// Request 2 closes a handle.
    Close {
        /// A live handle of the station, as in all requests.
        handle: u32,
    },
    /// Request 3 makes a token.
    Create {
        /// The number of the user's SID, which is in the table, as those of the groups are.
        user: u32,
        /// The session.
        session: u64,
        /// See [`names::INTEGRITY`](crate::names::INTEGRITY).
        integrity: u32,
        /// The privileges that it has; privilege n is bit n.
        present: u64,
        /// Those of them that are enabled.
        default: u64,
        /// Its groups.
        groups: List<'a, Group>,
    },
    /// Request 4 asks for a report.
    Query {
        /// With right QUERY.
        handle: u32,
        /// The number of a [`Class`](super::Class).
        class: u32,
        /// The most bytes of report that are taken.
        capacity: u32,
    },
    /// Request 5 adjusts privileges.
    Privileges {
        /// With right ADJUST_PRIVILEGES.
        handle: u32,
        /// What is asked for, or [`PrivilegeEntry::RESET`] alone.
        entries: List<'a, PrivilegeEntry>,
    },
    /// Request 6 adjusts groups.
    Groups {
        /// With right ADJUST_GROUPS.
        handle: u32,
        /// What is asked for, or [`GroupEntry::RESET`] alone.
        entries: List<'a, GroupEntry>,
    },
    /// Request 7 sets the interactivity scope.
    Scope {
        /// With right ADJUST_SCOPE.
        handle: u32,
        /// The scope.
        scope: u32,
    },
    /// Request 8 sets the defaults.
    Defaults {
        /// With right ADJUST_DEFAULT.
        handle: u32,
        /// 0 the user, k group k - 1, or [`KEEP`].
        owner: u16,
        /// Likewise.
        primary_group: u16,
        /// 1: the DACL becomes these bytes. 0: it stays, and there are none.
        flag: u32,
        /// At most [`MAX_DACL`](crate::MAX_DACL) bytes.
        dacl: &'a [u8],
    },
    /// Request 9 copies a token.
    Duplicate {
        /// With right DUPLICATE.
        handle: u32,
        /// The number of a [`TokenType`](crate::TokenType).
        token_type: u32,
        /// The number of a [`Level`](crate::Level).
        level: u32,
        /// The rights of the new handle.
        mask: u32,
    },
    /// Request 10 makes a weaker copy.
    Restrict {
        /// With right DUPLICATE.
        handle: u32,
        /// 1 sets the marks, 0 leaves them.
        write_restricted: u32,
        /// The privileges that the copy does not get.
        removed: u64,
        /// The indexes of the groups that become deny-only.
        deny: List<'a, u32>,
        /// The numbers of the restricting SIDs, which are in the table.
        sids: List<'a, u32>,
    },
    /// Request 11 makes a token the station's own.
    Install {
        /// With right ASSIGN_PRIMARY.
        handle: u32,
    },
    /// Request 12 acts for a token.
    Impersonate {
        /// With right IMPERSONATE.
        handle: u32,
    },
    /// Request 13 acts for none any more.
    Revert,
    /// Request 14 makes a token, as [`Create`](Request::Create) does, by SIDs themselves: those that
    /// are not in the table yet are entered.
    CreateWithSids {
        /// The user.
        user: Sid,
        /// The session.
        session: u64,
        /// See [`names::INTEGRITY`](crate::names::INTEGRITY).
        integrity: u32,
        /// The privileges that it has; privilege n is bit n.
        present: u64,
        /// Those of them that are enabled.
        default: u64,
        /// Its groups.
        groups: List<'a, SidGroup>,
    },
    /// Request 15 makes a weaker copy, as [`Restrict`](Request::Restrict) does, by SIDs themselves:
    /// those that are not in the table yet are entered.
    RestrictToSids {
        /// With right DUPLICATE.
        handle: u32,
        /// 1 sets the marks, 0 leaves them.
        write_restricted: u32,
        /// The privileges that the copy does not get.
        removed: u64,
        /// The indexes of the groups that become deny-only.
        deny: List<'a, u32>,
        /// The restricting SIDs.
        sids: List<'a, Sid>,
    },
    /// Request 16 links two tokens.
    Link {
        /// The handle of the one that becomes full.
        elevated: u32,
        /// The handle of the one that becomes limited.
        filtered: u32,
        /// The session of both.
        session: u64,
    },
    /// Request 17 opens the other token of a linked pair.
    GetLinked {
        /// With right QUERY.
        handle: u32,
    },
    /// Request 18 evaluates a condition.
    Evaluate {
        /// With right QUERY.
        handle: u32,
        /// What is asked for.
        condition: ConditionRef<'a>,
    },
}

impl Request<'_> {
    /// Its number, 1 to 18.
    pub fn number(&self) -> u32 {
        match self {
            Request::OpenOwn { .. } => 1,
            Request::Close { .. } => 2,
            Request::Create { .. } => 3,
            Request::Query { .. } => 4,
            Request::Privileges { .. } => 5,
            Request::Groups { .. } => 6,
            Request::Scope { .. } => 7,
            Request::Defaults { .. } => 8,
            Request::Duplicate { .. } => 9,
            Request::Restrict { .. } => 10,
            Request::Install { .. } => 11,
            Request::Impersonate { .. } => 12,
            Request::Revert => 13,
            Request::CreateWithSids { .. } => 14,
            Request::RestrictToSids { .. } => 15,
            Request::Link { .. } => 16,
            Request::GetLinked { .. } => 17,
            Request::Evaluate { .. } => 18,
        }
    }

    /// How many bytes its frame has, at most [`MAX_FRAME`](crate::MAX_FRAME).
    ///
    /// # Errors
    ///
    /// Where no frame holds it, or where its condition is too deep.
    pub fn frame_len(&self) -> Result<usize, WriteError> {
        self.body_len().map(frame_len)
    }

    /// Writes its frame at the begin of a buffer and gives the frame's length.
    ///
    /// # Errors
    ///
    /// As [`Request::frame_len`]; and where the buffer is shorter than that. Nothing is written
    /// then.
    pub fn write(&self, buffer: &mut [u8]) -> Result<usize, WriteError> {
        let body = self.body_len()?;
        let needed = frame_len(body);
        if buffer.len() < needed {
            return Err(WriteError::Buffer { needed });
        }
        let mut frame = Writer::new(buffer);
        put(&[body as u64], &mut frame);
        self.write_body(&mut frame);
        Ok(needed)
    }

    /// Its frame.
    ///
    /// # Errors
    ///
    /// As [`Request::frame_len`].
    #[cfg(feature = "alloc")]
    pub fn to_bytes(&self) -> Result<Vec<u8>, WriteError> {
        let mut frame = vec![0; self.frame_len()?];
        self.write(&mut frame)?;
        Ok(frame)
    }

    fn body_len(&self) -> Result<usize, WriteError> {
        if matches!(self, Request::Evaluate { condition, .. } if condition.is_too_deep()) {
            return Err(WriteError::TooDeep);
        }
        let mut body = Writer::new(&mut []);
        self.write_body(&mut body);
        match body.written() {
            length if length > MAX_BODY => Err(WriteError::TooLong),
            length => Ok(length),
        }
    }

    fn write_body(&self, out: &mut impl Extend<u8>) {
        put(&[self.number().into()], out);
        match *self {
            Request::OpenOwn { mask } => put(&[mask.into()], out),
            Request::Close { handle }
            | Request::Install { handle }
            | Request::Impersonate { handle }
            | Request::GetLinked { handle } => put(&[handle.into()], out),
            Request::Query { handle, class, capacity } => {
                put(&[handle.into(), class.into(), capacity.into()], out)
            }
            Request::Scope { handle, scope } => put(&[handle.into(), scope.into()], out),
            Request::Duplicate { handle, token_type, level, mask } => {
                put(&[handle.into(), token_type.into(), level.into(), mask.into()], out)
            }
            Request::Revert => (),
            Request::Link { elevated, filtered, session } => {
                put(&[elevated.into(), filtered.into(), session], out)
            }
            _ => self.write_lists(out),
        }
    }

    /// The fields of those requests that have lists.
    fn write_lists(&self, out: &mut impl Extend<u8>) {
        match *self {
            Request::Create { user, session, integrity, present, default, groups } => {
                put(&[user.into(), session, integrity.into(), present, default], out);
                put(&[groups.len() as u64], out);
                groups.write(out);
            }
            Request::CreateWithSids { user, session, integrity, present, default, groups } => {
                out.extend(user.packed().iter().copied());
                put(&[session, integrity.into(), present, default], out);
                put(&[groups.len() as u64], out);
                groups.write(out);
            }
            Request::Privileges { handle, entries } => {
                put(&[handle.into(), entries.len() as u64], out);
                entries.write(out);
            }
            Request::Groups { handle, entries } => {
                put(&[handle.into(), entries.len() as u64], out);
                entries.write(out);
            }
            Request::Defaults { handle, owner, primary_group, flag, dacl } => {
                put(&[handle.into(), owner.into(), primary_group.into(), flag.into()], out);
                put(&[dacl.len() as u64], out);
                out.extend(dacl.iter().copied());
            }
            Request::Restrict { handle, write_restricted, removed, deny, sids } => {
                put(&[handle.into(), write_restricted.into(), removed], out);
                put(&[deny.len() as u64, sids.len() as u64], out);
                deny.write(out);
                sids.write(out);
            }
            Request::RestrictToSids { handle, write_restricted, removed, deny, sids } => {
                put(&[handle.into(), write_restricted.into(), removed], out);
                put(&[deny.len() as u64, sids.len() as u64], out);
                deny.write(out);
                sids.write(out);
            }
            Request::Evaluate { handle, condition } => {
                put(&[handle.into()], out);
                condition.write(out);
            }
            _ => (), // no lists
        }
    }
}

/// The bytes of a frame whose body has so many.
fn frame_len(body: usize) -> usize {
    let mut length = Writer::new(&mut []);
    put(&[body as u64], &mut length);
    length.written() + body
}
