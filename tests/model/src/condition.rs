//! Request 18: a condition, and whether a token meets it.

use crate::number::Reader;
use crate::privileges::{FIRST_PRIVILEGE, LAST_PRIVILEGE};
use crate::refusal::Refusal;
use crate::rights::Mask;
use crate::state::Model;
use crate::token::{Group, Token};

/// How deep a condition may be, itself counted.
pub const MAX_DEPTH: usize = 8;

/// The papers' rule of an interlock.
#[derive(Clone, Debug, PartialEq, Eq)]
pub enum Condition {
    /// All of them are met; of none, that holds.
    AllOf(Vec<Condition>),
    /// Any of them is met; of none, that doesn't hold.
    AnyOf(Vec<Condition>),
    /// It is not met.
    Negated(Box<Condition>),
    /// The privilege is enabled.
    Privilege(u32),
    /// A group with this SID is enabled.
    Group(u32),
}

impl Condition {
    /// The number before a list of which all must be met.
    pub const ALL_OF: u32 = 1;
    /// Before a list of which any must be met.
    pub const ANY_OF: u32 = 2;
    /// Before a condition that must not be met.
    pub const NEGATED: u32 = 3;
    /// Before a privilege.
    pub const PRIVILEGE: u32 = 4;
    /// Before a SID.
    pub const GROUP: u32 = 5;

    /// Reads a condition up to [`MAX_DEPTH`] deep.
    pub(crate) fn read(reader: &mut Reader) -> Option<Condition> {
        Self::read_within(reader, MAX_DEPTH)
    }

    /// Reads a condition up to `levels` deep.
    fn read_within(reader: &mut Reader, levels: usize) -> Option<Condition> {
        let inside = levels.checked_sub(1)?;
        Some(match reader.u32()? {
            Self::ALL_OF => Condition::AllOf(Self::read_list(reader, inside)?),
            Self::ANY_OF => Condition::AnyOf(Self::read_list(reader, inside)?),
            Self::NEGATED => Condition::Negated(Box::new(Self::read_within(reader, inside)?)),
            Self::PRIVILEGE => Condition::Privilege(reader.u32()?),
            Self::GROUP => Condition::Group(reader.u32()?),
            _ => return None,
        })
    }

    /// A count and that many conditions. Each has a byte at least, so the body bounds the walk.
    fn read_list(reader: &mut Reader, levels: usize) -> Option<Vec<Condition>> {
        let count = reader.u32()?;
        (0..count).map(|_| Self::read_within(reader, levels)).collect()
    }

    /// The conditions directly in it.
    pub fn inner(&self) -> &[Condition] {
        match self {
            Condition::AllOf(list) | Condition::AnyOf(list) => list,
            Condition::Negated(inner) => std::slice::from_ref(inner),
            Condition::Privilege(_) | Condition::Group(_) => &[],
        }
    }

    /// One, or one more than the deepest condition in it.
    pub fn depth(&self) -> usize {
        1 + self.inner().iter().map(Condition::depth).max().unwrap_or(0)
    }

    /// Whether each privilege in it exists, wherever it stands.
    fn names_known_privileges(&self) -> bool {
        let is_known = match self {
            Condition::Privilege(privilege) => {
                (FIRST_PRIVILEGE..=LAST_PRIVILEGE).contains(privilege)
            }
            _ => true,
        };
        is_known && self.inner().iter().all(Condition::names_known_privileges)
    }

    /// Whether the token meets it; its privileges exist.
    fn is_met_by(&self, token: &Token) -> bool {
        match self {
            Condition::AllOf(list) => list.iter().all(|inner| inner.is_met_by(token)),
            Condition::AnyOf(list) => list.iter().any(|inner| inner.is_met_by(token)),
            Condition::Negated(inner) => !inner.is_met_by(token),
            Condition::Privilege(privilege) => token.privileges.holds(*privilege),
            Condition::Group(sid) => {
                token.groups.iter().any(|group| group.sid == *sid && group.has(Group::ENABLED))
            }
        }
    }
}

impl Model {
    /// 18: whether the handle's token meets the condition.
    pub(crate) fn evaluate(
        &self,
        station: usize,
        handle: u32,
        condition: &Condition,
    ) -> Result<bool, Refusal> {
        let handle = self.granted(station, handle, Mask::QUERY)?;
        Refusal::Field.unless(condition.names_known_privileges())?;
        Ok(condition.is_met_by(self.live(handle.token)))
    }
}
