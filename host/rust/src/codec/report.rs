//! What request 4 reports.

use super::error::ReadError;
use super::list::List;
use super::reader::Reader;
use crate::limits::{MAX_DACL, MAX_GROUPS, MAX_RESTRICTING};
use crate::terms::{Elevation, Group, Level, Privileges, TokenType};
#[cfg(feature = "std")]
use crate::view::Token;

/// A class of request 4.
#[derive(Clone, Copy, Debug, PartialEq, Eq, Hash)]
#[allow(missing_docs)] // those of their reports
#[non_exhaustive]
pub enum Class {
    User = 1,
    Groups = 2,
    Privileges = 3,
    Owner = 4,
    PrimaryGroup = 5,
    Dacl = 6,
    Type = 7,
    Level = 8,
    Statistics = 9,
    Restricting = 10,
    Scope = 11,
    Elevation = 12,
    Integrity = 13,
}

impl Class {
    /// All of them, in the order of their numbers.
    pub const ALL: [Class; 13] = [
        Class::User,
        Class::Groups,
        Class::Privileges,
        Class::Owner,
        Class::PrimaryGroup,
        Class::Dacl,
        Class::Type,
        Class::Level,
        Class::Statistics,
        Class::Restricting,
        Class::Scope,
        Class::Elevation,
        Class::Integrity,
    ];

    /// Its number, 1 to 13.
    pub fn number(self) -> u32 {
        self as u32
    }

    /// The class of this number.
    pub fn from_number(number: u32) -> Option<Self> {
        Self::ALL.into_iter().find(|class| class.number() == number)
    }
}

/// The report of a class.
#[derive(Clone, Copy, Debug, PartialEq, Eq)]
#[non_exhaustive]
pub enum Report<'a> {
    /// The number of the user's SID.
    User(u32),
    /// The groups.
    Groups(List<'a, Group>),
    /// The privilege words.
    Privileges(Privileges),
    /// The number of the default owner's SID.
    Owner(u32),
    /// The number of the primary group's SID.
    PrimaryGroup(u32),
    /// The default DACL.
    Dacl(&'a [u8]),
    /// Primary or impersonation.
    Type(TokenType),
    /// The impersonation level.
    Level(Level),
    /// Its number and others that change or stay with it.
    Statistics(Statistics),
    /// The numbers of the restricting SIDs.
    Restricting(List<'a, u32>),
    /// The interactivity scope.
    Scope(u32),
    /// The elevation type.
    Elevation(Elevation),
    /// See [`names::INTEGRITY`](crate::names::INTEGRITY).
    Integrity(u32),
}

/// The report of class 9.
#[derive(Clone, Copy, Debug, PartialEq, Eq)]
#[non_exhaustive]
pub struct Statistics {
    /// The token's number.
    pub number: u64,
    /// Its session.
    pub session: u64,
    /// Steps at each adjustment.
    pub modified: u64,
    /// Primary or impersonation.
    pub token_type: TokenType,
    /// The number of the token that it descends from, or [`NO_ROOT`](crate::NO_ROOT).
    pub root: u64,
}

#[cfg(feature = "std")]
impl From<&Token> for Statistics {
    fn from(token: &Token) -> Self {
        let &Token { number, session, modified, token_type, root, .. } = token;
        Statistics { number, session, modified, token_type, root }
    }
}

/// The report of this class that comes next.
pub(super) fn take<'a>(class: Class, body: &mut Reader<'a>) -> Result<Report<'a>, ReadError> {
    match class {
        Class::User => body.u32("a user").map(Report::User),
        Class::Groups => {
            let count = body.count(MAX_GROUPS, "a count of groups")?;
            body.list(count, "a group").map(Report::Groups)
        }
        Class::Privileges => privileges(body).map(Report::Privileges),
        Class::Owner => body.u32("an owner").map(Report::Owner),
        Class::PrimaryGroup => body.u32("a primary group").map(Report::PrimaryGroup),
        Class::Dacl => {
            let count = body.count(MAX_DACL, "the length of a DACL")?;
            body.plain(count, "the bytes of a DACL").map(Report::Dacl)
        }
        Class::Type => token_type(body).map(Report::Type),
        Class::Level => level(body).map(Report::Level),
        Class::Statistics => statistics(body).map(Report::Statistics),
        Class::Restricting => {
            let count = body.count(MAX_RESTRICTING, "a count of SIDs")?;
            body.list(count, "a SID").map(Report::Restricting)
        }
        Class::Scope => body.u32("a scope").map(Report::Scope),
        Class::Elevation => {
            body.named("an elevation", Elevation::from_number).map(Report::Elevation)
        }
        Class::Integrity => body.u32("an integrity").map(Report::Integrity),
    }
}

pub(super) fn level(body: &mut Reader) -> Result<Level, ReadError> {
    body.named("a level", Level::from_number)
}

fn token_type(body: &mut Reader) -> Result<TokenType, ReadError> {
    body.named("a type", TokenType::from_number)
}

fn privileges(body: &mut Reader) -> Result<Privileges, ReadError> {
    Ok(Privileges {
        present: body.u64("the present privileges")?,
        enabled: body.u64("the enabled privileges")?,
        default: body.u64("the default privileges")?,
        used: body.u64("the used privileges")?,
    })
}

fn statistics(body: &mut Reader) -> Result<Statistics, ReadError> {
    Ok(Statistics {
        number: body.u64("a token's number")?,
        session: body.u64("a session")?,
        modified: body.u64("a modified number")?,
        token_type: token_type(body)?,
        root: body.u64("a root")?,
    })
}
