//! What a request was answered.

use super::error::ReadError;
use super::frame;
use super::reader::Reader;
use super::report::{self, Class, Report};
use super::request::Request;
use crate::limits::{GROUP_WORDS, LENGTH_BYTES, MAX_ANSWER};
use crate::previous::{PreviousGroups, PreviousPrivileges};
use crate::refusal::Refusal;
use crate::terms::{Client, Level, NO_CLIENT};

/// An answer, as the request that it answers gives it its meaning.
///
/// ```
/// use obriska::codec::{Reply, Request};
/// use obriska::Refusal;
///
/// let close = Request::Close { handle: 3 };
/// assert_eq!(Reply::read(&close, &[0x01, 0x00]), Ok(Reply::Done));
/// assert_eq!(Reply::read(&close, &[0x01, 0x02]), Ok(Reply::Refused(Refusal::Handle)));
/// let error = Reply::read(&close, &[0x02, 0x00, 0x05]).unwrap_err();
/// assert_eq!(error.to_string(), "byte 2: expected the end of the body");
/// ```
#[derive(Clone, Copy, Debug, PartialEq, Eq)]
#[non_exhaustive]
pub enum Reply<'a> {
    /// Refused, by any refusal of an answer but [`Refusal::Capacity`].
    Refused(Refusal),
    /// Request 4 was refused by [`Refusal::Capacity`].
    TooLarge {
        /// The size of the report.
        size: u32,
    },
    /// Requests 2, 7, 8, 11 and 16 have nothing to say but that they were done.
    Done,
    /// Requests 1, 3, 9, 10, 14, 15 and 17: the number of the new handle.
    Handle(u32),
    /// Request 4.
    Report(Report<'a>),
    /// Request 5.
    Privileges(PreviousPrivileges),
    /// Request 6.
    Groups(PreviousGroups),
    /// Request 12: the level in force.
    Level(Level),
    /// Request 13: what the station acted for, if anything.
    Reverted(Option<Client>),
    /// Request 18: whether the token meets the condition.
    Holds(bool),
}

impl<'a> Reply<'a> {
    /// The answer that a whole frame is to this request; its lists are read from the frame when
    /// they are asked for.
    ///
    /// # Errors
    ///
    /// Where the frame is not whole, or is nothing that the request is answered.
    pub fn read(request: &Request, frame: &'a [u8]) -> Result<Self, ReadError> {
        let mut body = frame::body(frame, MAX_ANSWER - LENGTH_BYTES)?;
        let unexpected = ReadError { place: body.place(), expected: "a status of this request" };
        let reply = match (body.value("a status", status)?, request) {
            (Some(Refusal::Capacity), Request::Query { capacity, .. }) => {
                over(*capacity, &mut body)?
            }
            (Some(Refusal::Capacity), _) => return Err(unexpected),
            (Some(refusal), _) => Reply::Refused(refusal),
            (None, _) => success(request, &mut body, unexpected)?,
        };
        body.finish()?;
        Ok(reply)
    }

    /// `None` for a success; the refusal 1 to 10 or 14 otherwise.
    pub fn refusal(&self) -> Option<Refusal> {
        match self {
            Reply::Refused(refusal) => Some(*refusal),
            Reply::TooLarge { .. } => Some(Refusal::Capacity),
            _ => None,
        }
    }
}

/// What a status says, if an answer may have it: no refusal for 0.
fn status(number: u64) -> Option<Option<Refusal>> {
    if number == 0 {
        return Some(None);
    }
    match Refusal::from_number(number.try_into().ok()?)? {
        Refusal::Station | Refusal::Buffer | Refusal::Memory => None,
        refusal => Some(Some(refusal)),
    }
}

/// The size of a report that is over the capacity.
fn over<'a>(capacity: u32, body: &mut Reader) -> Result<Reply<'a>, ReadError> {
    let size = |size| u32::try_from(size).ok().filter(|&size| size > capacity);
    Ok(Reply::TooLarge { size: body.value("a size above the capacity", size)? })
}

/// The fields of a success, which a query of no class has not.
fn success<'a>(
    request: &Request,
    body: &mut Reader<'a>,
    unexpected: ReadError,
) -> Result<Reply<'a>, ReadError> {
    match request {
        Request::Query { class, .. } => {
            let class = Class::from_number(*class).ok_or(unexpected)?;
            report::take(class, body).map(Reply::Report)
        }
        Request::OpenOwn { .. }
        | Request::Create { .. }
        | Request::Duplicate { .. }
        | Request::Restrict { .. }
        | Request::CreateWithSids { .. }
        | Request::RestrictToSids { .. }
        | Request::GetLinked { .. } => body.u32("a handle").map(Reply::Handle),
        Request::Privileges { .. } => privileges(body).map(Reply::Privileges),
        Request::Groups { .. } => groups(body).map(Reply::Groups),
        Request::Impersonate { .. } => report::level(body).map(Reply::Level),
        Request::Revert => client(body).map(Reply::Reverted),
        Request::Evaluate { .. } => {
            let holds = |number| [false, true].into_iter().find(|&holds| holds as u64 == number);
            body.value("1 or 0", holds).map(Reply::Holds)
        }
        Request::Close { .. }
        | Request::Scope { .. }
        | Request::Defaults { .. }
        | Request::Install { .. }
        | Request::Link { .. } => Ok(Reply::Done),
    }
}

fn privileges(body: &mut Reader) -> Result<PreviousPrivileges, ReadError> {
    Ok(PreviousPrivileges {
        present: body.u64("the privileges that were present")?,
        enabled: body.u64("the privileges that were enabled")?,
    })
}

fn groups(body: &mut Reader) -> Result<PreviousGroups, ReadError> {
    let mut words = [0; GROUP_WORDS];
    for word in &mut words {
        *word = body.u64("a word of groups")?;
    }
    Ok(PreviousGroups { words })
}

/// The token that was given up, and the level that was in force.
fn client(body: &mut Reader) -> Result<Option<Client>, ReadError> {
    let token = body.u64("a token's number")?;
    if token == NO_CLIENT {
        return body.value("level 0, of none", |level| (level == 0).then_some(None));
    }
    Ok(Some(Client { token, level: report::level(body)? }))
}
