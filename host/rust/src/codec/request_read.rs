//! How requests are read, for tools and tests.

use super::condition::ConditionRef;
use super::error::ReadError;
use super::frame;
use super::list::{Item, List};
use super::reader::Reader;
use super::request::Request;
use super::sid::Sid;
use crate::limits::MAX_BODY;

/// A count's only limit is what the bytes hold.
const ANY: usize = u32::MAX as usize;

impl<'a> Request<'a> {
    /// The request that a whole frame is; its lists are read from the frame when they are asked
    /// for.
    ///
    /// # Errors
    ///
    /// Where the broker would break the stream, or refuse the body by
    /// [`Layout`](crate::Refusal::Layout); and where the frame is not whole, or more than one.
    pub fn read(frame: &'a [u8]) -> Result<Self, ReadError> {
        let mut body = frame::body(frame, MAX_BODY)?;
        let request = read_body(&mut body)?;
        body.finish()?;
        Ok(request)
    }
}

fn read_body<'a>(body: &mut Reader<'a>) -> Result<Request<'a>, ReadError> {
    let place = body.place();
    match body.u32("the number of a request")? {
        1 => Ok(Request::OpenOwn { mask: body.u32("a mask")? }),
        2 => Ok(Request::Close { handle: handle(body)? }),
        3 => create(body),
        4 => query(body),
        5 => Ok(Request::Privileges { handle: handle(body)?, entries: entries(body)? }),
        6 => Ok(Request::Groups { handle: handle(body)?, entries: entries(body)? }),
        7 => Ok(Request::Scope { handle: handle(body)?, scope: body.u32("a scope")? }),
        8 => defaults(body),
        9 => duplicate(body),
        10 => restrict(body),
        11 => Ok(Request::Install { handle: handle(body)? }),
        12 => Ok(Request::Impersonate { handle: handle(body)? }),
        13 => Ok(Request::Revert),
        14 => create_with_sids(body),
        15 => restrict_to_sids(body),
        16 => link(body),
        17 => Ok(Request::GetLinked { handle: handle(body)? }),
        18 => Ok(Request::Evaluate { handle: handle(body)?, condition: ConditionRef::take(body)? }),
        _ => Err(ReadError { place, expected: "the number of a request" }),
    }
}

fn handle(body: &mut Reader) -> Result<u32, ReadError> {
    body.u32("a handle")
}

/// A count and that many entries.
fn entries<'a, T: Item>(body: &mut Reader<'a>) -> Result<List<'a, T>, ReadError> {
    let count = body.count(ANY, "a count of entries")?;
    body.list(count, "an entry")
}

fn create<'a>(body: &mut Reader<'a>) -> Result<Request<'a>, ReadError> {
    Ok(Request::Create {
        user: body.u32("a user")?,
        session: body.u64("a session")?,
        integrity: body.u32("an integrity")?,
        present: body.u64("the present privileges")?,
        default: body.u64("the default privileges")?,
        groups: {
            let count = body.count(ANY, "a count of groups")?;
            body.list(count, "a group")?
        },
    })
}

fn query<'a>(body: &mut Reader<'a>) -> Result<Request<'a>, ReadError> {
    Ok(Request::Query {
        handle: handle(body)?,
        class: body.u32("a class")?,
        capacity: body.u32("a capacity")?,
    })
}

fn defaults<'a>(body: &mut Reader<'a>) -> Result<Request<'a>, ReadError> {
    Ok(Request::Defaults {
        handle: handle(body)?,
        owner: body.u16("an owner")?,
        primary_group: body.u16("a primary group")?,
        flag: body.u32("a flag")?,
        dacl: {
            let count = body.count(ANY, "the length of a DACL")?;
            body.plain(count, "the bytes of a DACL")?
        },
    })
}

fn duplicate<'a>(body: &mut Reader<'a>) -> Result<Request<'a>, ReadError> {
    Ok(Request::Duplicate {
        handle: handle(body)?,
        token_type: body.u32("a type")?,
        level: body.u32("a level")?,
        mask: body.u32("a mask")?,
    })
}

fn restrict<'a>(body: &mut Reader<'a>) -> Result<Request<'a>, ReadError> {
    let handle = handle(body)?;
    let write_restricted = body.u32("a write-restricted mark")?;
    let removed = body.u64("the removed privileges")?;
    let deny = body.count(ANY, "a count of indexes")?;
    let sids = body.count(ANY, "a count of SIDs")?;
    Ok(Request::Restrict {
        handle,
        write_restricted,
        removed,
        deny: body.list(deny, "an index")?,
        sids: body.list(sids, "a SID")?,
    })
}

fn create_with_sids<'a>(body: &mut Reader<'a>) -> Result<Request<'a>, ReadError> {
    Ok(Request::CreateWithSids {
        user: Sid::take(body)?,
        session: body.u64("a session")?,
        integrity: body.u32("an integrity")?,
        present: body.u64("the present privileges")?,
        default: body.u64("the default privileges")?,
        groups: {
            let count = body.count(ANY, "a count of groups")?;
            body.list(count, "a group")?
        },
    })
}

fn restrict_to_sids<'a>(body: &mut Reader<'a>) -> Result<Request<'a>, ReadError> {
    let handle = handle(body)?;
    let write_restricted = body.u32("a write-restricted mark")?;
    let removed = body.u64("the removed privileges")?;
    let deny = body.count(ANY, "a count of indexes")?;
    let sids = body.count(ANY, "a count of SIDs")?;
    Ok(Request::RestrictToSids {
        handle,
        write_restricted,
        removed,
        deny: body.list(deny, "an index")?,
        sids: body.list(sids, "a SID")?,
    })
}

fn link<'a>(body: &mut Reader<'a>) -> Result<Request<'a>, ReadError> {
    Ok(Request::Link {
        elevated: body.u32("the elevated token's handle")?,
        filtered: body.u32("the filtered token's handle")?,
        session: body.u64("a session")?,
    })
}
