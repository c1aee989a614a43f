//! The requests: from the words after the station to the bytes of a frame.

use obriska::codec::{GroupEntry, PrivilegeEntry, Request, Sid, SidGroup, WriteError, KEEP};
use obriska::{Group, TokenType, MAX_ANSWER};

use crate::arguments::Arguments;
use crate::condition;
use crate::hex;
use crate::sids::{self, Table, Typed};
use crate::vocabulary::{self, ACTIONS, CLASSES, LEVELS, SWITCHES, TYPES};
use crate::words::{Mistake, Word};

/// A request's bytes, or why there are none; or what is wrong with its words.
type Parsed = Result<Result<Vec<u8>, WriteError>, Mistake>;

/// The frame of a request, given the SIDs that there are; `None` when no request has this name.
pub fn frame(
    name: Word,
    mut arguments: Arguments,
    table: &Table,
) -> Option<Result<Vec<u8>, Mistake>> {
    let words = &mut arguments;
    let parsed = match name.text {
        "open" => open(words),
        "close" => close(words),
        "create" => create(words, table),
        "query" => query(words),
        "privileges" => privileges(words),
        "groups" => groups(words),
        "scope" => scope(words),
        "default" => default(words),
        "duplicate" => duplicate(words),
        "restrict" => restrict(words, table),
        "install" => install(words),
        "impersonate" => impersonate(words),
        "revert" => Ok(Request::Revert.to_bytes()),
        "link" => link(words),
        "linked" => linked(words),
        "may" => may(words, table),
        _ => return None,
    };
    Some(parsed.and_then(|frame| {
        arguments.finish()?;
        frame.map_err(|error| name.mistake(error))
    }))
}

fn handle(arguments: &mut Arguments) -> Result<u32, Mistake> {
    arguments.u32("handle")
}

fn open(arguments: &mut Arguments) -> Parsed {
    let mask = vocabulary::rights(arguments.word("rights")?)?;
    Ok(Request::OpenOwn { mask }.to_bytes())
}

fn close(arguments: &mut Arguments) -> Parsed {
    Ok(Request::Close { handle: handle(arguments)? }.to_bytes())
}

/// Request 3, or 14 where a SID is given itself.
fn create(arguments: &mut Arguments, table: &Table) -> Parsed {
    let keys = ["user", "session", "integrity", "present", "default", "groups"];
    let options = arguments.options(&keys, &[])?;
    let user = options.get("user").ok_or_else(|| arguments.missing("user=.."))?;
    let integrity = |word| vocabulary::number(word, "integrity", &obriska::names::INTEGRITY);
    let user = sids::typed(user)?;
    let session = options.number("session", u64::MAX)?;
    let integrity = options.parsed("integrity", integrity)?;
    let present = options.parsed("present", vocabulary::privilege_word)?;
    let default = options.parsed("default", vocabulary::privilege_word)?;
    let groups = options.parsed("groups", |word| list(word, group))?;
    if let (Some(user), Some(groups)) = (user.as_number(), numbered(&groups)) {
        let groups = groups[..].into();
        return Ok(
            Request::Create { user, session, integrity, present, default, groups }.to_bytes()
        );
    }
    let user = table.sid(user)?;
    let groups = groups
        .into_iter()
        .map(|(sid, attributes)| table.sid(sid).map(|sid| SidGroup::new(sid, attributes)));
    let groups: Vec<_> = groups.collect::<Result<_, _>>()?;
    let groups = groups[..].into();
    Ok(Request::CreateWithSids { user, session, integrity, present, default, groups }.to_bytes())
}

/// A group such as S-1-5-32-544:mandatory+enabled-by-default, or 32 alone: its SID and attributes.
fn group(word: Word<'_>) -> Result<(Typed<'_>, u32), Mistake> {
    Ok(match word.split_once(':') {
        None => (sids::typed(word)?, 0),
        Some((sid, attributes)) => (sids::typed(sid)?, vocabulary::attributes(attributes)?),
    })
}

/// The groups, if all are given by numbers.
fn numbered(groups: &[(Typed, u32)]) -> Option<Vec<Group>> {
    let group =
        |&(sid, attributes): &(Typed, u32)| sid.as_number().map(|sid| Group::new(sid, attributes));
    groups.iter().map(group).collect()
}

/// The parts between commas.
fn list<'a, T>(
    word: Word<'a>,
    part: impl Fn(Word<'a>) -> Result<T, Mistake>,
) -> Result<Vec<T>, Mistake> {
    word.split(',').into_iter().map(part).collect()
}

fn query(arguments: &mut Arguments) -> Parsed {
    let handle = handle(arguments)?;
    let class = vocabulary::number(arguments.word("class")?, "class", &CLASSES)?;
    let options = arguments.options(&["capacity"], &[])?;
    let capacity = match options.get("capacity") {
        Some(word) => word.u32("capacity")?,
        None => MAX_ANSWER as u32,
    };
    Ok(Request::Query { handle, class, capacity }.to_bytes())
}

fn privileges(arguments: &mut Arguments) -> Parsed {
    let handle = handle(arguments)?;
    let entries = entries(arguments, PrivilegeEntry::RESET, |privilege, action| {
        let privilege = vocabulary::privilege(privilege)?;
        let attributes = vocabulary::number(action, "action", &ACTIONS)?;
        Ok(PrivilegeEntry { privilege, attributes })
    })?;
    Ok(Request::Privileges { handle, entries: entries[..].into() }.to_bytes())
}

fn groups(arguments: &mut Arguments) -> Parsed {
    let handle = handle(arguments)?;
    let entries = entries(arguments, GroupEntry::RESET, |index, action| {
        let index = index.u32("group index")?;
        Ok(GroupEntry { index, enable: vocabulary::number(action, "action", &SWITCHES)? })
    })?;
    Ok(Request::Groups { handle, entries: entries[..].into() }.to_bytes())
}

/// The words left, each WHAT=ACTION, or the one word 'reset'.
fn entries<T>(
    arguments: &mut Arguments,
    reset: T,
    entry: impl Fn(Word, Word) -> Result<T, Mistake>,
) -> Result<Vec<T>, Mistake> {
    let words = arguments.rest();
    if words.is_empty() {
        return Err(arguments.missing("a change such as 7=disable, or 'reset'"));
    }
    if let [word] = words[..] {
        if word.text == "reset" {
            return Ok(vec![reset]);
        }
    }
    let pair = |word: Word| match word.split_once('=') {
        Some((what, action)) => entry(what, action),
        None => Err(word.mistake(format_args!("'{}' is no change such as 7=disable", word.text))),
    };
    words.into_iter().map(pair).collect()
}

fn scope(arguments: &mut Arguments) -> Parsed {
    Ok(Request::Scope { handle: handle(arguments)?, scope: arguments.u32("scope")? }.to_bytes())
}

fn default(arguments: &mut Arguments) -> Parsed {
    let handle = handle(arguments)?;
    let options = arguments.options(&["owner", "group", "dacl"], &[])?;
    let index = |key| match options.get(key) {
        Some(word) => word.number("index", KEEP.into()).map(|index| index as u16),
        None => Ok(KEEP),
    };
    let [owner, primary_group] = [index("owner")?, index("group")?];
    let (flag, dacl) = match options.get("dacl") {
        None => (0, Vec::new()),
        Some(word) if word.text == "none" => (1, Vec::new()),
        Some(word) => (1, hex::parse(&word.split(','))?),
    };
    Ok(Request::Defaults { handle, owner, primary_group, flag, dacl: &dacl }.to_bytes())
}

fn duplicate(arguments: &mut Arguments) -> Parsed {
    let handle = handle(arguments)?;
    let options = arguments.options(&["type", "level", "rights"], &[])?;
    let given = |key: &str| options.get(key).ok_or_else(|| arguments.missing(&format!("{key}=..")));
    let token_type = vocabulary::number(given("type")?, "type", &TYPES)?;
    let level = match options.get("level") {
        Some(word) => vocabulary::number(word, "level", &LEVELS)?,
        None if token_type == TokenType::Impersonation.number() => {
            return Err(
                arguments.missing(&format!("level=.., one of {}", vocabulary::names(&LEVELS)))
            );
        }
        None => 0,
    };
    let mask = vocabulary::rights(given("rights")?)?;
    Ok(Request::Duplicate { handle, token_type, level, mask }.to_bytes())
}

/// Request 10, or 15 where a SID is given itself.
fn restrict(arguments: &mut Arguments, table: &Table) -> Parsed {
    let handle = handle(arguments)?;
    let options = arguments.options(&["remove", "deny", "sids"], &["write-restricted"])?;
    let write_restricted = u32::from(options.get("write-restricted").is_some());
    let removed = options.parsed("remove", vocabulary::privilege_word)?;
    let deny = options.parsed("deny", |word| list(word, |index| index.u32("group index")))?;
    let deny = deny[..].into();
    let typed = options.parsed("sids", |word| list(word, sids::typed))?;
    let numbers: Option<Vec<u32>> = typed.iter().map(|sid| sid.as_number()).collect();
    if let Some(sids) = numbers {
        let sids = sids[..].into();
        return Ok(Request::Restrict { handle, write_restricted, removed, deny, sids }.to_bytes());
    }
    let sids: Vec<Sid> = typed.into_iter().map(|sid| table.sid(sid)).collect::<Result<_, _>>()?;
    let sids = sids[..].into();
    Ok(Request::RestrictToSids { handle, write_restricted, removed, deny, sids }.to_bytes())
}

fn install(arguments: &mut Arguments) -> Parsed {
    Ok(Request::Install { handle: handle(arguments)? }.to_bytes())
}

fn impersonate(arguments: &mut Arguments) -> Parsed {
    Ok(Request::Impersonate { handle: handle(arguments)? }.to_bytes())
}

fn link(arguments: &mut Arguments) -> Parsed {
    let elevated = arguments.u32("the elevated token's handle")?;
    let filtered = arguments.u32("the filtered token's handle")?;
    let options = arguments.options(&["session"], &[])?;
    let session = options.get("session").ok_or_else(|| arguments.missing("session=.."))?;
    let session = session.number("session", u64::MAX)?;
    Ok(Request::Link { elevated, filtered, session }.to_bytes())
}

fn linked(arguments: &mut Arguments) -> Parsed {
    Ok(Request::GetLinked { handle: handle(arguments)? }.to_bytes())
}

fn may(arguments: &mut Arguments, table: &Table) -> Parsed {
    let handle = handle(arguments)?;
    let condition = condition::parse(arguments, table)?;
    Ok(Request::Evaluate { handle, condition: (&condition).into() }.to_bytes())
}
