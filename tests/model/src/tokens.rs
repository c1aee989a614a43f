//! Requests that make, copy, install or let go of tokens: 1, 2, 3, 9, 10 and 11; of 14 and 15 what
//! they have in common with 3 and 10.

use std::collections::HashSet;
use std::hash::Hash;

use crate::privileges::{Privileges, ALL_PRIVILEGES, ASSIGN_PRIMARY, CREATE_TOKEN, TCB};
use crate::refusal::Refusal;
use crate::rights::Mask;
use crate::sid_table::SidTable;
use crate::state::Model;
use crate::token::{
    Elevation, Group, Level, Token, TokenType, ANONYMOUS_SID, INTEGRITY_LEVELS, MAX_GROUPS,
    MAX_RESTRICTING, NO_ROOT,
};

impl Model {
    /// 1: a handle on the station's primary token.
    pub(crate) fn open(&mut self, station: usize, mask: u32) -> Result<u32, Refusal> {
        Refusal::Field.unless(Mask(mask).is_valid())?;
        self.add_handle(station, self.stations[station].token, mask)
    }

    /// 2: frees the handle, and its token with the last reference.
    pub(crate) fn close(&mut self, station: usize, number: u32) -> Result<(), Refusal> {
        let handle = self.handle(station, number)?;
        for slot in &mut self.handles {
            if *slot == Some(handle) {
                *slot = None;
            }
        }
        self.free_if_last(handle.token);
        Ok(())
    }

    /// 3: a new primary token and a handle with all rights. Its SIDs are numbers in the given table,
    /// which becomes the model's.
    pub(crate) fn create(
        &mut self,
        station: usize,
        table: SidTable,
        (user, session, integrity): (u32, u64, u32),
        (present, default): (u64, u64),
        groups: &[(u32, u32)],
    ) -> Result<u32, Refusal> {
        self.check_held(station, CREATE_TOKEN)?;
        Refusal::Field.unless(
            INTEGRITY_LEVELS.contains(&integrity)
                && default & !present == 0
                && present & !ALL_PRIVILEGES == 0
                && groups.len() <= MAX_GROUPS
                && table.has(user)
                && groups.iter().all(|&(sid, _)| table.has(sid)),
        )?;
        let groups = groups
            .iter()
            .map(|&(sid, attributes)| new_group(Group { sid, attributes }, user))
            .collect::<Result<_, _>>()?;
        Refusal::Full.unless(table.fits())?;
        let privileges = Privileges::new(present, default);
        let bare = Token::bare(self.next_token, user, session);
        let token = Token { privileges, groups, integrity, ..bare };
        let handle = self.add_token(station, token, Mask::ALL.0)?;
        self.mark_used(station, CREATE_TOKEN);
        self.sids = table;
        Ok(handle)
    }

    /// 9: a copy of another type or level.
    pub(crate) fn duplicate(
        &mut self,
        station: usize,
        handle: u32,
        kind: u32,
        level: u32,
        mask: u32,
    ) -> Result<u32, Refusal> {
        let handle = self.granted(station, handle, Mask::DUPLICATE)?;
        let kind = TokenType::from_number(kind.into()).ok_or(Refusal::Field)?;
        let level = Level::from_number(level.into()).ok_or(Refusal::Field)?;
        Refusal::Field.unless(Mask(mask).is_valid() && Mask(mask).within(Mask(handle.mask)))?;
        let source = self.live(handle.token);
        let copy = match (source.kind, kind) {
            (TokenType::Impersonation, TokenType::Impersonation) if level > source.level => {
                return Err(Refusal::Field)
            }
            (_, TokenType::Primary) => primary_copy(source),
            (_, TokenType::Impersonation) if level == Level::Anonymous => anonymous_copy(source),
            (_, TokenType::Impersonation) => impersonation_copy(source, level),
        };
        self.add_token(station, copy, mask)
    }

    /// 10: a copy with less; a second restriction never widens. The SIDs are numbers in the given
    /// table, which becomes the model's.
    pub(crate) fn restrict(
        &mut self,
        station: usize,
        table: SidTable,
        handle: u32,
        (write_restricted, remove): (u32, u64),
        deny: &[u32],
        sids: &[u32],
    ) -> Result<u32, Refusal> {
        let handle = self.granted(station, handle, Mask::DUPLICATE)?;
        let source = self.live(handle.token);
        Refusal::Field.unless(
            write_restricted <= 1
                && remove & !ALL_PRIVILEGES == 0
                && deny.iter().all(|&index| (index as usize) < source.groups.len())
                && all_distinct(deny)
                && (write_restricted == 0 || may_be_write_restricted(source))
                && sids.iter().all(|&sid| table.has(sid)),
        )?;
        let restricting = restricting_of_copy(source, sids)?;
        Refusal::Full.unless(table.fits())?;
        let copy = restricted_copy(source, write_restricted == 1, remove, deny, restricting);
        let made = self.add_token(station, copy, handle.mask)?;
        self.sids = table;
        Ok(made)
    }

    /// 11: the handle's token becomes the station's primary token.
    pub(crate) fn install(&mut self, station: usize, handle: u32) -> Result<(), Refusal> {
        let handle = self.granted(station, handle, Mask::ASSIGN_PRIMARY)?;
        self.check_held(station, ASSIGN_PRIMARY)?;
        let (old, new) = (self.primary(station), self.live(handle.token));
        Refusal::Field.unless(new.kind == TokenType::Primary)?;
        let differs = new.user != old.user || new.session != old.session;
        Refusal::Mismatch.unless(!differs || old.privileges.holds(TCB))?;
        self.mark_used(station, ASSIGN_PRIMARY);
        if differs {
            self.mark_used(station, TCB);
        }
        let old = std::mem::replace(&mut self.stations[station].token, handle.token);
        self.free_if_last(old);
        Ok(())
    }
}

/// Whether no item stands there twice.
pub(crate) fn all_distinct<T: Copy + Eq + Hash>(items: &[T]) -> bool {
    let mut seen = HashSet::new();
    items.iter().all(|&item| seen.insert(item))
}

/// A group as request 3 makes it, or refusal 5.
fn new_group(given: Group, user: u32) -> Result<Group, Refusal> {
    let by_default = given.has(Group::ENABLED_BY_DEFAULT);
    Refusal::Field.unless(
        given.attributes & !Group::GIVEN == 0
            && given.logon_is_whole()
            && (by_default || !given.needs_default(user))
            && !(by_default && given.has(Group::DENY_ONLY)),
    )?;
    Ok(given.with_enabled(by_default))
}

fn primary_copy(source: &Token) -> Token {
    Token {
        kind: TokenType::Primary,
        level: Level::Anonymous,
        elevation: Elevation::Default,
        ..source.clone()
    }
}

pub(crate) fn impersonation_copy(source: &Token, level: Level) -> Token {
    Token { kind: TokenType::Impersonation, level, elevation: Elevation::Default, ..source.clone() }
}

/// An impersonation token with nothing of its source but the used privileges, its root no more.
fn anonymous_copy(source: &Token) -> Token {
    Token {
        root: NO_ROOT,
        kind: TokenType::Impersonation,
        privileges: Privileges { used: source.privileges.used, ..Privileges::default() },
        ..Token::bare(0, ANONYMOUS_SID, 0)
    }
}

/// A list that counts for all accesses may not come to count for writes only.
fn may_be_write_restricted(source: &Token) -> bool {
    !source.is_restricted() || source.write_restricted
}

/// The SIDs given, at most as many as there may be; of a restricted source its own that are also
/// given, one at least, however many are given, or all if none is.
fn restricting_of_copy(source: &Token, given: &[u32]) -> Result<Vec<u32>, Refusal> {
    if !source.is_restricted() {
        Refusal::Full.unless(given.len() <= MAX_RESTRICTING)?;
        return Ok(given.to_vec());
    }
    let mut kept = source.restricting.clone();
    if !given.is_empty() {
        kept.retain(|sid| given.contains(sid));
    }
    Refusal::Field.unless(!kept.is_empty())?;
    Ok(kept)
}

fn restricted_copy(
    source: &Token,
    write_restricted: bool,
    remove: u64,
    deny: &[u32],
    restricting: Vec<u32>,
) -> Token {
    let mut copy = Token { elevation: Elevation::Default, restricting, ..source.clone() };
    copy.privileges = copy.privileges.remove(remove);
    for (index, group) in copy.groups.iter_mut().enumerate() {
        if deny.contains(&(index as u32)) {
            *group = group.denied();
        }
    }
    copy.write_restricted |= write_restricted;
    copy.user_deny_only |= write_restricted;
    copy
}
