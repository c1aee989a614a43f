//! Requests that adjust a token in place: 5 to 8.

use crate::number::write_number;
use crate::privileges::{Privileges, ALL_PRIVILEGES, TCB};
use crate::refusal::Refusal;
use crate::request::{DISABLE, ENABLE, NO_CHANGE, REMOVE, RESET_GROUPS, RESET_PRIVILEGES};
use crate::rights::Mask;
use crate::state::Model;
use crate::token::{Group, Token, MAX_DACL};
use crate::tokens::all_distinct;

/// Words in the report of request 6.
pub(crate) const ENABLED_WORDS: usize = 16;
/// Bits of a word.
const WORD_BITS: usize = u64::BITS as usize;

impl Model {
    /// 5: the answer is what was present and what was enabled before, at the named bits; for a
    /// reset, both whole words.
    pub(crate) fn adjust_privileges(
        &mut self,
        station: usize,
        handle: u32,
        entries: &[(u32, u32)],
    ) -> Result<Vec<u8>, Refusal> {
        let handle = self.granted(station, handle, Mask::ADJUST_PRIVILEGES)?;
        let token = self.live_mut(handle.token);
        let before = token.privileges;
        let reported = if entries == [RESET_PRIVILEGES] {
            token.privileges = before.reset();
            u64::MAX
        } else {
            Refusal::Field.unless(entries_are_good(before, entries))?;
            token.privileges = entries.iter().fold(before, adjusted);
            entries.iter().fold(0, |named, &(privilege, _)| named | 1 << privilege)
        };
        token.step_modified();
        let mut report = Vec::new();
        write_number(before.present & reported, &mut report);
        write_number(before.enabled & reported, &mut report);
        Ok(report)
    }

    /// 6: the answer is the previous enabled bits of all groups, in sixteen words.
    pub(crate) fn adjust_groups(
        &mut self,
        station: usize,
        handle: u32,
        entries: &[(u32, u32)],
    ) -> Result<Vec<u8>, Refusal> {
        let handle = self.granted(station, handle, Mask::ADJUST_GROUPS)?;
        let token = self.live_mut(handle.token);
        let report = enabled_report(&token.groups);
        if entries == [RESET_GROUPS] {
            token.groups = token.groups.iter().map(|group| group.reset()).collect();
        } else {
            check_group_entries(token, entries)?;
            for &(index, enable) in entries {
                let group = &mut token.groups[index as usize];
                *group = group.with_enabled(enable == 1);
            }
        }
        token.step_modified();
        Ok(report)
    }

    /// 7: sets the scope.
    pub(crate) fn adjust_scope(
        &mut self,
        station: usize,
        handle: u32,
        value: u32,
    ) -> Result<(), Refusal> {
        let handle = self.granted(station, handle, Mask::ADJUST_SCOPE)?;
        self.check_held(station, TCB)?;
        let token = self.live_mut(handle.token);
        token.scope = value;
        token.step_modified();
        self.mark_used(station, TCB);
        Ok(())
    }

    /// 8: sets owner, primary group and DACL, each if asked.
    pub(crate) fn adjust_default(
        &mut self,
        station: usize,
        handle: u32,
        (owner, group): (u16, u16),
        flag: u32,
        dacl: &[u8],
    ) -> Result<(), Refusal> {
        let handle = self.granted(station, handle, Mask::ADJUST_DEFAULT)?;
        let token = self.live_mut(handle.token);
        let dacl_is_good = match flag {
            0 => dacl.is_empty(),
            1 => dacl.len() <= MAX_DACL,
            _ => false,
        };
        Refusal::Field.unless(
            dacl_is_good
                && (owner == NO_CHANGE || token.may_own(owner))
                && (group == NO_CHANGE || token.may_be_primary_group(group)),
        )?;
        if owner != NO_CHANGE {
            token.owner = owner;
        }
        if group != NO_CHANGE {
            token.primary_group = group;
        }
        if flag == 1 {
            token.dacl = dacl.to_vec();
        }
        token.step_modified();
        Ok(())
    }
}

/// Whether request 5 may apply all the entries; judged before any applies.
fn entries_are_good(before: Privileges, entries: &[(u32, u32)]) -> bool {
    let named: Vec<u32> = entries.iter().map(|&(privilege, _)| privilege).collect();
    let is_good = |&(privilege, attributes): &(u32, u32)| {
        let exists = privilege < u64::BITS && ALL_PRIVILEGES >> privilege & 1 == 1;
        let may = match attributes {
            DISABLE | REMOVE => true,
            ENABLE => exists && before.present >> privilege & 1 == 1,
            _ => false,
        };
        exists && may
    };
    !entries.is_empty() && all_distinct(&named) && entries.iter().all(is_good)
}

/// The privileges after one good entry.
fn adjusted(privileges: Privileges, &(privilege, attributes): &(u32, u32)) -> Privileges {
    match attributes {
        ENABLE => privileges.enable(1 << privilege),
        REMOVE => privileges.remove(1 << privilege),
        _ => privileges.disable(1 << privilege),
    }
}

/// Refusal 5 for a bad entry anywhere, then 6 for a protected group.
fn check_group_entries(token: &Token, entries: &[(u32, u32)]) -> Result<(), Refusal> {
    let indexes: Vec<u32> = entries.iter().map(|&(index, _)| index).collect();
    let in_range =
        |&(index, enable): &(u32, u32)| (index as usize) < token.groups.len() && enable <= 1;
    Refusal::Field
        .unless(!entries.is_empty() && all_distinct(&indexes) && entries.iter().all(in_range))?;
    let is_free = |&(index, enable): &(u32, u32)| {
        !is_protected(token.groups[index as usize], enable == 1, token.user)
    };
    Refusal::Protected.unless(entries.iter().all(is_free))
}

/// Whether no entry may name the group, or, of a token of this user, none that disables it.
fn is_protected(group: Group, enable: bool, user: u32) -> bool {
    let kinds = [Group::MANDATORY, Group::DENY_ONLY, Group::LOGON_ID];
    kinds.into_iter().any(|kind| group.has(kind)) || (!enable && group.sid == user)
}

/// Group i at bit i % 64 of word i / 64.
fn enabled_report(groups: &[Group]) -> Vec<u8> {
    let mut words = [0u64; ENABLED_WORDS];
    for (index, group) in groups.iter().enumerate() {
        if group.has(Group::ENABLED) {
            words[index / WORD_BITS] |= 1 << (index % WORD_BITS);
        }
    }
    let mut report = Vec::new();
    for word in words {
        write_number(word, &mut report);
    }
    report
}
