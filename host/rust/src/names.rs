//! Names of the numbers that tokens, handles and requests have.

/// A number and its name.
pub type Named = (u32, &'static str);

/// The privileges 2 to 36, with the numbers of the public wdm.h.
pub const PRIVILEGES: [Named; 35] = [
    (2, "SeCreateTokenPrivilege"),
    (3, "SeAssignPrimaryTokenPrivilege"),
    (4, "SeLockMemoryPrivilege"),
    (5, "SeIncreaseQuotaPrivilege"),
    (6, "SeMachineAccountPrivilege"),
    (7, "SeTcbPrivilege"),
    (8, "SeSecurityPrivilege"),
    (9, "SeTakeOwnershipPrivilege"),
    (10, "SeLoadDriverPrivilege"),
    (11, "SeSystemProfilePrivilege"),
    (12, "SeSystemtimePrivilege"),
    (13, "SeProfileSingleProcessPrivilege"),
    (14, "SeIncreaseBasePriorityPrivilege"),
    (15, "SeCreatePagefilePrivilege"),
    (16, "SeCreatePermanentPrivilege"),
    (17, "SeBackupPrivilege"),
    (18, "SeRestorePrivilege"),
    (19, "SeShutdownPrivilege"),
    (20, "SeDebugPrivilege"),
    (21, "SeAuditPrivilege"),
    (22, "SeSystemEnvironmentPrivilege"),
    (23, "SeChangeNotifyPrivilege"),
    (24, "SeRemoteShutdownPrivilege"),
    (25, "SeUndockPrivilege"),
    (26, "SeSyncAgentPrivilege"),
    (27, "SeEnableDelegationPrivilege"),
    (28, "SeManageVolumePrivilege"),
    (29, "SeImpersonatePrivilege"),
    (30, "SeCreateGlobalPrivilege"),
    (31, "SeTrustedCredManAccessPrivilege"),
    (32, "SeRelabelPrivilege"),
    (33, "SeIncreaseWorkingSetPrivilege"),
    (34, "SeTimeZonePrivilege"),
    (35, "SeCreateSymbolicLinkPrivilege"),
    (36, "SeDelegateSessionUserImpersonatePrivilege"),
];

/// The word with all privileges, bits 2 to 36.
pub const ALL_PRIVILEGES: u64 = 0x1F_FFFF_FFFC;

/// The rights of a handle's mask, one by one.
#[allow(missing_docs)] // the field's own terms
pub mod right {
    pub const ASSIGN_PRIMARY: u32 = 0x001;
    pub const DUPLICATE: u32 = 0x002;
    pub const IMPERSONATE: u32 = 0x004;
    pub const QUERY: u32 = 0x008;
    pub const ADJUST_PRIVILEGES: u32 = 0x020;
    pub const ADJUST_GROUPS: u32 = 0x040;
    pub const ADJUST_DEFAULT: u32 = 0x080;
    pub const ADJUST_SCOPE: u32 = 0x100;
}

/// The rights of a handle's mask.
pub const RIGHTS: [Named; 8] = [
    (right::ASSIGN_PRIMARY, "assign-primary"),
    (right::DUPLICATE, "duplicate"),
    (right::IMPERSONATE, "impersonate"),
    (right::QUERY, "query"),
    (right::ADJUST_PRIVILEGES, "adjust-privileges"),
    (right::ADJUST_GROUPS, "adjust-groups"),
    (right::ADJUST_DEFAULT, "adjust-default"),
    (right::ADJUST_SCOPE, "adjust-scope"),
];

/// All rights together.
pub const ALL_RIGHTS: u32 = 0x1EF;

/// The attributes of a group.
pub const GROUP_ATTRIBUTES: [Named; 6] = [
    (0x01, "mandatory"),
    (0x02, "enabled-by-default"),
    (0x04, "enabled"),
    (0x08, "owner"),
    (0x10, "deny-only"),
    (0xC000_0000, "logon-id"),
];

/// The integrity levels.
pub const INTEGRITY: [Named; 5] =
    [(0, "untrusted"), (4096, "low"), (8192, "medium"), (12288, "high"), (16384, "system")];

/// The SIDs that the rules name, by the numbers that they have from the start.
pub const SIDS: [Named; 2] = [(7, "Anonymous"), (18, "SYSTEM")];

/// The name of a number.
///
/// ```
/// use obriska::names::{name, PRIVILEGES};
/// assert_eq!(name(&PRIVILEGES, 7), Some("SeTcbPrivilege"));
/// assert_eq!(name(&PRIVILEGES, 37), None);
/// ```
pub fn name(names: &[Named], number: u32) -> Option<&'static str> {
    names.iter().find(|named| named.0 == number).map(|named| named.1)
}

#[cfg(test)]
mod tests {
    use super::*;

    #[test]
    fn the_names_are_those_of_all_privileges_and_all_rights() {
        let word = PRIVILEGES.iter().fold(0, |word, named| word | 1_u64 << named.0);
        assert_eq!(word, ALL_PRIVILEGES);
        assert_eq!(RIGHTS.iter().fold(0, |mask, named| mask | named.0), ALL_RIGHTS);
    }
}
