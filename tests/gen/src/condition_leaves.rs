//! Leaves of conditions: what a privilege or a SID is to the token that is asked.

use model::{Condition, Group, Token, FIRST_PRIVILEGE, LAST_PRIVILEGE, MAX_GROUPS};
use Leaf::*;

/// What a leaf is; one may be of several.
#[derive(Clone, Copy, Debug, PartialEq, Eq, PartialOrd, Ord)]
pub(crate) enum Leaf {
    NoneOfAll,
    NoneOfAny,
    Enabled,
    Disabled,
    Absent,
    /// The first privilege, enabled or not.
    FirstEnabled,
    First,
    LastEnabled,
    Last,
    /// The station's own token has it enabled, this one hasn't; the other way round.
    OwnAlone,
    AskedAlone,
    /// The SID of one group.
    EnabledGroup,
    DisabledGroup,
    DenyOnlyGroup,
    /// Of several, one of them enabled: the first; a later one; none.
    EnabledFirst,
    EnabledLater,
    NoneEnabled,
    /// Of the last of as many groups as there may be, and of no other.
    LastGroup,
    /// The user's, and no group's; an enabled group's; a group's that is not enabled.
    User,
    UserAndGroup,
    UserAndDisabled,
    /// A restricting one, likewise.
    Restricting,
    RestrictingAndGroup,
    RestrictingAndDisabled,
    /// No one's.
    Nobody,
}

/// Every leaf, and whether it is met.
pub(crate) const LEAVES: [(Leaf, bool); 25] = [
    (NoneOfAll, true),
    (NoneOfAny, false),
    (Enabled, true),
    (Disabled, false),
    (Absent, false),
    (FirstEnabled, true),
    (First, false),
    (LastEnabled, true),
    (Last, false),
    (OwnAlone, false),
    (AskedAlone, true),
    (EnabledGroup, true),
    (DisabledGroup, false),
    (DenyOnlyGroup, false),
    (EnabledFirst, true),
    (EnabledLater, true),
    (NoneEnabled, false),
    (LastGroup, true),
    (User, false),
    (UserAndGroup, true),
    (UserAndDisabled, false),
    (Restricting, false),
    (RestrictingAndGroup, true),
    (RestrictingAndDisabled, false),
    (Nobody, false),
];

/// If the condition is a leaf in negations and lists of one: what the leaf is, and which answer tells
/// that it is met.
pub(crate) fn leaves_told(condition: &Condition, token: &Token, own: &Token) -> Vec<(Leaf, bool)> {
    let (mut inner, mut as_met) = (condition, true);
    let leaves = loop {
        inner = match inner {
            Condition::Negated(negated) => {
                as_met = !as_met;
                negated
            }
            Condition::AllOf(list) | Condition::AnyOf(list) if list.len() == 1 => &list[0],
            Condition::AllOf(list) if list.is_empty() => break vec![NoneOfAll],
            Condition::AnyOf(list) if list.is_empty() => break vec![NoneOfAny],
            Condition::Privilege(privilege) => break of_privilege(*privilege, token, own),
            Condition::Group(sid) => break of_group(*sid, token),
            _ => return vec![],
        }
    };
    leaves.into_iter().map(|leaf| (leaf, as_met)).collect()
}

fn of_privilege(privilege: u32, token: &Token, own: &Token) -> Vec<Leaf> {
    let has = |word: u64| word >> privilege & 1 == 1;
    let enabled = has(token.privileges.enabled);
    let mut leaves = vec![match (enabled, has(token.privileges.present)) {
        (true, _) => Enabled,
        (false, true) => Disabled,
        (false, false) => Absent,
    }];
    match (privilege, enabled) {
        (FIRST_PRIVILEGE, true) => leaves.push(FirstEnabled),
        (FIRST_PRIVILEGE, false) => leaves.push(First),
        (LAST_PRIVILEGE, true) => leaves.push(LastEnabled),
        (LAST_PRIVILEGE, false) => leaves.push(Last),
        _ => {}
    }
    match (has(own.privileges.enabled), enabled) {
        (true, false) => leaves.push(OwnAlone),
        (false, true) => leaves.push(AskedAlone),
        _ => {}
    }
    leaves
}

fn of_group(sid: u32, token: &Token) -> Vec<Leaf> {
    let of_sid: Vec<&Group> = token.groups.iter().filter(|group| group.sid == sid).collect();
    let enabled = of_sid.iter().position(|group| group.has(Group::ENABLED));
    let [is_user, is_restricting] = [token.user == sid, token.restricting.contains(&sid)];
    let mut leaves = match (&of_sid[..], enabled) {
        ([], _) => vec![],
        ([_], Some(_)) => vec![EnabledGroup],
        ([one], None) if one.has(Group::DENY_ONLY) => vec![DenyOnlyGroup],
        ([_], None) => vec![DisabledGroup],
        (_, Some(0)) => vec![EnabledFirst],
        (_, Some(_)) => vec![EnabledLater],
        (_, None) => vec![NoneEnabled],
    };
    let is_last = token.groups.last().is_some_and(|group| group.sid == sid);
    let is_last_alone = token.groups.len() == MAX_GROUPS && is_last && leaves == [EnabledGroup];
    leaves.extend(is_last_alone.then_some(LastGroup));
    let has_group = !of_sid.is_empty();
    let of = |[alone, met, unmet]: [Leaf; 3]| match (has_group, enabled.is_some()) {
        (false, _) => alone,
        (true, true) => met,
        (true, false) => unmet,
    };
    leaves.extend(is_user.then(|| of([User, UserAndGroup, UserAndDisabled])));
    let restricting = [Restricting, RestrictingAndGroup, RestrictingAndDisabled];
    leaves.extend(is_restricting.then(|| of(restricting)));
    leaves.extend((!has_group && !is_user && !is_restricting).then_some(Nobody));
    leaves
}
