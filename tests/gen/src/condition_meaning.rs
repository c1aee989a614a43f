//! What a condition means, and what is in it; found here once more, after document 02 alone.

use model::{Condition, Group, Token};
use Condition::{AllOf, AnyOf, Negated};

use crate::condition_layout::is_known;

/// Whether the token meets the condition; an unknown privilege it doesn't.
pub(crate) fn is_met(condition: &Condition, token: &Token) -> bool {
    match condition {
        AllOf(list) => !list.iter().any(|inner| !is_met(inner, token)),
        AnyOf(list) => list.iter().any(|inner| is_met(inner, token)),
        Negated(inner) => !is_met(inner, token),
        Condition::Privilege(privilege) => {
            is_known((*privilege).into()) && token.privileges.enabled >> privilege & 1 == 1
        }
        Condition::Group(sid) => {
            let of_sid = token.groups.iter().filter(|group| group.sid == *sid);
            of_sid.fold(0, |all, group| all | group.attributes) & Group::ENABLED != 0
        }
    }
}

/// The privileges in it that there are not, and how deep each stands.
pub(crate) fn unknown_ones(condition: &Condition, depth: usize) -> Vec<(u32, usize)> {
    match condition {
        Condition::Privilege(privilege) if !is_known((*privilege).into()) => {
            vec![(*privilege, depth)]
        }
        _ => {
            let inner = condition.inner().iter();
            inner.flat_map(|inner| unknown_ones(inner, depth + 1)).collect()
        }
    }
}

/// The meaning, found one condition after the other up to what decides; `None` if that comes to an
/// unknown privilege.
pub(crate) fn up_to_unknown(condition: &Condition, token: &Token) -> Option<bool> {
    let (list, decides) = match condition {
        AllOf(list) => (list, false),
        AnyOf(list) => (list, true),
        Negated(inner) => return up_to_unknown(inner, token).map(|met| !met),
        Condition::Privilege(privilege) if !is_known((*privilege).into()) => return None,
        leaf => return Some(is_met(leaf, token)),
    };
    for inner in list {
        if up_to_unknown(inner, token)? == decides {
            return Some(decides);
        }
    }
    Some(!decides)
}

/// Whether an empty list stands so deep.
pub(crate) fn has_empty(condition: &Condition, depth: usize) -> bool {
    let is_list = matches!(condition, AllOf(_) | AnyOf(_));
    let inner = condition.inner();
    if depth == 1 {
        return is_list && inner.is_empty();
    }
    inner.iter().any(|inner| has_empty(inner, depth - 1))
}
