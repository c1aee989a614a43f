//! Conditions to be timed: as many leaves as a body holds, none of which decides before the last.

use gen::{fields, flat};
use model::{
    framed, Condition, Group, Handle, Mask, Model, Request, Token, FIRST_PRIVILEGE, LAST_PRIVILEGE,
    MAX_BODY, MAX_DEPTH, MAX_GROUPS, SIDS,
};
use Condition::{AllOf, AnyOf, Negated, Privilege};

use crate::sid_work;
use crate::work::{Feeds, Work};

/// Requests in a list.
const REQUESTS: usize = 200;
/// The handle on the token that is asked.
const HANDLE: u32 = 1;
/// The SIDs of the token's groups, of none of which a condition asks.
const HELD: u32 = 200;

/// A list for each shape of condition.
pub fn all() -> Vec<Work> {
    let short = |at: usize| Condition::Group(at as u32 % 128);
    let long = |at: usize| Condition::Group(u32::MAX - at as u32);
    let (few, most) = (MAX_GROUPS / 4, MAX_GROUPS);
    vec![
        work("conditions, privileges", 0, full(AllOf, 0, privilege)),
        work("conditions, no groups", 0, full(AnyOf, 0, short)),
        work("conditions, 16 groups", few, full(AnyOf, 0, short)),
        work("conditions, 64 groups", most, full(AnyOf, 0, short)),
        work("conditions, long SIDs", most, full(AnyOf, 0, long)),
        work("conditions, empty lists", 0, full(AllOf, 0, |_| AllOf(vec![]))),
        work("conditions, eight deep", 0, full(AllOf, MAX_DEPTH - 2, privilege)),
        work("conditions, negations", 0, full(AllOf, 0, |at| in_negations(privilege(at)))),
        work("conditions, lists of one", 0, full(AllOf, 0, |at| in_lists(privilege(at)))),
    ]
}

fn work(name: &'static str, groups: usize, condition: Condition) -> Work {
    let frame = framed(&body(&condition));
    let feeds: Feeds = vec![(0, frame); REQUESTS];
    Work::new(name, &asked(groups), &feeds)
}

/// The body of a request with the condition.
fn body(condition: &Condition) -> Vec<u8> {
    flat(&fields(&Request::Evaluate { handle: HANDLE, condition: condition.clone() }))
}

/// The start, and a handle on a second token with so many groups, all of them enabled, and with all
/// privileges.
fn asked(groups: usize) -> Model {
    let mut model = sid_work::with_sids(SIDS);
    let attributes = Group::ENABLED_BY_DEFAULT | Group::ENABLED;
    let groups = (HELD..).take(groups).map(|sid| Group { sid, attributes }).collect();
    let (number, token) = (2, Token::first());
    model.tokens[1] = Some(Token { number, modified: number, root: number, groups, ..token });
    let (station, mask) = (0, Mask::QUERY.0);
    model.handles[0] = Some(Handle { station, number: HANDLE, token: number, mask });
    (model.next_token, model.next_handle) = (number + 1, HANDLE + 1);
    model
}

/// The `at`th privilege, one after the other and over again.
fn privilege(at: usize) -> Condition {
    let count = LAST_PRIVILEGE - FIRST_PRIVILEGE + 1;
    Privilege(FIRST_PRIVILEGE + at as u32 % count)
}

/// In as many negations as may stand between a list and a leaf.
fn in_negations(leaf: Condition) -> Condition {
    (0..MAX_DEPTH - 2).fold(leaf, |inner, _| Negated(Box::new(inner)))
}

/// The same with lists of one.
fn in_lists(leaf: Condition) -> Condition {
    (0..MAX_DEPTH - 2).fold(leaf, |inner, _| AllOf(vec![inner]))
}

/// The list of as many as fit a body, in so many lists of one.
fn full(
    list: fn(Vec<Condition>) -> Condition,
    around: usize,
    of: impl Fn(usize) -> Condition,
) -> Condition {
    let one = body(&of(0)).len() - body(&list(vec![])).len() + 2;
    let head = body(&list(vec![])).len() + 1 + 2 * around;
    let count = (MAX_BODY - head) / one;
    let inner = list((0..count).map(of).collect());
    let condition = (0..around).fold(inner, |inner, _| list(vec![inner]));
    assert!((MAX_BODY - 2 * one..=MAX_BODY).contains(&body(&condition).len()), "a full body");
    condition
}
