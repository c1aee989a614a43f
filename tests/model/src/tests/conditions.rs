//! Request 18.

use super::{ask, body, handle, open, send, start, status, token_of_mut, with_groups};
use crate::{
    Condition, Model, Privileges, ALL_PRIVILEGES, LAST_PRIVILEGE, MAX_BODY, MAX_DEPTH, TCB,
};

/// A privilege that the token has enabled, and one that it has not.
const MET: [u64; 2] = [4, 2];
const UNMET: [u64; 2] = [4, 3];
/// A privilege that there is not.
const UNKNOWN: [u64; 2] = [4, 37];
/// Lists of none.
const NONE_OF_ALL: [u64; 2] = [1, 0];
const NONE_OF_ANY: [u64; 2] = [2, 0];

/// A model and station 0's handle on a token of user 50 with privileges 2 and 36 enabled, 3 disabled
/// and all others absent; groups 60 enabled, 61 and 70 disabled, 62 deny-only, 63 and 64 twice, once
/// enabled; restricted by 70 and 71.
fn asked() -> (Model, u64) {
    let groups = [(60, 2), (61, 0), (62, 0x10), (63, 2), (63, 0), (64, 0), (64, 2), (70, 0)];
    let (mut model, handle) = with_groups(&groups);
    let token = token_of_mut(&mut model, handle);
    let enabled = 1 << 2 | 1 << LAST_PRIVILEGE;
    token.privileges = Privileges { present: enabled | 1 << 3, enabled, ..token.privileges };
    token.restricting = vec![70, 71];
    (model, handle)
}

/// What a fresh [`asked`] answers to the condition's numbers; it stays as it is.
fn answer(condition: &[u64]) -> Vec<u8> {
    let (mut model, handle) = asked();
    let before = model.clone();
    let answer = ask(&mut model, 0, &[&[18, handle], condition].concat());
    assert_eq!(model, before, "{condition:?} changed something");
    answer
}

fn answers(condition: &[u64], expected: u8) {
    assert_eq!(answer(condition), [0, expected], "{condition:?}");
}

fn is_refused(condition: &[u64], refusal: u8) {
    assert_eq!(answer(condition), [refusal], "{condition:?}");
}

/// The condition in so many negations.
fn negated(times: usize, condition: &[u64]) -> Vec<u64> {
    [&vec![3; times], condition].concat()
}

/// The condition in so many lists of one of this kind.
fn in_lists(kind: u64, times: usize, condition: &[u64]) -> Vec<u64> {
    [&[kind, 1].repeat(times), condition].concat()
}

/// A list of this kind.
fn list(kind: u64, conditions: &[&[u64]]) -> Vec<u64> {
    [&[kind, conditions.len() as u64], conditions.concat().as_slice()].concat()
}

#[test]
fn privileges_that_are_enabled() {
    for (privilege, expected) in [(2, 1), (36, 1), (3, 0), (4, 0), (35, 0)] {
        answers(&[4, privilege], expected);
    }
}

#[test]
fn unknown_privileges() {
    for privilege in [0, 1, 37, 38, 63, 64, 66, 100, 127, 128, 1 << 31, u32::MAX.into()] {
        is_refused(&[4, privilege], 5);
    }
}

#[test]
fn groups_that_are_enabled() {
    for (sid, expected) in [(60, 1), (61, 0), (62, 0), (63, 1), (64, 1)] {
        answers(&[5, sid], expected);
    }
}

#[test]
fn a_sid_of_no_group_is_no_mistake() {
    for sid in [0, 1, 37, 99, 127, 128, u32::MAX.into()] {
        answers(&[5, sid], 0);
    }
}

#[test]
fn neither_the_user_nor_a_restricting_sid_is_a_group() {
    for sid in [50, 70, 71] {
        answers(&[5, sid], 0);
    }
    let (mut model, handle) = with_groups(&[(50, 2)]);
    assert_eq!(ask(&mut model, 0, &[18, handle, 5, 50]), [0, 1], "a group with the user's SID");
    token_of_mut(&mut model, handle).restricting = vec![60];
    assert_eq!(ask(&mut model, 0, &[18, handle, 5, 60]), [0, 0]);
}

#[test]
fn a_group_made_deny_only_counts_no_more() {
    let (mut model, whole) = with_groups(&[(60, 2), (60, 2)]);
    for (denied, expected) in [(vec![0], 1), (vec![0, 1], 0)] {
        let request = [&[10, whole, 0, 0, denied.len() as u64, 0], denied.as_slice()].concat();
        let less = handle(&mut model, 0, &request);
        assert_eq!(ask(&mut model, 0, &[18, less, 5, 60]), [0, expected]);
    }
    assert_eq!(ask(&mut model, 0, &[18, whole, 5, 60]), [0, 1]);
}

#[test]
fn a_group_switched_off_counts_no_more() {
    let (mut model, handle) = with_groups(&[(60, 2)]);
    for (switch, expected) in [(0, 0), (1, 1)] {
        assert_eq!(status(&mut model, 0, &[6, handle, 1, 0, switch]), 0);
        assert_eq!(ask(&mut model, 0, &[18, handle, 5, 60]), [0, expected]);
    }
}

#[test]
fn lists_of_none() {
    answers(&NONE_OF_ALL, 1);
    answers(&NONE_OF_ANY, 0);
    answers(&negated(1, &NONE_OF_ALL), 0);
    answers(&negated(1, &NONE_OF_ANY), 1);
}

#[test]
fn all_of_and_any_of() {
    let leaves = [UNMET, MET];
    for count in 1..=4 {
        for bits in 0..1usize << count {
            let met: Vec<usize> = (0..count).map(|at| bits >> at & 1).collect();
            let conditions: Vec<&[u64]> = met.iter().map(|&met| leaves[met].as_slice()).collect();
            let (all, any) = (bits + 1 == 1 << count, bits != 0);
            answers(&list(1, &conditions), all.into());
            answers(&list(2, &conditions), any.into());
            answers(&negated(1, &list(1, &conditions)), (!all).into());
            answers(&negated(2, &list(2, &conditions)), any.into());
        }
    }
}

#[test]
fn lists_in_lists() {
    let (both, either) = (list(1, &[&MET, &UNMET]), list(2, &[&UNMET, &MET]));
    answers(&list(1, &[&either, &negated(1, &both), &[5, 60], &NONE_OF_ALL]), 1);
    answers(&list(1, &[&either, &both, &[5, 60]]), 0);
    answers(&list(2, &[&both, &NONE_OF_ANY, &[5, 61]]), 0);
    answers(&list(2, &[&both, &NONE_OF_ANY, &list(1, &[&either])]), 1);
}

#[test]
fn negations_up_to_eight_deep() {
    for (leaf, even) in [(MET, 1), (UNMET, 0), ([5, 60], 1), (NONE_OF_ALL, 1), (NONE_OF_ANY, 0)] {
        for times in 0..MAX_DEPTH {
            answers(&negated(times, &leaf), if times % 2 == 0 { even } else { 1 - even });
        }
        for times in MAX_DEPTH..MAX_DEPTH + 4 {
            is_refused(&negated(times, &leaf), 1);
        }
    }
}

#[test]
fn lists_up_to_eight_deep() {
    for kind in [1, 2] {
        for (leaf, value) in [(MET, 1), (UNMET, 0), (NONE_OF_ALL, 1), (NONE_OF_ANY, 0)] {
            for times in 0..MAX_DEPTH {
                answers(&in_lists(kind, times, &leaf), value);
            }
            for times in MAX_DEPTH..MAX_DEPTH + 4 {
                is_refused(&in_lists(kind, times, &leaf), 1);
            }
        }
    }
}

#[test]
fn lists_and_negations_count_alike() {
    for lists in 0..=MAX_DEPTH {
        let outer = MAX_DEPTH - 1;
        let seven = in_lists(2, lists.min(outer), &negated(outer.saturating_sub(lists), &MET));
        assert_eq!(answer(&seven)[0], 0, "{lists} lists and negations, seven together");
        is_refused(&in_lists(2, lists, &negated(MAX_DEPTH - lists, &MET)), 1);
        is_refused(&negated(lists, &in_lists(1, MAX_DEPTH - lists, &NONE_OF_ALL)), 1);
    }
}

#[test]
fn eighth_stands_a_leaf_or_a_list_of_none_alone() {
    for outer in [negated(7, &[]), in_lists(1, 7, &[]), in_lists(2, 3, &negated(4, &[]))] {
        for good in [&MET[..], &[5, 99], &NONE_OF_ALL, &NONE_OF_ANY] {
            assert_eq!(answer(&[&outer, good].concat())[0], 0, "{good:?}");
        }
        for deep in [&negated(1, &MET), &list(1, &[&MET]), &list(2, &[&MET, &MET])] {
            is_refused(&[&outer, deep.as_slice()].concat(), 1);
        }
        for deep in [negated(1, &NONE_OF_ANY), list(2, &[&NONE_OF_ALL])] {
            is_refused(&[&outer, deep.as_slice()].concat(), 1);
        }
    }
}

#[test]
fn each_condition_of_a_list_is_as_deep_as_it_is() {
    let (six, seven) = (negated(6, &MET), negated(7, &MET));
    answers(&list(1, &[&six, &six, &MET, &six]), 1);
    for place in 0..3 {
        let mut conditions = [six.as_slice(); 3];
        conditions[place] = &seven;
        is_refused(&list(1, &conditions), 1);
        is_refused(&list(2, &conditions), 1);
    }
}

#[test]
fn reading_agrees_with_the_depth() {
    let mut condition = Condition::AnyOf(vec![]);
    for depth in 1..20 {
        assert_eq!(condition.depth(), depth);
        let numbers = [&[18, 1], numbers(&condition).as_slice()].concat();
        let is_read = crate::Request::read(&body(&numbers)).is_some();
        assert_eq!(is_read, depth <= MAX_DEPTH, "{depth} deep");
        let beside = Condition::Privilege(2);
        condition = match depth % 3 {
            0 => Condition::Negated(Box::new(condition)),
            1 => Condition::AllOf(vec![beside, condition]),
            _ => Condition::AnyOf(vec![condition, beside]),
        };
    }
}

/// The numbers that a condition is written in.
fn numbers(condition: &Condition) -> Vec<u64> {
    let inner: Vec<u64> = condition.inner().iter().flat_map(numbers).collect();
    let head = match condition {
        Condition::AllOf(list) => vec![1, list.len() as u64],
        Condition::AnyOf(list) => vec![2, list.len() as u64],
        Condition::Negated(_) => vec![3],
        Condition::Privilege(privilege) => vec![4, (*privilege).into()],
        Condition::Group(sid) => vec![5, (*sid).into()],
    };
    [head, inner].concat()
}

#[test]
fn unknown_kinds() {
    for kind in [0, 6, 7, 18, 127, 128, u32::MAX.into()] {
        is_refused(&[kind], 1);
        is_refused(&[kind, 2], 1);
        is_refused(&[3, kind, 0], 1);
        is_refused(&[2, 2, 4, 2, kind, 2], 1);
    }
}

/// A condition with every kind of number in it, of a byte each.
fn of_every_kind() -> Vec<u64> {
    list(1, &[&list(2, &[&UNMET, &[5, 60]]), &negated(1, &[5, 61]), &MET, &NONE_OF_ALL])
}

#[test]
fn cut_short_anywhere() {
    let whole = of_every_kind();
    answers(&whole, 1);
    for end in 0..whole.len() {
        is_refused(&whole[..end], 1);
    }
    assert_eq!(answer(&[5, 1 << 28])[0], 0);
    let (mut model, _) = asked();
    for cut in [&[18][..], &[18, 1, 5, 0x80], &[18, 1, 5, 0x80, 0x80, 0x80], &[18, 0x80]] {
        assert_eq!(send(&mut model, 0, cut), [1]);
    }
}

#[test]
fn counts_beyond_the_bytes() {
    for kind in [1, 2] {
        for count in [1, 2, 127, 128, 2048, 1 << 31, u32::MAX.into()] {
            is_refused(&[kind, count], 1);
            is_refused(&[&[kind, count + 1], UNMET.as_slice()].concat()[..], 1);
            is_refused(&[3, kind, count], 1);
        }
        is_refused(&[kind, 3, 4, 2, 4, 3], 1);
        is_refused(&[&[kind, u32::MAX.into()], [1, 0].repeat(1000).as_slice()].concat(), 1);
    }
}

#[test]
fn bytes_left() {
    for more in [&[0][..], &[4, 2], &[1, 0]] {
        for condition in [&MET[..], &[5, 60], &NONE_OF_ALL, &NONE_OF_ANY, &of_every_kind()] {
            is_refused(&[condition, more].concat(), 1);
        }
    }
    is_refused(&[1, 1, 4, 2, 4, 2], 1);
    is_refused(&[2, 0, 4, 2], 1);
}

#[test]
fn numbers_in_a_longer_form() {
    let (mut model, handle) = asked();
    let whole = body(&[&[18, handle], of_every_kind().as_slice()].concat());
    assert_eq!(send(&mut model, 0, &whole), [0, 1]);
    for at in 0..whole.len() {
        for longer in [&[whole[at] | 0x80, 0][..], &[whole[at] | 0x80, 0x80, 0]] {
            let bytes = [&whole[..at], longer, &whole[at + 1..]].concat();
            assert_eq!(send(&mut model, 0, &bytes), [1], "the number at {at}");
        }
    }
}

#[test]
fn numbers_of_more_than_32_bits() {
    let over = 1 << 32;
    for condition in [[4, over + 2], [5, over + 60], [over + 4, 2], [1, over], [2, over]] {
        is_refused(&condition, 1);
    }
    is_refused(&[over + 3, 4, 2], 1);
    is_refused(&[5, u64::MAX], 1);
    answers(&[5, u32::MAX.into()], 0);
}

#[test]
fn an_unknown_privilege_anywhere() {
    for (kind, deciding) in [(1, UNMET), (2, MET)] {
        let lists = [[deciding, UNKNOWN], [UNKNOWN, deciding], [UNKNOWN, UNKNOWN]];
        for [first, second] in lists {
            let condition = list(kind, &[&first, &second]);
            is_refused(&condition, 5);
            is_refused(&negated(6, &condition), 5);
            is_refused(&list(1, &[&UNMET, &condition]), 5);
            is_refused(&list(2, &[&MET, &condition, &MET]), 5);
        }
        is_refused(&list(kind, &[&deciding, &negated(6, &UNKNOWN)]), 5);
        is_refused(&list(kind, &[&deciding, &list(kind, &[&deciding, &UNKNOWN])]), 5);
    }
}

#[test]
fn the_order_of_its_refusals() {
    let (mut model, good) = asked();
    let blind = open(&mut model, 0, 0x1E7);
    let other = open(&mut model, 1, 0x1EF);
    for bad in [blind, other, 0, 99, u32::MAX.into()] {
        for condition in [&[6][..], &[4, 37, 0], &[1, 2, 4, 37], &[3; 8], &[]] {
            assert_eq!(ask(&mut model, 0, &[&[18, bad], condition].concat()), [1]);
        }
    }
    for condition in [UNKNOWN, MET] {
        let asks = |handle| [&[18, handle], condition.as_slice()].concat();
        for bad in [other, 0, 99, u32::MAX.into()] {
            assert_eq!(ask(&mut model, 0, &asks(bad)), [2]);
        }
        assert_eq!(ask(&mut model, 0, &asks(blind)), [3]);
        assert_eq!(ask(&mut model, 1, &asks(good)), [2]);
    }
    assert_eq!(ask(&mut model, 0, &[18, good, 4, 37]), [5]);
}

#[test]
fn query_alone_is_enough() {
    let mut model = start();
    let own = open(&mut model, 0, 8);
    assert_eq!(ask(&mut model, 0, &[18, own, 4, TCB.into()]), [0, 1]);
}

#[test]
fn the_handles_token_is_asked_and_not_the_stations() {
    let (mut model, handle) = asked();
    assert_eq!(ask(&mut model, 0, &[18, handle, 4, TCB.into()]), [0, 0], "the station holds it");
    let own = open(&mut model, 0, 8);
    let token = token_of_mut(&mut model, own);
    token.privileges = Privileges { present: ALL_PRIVILEGES, ..Privileges::default() };
    for (asked, expected) in [(handle, 1), (own, 0)] {
        assert_eq!(ask(&mut model, 0, &[18, asked, 4, 2]), [0, expected]);
    }
}

#[test]
fn nothing_changes_not_even_a_used_bit() {
    let mut model = start();
    let own = open(&mut model, 0, 8);
    let before = model.clone();
    for privilege in 2..=36 {
        assert_eq!(ask(&mut model, 0, &[18, own, 4, privilege]), [0, 1]);
    }
    assert_eq!(model, before);
    assert_eq!(model.primary(0).privileges.used, 0);
}

#[test]
fn as_many_as_fit_a_body() {
    let (mut model, handle) = asked();
    let count = ((MAX_BODY - 5) / 2) as u64;
    let many = [&[1, count], MET.repeat(count as usize).as_slice()].concat();
    for (left, expected) in [(vec![], vec![0, 1]), (vec![4], vec![1])] {
        let numbers = [&[18, handle], many.as_slice(), &left].concat();
        assert_eq!(ask(&mut model, 0, &numbers), expected);
    }
    let mut last = [&[18, handle], many.as_slice()].concat();
    *last.last_mut().expect("a privilege") = 3;
    assert_eq!(ask(&mut model, 0, &last), [0, 0]);
    *last.last_mut().expect("a privilege") = 37;
    assert_eq!(ask(&mut model, 0, &last), [5]);
    for deep in [negated(MAX_BODY - 4, &MET), in_lists(1, 1022, &NONE_OF_ANY)] {
        assert_eq!(ask(&mut model, 0, &[&[18, handle], deep.as_slice()].concat()), [1]);
    }
}
