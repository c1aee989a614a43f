//! Scope and default, requests 7 and 8.

use super::{ask, body, create, handle, open, send, start, status, token_of, with_groups};

const NO_CHANGE: u64 = 0xFFFF;

#[test]
fn scope_changes_nothing_else_but_modified_and_used() {
    let mut model = start();
    let made = handle(&mut model, 0, &create(&[(60, 2)]));
    let mut expected = model.clone();
    let token = expected.tokens[1].as_mut().unwrap();
    (token.scope, token.modified) = (u32::MAX, 3);
    expected.tokens[0].as_mut().unwrap().privileges.used |= 1 << 7;
    assert_eq!(ask(&mut model, 0, &[7, made, u64::from(u32::MAX)]), [0]);
    assert_eq!(model, expected);
}

#[test]
fn scope_needs_tcb_on_the_callers_own_token() {
    let mut model = start();
    let made = handle(&mut model, 0, &create(&[]));
    let own = open(&mut model, 0, 0x1EF);
    let blind = open(&mut model, 0, 8);
    assert_eq!(status(&mut model, 0, &[5, own, 1, 7, 0]), 0);
    assert_eq!(status(&mut model, 0, &[5, made, 1, 7, 2]), 0);
    assert_eq!(ask(&mut model, 0, &[7, made, 1]), [4]);
    assert_eq!(ask(&mut model, 0, &[7, blind, 1]), [3]);
    assert_eq!(ask(&mut model, 0, &[7, 99, 1]), [2]);
    assert_eq!(model.primary(0).privileges.used, 1 << 2);
    assert_eq!(status(&mut model, 0, &[5, own, 1, 7, 2]), 0);
    assert_eq!(status(&mut model, 0, &[7, made, 1]), 0);
}

#[test]
fn owner_is_the_user_or_an_owner_group() {
    let (mut model, made) = with_groups(&[(60, 2), (61, 10), (62, 0x18)]);
    for (owner, expected) in [(0, 0), (1, 5), (2, 0), (3, 0), (4, 5), (0xFFFE, 5)] {
        let answer = status(&mut model, 0, &[8, made, owner, NO_CHANGE, 0, 0]);
        assert_eq!(answer, expected, "{owner}");
    }
    assert_eq!(token_of(&model, made).owner, 3);
    assert_eq!(ask(&mut model, 0, &[4, made, 4, 9]), body(&[0, 62]));
}

#[test]
fn primary_group_is_the_user_or_any_group() {
    let (mut model, made) = with_groups(&[(60, 2), (61, 10)]);
    for (group, expected) in [(0, 0), (1, 0), (2, 0), (3, 5), (0xFFFE, 5)] {
        let answer = status(&mut model, 0, &[8, made, NO_CHANGE, group, 0, 0]);
        assert_eq!(answer, expected, "{group}");
    }
    assert_eq!(token_of(&model, made).primary_group, 2);
    assert_eq!(token_of(&model, made).owner, 0);
}

#[test]
fn no_change_changes_modified_only() {
    let (mut model, made) = with_groups(&[(60, 10)]);
    assert_eq!(send(&mut model, 0, &[8, made as u8, 1, 1, 1, 2, 7, 8]), [0]);
    let mut expected = token_of(&model, made).clone();
    expected.modified += 1;
    assert_eq!(ask(&mut model, 0, &[8, made, NO_CHANGE, NO_CHANGE, 0, 0]), [0]);
    assert_eq!(*token_of(&model, made), expected);
    assert_eq!((expected.owner, expected.primary_group, expected.dacl), (1, 1, vec![7, 8]));
}

fn default_with_dacl(made: u64, flag: u64, dacl: &[u8]) -> Vec<u8> {
    let numbers = [8, made, NO_CHANGE, NO_CHANGE, flag, dacl.len() as u64];
    [body(&numbers), dacl.to_vec()].concat()
}

#[test]
fn the_dacl_is_kept_replaced_or_cleared() {
    let (mut model, made) = with_groups(&[]);
    for length in [0, 1, 127, 128, 255, 256] {
        let dacl = vec![0xA5; length];
        assert_eq!(send(&mut model, 0, &default_with_dacl(made, 1, &dacl)), [0]);
        assert_eq!(token_of(&model, made).dacl, dacl);
    }
    assert_eq!(send(&mut model, 0, &default_with_dacl(made, 0, &[])), [0]);
    assert_eq!(token_of(&model, made).dacl.len(), 256);
    assert_eq!(send(&mut model, 0, &default_with_dacl(made, 1, &[9])), [0]);
    assert_eq!(token_of(&model, made).dacl, [9]);
    assert_eq!(send(&mut model, 0, &default_with_dacl(made, 1, &[])), [0]);
    assert_eq!(token_of(&model, made).dacl, []);
}

#[test]
fn bad_dacls() {
    let (mut model, made) = with_groups(&[]);
    for (flag, length) in [(0, 1), (0, 256), (1, 257), (1, 1000), (2, 0), (2, 1), (0xFFFF, 0)] {
        let request = default_with_dacl(made, flag, &vec![1; length]);
        assert_eq!(send(&mut model, 0, &request), [5], "{flag} {length}");
        assert_eq!(send(&mut model, 0, &[request, vec![0]].concat()), [1]);
    }
    assert_eq!(ask(&mut model, 0, &[8, made, 0, 0, 1, u64::from(u32::MAX), 1]), [1]);
    assert_eq!(ask(&mut model, 0, &[8, made, 0, 0, 1, 257]), [1]);
}
