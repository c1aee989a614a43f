//! Duplicate and restrict, requests 9 and 10.

use super::{ask, body, create, handle, open, start, status, token_of, token_of_mut, with_groups};
use crate::{Elevation, Group, Level, Model, Privileges, Token, TokenType, HANDLES, MAX_GROUPS};

/// A handle on a token with something in every field.
fn full() -> (Model, u64) {
    let (mut model, made) = with_groups(&[(60, 3), (61, 10), (62, 0x10)]);
    let token = token_of_mut(&mut model, made);
    token.elevation = Elevation::Full;
    token.privileges = Privileges { present: 28, enabled: 12, default: 20, used: 1 << 36 };
    token.restricting = vec![70, 71];
    token.write_restricted = true;
    token.user_deny_only = true;
    (token.owner, token.primary_group) = (2, 3);
    token.dacl = vec![1, 2, 3];
    token.scope = 5;
    (model, made)
}

/// The copy's fields beside those that every copy gets anew.
fn expected_copy(model: &Model, made: u64) -> Token {
    Token { number: 3, modified: 3, elevation: Elevation::Default, ..token_of(model, made).clone() }
}

#[test]
fn a_primary_duplicate_keeps_all_but_number_modified_and_elevation() {
    for level in 0..4 {
        let (mut model, made) = full();
        let expected = expected_copy(&model, made);
        let copy = handle(&mut model, 0, &[9, made, 1, level, 3]);
        assert_eq!(*token_of(&model, copy), expected);
        assert_eq!(model.handles[1].unwrap().mask, 3);
    }
}

#[test]
fn an_impersonation_duplicate_has_the_asked_level() {
    for (number, level) in
        [(1, Level::Identification), (2, Level::Impersonation), (3, Level::Delegation)]
    {
        let (mut model, made) = full();
        let kind = TokenType::Impersonation;
        let expected = Token { kind, level, ..expected_copy(&model, made) };
        let copy = handle(&mut model, 0, &[9, made, 2, number, 0x1EF]);
        assert_eq!(*token_of(&model, copy), expected);
    }
}

#[test]
fn an_anonymous_copy_keeps_only_the_used_bits() {
    let (mut model, made) = full();
    let copy = handle(&mut model, 0, &[9, made, 2, 0, 0x1EF]);
    let expected = Token {
        number: 3,
        root: 0,
        modified: 3,
        session: 0,
        user: 7,
        kind: TokenType::Impersonation,
        level: Level::Anonymous,
        elevation: Elevation::Default,
        privileges: Privileges { used: 1 << 36, ..Privileges::default() },
        groups: vec![],
        restricting: vec![],
        write_restricted: false,
        user_deny_only: false,
        owner: 0,
        primary_group: 0,
        dacl: vec![],
        scope: 0,
        integrity: 0,
    };
    assert_eq!(*token_of(&model, copy), expected);
}

#[test]
fn an_impersonation_level_does_not_rise() {
    let mut model = start();
    let own = open(&mut model, 0, 0x1EF);
    for source_level in 0..4 {
        let source = handle(&mut model, 0, &[9, own, 2, source_level, 0x1EF]);
        for level in 0..4 {
            let expected = if level <= source_level { 0 } else { 5 };
            assert_eq!(status(&mut model.clone(), 0, &[9, source, 2, level, 1]), expected);
            let mut primary = model.clone();
            let copy = handle(&mut primary, 0, &[9, source, 1, level, 1]);
            assert_eq!(token_of(&primary, copy).level, Level::Anonymous);
            assert_eq!(token_of(&primary, copy).kind, TokenType::Primary);
        }
    }
}

#[test]
fn duplicate_checks_its_fields() {
    let mut model = start();
    open(&mut model, 0, 0x0A);
    let bad: [[u64; 5]; 9] = [
        [9, 1, 0, 1, 2],
        [9, 1, 3, 1, 2],
        [9, 1, 2, 4, 2],
        [9, 1, 1, 4, 2],
        [9, 1, 2, 1, 0],
        [9, 1, 2, 1, 0x10],
        [9, 1, 2, 1, 0x1EF],
        [9, 1, 2, 1, 4],
        [9, 1, 2, 1, 0x200],
    ];
    for request in bad {
        assert_eq!(ask(&mut model, 0, &request), [5], "{request:?}");
    }
    assert_eq!(status(&mut model, 0, &[9, 1, 2, 1, 8]), 0);
}

#[test]
fn restrict_takes_away() {
    let (mut model, made) = full();
    let mut expected = expected_copy(&model, made);
    expected.privileges = Privileges { present: 16, enabled: 0, default: 16, used: 1 << 36 };
    expected.groups[0].attributes = 0x13;
    expected.groups[2].attributes = 0x10;
    expected.restricting = vec![71];
    let request = [10, made, 0, 0b1100 | 1 << 30, 2, 2, 2, 0, 71, 90];
    let copy = handle(&mut model, 0, &request);
    assert_eq!(*token_of(&model, copy), expected);
    assert_eq!(model.handles[1].unwrap().mask, 0x1EF);
}

#[test]
fn restrict_gives_the_mask_of_the_source_handle() {
    let mut model = start();
    let own = open(&mut model, 0, 0x0A);
    handle(&mut model, 0, &[10, own, 0, 0, 0, 0]);
    assert_eq!(model.handles[1].unwrap().mask, 0x0A);
}

#[test]
fn write_restricted_sets_both_marks_and_0_keeps_them() {
    let mut model = start();
    let own = open(&mut model, 0, 2);
    let marks = |model: &Model, handle| {
        let token = token_of(model, handle);
        (token.write_restricted, token.user_deny_only)
    };
    let plain = handle(&mut model, 0, &[10, own, 0, 0, 0, 0]);
    assert_eq!(marks(&model, plain), (false, false));
    let marked = handle(&mut model, 0, &[10, own, 1, 0, 0, 0]);
    assert_eq!(marks(&model, marked), (true, true));
    let kept = handle(&mut model, 0, &[10, marked, 0, 0, 0, 0]);
    assert_eq!(marks(&model, kept), (true, true));
    token_of_mut(&mut model, plain).user_deny_only = true;
    let half = handle(&mut model, 0, &[10, plain, 0, 0, 0, 0]);
    assert_eq!(marks(&model, half), (false, true));
}

#[test]
fn restrict_keeps_type_and_level() {
    let mut model = start();
    let own = open(&mut model, 0, 2);
    let source = handle(&mut model, 0, &[9, own, 2, 2, 2]);
    let copy = handle(&mut model, 0, &[10, source, 0, 0, 0, 0]);
    let token = token_of(&model, copy);
    assert_eq!((token.kind, token.level), (TokenType::Impersonation, Level::Impersonation));
    assert_eq!((token.number, token.modified), (3, 3));
}

#[test]
fn restrict_checks_its_fields() {
    let (mut model, made) = with_groups(&[(60, 2), (61, 2)]);
    let bad: [&[u64]; 8] = [
        &[10, made, 2, 0, 0, 0],
        &[10, made, 0, 1, 0, 0],
        &[10, made, 0, 2, 0, 0],
        &[10, made, 0, 1 << 37, 0, 0],
        &[10, made, 0, 1 << 63, 0, 0],
        &[10, made, 0, 0, 1, 0, 2],
        &[10, made, 0, 0, 2, 0, 1, 1],
        &[10, made, 0, 0, 3, 0, 0, 1, 0],
    ];
    for request in bad {
        assert_eq!(ask(&mut model, 0, request), [5], "{request:?}");
    }
    assert_eq!(status(&mut model, 0, &[10, made, 1, 1 << 36, 2, 0, 1, 0]), 0);
}

#[test]
fn a_copy_is_a_token_of_its_own() {
    let (mut model, made) = with_groups(&[(60, 2)]);
    let copy = handle(&mut model, 0, &[9, made, 1, 0, 0x1EF]);
    let before = token_of(&model, made).clone();
    assert_eq!(status(&mut model, 0, &[6, copy, 1, 0, 0]), 0);
    assert_eq!(status(&mut model, 0, &[5, copy, 1, 9, 4]), 0);
    assert_eq!(*token_of(&model, made), before);
}

#[test]
fn all_denied_groups_stay_in_their_places() {
    let (mut model, made) = with_groups(&[(60, 2); MAX_GROUPS]);
    let indexes: Vec<u64> = (0..MAX_GROUPS as u64).rev().collect();
    let request = [vec![10, made, 0, 0, MAX_GROUPS as u64, 0], indexes].concat();
    let copy = handle(&mut model, 0, &request);
    assert_eq!(token_of(&model, copy).groups, [Group { sid: 60, attributes: 0x12 }; MAX_GROUPS]);
}

#[test]
fn bad_fields_come_before_a_full_table() {
    let mut model = start();
    let own = open(&mut model, 0, 0x1EF);
    for _ in 1..HANDLES {
        open(&mut model, 0, 1);
    }
    assert_eq!(ask(&mut model, 0, &[9, own, 3, 0, 1]), [5]);
    assert_eq!(ask(&mut model, 0, &[9, own, 1, 0, 1]), [8]);
    assert_eq!(ask(&mut model, 0, &[10, own, 2, 0, 0, 0]), [5]);
    assert_eq!(ask(&mut model, 0, &[10, own, 0, 0, 0, 0]), [8]);
    assert_eq!(ask(&mut model, 0, &create(&[])), body(&[8]));
}
