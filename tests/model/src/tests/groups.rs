//! Groups, request 6.

use super::{ask, body, handle, open, send, start, status, token_of, with_groups};
use crate::adjust::ENABLED_WORDS;
use crate::{Group, Model};

const LOGON: u64 = 0xC000_0000;
const RESET: u64 = 0xFFFF_FFFF;

/// Mandatory, logon, user, plain enabled, plain disabled, deny-only.
const GROUPS: [(u64, u64); 6] = [(60, 3), (61, LOGON | 2), (50, 2), (62, 2), (63, 8), (64, 0x10)];

/// The answer's body: the status, then the words, of which groups here fill one.
fn report(first: u64) -> Vec<u8> {
    let mut words = [0; ENABLED_WORDS];
    words[0] = first;
    [body(&[0]), body(&words)].concat()
}

fn enabled(model: &Model, made: u64) -> Vec<bool> {
    token_of(model, made).groups.iter().map(|group| group.has(Group::ENABLED)).collect()
}

#[test]
fn it_enables_and_disables() {
    let (mut model, made) = with_groups(&GROUPS);
    assert_eq!(ask(&mut model, 0, &[6, made, 2, 3, 0, 4, 1]), report(0b001111));
    assert_eq!(enabled(&model, made), [true, true, true, false, true, false]);
    assert_eq!(ask(&mut model, 0, &[6, made, 1, 3, 1]), report(0b010111));
    assert_eq!(token_of(&model, made).modified, 4);
}

#[test]
fn mandatory_logon_and_deny_only_groups_are_protected_either_way() {
    let (mut model, made) = with_groups(&GROUPS);
    for index in [0, 1, 5] {
        for enable in [0, 1] {
            assert_eq!(ask(&mut model, 0, &[6, made, 1, index, enable]), [6]);
            assert_eq!(ask(&mut model, 0, &[6, made, 2, 3, 0, index, enable]), [6]);
            assert_eq!(ask(&mut model, 0, &[6, made, 2, index, enable, 4, 1]), [6]);
        }
    }
}

#[test]
fn a_group_with_the_users_sid_is_protected_on_disabling() {
    let (mut model, made) = with_groups(&GROUPS);
    assert_eq!(ask(&mut model, 0, &[6, made, 1, 2, 0]), [6]);
    assert_eq!(ask(&mut model, 0, &[6, made, 2, 3, 0, 2, 0]), [6]);
    assert_eq!(ask(&mut model, 0, &[6, made, 2, 3, 0, 2, 1]), report(0b001111));
    assert_eq!(enabled(&model, made), [true, true, true, false, false, false]);
}

#[test]
fn other_groups_are_not_protected() {
    let (mut model, made) = with_groups(&GROUPS);
    for index in [3, 4] {
        for enable in [0, 0, 1, 1] {
            assert_eq!(status(&mut model, 0, &[6, made, 1, index, enable]), 0);
        }
    }
}

#[test]
fn a_group_is_protected_by_each_of_its_kinds() {
    let (mut model, made) = with_groups(&[(50, 3), (50, LOGON | 2), (60, LOGON | 11), (61, 0x18)]);
    for (index, enable) in [(0, 1), (1, 1), (2, 0), (2, 1), (3, 0), (3, 1)] {
        assert_eq!(ask(&mut model, 0, &[6, made, 1, index, enable]), [6]);
    }
}

#[test]
fn groups_that_request_10_made_deny_only_are_protected() {
    let (mut model, made) = with_groups(&GROUPS);
    let copy = handle(&mut model, 0, &[10, made, 0, 0, 4, 0, 0, 1, 2, 3]);
    for index in 0..4 {
        for enable in [0, 1] {
            assert_eq!(ask(&mut model, 0, &[6, copy, 1, index, enable]), [6]);
        }
    }
    assert_eq!(status(&mut model, 0, &[6, made, 1, 3, 0]), 0);
}

#[test]
fn entries_are_checked_before_protection() {
    let (mut model, made) = with_groups(&GROUPS);
    let bad: [&[u64]; 12] = [
        &[],
        &[6, 1],
        &[3, 2],
        &[3, 0, 3, 1],
        &[RESET, 1],
        &[RESET, 0, 3, 0],
        &[0, 0, 6, 0],
        &[6, 0, 0, 0],
        &[0, 1, 6, 1],
        &[5, 2, 5, 0],
        &[0, 0, 0, 0],
        &[3, 0, RESET, 0],
    ];
    for entries in bad {
        let request = [&[6, made, entries.len() as u64 / 2], entries].concat();
        assert_eq!(ask(&mut model, 0, &request), [5], "{entries:?}");
    }
}

#[test]
fn reset_restores_the_defaults_but_not_of_deny_only() {
    let (mut model, made) = with_groups(&GROUPS);
    let copy = handle(&mut model, 0, &[10, made, 0, 0, 1, 0, 0]);
    assert_eq!(status(&mut model, 0, &[6, copy, 2, 3, 0, 4, 1]), 0);
    assert_eq!(ask(&mut model, 0, &[6, copy, 1, RESET, 0]), report(0b010110));
    assert_eq!(enabled(&model, copy), [false, true, true, true, false, false]);
    assert_eq!(token_of(&model, copy).groups[0].attributes, 0x13);
}

#[test]
fn reset_is_not_refused_for_protected_groups() {
    let (mut model, made) = with_groups(&GROUPS);
    assert_eq!(ask(&mut model, 0, &[6, made, 1, RESET, 0]), report(0b001111));
    assert_eq!(enabled(&model, made), [true, true, true, true, false, false]);
}

#[test]
fn reset_without_groups_steps_modified() {
    let mut model = start();
    let own = open(&mut model, 0, 0x40);
    assert_eq!(ask(&mut model, 0, &[6, own, 1, RESET, 0]), report(0));
    assert_eq!(model.primary(0).modified, 2);
    assert_eq!(ask(&mut model, 0, &[6, own, 1, 0, 0]), [5]);
}

#[test]
fn the_report_of_64_groups() {
    let (mut model, made) = with_groups(&[(60, 2); 64]);
    assert_eq!(ask(&mut model, 0, &[6, made, 1, 63, 0]), report(u64::MAX));
    assert_eq!(ask(&mut model, 0, &[6, made, 1, 64, 0]), [5]);
    assert_eq!(ask(&mut model, 0, &[6, made, 1, 63, 1]), report(u64::MAX >> 1));
}

#[test]
fn all_64_groups_at_once() {
    let (mut model, made) = with_groups(&[(60, 2); 64]);
    let entries: Vec<u64> = (0..64).flat_map(|index| [index, 0]).collect();
    let request = [&[6, made, 64], entries.as_slice()].concat();
    assert_eq!(ask(&mut model, 0, &request), report(u64::MAX));
    assert!(enabled(&model, made).iter().all(|&enabled| !enabled));
}

#[test]
fn a_group_of_another_tokens_user_is_not_protected() {
    let (mut model, made) = with_groups(&[(18, 2)]);
    assert_eq!(status(&mut model, 0, &[6, made, 1, 0, 0]), 0);
}

#[test]
fn layout_comes_first() {
    let (mut model, made) = with_groups(&GROUPS);
    assert_eq!(send(&mut model, 0, &[6, made as u8, 2, 0, 0]), [1]);
    assert_eq!(send(&mut model, 0, &[6, made as u8, 1, 0, 0, 0]), [1]);
}
