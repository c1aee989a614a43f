//! Create, request 3.

use super::{ask, create, handle, open, start, status, token_of};
use crate::{Elevation, Group, Level, Privileges, Token, TokenType};

const LOGON: u64 = 0xC000_0000;

fn with_group(sid: u64, attributes: u64) -> u8 {
    status(&mut start(), 0, &create(&[(sid, attributes)]))
}

#[test]
fn it_makes_a_primary_token() {
    let mut model = start();
    let request = [3, 50, u64::MAX, 4096, 0b11100, 0b01000, 2, 60, 2, 61, 8];
    let made = handle(&mut model, 0, &request);
    let expected = Token {
        number: 2,
        root: 2,
        modified: 2,
        session: u64::MAX,
        user: 50,
        kind: TokenType::Primary,
        level: Level::Anonymous,
        elevation: Elevation::Default,
        privileges: Privileges { present: 0b11100, enabled: 0b1000, default: 0b1000, used: 0 },
        groups: vec![Group { sid: 60, attributes: 6 }, Group { sid: 61, attributes: 8 }],
        restricting: vec![],
        write_restricted: false,
        user_deny_only: false,
        owner: 0,
        primary_group: 0,
        dacl: vec![],
        scope: 0,
        integrity: 4096,
    };
    assert_eq!(*token_of(&model, made), expected);
    assert_eq!(model.handles[0].unwrap().mask, 0x1EF);
    assert_eq!(model.primary(0).privileges.used, 1 << 2);
    assert_eq!(model.primary(0).modified, 1);
}

#[test]
fn it_needs_the_privilege_before_good_fields() {
    let mut model = start();
    let own = open(&mut model, 0, 0x20);
    assert_eq!(status(&mut model, 0, &[5, own, 1, 2, 0]), 0);
    assert_eq!(ask(&mut model, 0, &[3, 50, 9, 4096, 0, 0, 0]), [4]);
    assert_eq!(ask(&mut model, 0, &[3, 50, 9, 4097, 1, 2, 0]), [4]);
    assert_eq!(ask(&mut model, 0, &[3, 50, 9, 4097, 1, 2]), [1]);
    assert_eq!(model.primary(0).privileges.used, 0);
    assert_eq!(status(&mut model, 0, &[5, own, 1, 2, 2]), 0);
    assert_eq!(status(&mut model, 0, &[3, 50, 9, 4096, 0, 0, 0]), 0);
}

#[test]
fn integrity_has_five_values() {
    for integrity in [0, 4096, 8192, 12288, 16384] {
        assert_eq!(status(&mut start(), 0, &[3, 50, 9, integrity, 0, 0, 0]), 0);
    }
    for integrity in [1, 4095, 4097, 16385, 20480, 0xFFFF_FFFF] {
        assert_eq!(ask(&mut start(), 0, &[3, 50, 9, integrity, 0, 0, 0]), [5]);
    }
}

#[test]
fn privileges_are_within_limits() {
    let words = [(4, 4, 0), (4, 0, 0), (4, 8, 5), (1, 0, 5), (2, 0, 5), (3, 3, 5), (0, 4, 5)];
    for (present, default, expected) in words {
        let mut model = start();
        assert_eq!(status(&mut model, 0, &[3, 50, 9, 0, present, default, 0]), expected);
    }
    assert_eq!(status(&mut start(), 0, &[3, 50, 9, 0, 1 << 36, 1 << 36, 0]), 0);
    assert_eq!(status(&mut start(), 0, &[3, 50, 9, 0, 1 << 37, 0, 0]), 5);
    assert_eq!(status(&mut start(), 0, &[3, 50, 9, 0, u64::MAX, 0, 0]), 5);
}

#[test]
fn sixty_four_groups_and_no_more() {
    let groups = vec![(60, 2); 65];
    let mut model = start();
    let made = handle(&mut model, 0, &create(&groups[..64]));
    assert_eq!(token_of(&model, made).groups, [Group { sid: 60, attributes: 6 }; 64]);
    assert_eq!(ask(&mut model, 0, &create(&groups)), [5]);
    let mut short = create(&groups);
    short.pop();
    assert_eq!(ask(&mut model, 0, &short), [1]);
}

#[test]
fn attributes_are_rule_3s() {
    for attributes in [0, 2, 3, 8, 10, 11, 0x10, 0x18, LOGON | 2, LOGON | 11] {
        assert_eq!(with_group(60, attributes), 0, "{attributes:X}");
    }
    for attributes in [4, 6, 0x20, 0x40, 0x100, 0x2000_0000, 0x22] {
        assert_eq!(with_group(60, attributes), 5, "{attributes:X}");
    }
}

#[test]
fn the_logon_bits_come_together() {
    assert_eq!(with_group(60, 0x8000_0002), 5);
    assert_eq!(with_group(60, 0x4000_0002), 5);
    assert_eq!(with_group(60, LOGON | 2), 0);
}

#[test]
fn fixed_groups_are_enabled_by_default() {
    assert_eq!(with_group(60, 1), 5);
    assert_eq!(with_group(60, LOGON), 5);
    assert_eq!(with_group(50, 0), 5);
    assert_eq!(with_group(50, 8), 5);
    assert_eq!(with_group(50, 2), 0);
    assert_eq!(with_group(50, 10), 0);
}

#[test]
fn deny_only_groups_are_not_enabled_by_default() {
    assert_eq!(with_group(60, 0x12), 5);
    assert_eq!(with_group(60, 0x13), 5);
    assert_eq!(with_group(60, 0x11), 5);
    assert_eq!(with_group(50, 0x10), 5);
    assert_eq!(with_group(60, LOGON | 0x10), 5);
    assert_eq!(with_group(60, 0x10), 0);
}

#[test]
fn any_bad_group_is_refused() {
    let mut model = start();
    for at in 0..5 {
        let mut groups = vec![(60, 2); 5];
        groups[at].1 = 4;
        assert_eq!(ask(&mut model, 0, &create(&groups)), [5]);
    }
}

#[test]
fn bad_fields_come_before_a_full_table() {
    let mut model = start();
    model.next_token = u64::MAX;
    assert_eq!(ask(&mut model, 0, &[3, 50, 9, 1, 0, 0, 0]), [5]);
    assert_eq!(ask(&mut model, 0, &[3, 50, 9, 0, 0, 0, 0]), [8]);
    assert_eq!(model.primary(0).privileges.used, 0);
}

#[test]
fn any_user_in_the_table_and_any_session_will_do() {
    let mut model = start();
    assert_eq!(status(&mut model, 0, &[3, 7, 0, 0, 0, 0, 0]), 0);
    assert_eq!(status(&mut model, 0, &[3, 199, u64::MAX, 0, 0, 0, 1, 7, 0]), 0);
}
