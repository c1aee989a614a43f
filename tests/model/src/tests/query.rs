//! Query, request 4.

use super::{ask, body, handle, open, send, start, status, token_of_mut};
use crate::{Elevation, Group, Level, Model, Privileges, Token, TokenType};

/// A model with a handle on a token whose fields all differ.
fn rich() -> (Model, u64) {
    let mut model = start();
    let made = handle(&mut model, 0, &[3, 50, 1, 0, 0, 0, 0]);
    let token = token_of_mut(&mut model, made);
    *token = Token {
        number: token.number,
        root: 1,
        modified: 300,
        session: 1 << 40,
        user: 50,
        kind: TokenType::Impersonation,
        level: Level::Delegation,
        elevation: Elevation::Limited,
        privileges: Privileges { present: 28, enabled: 4, default: 8, used: 32 },
        groups: vec![Group { sid: 60, attributes: 6 }, Group { sid: 61, attributes: 0xC000_000E }],
        restricting: vec![70, 71, 70],
        write_restricted: true,
        user_deny_only: true,
        owner: 2,
        primary_group: 1,
        dacl: vec![0, 255, 128],
        scope: 77,
        integrity: 8192,
    };
    (model, made)
}

#[test]
fn every_class() {
    let reports: [(u64, Vec<u8>); 13] = [
        (1, body(&[50])),
        (2, body(&[2, 60, 6, 61, 0xC000_000E])),
        (3, body(&[28, 4, 8, 32])),
        (4, body(&[61])),
        (5, body(&[60])),
        (6, vec![3, 0, 255, 128]),
        (7, body(&[2])),
        (8, body(&[3])),
        (9, body(&[2, 1 << 40, 300, 2, 1])),
        (10, body(&[3, 70, 71, 70])),
        (11, body(&[77])),
        (12, body(&[3])),
        (13, body(&[8192])),
    ];
    let (mut model, made) = rich();
    for (class, report) in reports {
        let before = model.clone();
        let size = report.len() as u64;
        let answer = ask(&mut model, 0, &[4, made, class, size]);
        assert_eq!(answer, [vec![0], report].concat(), "class {class}");
        assert_eq!(ask(&mut model, 0, &[4, made, class, 0xFFFF_FFFF]), answer);
        assert_eq!(ask(&mut model, 0, &[4, made, class, size - 1]), body(&[9, size]));
        assert_eq!(ask(&mut model, 0, &[4, made, class, 0]), body(&[9, size]));
        assert_eq!(model, before);
    }
}

#[test]
fn unknown_classes_come_before_the_capacity() {
    let (mut model, made) = rich();
    for class in [0, 14, 15, 127, 128, 0xFFFF_FFFF] {
        assert_eq!(ask(&mut model, 0, &[4, made, class, 0]), [5]);
        assert_eq!(ask(&mut model, 0, &[4, made, class, 1000]), [5]);
    }
}

#[test]
fn the_start_token_has_empty_lists() {
    let mut model = start();
    let own = open(&mut model, 0, 8);
    for (class, report) in [(2, 0), (4, 18), (5, 18), (6, 0), (8, 0), (10, 0), (11, 0), (12, 1)] {
        assert_eq!(ask(&mut model, 0, &[4, own, class, 1]), [0, report]);
    }
}

#[test]
fn the_largest_report_fits_the_buffer() {
    let mut model = start();
    let made = handle(&mut model, 0, &[3, 50, 1, 0, 0, 0, 0]);
    let token = token_of_mut(&mut model, made);
    token.groups = vec![Group { sid: 199, attributes: 0xC000_000F }; 64];
    token.dacl = vec![9; 256];
    assert_eq!(ask(&mut model, 0, &[4, made, 2, 449]).len(), 450);
    assert_eq!(ask(&mut model, 0, &[4, made, 2, 448]), body(&[9, 449]));
    assert_eq!(ask(&mut model, 0, &[4, made, 6, 258]).len(), 259);
    assert_eq!(ask(&mut model, 0, &[4, made, 6, 257]), body(&[9, 258]));
}

#[test]
fn the_order_of_its_refusals() {
    let (mut model, made) = rich();
    let blind = open(&mut model, 0, 1);
    assert_eq!(send(&mut model, 0, &[4, 99, 99]), [1]);
    assert_eq!(status(&mut model, 0, &[4, 99, 99, 0]), 2);
    assert_eq!(status(&mut model, 0, &[4, blind, 99, 0]), 3);
    assert_eq!(status(&mut model, 0, &[4, made, 99, 0]), 5);
    assert_eq!(status(&mut model, 0, &[4, made, 9, 0]), 9);
}
