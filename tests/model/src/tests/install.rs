//! Install, request 11.

use super::{ask, create, handle, open, start, status, token_of_mut};

const ASSIGN: u64 = 1 << 3;
const TCB: u64 = 1 << 7;

#[test]
fn it_replaces_the_stations_token_and_frees_the_old_one() {
    let mut model = start();
    let first = handle(&mut model, 0, &create(&[]));
    assert_eq!(ask(&mut model, 0, &[11, first]), [0]);
    assert_eq!(model.stations[0].token, 2);
    assert!(model.token(1).is_some(), "seven stations still have it");
    let privileges = &mut token_of_mut(&mut model, first).privileges;
    privileges.enabled = privileges.present;
    let second = handle(&mut model, 0, &create(&[]));
    assert_eq!(status(&mut model, 0, &[2, first]), 0);
    assert!(model.token(2).is_some(), "the station has it");
    assert_eq!(ask(&mut model, 0, &[11, second]), [0]);
    assert!(model.token(2).is_none());
    assert!(model.tokens[1].is_none());
    assert_eq!(model.primary(0).number, 3);
}

#[test]
fn used_bits_fall_on_the_token_before() {
    let mut model = start();
    let made = handle(&mut model, 0, &create(&[]));
    model.tokens[0].as_mut().unwrap().privileges.used = 0;
    assert_eq!(ask(&mut model, 0, &[11, made]), [0]);
    assert_eq!(model.token(1).unwrap().privileges.used, ASSIGN | TCB);
    assert_eq!(model.token(2).unwrap().privileges.used, 0);
    assert_eq!(model.token(1).unwrap().modified, 1);
    assert_eq!(model.token(2).unwrap().modified, 2);
}

#[test]
fn tcb_is_used_only_if_user_or_session_differs() {
    for (user, session, used) in [
        (18, 999, ASSIGN),
        (18, 998, ASSIGN | TCB),
        (50, 999, ASSIGN | TCB),
        (50, 998, ASSIGN | TCB),
    ] {
        let mut model = start();
        let made = handle(&mut model, 0, &[3, user, session, 0, 0, 0, 0]);
        model.tokens[0].as_mut().unwrap().privileges.used = 0;
        assert_eq!(ask(&mut model, 0, &[11, made]), [0]);
        assert_eq!(model.token(1).unwrap().privileges.used, used);
    }
}

#[test]
fn without_tcb_user_and_session_must_match() {
    for (user, session, expected) in [(18, 999, 0), (18, 998, 7), (50, 999, 7), (50, 998, 7)] {
        let mut model = start();
        let made = handle(&mut model, 0, &[3, user, session, 0, 0, 0, 0]);
        let own = open(&mut model, 0, 0x20);
        assert_eq!(status(&mut model, 0, &[5, own, 1, 7, 0]), 0);
        assert_eq!(ask(&mut model, 0, &[11, made]), [expected]);
    }
}

#[test]
fn the_order_of_its_refusals() {
    let mut model = start();
    let own = open(&mut model, 0, 0x1EF);
    let blind = open(&mut model, 0, 0x1EE);
    let other = handle(&mut model, 0, &create(&[]));
    let copy = handle(&mut model, 0, &[9, other, 2, 2, 0x1EF]);
    assert_eq!(status(&mut model, 0, &[5, own, 2, 3, 0, 7, 0]), 0);
    assert_eq!(ask(&mut model, 0, &[11, copy, 0]), [1]);
    assert_eq!(ask(&mut model, 0, &[11, 99]), [2]);
    assert_eq!(ask(&mut model, 0, &[11, blind]), [3]);
    assert_eq!(ask(&mut model, 0, &[11, copy]), [4]);
    assert_eq!(status(&mut model, 0, &[5, own, 1, 3, 2]), 0);
    assert_eq!(ask(&mut model, 0, &[11, copy]), [5]);
    assert_eq!(ask(&mut model, 0, &[11, other]), [7]);
    assert_eq!(ask(&mut model, 0, &[11, own]), [0]);
}

#[test]
fn installing_the_own_token_marks_one_use() {
    let mut model = start();
    let own = open(&mut model, 0, 1);
    let mut expected = model.clone();
    expected.tokens[0].as_mut().unwrap().privileges.used = ASSIGN;
    assert_eq!(ask(&mut model, 0, &[11, own]), [0]);
    assert_eq!(model, expected);
}

#[test]
fn a_request_is_held_to_the_new_token_at_once() {
    let mut model = start();
    let made = handle(&mut model, 0, &[3, 50, 9, 0, 0, 0, 0]);
    assert_eq!(ask(&mut model, 0, &[11, made]), [0]);
    assert_eq!(ask(&mut model, 0, &create(&[])), [4]);
    assert_eq!(ask(&mut model, 0, &[11, made]), [4]);
    assert_eq!(ask(&mut model, 0, &[7, made, 1]), [4]);
    assert_eq!(status(&mut model, 1, &create(&[])), 0);
}
