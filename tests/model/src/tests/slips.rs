//! The slips that document 01 has already seen.

use super::{ask, body, create, handle, open, start, status, token_of};
use crate::{framed, MIN_BUFFER};

#[test]
fn a_primary_duplicate_at_level_0_is_not_stripped() {
    let mut model = start();
    let own = open(&mut model, 0, 0x1EF);
    let copy = handle(&mut model, 0, &[9, own, 1, 0, 0x1EF]);
    let (source, copy) = (token_of(&model, own), token_of(&model, copy));
    assert_eq!(copy.privileges, source.privileges);
    assert_eq!((copy.user, copy.session, copy.integrity), (18, 999, 16384));
}

#[test]
fn an_absent_privilege_may_be_disabled() {
    let mut model = start();
    let own = open(&mut model, 0, 0x20);
    assert_eq!(status(&mut model, 0, &[5, own, 1, 20, 4]), 0);
    assert_eq!(ask(&mut model, 0, &[5, own, 1, 20, 0]), [0, 0, 0]);
}

#[test]
fn a_reset_does_not_enable_a_removed_privilege() {
    let mut model = start();
    let own = open(&mut model, 0, 0x20);
    assert_eq!(status(&mut model, 0, &[5, own, 1, 20, 4]), 0);
    assert_eq!(status(&mut model, 0, &[5, own, 1, 0, 0x8000_0000]), 0);
    let privileges = model.primary(0).privileges;
    assert_eq!((privileges.enabled >> 20 & 1, privileges.default >> 20 & 1), (0, 0));
}

#[test]
fn a_handle_number_is_not_used_again() {
    let mut model = start();
    for number in 1..100 {
        assert_eq!(open(&mut model, 0, 8), number);
        assert_eq!(ask(&mut model, 0, &[2, number]), [0]);
    }
    assert!(model.handles.iter().all(Option::is_none));
}

#[test]
fn a_request_is_bound_to_the_token_at_its_last_byte() {
    let mut model = start();
    let made = handle(&mut model, 0, &[3, 50, 9, 0, 0, 0, 0]);
    let other = handle(&mut model, 1, &[3, 60, 8, 0, 0, 0, 0]);
    let begun = framed(&body(&[1, 8]));
    assert_eq!(model.feed(0, &begun[..2], MIN_BUFFER).answer, []);
    assert_eq!(ask(&mut model, 1, &[11, other]), [0]);
    assert_eq!(model.stations[0].pending, begun[..2]);
    assert_eq!(model.feed(0, &begun[2..], MIN_BUFFER).answer, [2, 0, 3]);
    assert_eq!(token_of(&model, 3).number, 1);

    assert_eq!(ask(&mut model, 0, &[11, made]), [0]);
    let opened = open(&mut model, 0, 8);
    assert_eq!(token_of(&model, opened).user, 50);
}

#[test]
fn a_privilege_lost_before_the_last_byte_is_not_held() {
    let mut model = start();
    let own = open(&mut model, 1, 0x20);
    let begun = framed(&body(&create(&[])));
    let (last, first) = begun.split_last().unwrap();
    assert_eq!(model.feed(0, first, MIN_BUFFER).answer, []);
    assert_eq!(status(&mut model, 1, &[5, own, 1, 2, 4]), 0);
    assert_eq!(model.feed(0, &[*last], MIN_BUFFER).answer, [1, 4]);
}

#[test]
fn a_handle_stays_on_its_token_when_the_station_installs_another() {
    let mut model = start();
    let own = open(&mut model, 0, 8);
    let made = handle(&mut model, 0, &create(&[]));
    assert_eq!(ask(&mut model, 0, &[11, made]), [0]);
    assert_eq!(ask(&mut model, 0, &[4, own, 1, 9]), [0, 18]);
}
