//! Roots: whom a token descends from, and class 9, which tells it.

use super::{ask, body, create, handle, open, start, status, token_of, token_of_mut};
use crate::{Model, NO_ROOT};

/// Duplicates with all rights: a primary one, one for impersonation, an anonymous one.
fn primary(source: u64) -> [u64; 5] {
    [9, source, 1, 0, 0x1EF]
}
fn impersonation(source: u64) -> [u64; 5] {
    [9, source, 2, 1, 0x1EF]
}
fn anonymous(source: u64) -> [u64; 5] {
    [9, source, 2, 0, 0x1EF]
}

/// Request 10 that takes nothing away.
fn restrict(source: u64) -> [u64; 6] {
    [10, source, 0, 0, 0, 0]
}

fn root(model: &Model, handle: u64) -> u64 {
    token_of(model, handle).root
}

#[test]
fn started_and_created_tokens_are_their_own_roots() {
    let mut model = start();
    assert_eq!(model.primary(0).root, 1);
    let own = open(&mut model, 0, 0x1EF);
    assert_eq!(root(&model, own), 1);
    for number in 2..5 {
        let made = handle(&mut model, 0, &create(&[]));
        assert_eq!(root(&model, made), number);
    }
}

#[test]
fn a_created_token_does_not_descend_from_its_maker() {
    let mut model = start();
    let own = open(&mut model, 0, 0x1EF);
    let copy = handle(&mut model, 0, &primary(own));
    assert_eq!(status(&mut model, 0, &[11, copy]), 0);
    assert_eq!(model.primary(0).root, 1);
    let made = handle(&mut model, 0, &create(&[]));
    assert_eq!((token_of(&model, made).number, root(&model, made)), (3, 3));
}

#[test]
fn copies_of_copies_have_the_oldest_as_their_root() {
    let mut model = start();
    let made = handle(&mut model, 0, &create(&[]));
    for copy in [primary, impersonation] {
        let first = handle(&mut model, 0, &copy(made));
        let second = handle(&mut model, 0, &restrict(first));
        let third = handle(&mut model, 0, &primary(second));
        for handle in [first, second, third] {
            assert_eq!(root(&model, handle), 2);
        }
    }
}

#[test]
fn a_root_may_be_gone() {
    let mut model = start();
    let made = handle(&mut model, 0, &create(&[]));
    let copy = handle(&mut model, 0, &primary(made));
    assert_eq!(status(&mut model, 0, &[2, made]), 0);
    assert_eq!(model.token(2), None);
    let last = handle(&mut model, 0, &restrict(copy));
    assert_eq!((root(&model, copy), root(&model, last)), (2, 2));
    let next = handle(&mut model, 0, &create(&[]));
    assert_eq!(root(&model, next), 5);
}

#[test]
fn an_anonymous_copy_has_no_root_and_so_has_all_that_is_made_from_it() {
    let mut model = start();
    let own = open(&mut model, 0, 0x1EF);
    let stripped = handle(&mut model, 0, &anonymous(own));
    let again = handle(&mut model, 0, &anonymous(stripped));
    let restricted = handle(&mut model, 0, &restrict(stripped));
    let of_type_1 = handle(&mut model, 0, &primary(stripped));
    let of_that = handle(&mut model, 0, &impersonation(of_type_1));
    let last = handle(&mut model, 0, &restrict(of_that));
    for handle in [stripped, again, restricted, of_type_1, of_that, last] {
        assert_eq!(root(&model, handle), NO_ROOT);
    }
    assert_eq!(root(&model, own), 1);
}

#[test]
fn a_primary_copy_at_level_0_is_not_stripped_of_its_root() {
    let mut model = start();
    let own = open(&mut model, 0, 0x1EF);
    let copy = handle(&mut model, 0, &primary(own));
    let of_level_1 = handle(&mut model, 0, &impersonation(own));
    let back = handle(&mut model, 0, &primary(of_level_1));
    for handle in [copy, of_level_1, back] {
        assert_eq!(root(&model, handle), 1);
    }
}

#[test]
fn adjusting_and_installing_leave_the_root() {
    let mut model = start();
    let own = open(&mut model, 0, 0x1EF);
    let copy = handle(&mut model, 0, &primary(own));
    let requests: [&[u64]; 5] = [
        &[5, copy, 1, 9, 4],
        &[6, copy, 1, 0xFFFF_FFFF, 0],
        &[7, copy, 5],
        &[8, copy, 0, 0, 1, 0],
        &[11, copy],
    ];
    for request in requests {
        assert_eq!(status(&mut model, 0, request), 0, "{request:?}");
        assert_eq!(root(&model, copy), 1, "{request:?}");
    }
}

#[test]
fn class_9_gives_the_root_as_its_fifth_number() {
    let mut model = start();
    let own = open(&mut model, 0, 0x1EF);
    let copy = handle(&mut model, 0, &primary(own));
    let made = handle(&mut model, 0, &create(&[]));
    let stripped = handle(&mut model, 0, &anonymous(made));
    let reports: [(u64, [u64; 5]); 4] = [
        (own, [1, 999, 1, 1, 1]),
        (copy, [2, 999, 2, 1, 1]),
        (made, [3, 9, 3, 1, 3]),
        (stripped, [4, 0, 4, 2, 0]),
    ];
    for (handle, report) in reports {
        assert_eq!(ask(&mut model, 0, &[4, handle, 9, 64]), [vec![0], body(&report)].concat());
    }
}

#[test]
fn the_root_counts_for_the_reports_size() {
    for (root, size) in [(NO_ROOT, 1), (127, 1), (128, 2), (1 << 35, 6), (u64::MAX - 1, 10)] {
        let mut model = Model { next_token: u64::MAX - 1, ..start() };
        let made = handle(&mut model, 0, &[3, 50, 0, 0, 0, 0, 0]);
        token_of_mut(&mut model, made).root = root;
        let size = 10 + 1 + 10 + 1 + size;
        assert_eq!(ask(&mut model, 0, &[4, made, 9, size - 1]), body(&[9, size]));
        assert_eq!(ask(&mut model, 0, &[4, made, 9, size]).len() as u64, 1 + size);
    }
}

#[test]
fn the_last_numbers_token_is_its_own_root() {
    let mut model = Model { next_token: u64::MAX - 1, ..start() };
    let made = handle(&mut model, 0, &create(&[]));
    assert_eq!(root(&model, made), u64::MAX - 1);
    assert_eq!(status(&mut model, 0, &primary(made)), 8);
}
