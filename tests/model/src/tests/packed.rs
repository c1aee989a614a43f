//! Requests 14 and 15, and numbers that are not in the table in 3 and 10.

use super::{ask, body, create, handle, open, send, start, status, token_of, token_of_mut};
use crate::{Group, Model, Sid, Token, ALL_PRIVILEGES, HANDLES, MAX_GROUPS, SIDS, TOKENS};

/// A SID that no start has.
fn other(at: u32) -> Sid {
    Sid::new([0, 0, 0, 0, 0, 5], &[21, 1, 2, 3, at]).unwrap()
}

fn others(numbers: std::ops::Range<u32>) -> Vec<Sid> {
    numbers.map(other).collect()
}

/// Request 14 that is otherwise that of [`create`].
fn create_packed(user: Sid, groups: &[(Sid, u64)]) -> Vec<u8> {
    let fields = body(&[9, 8192, ALL_PRIVILEGES, 0, groups.len() as u64]);
    let groups = groups.iter().flat_map(|&(sid, attributes)| [sid.packed(), body(&[attributes])]);
    [vec![14], user.packed(), fields, groups.collect::<Vec<_>>().concat()].concat()
}

/// Groups of these SIDs.
fn as_groups(sids: &[Sid]) -> Vec<(Sid, u64)> {
    sids.iter().map(|&sid| (sid, 2)).collect()
}

/// Request 15 that does nothing but restrict.
fn restrict_packed(source: u64, write_restricted: u64, sids: &[Sid]) -> Vec<u8> {
    let head = body(&[15, source, write_restricted, 0, 0, sids.len() as u64]);
    [head, sids.iter().map(Sid::packed).collect::<Vec<_>>().concat()].concat()
}

/// The token that a request makes.
fn made(model: &mut Model, body: &[u8]) -> Token {
    let answer = send(model, 0, body);
    assert_eq!(answer[0], 0);
    token_of(model, u64::from(model.next_handle) - 1).clone()
}

/// A start with room for so many more SIDs.
fn with_room(room: usize) -> Model {
    let mut model = Model::start();
    for sub_authority in 100.. {
        if model.sids.sids().len() == SIDS - room {
            break;
        }
        model.sids.enter(Sid::nt(sub_authority));
    }
    model
}

fn sids_of(token: &Token) -> Vec<u32> {
    token.groups.iter().map(|group| group.sid).collect()
}

#[test]
fn it_enters_the_user_then_the_groups_each_once() {
    let mut model = Model::start();
    let [a, b, c] = [1, 2, 3].map(other);
    let groups = as_groups(&[b, Sid::nt(18), c, b, a, Sid::nt(7)]);
    let token = made(&mut model, &create_packed(a, &groups));
    assert_eq!((token.user, sids_of(&token)), (32, vec![33, 18, 34, 33, 32, 7]));
    assert_eq!(model.sids.sids()[2..], [a, b, c]);
    let token = made(&mut model, &create_packed(c, &as_groups(&[other(4), a])));
    assert_eq!((token.user, sids_of(&token)), (34, vec![35, 32]));
    assert_eq!(model.sids.sids()[2..], [a, b, c, other(4)]);
}

#[test]
fn it_is_request_3_once_the_sids_have_numbers() {
    let (mut packed, mut plain) = (start(), start());
    let sid = |number| packed.sids.sid(number).unwrap();
    let groups = [(60, 2), (61, 11), (62, 0x10), (50, 3), (18, 0xC000_0002), (60, 8)];
    let request = create_packed(sid(50), &groups.map(|(number, with)| (sid(number as u32), with)));
    assert_eq!(send(&mut packed, 0, &request), ask(&mut plain, 0, &create(&groups)));
    assert_eq!(packed, plain);
}

#[test]
fn the_order_of_its_refusals() {
    let (model, bad, group) = (&mut with_room(1), (other(1), 4), (other(1), 2));
    let own = open(model, 0, 0x1EF);
    assert_eq!(status(model, 0, &[5, own, 1, 2, 0]), 0);
    assert_eq!(send(model, 0, &[create_packed(other(0), &[bad]), vec![0]].concat()), [1]);
    assert_eq!(send(model, 0, &create_packed(other(0), &[bad])), [4]);
    assert_eq!(status(model, 0, &[5, own, 1, 2, 2]), 0);
    assert_eq!(send(model, 0, &create_packed(other(0), &[bad])), [5]);
    assert_eq!(send(model, 0, &create_packed(other(0), &[group])), [8]);
    assert_eq!(made(model, &create_packed(other(0), &[])).user, 285);
}

#[test]
fn a_group_of_the_users_sid_is_told_though_both_are_new() {
    let user = other(1);
    for (attributes, expected) in [(0, 5), (8, 5), (0x10, 5), (2, 0), (10, 0)] {
        let request = create_packed(user, &[(user, attributes)]);
        assert_eq!(send(&mut Model::start(), 0, &request)[0], expected, "{attributes}");
        let another = create_packed(user, &[(other(2), attributes)]);
        assert_eq!(send(&mut Model::start(), 0, &another)[0], 0, "{attributes}");
    }
}

#[test]
fn what_breaks_the_layout_anywhere_is_refusal_1_before_all_others() {
    let request = create_packed(other(1), &as_groups(&others(2..4)));
    let (user, first) = (1, 1 + 28 + body(&[9, 8192, ALL_PRIVILEGES, 0, 2]).len());
    let second = first + 28 + 1;
    assert_eq!(request.len(), second + 28 + 1);
    let mut model = Model::start();
    for at in [user, first, second] {
        for (byte, values) in [(0, vec![0, 2, 255]), (1, vec![0, 4, 6, 15, 16, 255])] {
            for value in values {
                let mut request = request.clone();
                request[at + byte] = value;
                assert_eq!(send(&mut model, 0, &request), [1], "byte {byte} at {at}: {value}");
                assert_eq!(send(&mut model.clone(), 7, &request), [1]);
            }
        }
    }
    for end in 1..request.len() {
        assert_eq!(send(&mut model, 0, &request[..end]), [1], "{end}");
    }
    assert_eq!(send(&mut model, 0, &[&request[..], &[0]].concat()), [1]);
    let own = open(&mut model, 0, 0x1EF);
    assert_eq!(status(&mut model, 0, &[5, own, 1, 2, 0]), 0);
    assert_eq!(send(&mut model, 0, &request[..second]), [1], "and the privilege is not held");
    assert_eq!(send(&mut model, 0, &request), [4]);
}

#[test]
fn a_count_of_0_is_a_sid_and_so_is_the_longest() {
    let mut model = Model::start();
    let empty = Sid::new([0; 6], &[]).unwrap();
    let longest = Sid::new([0xFF; 6], &[u32::MAX; 15]).unwrap();
    let token = made(&mut model, &create_packed(empty, &as_groups(&[longest])));
    assert_eq!((token.user, sids_of(&token)), (32, vec![33]));
}

#[test]
fn a_full_table_refuses_new_ones_and_finds_old_ones() {
    let mut model = with_room(0);
    let (first, last) = (model.sids.sid(32).unwrap(), model.sids.sid(285).unwrap());
    for request in [
        create_packed(other(0), &[]),
        create_packed(first, &as_groups(&[last, other(0)])),
        create_packed(other(0), &as_groups(&[other(0); 3])),
    ] {
        assert_eq!(send(&mut model, 0, &request), [8]);
    }
    let token = made(&mut model, &create_packed(last, &as_groups(&[first, Sid::nt(7)])));
    assert_eq!((token.user, sids_of(&token)), (285, vec![32, 7]));
}

#[test]
fn different_new_ones_count_against_the_room() {
    for room in 1..4u32 {
        let model = with_room(room as usize);
        let fit = [others(0..room), others(0..room), vec![Sid::nt(18)]].concat();
        let token = made(&mut model.clone(), &create_packed(fit[0], &as_groups(&fit)));
        assert_eq!(token.user, 286 - room);
        assert_eq!(*sids_of(&token).iter().max().unwrap(), 285);
        let too_many = as_groups(&others(0..room + 1));
        let own = model.sids.sid(18).unwrap();
        assert_eq!(send(&mut model.clone(), 0, &create_packed(own, &too_many)), [8]);
    }
}

#[test]
fn nothing_is_entered_for_want_of_a_place() {
    let mut model = Model::start();
    model.next_token = u64::MAX;
    assert_eq!(send(&mut model, 0, &create_packed(other(0), &[])), [8]);
    let mut model = Model::start();
    for _ in 0..HANDLES {
        open(&mut model, 0, 2);
    }
    assert_eq!(send(&mut model, 0, &create_packed(other(0), &[])), [8]);
    assert_eq!(send(&mut model, 0, &restrict_packed(1, 0, &[other(0)])), [8]);
    assert_eq!(model.sids, Model::start().sids);
}

#[test]
fn as_many_groups_as_ever() {
    let shortest = Sid::new([0; 6], &[]).unwrap();
    let mut model = Model::start();
    let token = made(&mut model, &create_packed(shortest, &[(shortest, 2); MAX_GROUPS]));
    assert_eq!(token.groups, [Group { sid: 32, attributes: 6 }; MAX_GROUPS]);
    let one_more = create_packed(shortest, &[(shortest, 2); MAX_GROUPS + 1]);
    assert_eq!(send(&mut model, 0, &one_more), [5]);
}

#[test]
fn create_token_is_marked_as_used() {
    let mut model = Model::start();
    made(&mut model, &create_packed(other(0), &[]));
    assert_eq!(model.primary(0).privileges.used, 1 << 2);
    let own = open(&mut model, 0, 2);
    model.tokens[0].as_mut().unwrap().privileges.used = 0;
    made(&mut model, &restrict_packed(own, 0, &[other(1)]));
    assert_eq!(model.primary(0).privileges.used, 0);
}

#[test]
fn an_unrestricted_source_takes_what_is_given_repeats_too() {
    let mut model = Model::start();
    let own = open(&mut model, 0, 2);
    let [a, b] = [1, 2].map(other);
    let token = made(&mut model, &restrict_packed(own, 0, &[b, a, Sid::nt(18), b]));
    assert_eq!(token.restricting, [32, 33, 18, 32]);
    assert_eq!(model.sids.sids()[2..], [b, a]);
    let sixteen = made(&mut model, &restrict_packed(own, 0, &[a; 16]));
    assert_eq!(sixteen.restricting, [33; 16]);
    assert_eq!(send(&mut model, 0, &restrict_packed(own, 0, &[a; 17])), [8]);
    assert_eq!(send(&mut model, 0, &restrict_packed(own, 0, &others(1..18))), [8]);
    assert_eq!(model.sids.sids().len(), 4);
}

#[test]
fn a_restricted_source_keeps_its_own_and_all_given_enter() {
    let mut model = start();
    let own = open(&mut model, 0, 2);
    let source = handle(&mut model, 0, &[10, own, 0, 0, 0, 3, 70, 71, 70]);
    let entered = model.sids.sids().len();
    let given = [other(1), model.sids.sid(71).unwrap(), other(2), other(1)];
    let token = made(&mut model, &restrict_packed(source, 0, &given));
    assert_eq!(token.restricting, [71]);
    assert_eq!(model.sids.sids()[entered..], [other(1), other(2)]);
    let many = [others(10..50), vec![model.sids.sid(70).unwrap()]].concat();
    let token = made(&mut model, &restrict_packed(source, 0, &many));
    assert_eq!(token.restricting, [70, 70]);
    assert_eq!(model.sids.sids().len(), entered + 2 + 40);
    let token = made(&mut model, &restrict_packed(source, 0, &[]));
    assert_eq!(token.restricting, [70, 71, 70]);
}

#[test]
fn none_left_comes_before_a_full_table_and_dropped_ones_count_there() {
    let mut model = with_room(1);
    let own = open(&mut model, 0, 2);
    let source = handle(&mut model, 0, &[10, own, 0, 0, 0, 2, 70, 71]);
    let kept = model.sids.sid(70).unwrap();
    assert_eq!(send(&mut model, 0, &restrict_packed(source, 0, &others(0..2))), [5]);
    assert_eq!(send(&mut model, 0, &restrict_packed(source, 0, &others(0..1))), [5]);
    assert_eq!(send(&mut model, 0, &restrict_packed(source, 1, &[kept, other(0)])), [5]);
    let too_many = [vec![kept], others(0..2)].concat();
    assert_eq!(send(&mut model, 0, &restrict_packed(source, 0, &too_many)), [8]);
    let token = made(&mut model, &restrict_packed(source, 0, &[kept, other(0), other(0)]));
    assert_eq!(token.restricting, [70]);
    assert_eq!(model.sids.number(other(0)), Some(285));
}

#[test]
fn the_order_of_15s_refusals() {
    let mut model = with_room(0);
    let (own, blind) = (open(&mut model, 0, 2), open(&mut model, 0, 8));
    let cut = &restrict_packed(99, 0, &[other(0)])[..20];
    assert_eq!(send(&mut model, 0, cut), [1]);
    assert_eq!(send(&mut model, 0, &restrict_packed(99, 2, &[other(0)])), [2]);
    assert_eq!(send(&mut model, 1, &restrict_packed(own, 2, &[other(0)])), [2]);
    assert_eq!(send(&mut model, 0, &restrict_packed(blind, 2, &[other(0)])), [3]);
    assert_eq!(send(&mut model, 0, &restrict_packed(own, 2, &[other(0)])), [5]);
    assert_eq!(send(&mut model, 0, &restrict_packed(own, 0, &[other(0)])), [8]);
    assert_eq!(send(&mut model, 0, &restrict_packed(own, 0, &[Sid::nt(18)]))[0], 0);
}

#[test]
fn it_is_request_10_once_the_sids_have_numbers() {
    for restricting in [vec![], vec![70, 71]] {
        let mut packed = start();
        let source = handle(&mut packed, 0, &create(&[(60, 2), (61, 2)]));
        token_of_mut(&mut packed, source).restricting = restricting;
        let mut plain = packed.clone();
        let head = [source, 0, 4, 1, 3, 1];
        let sids = [71, 80, 71].map(|number| packed.sids.sid(number).unwrap().packed());
        let request = [body(&[15]), body(&head), sids.concat()].concat();
        let numbers = [&[10][..], &head, &[71, 80, 71]].concat();
        assert_eq!(send(&mut packed, 0, &request), ask(&mut plain, 0, &numbers));
        assert_eq!(packed, plain);
    }
}

/// Numbers that no table has, or not that of [`start`].
const NOT_THERE: [u64; 9] = [0, 6, 8, 17, 19, 31, 200, 286, 0xFFFF_FFFF];

#[test]
fn request_3_takes_numbers_in_the_table_alone() {
    let mut model = start();
    for number in NOT_THERE {
        let mut request = create(&[]);
        request[1] = number;
        assert_eq!(ask(&mut model, 0, &request), [5], "user {number}");
        for groups in [[(number, 2), (60, 2)], [(60, 2), (number, 2)]] {
            assert_eq!(ask(&mut model, 0, &create(&groups)), [5], "{groups:?}");
        }
    }
    for number in [7, 18, 32, 199] {
        assert_eq!(status(&mut start(), 0, &create(&[(number, 2)])), 0);
    }
    let own = open(&mut model, 0, 0x20);
    assert_eq!(status(&mut model, 0, &[5, own, 1, 2, 0]), 0);
    assert_eq!(ask(&mut model, 0, &create(&[(200, 2)])), [4]);
}

#[test]
fn request_10_takes_numbers_in_the_table_alone() {
    let mut model = start();
    let own = open(&mut model, 0, 2);
    let source = handle(&mut model, 0, &[10, own, 0, 0, 0, 2, 70, 71]);
    for number in NOT_THERE {
        assert_eq!(ask(&mut model, 0, &[10, own, 0, 0, 0, 1, number]), [5], "{number}");
        assert_eq!(ask(&mut model, 0, &[10, source, 0, 0, 0, 2, 70, number]), [5], "{number}");
        let many = [vec![10, own, 0, 0, 0, 17], vec![70; 16], vec![number]].concat();
        assert_eq!(ask(&mut model, 0, &many), [5], "and too many");
    }
    assert_eq!(status(&mut model, 0, &[10, source, 0, 0, 0, 2, 70, 199]), 0);
}

#[test]
fn an_unknown_number_comes_before_a_full_list() {
    let mut model = start();
    while model.tokens.iter().flatten().count() < TOKENS {
        handle(&mut model, 0, &create(&[]));
    }
    assert_eq!(ask(&mut model, 0, &create(&[(200, 2)])), [5]);
    assert_eq!(ask(&mut model, 0, &create(&[])), [8]);
    assert_eq!(ask(&mut model, 0, &[10, 1, 0, 0, 0, 1, 200]), [5]);
    assert_eq!(ask(&mut model, 0, &[10, 1, 0, 0, 0, 1, 199]), [8]);
}

#[test]
fn a_condition_may_name_any_number() {
    let mut model = Model::start();
    let own = open(&mut model, 0, 8);
    for number in [0, 31, 32, 0xFFFF_FFFF] {
        assert_eq!(ask(&mut model, 0, &[18, own, 5, number]), [0, 0]);
    }
}

#[test]
fn sids_stay_when_the_token_goes() {
    let mut model = Model::start();
    made(&mut model, &create_packed(other(1), &[]));
    assert_eq!(ask(&mut model, 0, &[2, 1]), [0]);
    assert_eq!(model.sids.number(other(1)), Some(32));
    assert_eq!(made(&mut model, &create_packed(other(2), &[])).user, 33);
}
