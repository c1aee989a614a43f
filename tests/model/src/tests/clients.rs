//! Impersonate and revert, requests 12 and 13.

use super::{ask, body, create, handle, open, send, start, status, token_of, token_of_mut};
use crate::{Client, Level, Model, TokenType, HANDLES, IMPERSONATE, MIN_BUFFER, TOKENS};

const USED: u64 = 1 << IMPERSONATE;
/// The server's integrity, and those below and above.
const EQUAL: u32 = 8192;
const BELOW: u32 = 4096;
const ABOVE: u32 = 12288;

/// What the gates read of the two tokens.
#[derive(Clone, Copy, Debug)]
struct Pair {
    same_user: bool,
    server_restricted: bool,
    client_restricted: bool,
    held: bool,
    integrity: u32,
    level: Level,
}

/// Two unrestricted tokens of one user and integrity, and no privilege.
const ALIKE: Pair = Pair {
    same_user: true,
    server_restricted: false,
    client_restricted: false,
    held: false,
    integrity: EQUAL,
    level: Level::Delegation,
};

/// Station 0 has the server, token 2, and this handle on the client, token 3.
fn staged(pair: Pair) -> (Model, u64) {
    let mut model = start();
    let server = handle(&mut model, 0, &create(&[]));
    assert_eq!(status(&mut model, 0, &[11, server]), 0);
    let client = handle(&mut model, 0, &[9, server, 2, 3, 0x1EF]);
    let restricting = |is: bool| if is { vec![70] } else { vec![] };
    let token = token_of_mut(&mut model, server);
    token.privileges.enabled = if pair.held { USED } else { 0 };
    token.restricting = restricting(pair.server_restricted);
    let token = token_of_mut(&mut model, client);
    token.user = if pair.same_user { 50 } else { 51 };
    token.restricting = restricting(pair.client_restricted);
    (token.integrity, token.level) = (pair.integrity, pair.level);
    (model, client)
}

/// The answer's body to request 12 on the staged client.
fn acted(pair: Pair) -> Vec<u8> {
    let (mut model, client) = staged(pair);
    ask(&mut model, 0, &[12, client])
}

/// All pairs of one integrity and level.
fn pairs(integrity: u32, level: Level) -> Vec<Pair> {
    let bit = |all: u32, at: u32| all >> at & 1 == 1;
    let pair = |all| Pair {
        same_user: bit(all, 0),
        server_restricted: bit(all, 1),
        client_restricted: bit(all, 2),
        held: bit(all, 3),
        integrity,
        level,
    };
    (0..16).map(pair).collect()
}

fn acting_for(token: u64, level: Level) -> Option<Client> {
    Some(Client { token, level })
}

#[test]
fn a_station_acts_for_an_impersonation_token_at_its_level() {
    let (mut model, client) = staged(ALIKE);
    let mut expected = model.clone();
    assert_eq!(ask(&mut model, 0, &[12, client]), [0, 3]);
    expected.stations[0].client = acting_for(3, Level::Delegation);
    assert_eq!(model, expected);
}

#[test]
fn gate_one_asks_for_user_and_restriction_or_for_the_privilege() {
    // Same user, server and client restricted: what is answered without the privilege.
    let table: [([bool; 3], &[u8]); 8] = [
        ([true, false, false], &[0, 3]),
        ([true, true, true], &[0, 3]),
        ([true, false, true], &[0, 1]),
        ([true, true, false], &[7]),
        ([false, false, false], &[0, 1]),
        ([false, true, true], &[0, 1]),
        ([false, false, true], &[0, 1]),
        ([false, true, false], &[7]),
    ];
    for ([same_user, server_restricted, client_restricted], without) in table {
        let pair = Pair { same_user, server_restricted, client_restricted, ..ALIKE };
        assert_eq!(acted(pair), without, "{pair:?}");
        let pair = Pair { held: true, ..pair };
        assert_eq!(acted(pair), [0, 3], "{pair:?}");
    }
}

#[test]
fn a_client_of_higher_integrity_caps_always() {
    for pair in pairs(EQUAL, Level::Delegation) {
        let equal = acted(pair);
        assert_eq!(acted(Pair { integrity: BELOW, ..pair }), equal, "{pair:?}");
        let above = if equal == [7] { vec![7] } else { vec![0, 1] };
        assert_eq!(acted(Pair { integrity: ABOVE, ..pair }), above, "{pair:?}");
    }
}

#[test]
fn a_cap_never_raises() {
    let strangers = Pair { same_user: false, ..ALIKE };
    let levels = [
        (Level::Anonymous, 0, 0),
        (Level::Identification, 1, 1),
        (Level::Impersonation, 2, 1),
        (Level::Delegation, 3, 1),
    ];
    for (level, own, capped) in levels {
        assert_eq!(acted(Pair { level, ..ALIKE }), [0, own]);
        assert_eq!(acted(Pair { level, ..strangers }), [0, capped]);
        assert_eq!(acted(Pair { level, integrity: ABOVE, ..ALIKE }), [0, capped]);
        assert_eq!(acted(Pair { level, integrity: ABOVE, ..strangers }), [0, capped]);
    }
}

#[test]
fn the_marks_alone_restrict_neither() {
    for marked in [2, 3] {
        let (mut model, client) = staged(ALIKE);
        let token = model.live_mut(marked);
        (token.write_restricted, token.user_deny_only) = (true, true);
        assert_eq!(ask(&mut model, 0, &[12, client]), [0, 3]);
    }
}

#[test]
fn the_privilege_is_used_where_the_other_half_of_the_gate_failed() {
    for integrity in [BELOW, EQUAL, ABOVE] {
        for level in [Level::Anonymous, Level::Identification, Level::Delegation] {
            for pair in pairs(integrity, level) {
                let (mut model, client) = staged(pair);
                let mut expected = model.live(2).clone();
                ask(&mut model, 0, &[12, client]);
                let alike = pair.same_user && pair.server_restricted == pair.client_restricted;
                expected.privileges.used |= if pair.held && !alike { USED } else { 0 };
                assert_eq!(*model.live(2), expected, "{pair:?}");
            }
        }
    }
}

#[test]
fn it_is_marked_on_the_real_token_and_nothing_is_modified() {
    let (mut model, client) = staged(Pair { same_user: false, held: true, ..ALIKE });
    let before = model.clone();
    assert_eq!(ask(&mut model, 0, &[12, client]), [0, 3]);
    assert_eq!(model.live(2).privileges.used & USED, USED);
    assert_eq!(model.live(2).modified, before.live(2).modified);
    assert_eq!((model.live(1), model.live(3)), (before.live(1), before.live(3)));
}

#[test]
fn present_is_not_held() {
    let (mut model, client) = staged(Pair { same_user: false, ..ALIKE });
    assert_eq!(model.live(2).privileges.present & USED, USED);
    assert_eq!(ask(&mut model, 0, &[12, client]), [0, 1]);
    assert_eq!(model.live(2).privileges.used & USED, 0);
}

#[test]
fn another_replaces_an_earlier_one() {
    let (mut model, first) = staged(ALIKE);
    let second = handle(&mut model, 0, &[9, first, 2, 2, 0x1EF]);
    assert_eq!(ask(&mut model, 0, &[12, first]), [0, 3]);
    assert_eq!(ask(&mut model, 0, &[12, second]), [0, 2]);
    assert_eq!(model.stations[0].client, acting_for(4, Level::Impersonation));
    assert!(model.token(3).is_some(), "its handle has it");
}

#[test]
fn the_same_one_again_may_have_another_level() {
    let (mut model, token) = staged(Pair { same_user: false, held: true, ..ALIKE });
    assert_eq!(ask(&mut model, 0, &[12, token]), [0, 3]);
    model.live_mut(2).privileges.enabled = 0;
    assert_eq!(model.stations[0].client, acting_for(3, Level::Delegation));
    assert_eq!(ask(&mut model, 0, &[12, token]), [0, 1]);
    assert_eq!(model.stations[0].client, acting_for(3, Level::Identification));
}

#[test]
fn a_refused_one_leaves_the_earlier_one() {
    let (mut model, token) = staged(ALIKE);
    let blind = handle(&mut model, 0, &[9, token, 2, 3, 0x1EB]);
    let own = open(&mut model, 0, 0x1EF);
    assert_eq!(ask(&mut model, 0, &[12, token]), [0, 3]);
    model.live_mut(2).restricting = vec![70];
    let refused = [(vec![12], 1), (vec![12, 99], 2), (vec![12, blind], 3), (vec![12, own], 5)];
    for (request, refusal) in refused.into_iter().chain([(vec![12, token], 7)]) {
        assert_eq!(ask(&mut model, 0, &request), [refusal]);
        assert_eq!(model.stations[0].client, acting_for(3, Level::Delegation));
    }
}

#[test]
fn the_order_of_its_refusals() {
    let unlike = Pair { same_user: false, server_restricted: true, ..ALIKE };
    let (mut model, token) = staged(unlike);
    let blind = handle(&mut model, 0, &[9, token, 1, 0, 0x1EB]);
    let primary = handle(&mut model, 0, &[9, token, 1, 0, 4]);
    assert_eq!(ask(&mut model, 0, &[12, 99, 0]), [1]);
    assert_eq!(ask(&mut model, 1, &[12, token]), [2]);
    assert_eq!(ask(&mut model, 0, &[12, 99]), [2]);
    assert_eq!(ask(&mut model, 0, &[12, blind]), [3]);
    assert_eq!(ask(&mut model, 0, &[12, primary]), [5]);
    assert_eq!(ask(&mut model, 0, &[12, token]), [7]);
}

#[test]
fn its_right_alone_is_enough() {
    let (mut model, token) = staged(ALIKE);
    let able = handle(&mut model, 0, &[9, token, 2, 3, 4]);
    assert_eq!(ask(&mut model, 0, &[12, able]), [0, 3]);
}

#[test]
fn no_place_and_no_number_is_needed() {
    let (mut model, token) = staged(ALIKE);
    for _ in 3..TOKENS {
        handle(&mut model, 0, &[9, token, 2, 3, 4]);
    }
    while model.handles.iter().flatten().count() < HANDLES {
        open(&mut model, 1, 8);
    }
    (model.next_token, model.next_handle) = (u64::MAX, u32::MAX);
    assert_eq!(model.tokens.iter().flatten().count(), TOKENS);
    assert_eq!(ask(&mut model, 0, &[12, token]), [0, 3]);
    assert_eq!(ask(&mut model, 0, &[13]), [0, 3, 3]);
}

#[test]
fn revert_answers_what_is_given_up() {
    let (mut model, token) = staged(Pair { same_user: false, ..ALIKE });
    let before = model.clone();
    assert_eq!(ask(&mut model, 0, &[13]), [0, 0, 0]);
    assert_eq!(ask(&mut model, 0, &[12, token]), [0, 1]);
    assert_eq!(ask(&mut model, 0, &[13]), [0, 3, 1], "the level in force, not its own");
    assert_eq!(ask(&mut model, 0, &[13]), [0, 0, 0]);
    assert_eq!(model, before);
}

#[test]
fn a_token_at_anonymous_is_not_none() {
    let (mut model, token) = staged(Pair { level: Level::Anonymous, ..ALIKE });
    assert_eq!(ask(&mut model, 0, &[12, token]), [0, 0]);
    assert_eq!(model.stations[0].client, acting_for(3, Level::Anonymous));
    assert_eq!(ask(&mut model, 0, &[13]), [0, 3, 0]);
}

#[test]
fn revert_answers_the_tokens_number_not_the_handles() {
    let mut model = Model { next_token: u64::MAX - 1, ..start() };
    let own = open(&mut model, 0, 0x1EF);
    let copy = handle(&mut model, 0, &[9, own, 2, 2, 4]);
    assert_eq!(ask(&mut model, 0, &[12, copy]), [0, 2]);
    assert_eq!(ask(&mut model, 0, &[13]), [vec![0], body(&[u64::MAX - 1, 2])].concat());
}

#[test]
fn revert_has_no_fields() {
    let (mut model, token) = staged(ALIKE);
    assert_eq!(ask(&mut model, 0, &[12, token]), [0, 3]);
    for more in [0, 1, 13, 255] {
        assert_eq!(send(&mut model, 0, &[13, more]), [1]);
    }
    assert_eq!(send(&mut model, 0, &[0x8D, 0]), [1]);
    assert_eq!(send(&mut model, 0, &[13]), [0, 3, 3]);
}

#[test]
fn a_token_that_a_station_acts_for_stays_with_its_last_handle_closed() {
    let (mut model, token) = staged(ALIKE);
    assert_eq!(ask(&mut model, 0, &[12, token]), [0, 3]);
    assert_eq!(ask(&mut model, 0, &[2, token]), [0]);
    assert!(model.token(3).is_some());
    assert_eq!(ask(&mut model, 0, &[13]), [0, 3, 3]);
    assert!(model.token(3).is_none() && model.tokens[2].is_none());
}

#[test]
fn one_that_is_replaced_is_freed_with_its_last_reference() {
    let (mut model, first) = staged(ALIKE);
    let second = handle(&mut model, 0, &[9, first, 2, 2, 0x1EF]);
    let own = open(&mut model, 0, 0x1EF);
    assert_eq!(ask(&mut model, 0, &[12, first]), [0, 3]);
    assert_eq!(ask(&mut model, 0, &[2, first]), [0]);
    assert_eq!(ask(&mut model, 0, &[12, own]), [5]);
    assert!(model.token(3).is_some(), "a refused request frees nothing");
    assert_eq!(ask(&mut model, 0, &[12, second]), [0, 2]);
    assert!(model.token(3).is_none());
    assert_eq!(ask(&mut model, 0, &[12, second]), [0, 2]);
    assert!(model.token(4).is_some(), "replaced by itself");
}

#[test]
fn two_stations_may_act_for_one_token() {
    let mut model = start();
    let [own, other] = [0, 1].map(|station| open(&mut model, station, 0x1EF));
    let copy = handle(&mut model, 0, &[9, own, 2, 3, 4]);
    assert_eq!(status(&mut model, 1, &[12, copy]), 2, "by a handle of its own");
    let slot = model.handles.iter().flatten().position(|h| u64::from(h.number) == other).unwrap();
    model.handles[slot].as_mut().unwrap().token = 2;
    assert_eq!(ask(&mut model, 0, &[12, copy]), [0, 3]);
    assert_eq!(ask(&mut model, 1, &[12, other]), [0, 3]);
    for (station, handle) in [(0, copy), (1, other)] {
        assert_eq!(ask(&mut model, station, &[2, handle]), [0]);
    }
    assert_eq!(ask(&mut model, 0, &[13]), [0, 2, 3]);
    assert_eq!(model.stations[1].client, acting_for(2, Level::Delegation));
    assert!(model.token(2).is_some());
    assert_eq!(ask(&mut model, 1, &[13]), [0, 2, 3]);
    assert!(model.token(2).is_none());
}

#[test]
fn install_leaves_the_client_and_its_level() {
    let mut model = start();
    let made = handle(&mut model, 0, &[3, 51, 9, 0, 0, 0, 0]);
    let own = open(&mut model, 0, 0x1EF);
    let copy = handle(&mut model, 0, &[9, own, 2, 3, 0x1EF]);
    assert_eq!(ask(&mut model, 0, &[12, copy]), [0, 3]);
    assert_eq!(ask(&mut model, 0, &[11, made]), [0]);
    assert_eq!(model.stations[0].token, 2);
    assert_eq!(model.stations[0].client, acting_for(3, Level::Delegation));
    let again = ask(&mut model.clone(), 0, &[12, copy]);
    assert_eq!(again, [0, 1], "by the new token, of another user and lower integrity");
    assert_eq!(ask(&mut model, 0, &[13]), [0, 3, 3]);
}

#[test]
fn the_level_is_not_computed_again_after_an_adjustment() {
    let (mut model, token) = staged(Pair { same_user: false, held: true, ..ALIKE });
    let own = open(&mut model, 0, 0x20);
    assert_eq!(ask(&mut model, 0, &[12, token]), [0, 3]);
    assert_eq!(status(&mut model, 0, &[5, own, 1, u64::from(IMPERSONATE), 4]), 0);
    assert_eq!(ask(&mut model, 0, &[13]), [0, 3, 3]);
    assert_eq!(ask(&mut model, 0, &[12, token]), [0, 1]);
}

#[test]
fn an_install_takes_the_server_of_the_next_request() {
    let (mut model, token) = staged(Pair { same_user: false, ..ALIKE });
    let own = open(&mut model, 0, 0x1EF);
    let copy = handle(&mut model, 0, &[9, own, 1, 0, 0x1EF]);
    model.live_mut(2).privileges.enabled = 1 << 3;
    token_of_mut(&mut model, copy).privileges.enabled = USED;
    assert_eq!(ask(&mut model, 0, &[12, token]), [0, 1]);
    assert_eq!(ask(&mut model, 0, &[11, copy]), [0]);
    assert_eq!(ask(&mut model, 0, &[12, token]), [0, 3]);
    assert_eq!(token_of(&model, copy).privileges.used & USED, USED);
    assert_eq!(model.live(2).privileges.used & USED, 0);
}

#[test]
fn held_open_and_install_still_read_the_real_token() {
    let (mut model, token) = staged(ALIKE);
    model.live_mut(3).privileges.enabled = crate::ALL_PRIVILEGES;
    assert_eq!(ask(&mut model, 0, &[12, token]), [0, 3]);
    assert_eq!(ask(&mut model, 0, &create(&[])), [4]);
    assert_eq!(ask(&mut model, 0, &[7, token, 5]), [4]);
    let own = open(&mut model, 0, 0x1EF);
    assert_eq!(token_of(&model, own).number, 2);
    assert_eq!(ask(&mut model, 0, &[11, own]), [4]);
    model.live_mut(2).privileges.enabled = 1 << 3;
    let other = handle(&mut model, 1, &[3, 51, 9, 0, 0, 0, 0]);
    model.handles.iter_mut().flatten().for_each(|handle| handle.station = 0);
    model.live_mut(3).user = 51;
    assert_eq!(ask(&mut model, 0, &[11, other]), [7], "of the client's user, not the server's");
    assert_eq!(ask(&mut model, 0, &[11, own]), [0]);
}

#[test]
fn a_client_of_a_client_is_judged_by_the_real_token() {
    let (mut model, token) = staged(Pair { same_user: false, ..ALIKE });
    let next = handle(&mut model, 0, &[9, token, 2, 3, 4]);
    assert_eq!(token_of(&model, next).kind, TokenType::Impersonation);
    assert_eq!(ask(&mut model, 0, &[12, token]), [0, 1]);
    assert_eq!(ask(&mut model, 0, &[12, next]), [0, 1]);
}

#[test]
fn reconnecting_leaves_it() {
    let (mut model, token) = staged(ALIKE);
    assert_eq!(ask(&mut model, 0, &[12, token]), [0, 3]);
    let before = model.clone();
    model.feed(0, &[0], MIN_BUFFER);
    assert_eq!(model.reconnect(0), 0);
    assert_eq!(model, before);
    assert_eq!(ask(&mut model, 0, &[13]), [0, 3, 3]);
}

#[test]
fn other_stations_are_left_alone() {
    let (mut model, token) = staged(ALIKE);
    let own = open(&mut model, 1, 0x1EF);
    let copy = handle(&mut model, 1, &[9, own, 2, 2, 4]);
    assert_eq!(ask(&mut model, 1, &[12, copy]), [0, 2]);
    assert_eq!(ask(&mut model, 0, &[12, token]), [0, 3]);
    assert_eq!(ask(&mut model, 0, &[13]), [0, 3, 3]);
    assert_eq!(model.stations[1].client, acting_for(4, Level::Impersonation));
}
