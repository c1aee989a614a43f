//! Requests 16 and 17.

use super::{ask, body, create, handle, open, start, status, token_of, token_of_mut};
use crate::{Elevation, Level, Model, Pair, Token, TokenType, HANDLES, TCB, TOKENS};

/// A create request for this user and session.
fn of(user: u64, session: u64) -> Vec<u64> {
    let mut numbers = create(&[(60, 2)]);
    (numbers[1], numbers[2]) = (user, session);
    numbers
}

/// Handles 1 to 4 of station 0: two tokens, 2 and 3, of user 50 in session 9, one of another user and one
/// of another session.
fn four() -> Model {
    let mut model = start();
    for (user, session) in [(50, 9), (50, 9), (51, 9), (50, 10)] {
        handle(&mut model, 0, &of(user, session));
    }
    model
}

/// The same, and the first two linked.
fn linked() -> Model {
    let mut model = four();
    assert_eq!(ask(&mut model, 0, &[16, 1, 2, 9]), [0]);
    model
}

fn pair(session: u64, elevated: u64, filtered: u64) -> Option<Pair> {
    Some(Pair { session, elevated, filtered })
}

fn hold_tcb(model: &mut Model, held: bool) {
    let own = model.stations[0].token;
    let words = &mut model.live_mut(own).privileges;
    words.enabled = if held { words.present } else { words.enabled & !(1 << TCB) };
}

fn elevations(model: &Model) -> Vec<Elevation> {
    model.tokens.iter().flatten().map(|token| token.elevation).collect()
}

#[test]
fn linking_makes_full_and_limited_and_steps_no_modified_number() {
    use Elevation::{Default, Full, Limited};
    let mut model = four();
    let mut expected = model.clone();
    assert_eq!(ask(&mut model, 0, &[16, 2, 1, 9]), [0]);
    expected.live_mut(3).elevation = Full;
    expected.live_mut(2).elevation = Limited;
    expected.live_mut(1).privileges.used |= 1 << TCB;
    expected.pairs[0] = pair(9, 3, 2);
    assert_eq!(model, expected);
    assert_eq!(elevations(&model), [Default, Limited, Full, Default, Default]);
}

#[test]
fn a_missing_handle_comes_before_a_missing_right() {
    let mut model = four();
    let few = open(&mut model, 0, 0x1ED);
    let other = open(&mut model, 1, 0x1EF);
    for numbers in [[16, 99, 2, 9], [16, 1, 99, 9], [16, few, 99, 9], [16, other, 2, 9]] {
        assert_eq!(ask(&mut model, 0, &numbers), [2], "{numbers:?}");
    }
    hold_tcb(&mut model, false);
    for numbers in [[16, few, 2, 9], [16, 1, few, 9], [16, few, few, 9]] {
        assert_eq!(ask(&mut model, 0, &numbers), [3], "{numbers:?}");
    }
    assert_eq!(ask(&mut model, 0, &[16, 1, 1, 8]), [4]);
}

#[test]
fn what_can_not_be_a_pair() {
    let mut model = four();
    let copy = handle(&mut model, 0, &[9, 1, 2, 3, 0x1EF]);
    let again = open(&mut model, 0, 0x1EF);
    let third = open(&mut model, 0, 0x1EF);
    let bad = [
        [16, 1, 2, 10],
        [16, 1, 4, 9],
        [16, 4, 1, 9],
        [16, 1, 3, 9],
        [16, 1, 1, 9],
        [16, again, third, 999],
        [16, copy, 1, 9],
        [16, 1, copy, 9],
    ];
    for numbers in bad {
        assert_eq!(ask(&mut model, 0, &numbers), [5], "{numbers:?}");
    }
}

#[test]
fn the_parts_are_never_exchanged() {
    let mut model = linked();
    let third = handle(&mut model, 0, &of(50, 9));
    for numbers in [[16, 2, 1, 9], [16, third, 1, 9], [16, 2, third, 9]] {
        assert_eq!(ask(&mut model, 0, &numbers), [5], "{numbers:?}");
    }
    assert_eq!(ask(&mut model, 0, &[16, 1, 2, 9]), [0], "the same pair again");
    assert_eq!(ask(&mut model, 0, &[16, 1, third, 9]), [0], "the same elevated one");
    assert_eq!(model.pairs[0], pair(9, 2, 6));
    assert_eq!(ask(&mut model, 0, &[16, 2, 1, 9]), [5], "also when no more in a pair");
    let fourth = handle(&mut model, 0, &of(50, 9));
    assert_eq!(ask(&mut model, 0, &[16, fourth, 2, 9]), [0], "in its old part");
    assert_eq!(model.pairs, [pair(9, 7, 3), None, None, None]);
}

#[test]
fn a_replaced_pair_no_longer_keeps_its_tokens() {
    let mut model = linked();
    let [third, fourth] = [(); 2].map(|()| handle(&mut model, 0, &of(50, 9)));
    assert_eq!(ask(&mut model, 0, &[2, 1]), [0]);
    assert!(model.token(2).is_some(), "the pair keeps it");
    assert_eq!(ask(&mut model, 0, &[16, third, fourth, 9]), [0]);
    assert!(model.token(2).is_none(), "freed in that request");
    let kept = model.token(3).expect("its handle keeps it");
    assert_eq!(kept.elevation, Elevation::Limited);
    assert_eq!(ask(&mut model, 0, &[17, 2]), [14]);
}

#[test]
fn a_fifth_session_finds_no_place_and_a_bad_pair_comes_before() {
    let mut model = start();
    for session in 0..5 {
        let [first, second] = [(); 2].map(|()| handle(&mut model, 0, &of(50, session)));
        let expected = if session == 4 { 8 } else { 0 };
        assert_eq!(status(&mut model, 0, &[16, first, second, session]), expected);
        assert_eq!(status(&mut model, 0, &[16, first, first, session]), 5);
    }
    let sessions = model.pairs.map(|pair| pair.map(|pair| pair.session));
    assert_eq!(sessions, [Some(0), Some(1), Some(2), Some(3)]);
    let third = handle(&mut model, 0, &of(50, 2));
    assert_eq!(ask(&mut model, 0, &[16, 5, third, 2]), [0], "of a session with a pair");
    assert_eq!(model.pairs[2], pair(2, 6, 12));
}

#[test]
fn with_tcb_the_partner_itself() {
    for (asked, partner) in [(1, 3), (2, 2)] {
        let mut model = linked();
        model.live_mut(1).privileges.used = 0;
        let mut expected = model.clone();
        let made = expected.add_handle(0, partner, 0x1EF).expect("a free slot");
        expected.live_mut(1).privileges.used = 1 << TCB;
        assert_eq!(ask(&mut model, 0, &[17, asked]), body(&[0, made.into()]));
        assert_eq!(model, expected);
    }
}

#[test]
fn without_tcb_a_clone_that_keeps_its_elevation() {
    for (asked, partner) in [(1, 3), (2, 2)] {
        let mut model = linked();
        hold_tcb(&mut model, false);
        model.live_mut(1).privileges.used = 0;
        model.live_mut(partner).privileges.used = 8;
        let made = handle(&mut model, 0, &[17, asked]);
        let expected = Token {
            number: 6,
            modified: 6,
            kind: TokenType::Impersonation,
            level: Level::Identification,
            ..model.live(partner).clone()
        };
        assert_eq!(*token_of(&model, made), expected);
        assert_eq!(model.handles[4].expect("the new handle").mask, 8);
        assert_eq!(model.live(1).privileges.used, 0);
        assert_eq!(ask(&mut model, 0, &[17, made]), [14], "it is in no pair");
        assert_eq!(ask(&mut model, 0, &[9, made, 2, 1, 8]), [3], "nor may it be copied");
    }
}

#[test]
fn in_no_pair_comes_before_a_full_table() {
    let mut model = linked();
    while model.handles.iter().any(Option::is_none) {
        open(&mut model, 0, 8);
    }
    for held in [true, false] {
        hold_tcb(&mut model, held);
        assert_eq!(ask(&mut model, 0, &[17, HANDLES as u64]), [14]);
        assert_eq!(ask(&mut model, 0, &[17, 1]), [8]);
    }
    model.handles[0].as_mut().expect("handle 1").mask = 0x1E7;
    assert_eq!(ask(&mut model, 0, &[17, 1]), [3]);
    assert_eq!(ask(&mut model, 1, &[17, 1]), [2]);
}

#[test]
fn only_a_clone_needs_a_token_slot() {
    let mut model = linked();
    while model.tokens.iter().any(Option::is_none) {
        handle(&mut model, 0, &create(&[]));
    }
    hold_tcb(&mut model, false);
    assert_eq!(ask(&mut model, 0, &[17, 1]), [8]);
    hold_tcb(&mut model, true);
    assert_eq!(ask(&mut model, 0, &[17, 1]), [0, TOKENS as u8]);
}

#[test]
fn the_last_token_number_stops_clones_alone() {
    let mut model = linked();
    model.next_token = u64::MAX;
    hold_tcb(&mut model, false);
    assert_eq!(ask(&mut model, 0, &[17, 1]), [8]);
    hold_tcb(&mut model, true);
    assert_eq!(ask(&mut model, 0, &[17, 1]), [0, 5]);
    model.next_handle = u32::MAX;
    assert_eq!(ask(&mut model, 0, &[17, 1]), [8]);
}

#[test]
fn copies_of_paired_tokens_are_in_no_pair() {
    let mut model = linked();
    for numbers in [vec![9, 1, 1, 0, 0x1EF], vec![9, 2, 2, 1, 0x1EF], vec![10, 1, 0, 0, 0, 0]] {
        let copy = handle(&mut model, 0, &numbers);
        assert_eq!(token_of(&model, copy).elevation, Elevation::Default);
        assert_eq!(ask(&mut model, 0, &[17, copy]), [14]);
    }
}

#[test]
fn the_real_token_may_be_linked_and_is_marked() {
    let mut model = four();
    let own = open(&mut model, 0, 2);
    let other = handle(&mut model, 0, &of(18, 999));
    assert_eq!(ask(&mut model, 0, &[16, other, own, 999]), [0]);
    let token = token_of_mut(&mut model, own);
    assert_eq!((token.elevation, token.privileges.used >> TCB & 1), (Elevation::Limited, 1));
}

#[test]
fn layouts() {
    let mut model = linked();
    for numbers in [&[16, 1, 2][..], &[16, 1, 2, 9, 9], &[16], &[17], &[17, 1, 1], &[14], &[15]] {
        assert_eq!(ask(&mut model, 0, numbers), [1], "{numbers:?}");
    }
    assert_eq!(ask(&mut model, 0, &[16, 1, 2, u64::MAX]), [5], "sessions have 64 bits");
    assert_eq!(ask(&mut model, 0, &[16, 1 << 32, 2, 9]), [1]);
}
