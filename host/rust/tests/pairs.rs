//! Linked pairs, R36 and R37 of docs/RULES.md: requests 16 and 17 through the crate, and pairs in
//! memory.

mod common;

use common::{ask, create, refused};
use obriska::{Broker, Elevation, KeptError, Level, Refusal, TokenType, PAIRS};

/// Where the pair slots begin among the bytes, docs/MEMORY.md: behind the head, tokens, DACLs, handles
/// and 42 control words.
const FIRST_PAIR: usize = 32 + 12_928 + 4_096 + 512 + 42 * WORD;
/// Bytes of a word and of a pair slot.
const WORD: usize = 8;
const SLOT: usize = 3 * WORD;

/// What a handle needs to be linked, and what SYSTEM holds until it disables it.
const TCB: u64 = 7;

/// Two primary tokens of one user and session 5: token 2 by handle 1, its copy token 3 by handle 2.
fn with_two_tokens() -> Broker {
    let mut broker = Broker::start();
    assert_eq!(create(&mut broker, 1000, [5, 8192, 0x84, 0x80], &[[545, 3]]), 1);
    assert_eq!(ask(&mut broker, &[10, 1, 0, 0x80, 0, 0]), [2]);
    broker
}

/// The same, linked: token 2 is full, token 3 limited.
fn with_a_pair() -> Broker {
    let mut broker = with_two_tokens();
    assert_eq!(ask(&mut broker, &[16, 1, 2, 5]), []);
    broker
}

/// The session, the elevated and the filtered token of that pair.
const PAIR: [u64; 3] = [5, 2, 3];

/// The same of all pairs, by slot.
fn pairs(broker: &Broker) -> Vec<[u64; 3]> {
    broker.pairs().map(|pair| [pair.session, pair.elevated, pair.filtered]).collect()
}

fn elevation(broker: &Broker, token: u64) -> Elevation {
    broker.token(token).expect("it is live").elevation
}

#[test]
fn linking_makes_full_and_limited_and_steps_no_modified_number() {
    let before = with_two_tokens();
    let after = with_a_pair();
    assert_eq!(pairs(&after), [PAIR]);
    for (number, elevation) in [(2, Elevation::Full), (3, Elevation::Limited)] {
        let mut token = before.token(number).expect("it is live");
        assert_eq!(token.elevation, Elevation::Default);
        token.elevation = elevation;
        assert_eq!(after.token(number), Some(token));
    }
    assert_eq!(after.token(1).expect("SYSTEM's").privileges.used, 1 << TCB | 1 << 2);
    assert!(after.handles().eq(before.handles()));
}

#[test]
fn a_pair_keeps_its_tokens_alive_and_gives_the_other_one() {
    let mut broker = with_a_pair();
    assert_eq!(ask(&mut broker, &[2, 2]), []);
    assert_eq!(elevation(&broker, 3), Elevation::Limited);
    assert_eq!(ask(&mut broker, &[17, 1]), [3]);
    let handle = broker.handle(0, 3).expect("it was answered");
    assert_eq!((handle.token, handle.mask), (3, 0x1EF));
    assert_eq!(ask(&mut broker, &[17, 3]), [4]);
    assert_eq!(broker.handle(0, 4).expect("it was answered").token, 2);
    assert_eq!(broker.next_token(), 4);
    assert_eq!(Broker::from_bytes(&broker.to_bytes()), Ok(broker));
}

#[test]
fn without_tcb_the_answer_is_a_copy_for_identification() {
    let mut broker = with_a_pair();
    assert_eq!(ask(&mut broker, &[1, 0x28]), [3]);
    ask(&mut broker, &[5, 3, 1, TCB, 0]);
    assert_eq!(ask(&mut broker, &[17, 2]), [4]);
    let handle = broker.handle(0, 4).expect("it was answered");
    assert_eq!((handle.token, handle.mask), (4, 0x08));
    let mut partner = broker.token(2).expect("it is live");
    (partner.number, partner.modified) = (4, 4);
    (partner.token_type, partner.level) = (TokenType::Impersonation, Level::Identification);
    assert_eq!(partner.elevation, Elevation::Full);
    assert_eq!(broker.token(4), Some(partner));
    assert_eq!(refused(&mut broker, &[17, 4]), Some(Refusal::NotLinked));
    assert_eq!(refused(&mut broker, &[16, 1, 2, 5]), Some(Refusal::Privilege));
    assert_eq!(pairs(&broker), [PAIR]);
}

#[test]
fn a_token_in_no_pair_is_refused_by_14_even_where_nothing_is_free() {
    let mut broker = with_two_tokens();
    assert_eq!(refused(&mut broker, &[17, 1]), Some(Refusal::NotLinked));
    assert_eq!(refused(&mut broker, &[17, 3]), Some(Refusal::Handle));
    for _ in broker.handles().count()..obriska::HANDLES {
        ask(&mut broker, &[1, 0x02]);
    }
    assert_eq!(refused(&mut broker, &[17, 1]), Some(Refusal::NotLinked));
    assert_eq!(refused(&mut broker, &[17, 3]), Some(Refusal::Right));
    assert_eq!(ask(&mut broker, &[16, 1, 2, 5]), []);
    assert_eq!(refused(&mut broker, &[17, 1]), Some(Refusal::Full));
}

#[test]
fn two_that_can_be_no_pair_are_refused_by_5() {
    let mut broker = with_a_pair();
    assert_eq!(ask(&mut broker, &[17, 2]), [3]); // token 2 again
    assert_eq!(ask(&mut broker, &[9, 1, 2, 3, 0x1EF]), [4]); // for impersonation
    assert_eq!(create(&mut broker, 1001, [5, 0, 0, 0], &[]), 5); // of another user
    assert_eq!(create(&mut broker, 1000, [6, 0, 0, 0], &[]), 6); // of another session
    for [elevated, filtered] in [[1, 1], [1, 3], [2, 1], [1, 4], [4, 2], [1, 5], [1, 6]] {
        let link = [16, elevated, filtered, 5];
        assert_eq!(refused(&mut broker, &link), Some(Refusal::Field), "{elevated} {filtered}");
    }
    assert_eq!(refused(&mut broker, &[16, 1, 2, 6]), Some(Refusal::Field));
    assert_eq!(ask(&mut broker, &[16, 3, 2, 5]), []); // the same pair again
    assert_eq!(pairs(&broker), [PAIR]);
}

#[test]
fn a_new_pair_takes_the_slot_of_the_sessions_old_one() {
    let mut broker = with_a_pair();
    assert_eq!(ask(&mut broker, &[3, 18, 6, 0, 0, 0, 0]), [3]);
    assert_eq!(ask(&mut broker, &[3, 18, 6, 0, 0, 0, 0]), [4]);
    assert_eq!(ask(&mut broker, &[16, 3, 4, 6]), []);
    assert_eq!(ask(&mut broker, &[10, 1, 0, 0, 0, 0]), [5]); // token 6, a copy of token 2
    assert_eq!(elevation(&broker, 6), Elevation::Default);
    assert_eq!(ask(&mut broker, &[16, 1, 5, 5]), []);
    assert_eq!(pairs(&broker), [[5, 2, 6], [6, 4, 5]]);
    assert_eq!(elevation(&broker, 3), Elevation::Limited);
    assert_eq!(refused(&mut broker, &[17, 2]), Some(Refusal::NotLinked));
    assert_eq!(refused(&mut broker, &[16, 2, 5, 5]), Some(Refusal::Field));
}

#[test]
fn a_replaced_pair_keeps_no_token_alive() {
    let mut broker = with_a_pair();
    assert_eq!(ask(&mut broker, &[10, 1, 0, 0, 0, 0]), [3]);
    assert_eq!(ask(&mut broker, &[2, 2]), []);
    assert!(broker.token(3).is_some());
    assert_eq!(ask(&mut broker, &[16, 1, 3, 5]), []);
    assert_eq!(broker.token(3), None);
    assert_eq!(pairs(&broker), [[5, 2, 4]]);
}

#[test]
fn a_fifth_session_has_no_pair() {
    let mut broker = Broker::start();
    let mut link = |session: u64| {
        let create = [3, 18, session, 0, 0, 0, 0];
        let [elevated, filtered] = [0; 2].map(|_| ask(&mut broker, &create)[0]);
        common::answer(&mut broker, &[16, elevated, filtered, session]).refusal()
    };
    for session in 0..PAIRS as u64 {
        assert_eq!(link(session), None);
    }
    assert_eq!(link(PAIRS as u64), Some(Refusal::Full));
    assert_eq!(link(0), None);
}

/// The memory of a pair, with these words in a slot.
fn with_slot(slot: usize, words: [u64; 3]) -> Result<Broker, KeptError> {
    let mut bytes = with_a_pair().to_bytes();
    let at = FIRST_PAIR + slot * SLOT;
    bytes[at..at + SLOT].copy_from_slice(words.map(u64::to_le_bytes).as_flattened());
    Broker::from_bytes(&bytes)
}

#[test]
fn pairs_in_memory_are_as_request_16_leaves_them() {
    for valid in [[5, 2, 3], [0, 0, 0]] {
        assert!(with_slot(0, valid).is_ok(), "{valid:?}");
    }
    let dead = [[5, 2, 4], [5, 4, 3], [5, 2, 0]];
    let unfit = [[6, 2, 3], [5, 3, 2], [5, 2, 2], [5, 3, 3], [5, 1, 3], [5, 2, 1]];
    let free_but_not_zero = [[5, 0, 0], [0, 0, 3], [5, 0, 3]];
    let not_valid = KeptError::Refused(Refusal::Memory);
    for words in [&dead[..], &unfit, &free_but_not_zero].concat() {
        assert_eq!(with_slot(0, words), Err(not_valid), "{words:?}");
    }
    assert_eq!(with_slot(PAIRS - 1, [5, 2, 3]), Err(not_valid)); // twice of one session
}

#[test]
fn a_pair_may_stand_in_any_slot() {
    let kept = with_a_pair().to_bytes();
    for slot in 0..PAIRS {
        let mut bytes = kept.clone();
        let slots = &mut bytes[FIRST_PAIR..FIRST_PAIR + PAIRS * SLOT];
        slots.rotate_right(slot * SLOT);
        assert_eq!(pairs(&Broker::from_bytes(&bytes).expect("it is valid")), [PAIR]);
    }
}
