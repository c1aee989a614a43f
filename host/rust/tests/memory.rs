//! What the broker keeps, as values and as bytes.

mod common;

use common::{ask, create, made, sid};
use obriska::codec::Request;
use obriska::{
    Broker, Client, Elevation, Group, KeptError, Level, Refusal, TokenType, KEPT_BYTES,
    MEMORY_BYTES, NO_ROOT,
};

/// Where the arrays begin, one after the other behind the head: docs/MEMORY.md has their sizes.
const TOKENS: usize = 32;
const DACLS: usize = TOKENS + 12_928;
const HANDLES: usize = DACLS + 4_096;
const CONTROL: usize = HANDLES + 512;
const PENDING: usize = CONTROL + 20_920;
const END: usize = PENDING + 16_400;
/// Bytes of a word and of a handle.
const WORD: usize = 8;
const HANDLE: usize = 16;
/// Where the first token's root stands, and what station 0 acts for.
const ROOT: usize = TOKENS + 20 * WORD;
const CLIENT: usize = CONTROL + 5 * WORD;

/// What is said of memory behind a right head that is not valid.
const NOT_VALID: KeptError = KeptError::Refused(Refusal::Memory);

#[test]
fn the_start_is_as_the_rules_say() {
    let broker = Broker::start();
    let tokens: Vec<_> = broker.tokens().collect();
    assert_eq!(tokens.len(), 1);
    let token = &tokens[0];
    assert_eq!((token.number, token.modified, token.session, token.user), (1, 1, 999, 18));
    assert_eq!(token.root, 1);
    assert_eq!(token.token_type, TokenType::Primary);
    assert_eq!((token.level, token.elevation), (Level::Anonymous, Elevation::Default));
    assert_eq!((token.scope, token.integrity), (0, 16384));
    let words = token.privileges;
    let all = (2..=36).fold(0, |word, n| word | 1 << n);
    assert_eq!((words.present, words.enabled, words.default, words.used), (all, all, all, 0));
    assert!(token.groups.is_empty() && token.restricting.is_empty() && token.dacl.is_empty());
    assert_eq!(broker.handles().count(), 0);
    for station in broker.stations() {
        assert_eq!((station.token, station.client, station.broken), (1, None, false));
        assert!(station.pending.is_empty());
    }
    assert_eq!(broker.pairs().count(), 0);
    assert_eq!((broker.next_token(), broker.next_handle()), (2, 1));
}

#[test]
fn a_created_token_is_seen_with_its_groups_sids_and_dacl() {
    let mut broker = Broker::start();
    assert_eq!(create(&mut broker, 1000, [5, 8192, 0x84, 0x80], &[[545, 3], [600, 8]]), 1);
    assert_eq!(ask(&mut broker, &[8, 1, 2, 1, 1, 2, 0x0A, 0x0B]), []);
    let (deny, sids) = ([1], [sid(77), sid(545)]);
    let (deny, sids) = ((&deny).into(), (&sids).into());
    let restrict =
        Request::RestrictToSids { handle: 1, write_restricted: 1, removed: 4, deny, sids };
    assert_eq!(made(&mut broker, &restrict), 2);
    let token = broker.token(broker.handle(0, 1).unwrap().token).unwrap();
    assert_eq!((token.number, token.modified, token.session, token.user), (2, 3, 5, 32));
    let groups = [Group::new(33, 7), Group::new(34, 8)];
    assert_eq!(token.groups, groups);
    assert_eq!((token.owner, token.primary_group, token.dacl), (2, 1, vec![0x0A, 0x0B]));
    let copy = broker.token(3).unwrap();
    assert_eq!((token.root, copy.root), (2, 2));
    assert_eq!(copy.restricting, [35, 33]);
    assert!(copy.write_restricted && copy.user_deny_only);
    assert_eq!(copy.privileges.present, 0x80);
    assert_eq!(copy.groups[1], Group::new(34, 0x18));
    assert_eq!([32, 33, 34, 35].map(|n| broker.sid(n)), [1000, 545, 600, 77].map(|n| Some(sid(n))));
    assert!(broker.token(1).unwrap().privileges.used & 4 == 4);
}

#[test]
fn a_root_is_the_oldest_source_and_class_9_tells_it() {
    let mut broker = Broker::start();
    assert_eq!(ask(&mut broker, &[3, 18, 5, 0, 0, 0, 0]), [1]);
    assert_eq!(ask(&mut broker, &[9, 1, 1, 0, 0x1EF]), [2]);
    assert_eq!(ask(&mut broker, &[2, 1]), []);
    assert_eq!(ask(&mut broker, &[10, 2, 0, 0, 0, 0]), [3]);
    assert_eq!(ask(&mut broker, &[9, 3, 2, 0, 0x1EF]), [4]);
    assert_eq!(ask(&mut broker, &[9, 4, 1, 0, 0x1EF]), [5]);
    let roots: Vec<_> = broker.tokens().map(|token| (token.number, token.root)).collect();
    assert_eq!(roots, [(1, 1), (4, 2), (3, 2), (5, NO_ROOT), (6, NO_ROOT)]);
    assert_eq!(ask(&mut broker, &[4, 3, 9, 64]), [4, 5, 4, 1, 2]);
    assert_eq!(ask(&mut broker, &[4, 5, 9, 64]), [6, 0, 6, 1, NO_ROOT]);
}

#[test]
fn a_root_above_the_tokens_number_is_refused() {
    let kept = Broker::start().to_bytes();
    for (root, refusal) in [(0, None), (1, None), (2, Some(NOT_VALID))] {
        let mut changed = kept.clone();
        changed[ROOT] = root;
        assert_eq!(Broker::from_bytes(&changed).err(), refusal, "root {root}");
    }
}

#[test]
fn a_station_acts_for_a_token_and_keeps_it_alive() {
    let mut broker = Broker::start();
    assert_eq!(ask(&mut broker, &[1, 0x1EF]), [1]);
    assert_eq!(ask(&mut broker, &[9, 1, 2, 3, 4]), [2]);
    assert_eq!(ask(&mut broker, &[12, 2]), [3]);
    assert_eq!(ask(&mut broker, &[2, 2]), []);
    let client = Client::new(2, Level::Delegation);
    let station = broker.stations()[0].clone();
    assert_eq!((station.token, station.client), (1, Some(client)));
    assert!(broker.stations()[1..].iter().all(|station| station.client.is_none()));
    assert_eq!(broker.token(2).unwrap().token_type, TokenType::Impersonation);
    broker.reconnect(0).unwrap();
    assert_eq!(Broker::from_bytes(&broker.to_bytes()).unwrap().stations()[0], station);
    assert_eq!(ask(&mut broker, &[13]), [2, 3]);
    assert_eq!((broker.stations()[0].client, broker.token(2)), (None, None));
    assert_eq!(ask(&mut broker, &[13]), [0, 0]);
}

#[test]
fn a_client_is_an_impersonation_token_at_its_own_level_at_most() {
    let mut broker = Broker::start();
    assert_eq!(ask(&mut broker, &[1, 0x1EF]), [1]);
    assert_eq!(ask(&mut broker, &[9, 1, 2, 2, 4]), [2]);
    let kept = broker.to_bytes();
    let valid = [(0, 0), (2, 0), (2, 1), (2, 2)].map(|client| (client, None));
    let refused = [(0, 1), (1, 0), (2, 3), (3, 0)].map(|client| (client, Some(NOT_VALID)));
    for ((token, level), refusal) in valid.into_iter().chain(refused) {
        let mut changed = kept.clone();
        (changed[CLIENT], changed[CLIENT + WORD]) = (token, level);
        assert_eq!(Broker::from_bytes(&changed).err(), refusal, "token {token}, level {level}");
    }
}

#[test]
fn kept_bytes_go_on_where_the_broker_was() {
    let mut broker = Broker::start();
    broker.feed(0, &[0x02, 0x01, 0x28]).unwrap();
    broker.feed(5, &[0x02, 0x01]).unwrap();
    broker.feed(6, &[0x00]).unwrap();
    let kept = broker.to_bytes();
    assert_eq!(kept.len(), KEPT_BYTES);
    let mut later = Broker::from_bytes(&kept).unwrap();
    assert_eq!(later, broker);
    assert_eq!(later.stations()[5].pending, [0x02, 0x01]);
    assert!(later.stations()[6].broken);
    assert_eq!(later.feed(5, &[0x08]).unwrap()[0].bytes(), [0x02, 0x00, 0x02]);
}

/// The words from this byte on.
fn words(bytes: &[u8], at: usize) -> impl Iterator<Item = u64> + '_ {
    let words = bytes[at..].chunks_exact(WORD);
    words.map(|word| u64::from_le_bytes(word.try_into().expect("eight bytes")))
}

#[test]
fn bytes_are_laid_out_as_docs_memory_says() {
    let mut broker = Broker::start();
    broker.feed(5, &[0x02, 0x01, 0x28]).unwrap();
    broker.feed(6, &[0x03, 0x01, 0xEF, 0x03]).unwrap();
    broker.feed(0, &[0x02]).unwrap();
    let bytes = broker.to_bytes();
    assert_eq!((bytes.len(), KEPT_BYTES, MEMORY_BYTES), (END, END, 54_856));
    assert!(words(&bytes, TOKENS).take(4).eq([1, 1, 999, 18]));
    let (handles, free) = bytes[HANDLES..CONTROL].split_at(2 * HANDLE);
    let first = [5, 0, 0x28, 0, 1, 0, 0, 0, 1, 0, 0, 0, 0, 0, 0, 0];
    let second = [6, 0, 0xEF, 1, 2, 0, 0, 0, 1, 0, 0, 0, 0, 0, 0, 0];
    assert_eq!(handles, [first, second].concat());
    assert!(bytes[DACLS..HANDLES].iter().chain(free).all(|&byte| byte == 0));
    assert!(words(&bytes, CONTROL).take(8).eq([2, 3, 1, 1, 0, 0, 0, 1]));
    assert_eq!(bytes[PENDING..][..2], [0x02, 0x00]);
}

#[test]
fn a_free_handle_slot_with_a_byte_that_is_not_zero_is_refused() {
    let kept = Broker::start().to_bytes();
    for at in HANDLES..CONTROL {
        let mut damaged = kept.clone();
        damaged[at] = 0x80;
        assert_eq!(Broker::from_bytes(&damaged), Err(NOT_VALID), "byte {at}");
    }
}

#[test]
fn bytes_that_are_not_valid_memory_are_refused() {
    let mut damaged = Broker::start().to_bytes();
    damaged[TOKENS] = 3; // token 3, which nothing refers to, at a next number of 2
    assert_eq!(Broker::from_bytes(&damaged), Err(NOT_VALID));
    damaged[TOKENS..].fill(0);
    assert_eq!(Broker::from_bytes(&damaged), Err(NOT_VALID));
}

#[test]
fn there_is_no_station_8() {
    let mut broker = Broker::start();
    assert_eq!(broker.feed(8, &[0x02, 0x01, 0x28]), Err(Refusal::Station));
    assert_eq!(broker.feed(8, &[]), Err(Refusal::Station));
    assert_eq!(broker.reconnect(8), Err(Refusal::Station));
    assert_eq!(broker, Broker::start());
    assert_eq!(broker.feed(7, &[]), Ok(vec![]));
}
