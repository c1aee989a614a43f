//! Real SIDs, docs/RULES.md: requests 14 and 15 and the SID table through the crate.

mod common;

use common::{ask, create, made, refused, sid};
use obriska::codec::{List, Request, Sid, SidGroup};
use obriska::{Broker, KeptError, Refusal, MAX_SUB_AUTHORITIES, SIDS};

/// Where the table stands among the bytes, docs/MEMORY.md: behind the head, tokens, DACLs, handles and
/// 54 control words; its count, its places and its rows.
const COUNT: usize = 32 + 12_928 + 4_096 + 512 + 54 * WORD;
const PLACES: usize = COUNT + WORD;
const ROWS: usize = PLACES + SIDS * WORD;
/// Bytes of a word and of a row.
const WORD: usize = 8;
const ROW: usize = 9 * WORD;

/// The number of the first SID that is entered.
const FIRST: u32 = 32;

/// The table, as numbers with their SIDs.
fn table(broker: &Broker) -> Vec<(u32, Sid)> {
    broker.sids().collect()
}

/// Those of the start.
const START: [(u32, Sid); 2] = [(7, Sid::ANONYMOUS), (18, Sid::SYSTEM)];

/// The table with these SIDs of the tests entered, in this order.
fn with(entered: &[u32]) -> Vec<(u32, Sid)> {
    let entered = entered.iter().zip(FIRST..).map(|(&n, number)| (number, sid(n)));
    START.into_iter().chain(entered).collect()
}

/// Request 15 on a handle, with SIDs alone.
fn restrict(handle: u64, sids: &[Sid]) -> Request<'_> {
    let handle = handle.try_into().expect("32 bits");
    let (deny, sids) = (List::EMPTY, sids.into());
    Request::RestrictToSids { handle, write_restricted: 0, removed: 0, deny, sids }
}

/// Request 14 with SIDs alone.
fn user_and_groups(user: Sid, groups: &[SidGroup]) -> Request<'_> {
    let [session, present, default] = [5, 0, 0];
    let groups = groups.into();
    Request::CreateWithSids { user, session, integrity: 0, present, default, groups }
}

/// The refusal of a typed request, which has changed nothing.
fn refuses(broker: &mut Broker, request: &Request) -> Option<Refusal> {
    let before = broker.clone();
    let answers = broker.feed(0, &request.to_bytes().expect("it fits")).expect("station 0");
    assert_eq!(*broker, before, "{request:?}");
    answers[0].refusal()
}

#[test]
fn system_and_anonymous_are_in_the_table_from_the_start() {
    let broker = Broker::start();
    assert_eq!(table(&broker), START);
    for number in [0, 1, 6, 8, 17, 19, 31, 32, 285, 286, u32::MAX] {
        assert_eq!(broker.sid(number), None, "{number}");
    }
}

#[test]
fn new_sids_are_entered_in_the_requests_order_and_each_once() {
    let mut broker = Broker::start();
    let handle = create(&mut broker, 1, [5, 0, 0, 0], &[[2, 0], [1, 2], [3, 0], [2, 0]]);
    assert_eq!(table(&broker), with(&[1, 2, 3]));
    let token = broker.token(2).expect("it was made");
    assert_eq!(token.user, 32);
    assert!(token.groups.iter().map(|group| group.sid).eq([33, 32, 34, 33]));

    let sids = [sid(4), Sid::SYSTEM, sid(2), sid(4)];
    let restricted = made(&mut broker, &restrict(handle, &sids));
    assert_eq!(table(&broker), with(&[1, 2, 3, 4]));
    assert_eq!(broker.token(3).expect("it was made").restricting, [35, 18, 33, 35]);

    made(&mut broker, &restrict(restricted, &[sid(5), sid(2)])); // the copy drops the first
    assert_eq!(table(&broker), with(&[1, 2, 3, 4, 5]));
    assert_eq!(broker.token(4).expect("it was made").restricting, [33]);
    assert_eq!(Broker::from_bytes(&broker.to_bytes()), Ok(broker));
}

#[test]
fn sids_outlive_their_tokens() {
    let mut broker = Broker::start();
    let handle = create(&mut broker, 1, [5, 0, 0, 0], &[]);
    ask(&mut broker, &[2, handle]);
    assert_eq!((broker.token(2), broker.sid(32)), (None, Some(sid(1))));
    create(&mut broker, 1, [5, 0, 0, 0], &[]);
    assert_eq!(table(&broker), with(&[1]));
}

#[test]
fn sids_are_one_where_their_bytes_are() {
    let mut broker = Broker::start();
    let sids = [
        Sid::new(0, &[]),
        Sid::new(0, &[0]),
        Sid::new(0, &[0, 0]),
        Sid::new(5 << 40, &[18]),
        Sid::new(5, &[0; MAX_SUB_AUTHORITIES]),
        Sid::new(5, &[u32::MAX; MAX_SUB_AUTHORITIES]),
        Sid::new((1 << 48) - 1, &[18 << 8]),
    ];
    let sids = sids.map(|sid| sid.expect("a SID"));
    for (number, sid) in (FIRST..).zip(sids) {
        for _ in 0..2 {
            let handle = made(&mut broker, &user_and_groups(sid, &[]));
            assert_eq!(broker.tokens().last().expect("it was made").user, number);
            ask(&mut broker, &[2, handle]);
        }
        assert_eq!(broker.sid(number), Some(sid));
    }
    assert_eq!(broker.sids().count(), START.len() + sids.len());
}

#[test]
fn numbers_that_are_not_in_the_table_are_refused_by_5() {
    let mut broker = Broker::start();
    let handle = create(&mut broker, 1, [5, 0, 0, 0], &[]);
    for number in [0, 8, 31, 33, 285, u64::from(u32::MAX)] {
        let user = [3, number, 5, 0, 0, 0, 0];
        let group = [3, 18, 5, 0, 0, 0, 2, 32, 0, number, 0];
        let restricting = [10, handle, 0, 0, 0, 2, 18, number];
        for request in [&user[..], &group, &restricting] {
            assert_eq!(refused(&mut broker, request), Some(Refusal::Field), "{request:?}");
        }
    }
    assert_eq!(ask(&mut broker, &[3, 32, 5, 0, 0, 0, 2, 7, 0, 18, 0]), [2]);
    assert_eq!(ask(&mut broker, &[10, handle, 0, 0, 0, 2, 32, 7]), [3]);
}

#[test]
fn a_refused_request_enters_none() {
    let mut broker = Broker::start();
    let handle = create(&mut broker, 1, [5, 0, 0, 0], &[]);
    let bad = [SidGroup::new(sid(2), 4)]; // enabled is not to be given
    assert_eq!(refuses(&mut broker, &user_and_groups(sid(3), &bad)), Some(Refusal::Field));
    let sids = [sid(2), sid(3)];
    assert_eq!(refuses(&mut broker, &restrict(99, &sids)), Some(Refusal::Handle));
    let many = [sid(2); 17];
    assert_eq!(refuses(&mut broker, &restrict(handle, &many)), Some(Refusal::Full));
    let restricted = made(&mut broker, &restrict(handle, &[sid(1)]));
    assert_eq!(refuses(&mut broker, &restrict(restricted, &sids)), Some(Refusal::Field));
    ask(&mut broker, &[1, 0x20]);
    ask(&mut broker, &[5, 3, 1, 2, 0]); // CreateToken is disabled
    assert_eq!(refuses(&mut broker, &user_and_groups(sid(2), &[])), Some(Refusal::Privilege));
    assert_eq!(table(&broker), with(&[1]));
}

#[test]
fn what_is_no_packed_sid_is_refused_by_1_whatever_the_handle_is() {
    let mut broker = Broker::start();
    let before = broker.clone();
    let sids = [Sid::SYSTEM];
    let frame = restrict(99, &sids).to_bytes().expect("it fits");
    let packed = frame.len() - Sid::SYSTEM.packed().len();
    for (at, byte) in [(packed, 0), (packed, 2), (packed + 1, 0), (packed + 1, 2), (packed + 1, 16)]
    {
        let mut other = frame.clone();
        other[at] = byte;
        let answers = broker.feed(0, &other).expect("station 0");
        assert_eq!(answers[0].refusal(), Some(Refusal::Layout), "{other:?}");
    }
    assert_eq!(broker.feed(0, &frame).expect("station 0")[0].refusal(), Some(Refusal::Handle));
    assert_eq!(broker, before);
}

/// A broker whose table has room for so many SIDs: 0 and those that follow are entered.
fn with_room_for(room: usize) -> Broker {
    let mut broker = Broker::start();
    let users: Vec<_> = (0..(SIDS - START.len() - room) as u32).collect();
    for users in users.chunks(60) {
        let groups: Vec<_> = users[1..].iter().map(|&group| [group, 0]).collect();
        let handle = create(&mut broker, users[0], [5, 0, 0, 0], &groups);
        ask(&mut broker, &[2, handle]);
    }
    assert_eq!(broker.sids().count(), SIDS - room);
    broker
}

#[test]
fn a_full_table_takes_old_sids_and_refuses_new_ones_by_8() {
    let mut broker = with_room_for(0);
    let entered = SIDS as u32 - 2;
    assert_eq!(table(&broker), with(&(0..entered).collect::<Vec<_>>()));
    assert_eq!(broker.sid(285), Some(sid(253)));
    assert_eq!(broker.sid(286), None);
    let new = sid(entered);
    assert_eq!(refuses(&mut broker, &user_and_groups(new, &[])), Some(Refusal::Full));
    let handle = create(&mut broker, 253, [5, 0, 0, 0], &[[0, 0], [100, 0]]);
    assert_eq!(refuses(&mut broker, &restrict(handle, &[sid(0), new])), Some(Refusal::Full));
    let restricted = made(&mut broker, &restrict(handle, &[sid(0), sid(1)]));
    // One that a copy would drop counts as well; where none is left, 5 comes first.
    assert_eq!(refuses(&mut broker, &restrict(restricted, &[sid(0), new])), Some(Refusal::Full));
    assert_eq!(refuses(&mut broker, &restrict(restricted, &[new])), Some(Refusal::Field));
    assert_eq!(Broker::from_bytes(&broker.to_bytes()), Ok(broker));
}

#[test]
fn a_new_sid_that_comes_twice_takes_one_place() {
    let mut broker = with_room_for(1);
    let twice = |n| [SidGroup::new(sid(n), 0); 2];
    let request = twice(900);
    let request = user_and_groups(sid(901), &request); // two new ones
    assert_eq!(refuses(&mut broker, &request), Some(Refusal::Full));
    made(&mut broker, &user_and_groups(Sid::SYSTEM, &twice(900)));
    assert_eq!(broker.sid(285), Some(sid(900)));
}

/// Memory with SIDs 3, 1 and 2 of the tests entered, in this order.
fn kept() -> Vec<u8> {
    let mut broker = Broker::start();
    create(&mut broker, 3, [5, 0, 0, 0], &[[1, 0], [2, 0]]);
    broker.to_bytes()
}

/// The words from this byte on.
fn words(bytes: &[u8], at: usize, count: usize) -> Vec<u64> {
    let words = bytes[at..].chunks_exact(WORD).take(count);
    words.map(|word| u64::from_le_bytes(word.try_into().expect("eight bytes"))).collect()
}

#[test]
fn the_table_is_laid_out_as_docs_memory_says() {
    let bytes = kept();
    assert_eq!(words(&bytes, COUNT, 1), [5]);
    // The first words of 7 and 18 say one sub-authority, those of the others two.
    assert_eq!(words(&bytes, PLACES, 7), [0, 1, 3, 4, 2, 0, 0]);
    let two = 0x0500_0000_0000_0201;
    assert_eq!(words(&bytes, ROWS, 9), [0x0500_0000_0000_0101, 7, 0, 0, 0, 0, 0, 0, 0]);
    assert_eq!(words(&bytes, ROWS + ROW, 2), [0x0500_0000_0000_0101, 18]);
    assert_eq!(words(&bytes, ROWS + 2 * ROW, 3), [two, 3 << 32 | 21, 0]);
    assert_eq!(words(&bytes, ROWS + 3 * ROW, 3), [two, 1 << 32 | 21, 0]);
    assert_eq!(words(&bytes, ROWS + 4 * ROW, 3), [two, 2 << 32 | 21, 0]);
    assert!(bytes[ROWS + 5 * ROW..ROWS + SIDS * ROW].iter().all(|&byte| byte == 0));
}

#[test]
fn a_table_that_no_requests_leave_is_refused() {
    let kept = kept();
    let changes = [
        (COUNT, 4),               // a number of the token's is not in it then
        (COUNT, 6),               // an empty row
        (COUNT, 1),               // without SYSTEM
        (COUNT + 1, 1),           // over 256
        (PLACES, 1),              // twice
        (PLACES + 2 * WORD, 4),   // not rising
        (PLACES + 4 * WORD, 5),   // no row of its
        (PLACES + 5 * WORD, 1),   // behind the last place
        (ROWS + WORD, 8),         // 7 is not Anonymous
        (ROWS + ROW + WORD, 17),  // 18 is not SYSTEM
        (ROWS + 2 * ROW, 2),      // revision 2
        (ROWS + 2 * ROW + 1, 16), // 16 sub-authorities
        (ROWS + 2 * ROW + 1, 1),  // what is behind the last one is not 0
        (ROWS + 2 * ROW + 16, 1), // a third one, that is not counted
        (ROWS + 3 * ROW + 12, 2), // the same SID twice
        (ROWS + 5 * ROW, 1),      // behind the last row
    ];
    let not_valid = KeptError::Refused(Refusal::Memory);
    for (at, byte) in changes {
        let mut damaged = kept.clone();
        assert_ne!(damaged[at], byte);
        damaged[at] = byte;
        assert_eq!(Broker::from_bytes(&damaged), Err(not_valid), "byte {at}");
    }
}

#[test]
fn a_token_keeps_no_number_that_is_not_in_the_table() {
    const SLOT: usize = 32 + 101 * WORD; // token 2
    let kept = kept();
    for word in [3, 21, 22] {
        for number in [0, 8, 31, 35, 0xFF] {
            let mut damaged = kept.clone();
            damaged[SLOT + word * WORD] = number;
            assert_eq!(
                Broker::from_bytes(&damaged),
                Err(KeptError::Refused(Refusal::Memory)),
                "word {word}, number {number}"
            );
        }
        let mut other = kept.clone();
        other[SLOT + word * WORD] = 7;
        assert!(Broker::from_bytes(&other).is_ok());
    }
}
