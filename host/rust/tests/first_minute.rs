//! The worked cases A to L, R55 of docs/RULES.md, byte by byte, through the crate.

use obriska::{Broker, Refusal, TokenType, HANDLES, MAX_BODY};

/// Feeds a whole frame and gives its one answer's bytes.
fn ask(broker: &mut Broker, station: u32, frame: &[u8]) -> Vec<u8> {
    let answers = broker.feed(station, frame).expect("a station from 0 to 7");
    assert_eq!(answers.len(), 1);
    answers[0].bytes().to_vec()
}

const OPEN: [u8; 3] = [0x02, 0x01, 0x28];
const DISABLE_TCB: [u8; 6] = [0x05, 0x05, 0x01, 0x01, 0x07, 0x00];
const TCB_WAS_ENABLED: [u8; 6] = [0x05, 0x00, 0x80, 0x01, 0x80, 0x01];
const QUERY_PRIVILEGES: [u8; 5] = [0x04, 0x04, 0x01, 0x03, 0x40];
const PRIVILEGES: [u8; 21] = [
    0x14, 0x00, 0xFC, 0xFF, 0xFF, 0xFF, 0xFF, 0x03, 0xFC, 0xFE, 0xFF, 0xFF, 0xFF, 0x03, 0xFC, 0xFF,
    0xFF, 0xFF, 0xFF, 0x03, 0x00,
];

fn after_b() -> Broker {
    let mut broker = Broker::start();
    assert_eq!(ask(&mut broker, 0, &OPEN), [0x02, 0x00, 0x01]);
    assert_eq!(ask(&mut broker, 0, &DISABLE_TCB), TCB_WAS_ENABLED);
    broker
}

#[test]
fn a_and_b_open_the_own_token_and_disable_tcb() {
    let broker = after_b();
    let handle = broker.handle(0, 1).expect("it was opened");
    assert_eq!((handle.station, handle.number, handle.token, handle.mask), (0, 1, 1, 0x28));
    let token = broker.token(1).expect("it is live");
    assert_eq!(token.privileges.enabled, 0x1F_FFFF_FFFC & !0x80);
    assert_eq!((token.modified, token.token_type), (2, TokenType::Primary));
    assert_eq!((broker.next_token(), broker.next_handle()), (2, 2));
}

#[test]
fn c_and_d_query_the_privileges() {
    let mut broker = after_b();
    assert_eq!(ask(&mut broker, 0, &QUERY_PRIVILEGES), PRIVILEGES);
    assert_eq!(ask(&mut broker, 0, &[0x04, 0x04, 0x01, 0x03, 18]), [0x02, 0x09, 0x13]);
    assert_eq!(ask(&mut broker, 0, &[0x04, 0x04, 0x01, 0x03, 19]), PRIVILEGES);
}

#[test]
fn e_takes_length_2048() {
    let mut broker = Broker::start();
    let frame = [&[0x80, 0x10][..], &[0; MAX_BODY]].concat();
    assert_eq!(ask(&mut broker, 0, &frame), [0x01, 0x01]);
    assert!(!broker.stations()[0].broken);
}

#[test]
fn f_breaks_at_length_2049_until_the_station_is_reconnected() {
    let mut broker = Broker::start();
    let answers = broker.feed(0, &[0x81, 0x10, 0x02, 0x01, 0x28]).unwrap();
    assert_eq!(answers.len(), 1);
    assert_eq!(answers[0].bytes(), [0x01, 0x0A]);
    assert_eq!(answers[0].refusal(), Some(Refusal::Broken));
    assert!(broker.feed(0, &OPEN).unwrap().is_empty());
    broker.reconnect(0).unwrap();
    assert_eq!(broker, Broker::start());
    assert_eq!(ask(&mut broker, 0, &OPEN), [0x02, 0x00, 0x01]);
}

#[test]
fn g_refuses_the_handle_to_another_station() {
    let mut broker = after_b();
    assert_eq!(ask(&mut broker, 1, &QUERY_PRIVILEGES), [0x01, 0x02]);
    assert!(broker.handle(1, 1).is_none());
}

#[test]
fn h_checks_the_mask() {
    let mut broker = Broker::start();
    assert_eq!(ask(&mut broker, 0, &[0x03, 0x01, 0xEF, 0x03]), [0x02, 0x00, 0x01]);
    assert_eq!(ask(&mut broker, 0, &[0x02, 0x01, 0x10]), [0x01, 0x05]);
}

#[test]
fn i_knows_privileges_up_to_36() {
    let mut broker = after_b();
    let bit_36 = [0x80, 0x80, 0x80, 0x80, 0x80, 0x02];
    let previous = [&[0x0D, 0x00][..], &bit_36, &bit_36].concat();
    assert_eq!(ask(&mut broker, 0, &[0x05, 0x05, 0x01, 0x01, 36, 0x00]), previous);
    assert_eq!(ask(&mut broker, 0, &[0x05, 0x05, 0x01, 0x01, 37, 0x00]), [0x01, 0x05]);
}

#[test]
fn j_refuses_a_33rd_handle() {
    let mut broker = Broker::start();
    for number in 1..=HANDLES as u8 {
        assert_eq!(ask(&mut broker, 0, &OPEN), [0x02, 0x00, number]);
    }
    assert_eq!(ask(&mut broker, 0, &OPEN), [0x01, 0x08]);
    assert_eq!(broker.handles().count(), HANDLES);
}

#[test]
fn k_refuses_a_number_not_in_its_shortest_form() {
    assert_eq!(ask(&mut Broker::start(), 0, &[0x03, 0x01, 0x80, 0x00]), [0x01, 0x01]);
}

#[test]
fn l_steps_modified_only_at_the_second_removal() {
    let mut broker = Broker::start();
    ask(&mut broker, 0, &OPEN);
    let remove = [0x05, 0x05, 0x01, 0x01, 0x07, 0x04];
    assert_eq!(ask(&mut broker, 0, &remove), TCB_WAS_ENABLED);
    let first = broker.token(1).unwrap();
    assert_eq!(ask(&mut broker, 0, &remove), [0x03, 0x00, 0x00, 0x00]);
    let mut second = broker.token(1).unwrap();
    assert_eq!((first.modified, second.modified), (2, 3));
    second.modified = 2;
    assert_eq!(second, first);
}

#[test]
fn cutting_the_stream_changes_nothing() {
    let stream = [&OPEN[..], &DISABLE_TCB, &QUERY_PRIVILEGES, &[0x81, 0x10, 0x02]].concat();
    let mut whole = Broker::start();
    let answers = whole.feed(0, &stream).unwrap();
    assert_eq!(answers.len(), 4);
    for size in 1..stream.len() {
        let mut cut = Broker::start();
        let chunks = stream.chunks(size);
        let cut_answers: Vec<_> = chunks.flat_map(|data| cut.feed(0, data).unwrap()).collect();
        assert_eq!(cut_answers, answers);
        assert_eq!(cut, whole);
    }
}
