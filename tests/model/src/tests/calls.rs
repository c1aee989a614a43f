//! Refusals of whole calls, 11 and 12, and the start.

use super::open;
use crate::{Fed, Level, Model, TokenType, MIN_BUFFER};

fn refused(refusal: u32) -> Fed {
    Fed { refusal, ..Fed::default() }
}

#[test]
fn the_start_is_document_01s() {
    let model = Model::start();
    let token = model.tokens[0].as_ref().unwrap();
    assert_eq!((token.number, token.modified, token.session, token.user), (1, 1, 999, 18));
    assert_eq!((token.kind, token.level), (TokenType::Primary, Level::Anonymous));
    let all: u64 = (2..=36).map(|privilege| 1 << privilege).sum();
    let words = token.privileges;
    assert_eq!([words.present, words.enabled, words.default, words.used], [all, all, all, 0]);
    assert_eq!((token.integrity, token.elevation as u32), (16384, 1));
    assert!(model.tokens[1..].iter().all(Option::is_none));
    assert!(model.handles.iter().all(Option::is_none));
    assert!(model.stations.iter().all(|station| station.token == 1 && !station.broken));
    assert_eq!((model.next_token, model.next_handle), (2, 1));
}

#[test]
fn refusal_11_is_for_stations_above_7() {
    let mut model = Model::start();
    for station in [8, 9, 255, 256, u32::MAX] {
        assert_eq!(model.feed(station, &[2, 1, 0x28], MIN_BUFFER), refused(11));
        assert_eq!(model.feed(station, &[], 0), refused(11));
        assert_eq!(model.reconnect(station), 11);
    }
    assert_eq!(model, Model::start());
    assert_eq!(model.feed(7, &[2, 1, 0x28], MIN_BUFFER).answer, [2, 0, 1]);
}

#[test]
fn refusal_12_is_for_short_buffers() {
    let mut model = Model::start();
    model.feed(1, &[0], MIN_BUFFER);
    let before = model.clone();
    for buffer in [0, 1, 1023] {
        assert_eq!(model.feed(0, &[2, 1, 0x28], buffer), refused(12));
        assert_eq!(model.feed(0, &[2], buffer), refused(12));
        assert_eq!(model.feed(0, &[], buffer), refused(12));
        assert_eq!(model.feed(1, &[2], buffer), refused(12));
    }
    assert_eq!(model, before);
    assert_eq!(model.feed(0, &[2, 1, 0x28], 5000).answer, [2, 0, 1]);
}

#[test]
fn an_empty_chunk_uses_nothing() {
    let mut model = Model::start();
    open(&mut model, 0, 8);
    model.feed(0, &[5, 1], MIN_BUFFER);
    let before = model.clone();
    assert_eq!(model.feed(0, &[], MIN_BUFFER), Fed::default());
    assert_eq!(model, before);
}
