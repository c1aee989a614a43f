//! Streams: cuts, breaks and reconnects.

use super::{body, open, status};
use crate::{framed, Fed, Model, MAX_BODY, MIN_BUFFER};

const BREAKS: [&[u8]; 6] =
    [&[0x00], &[0x80, 0x00], &[0xFF, 0x00], &[0x80, 0x80], &[0x81, 0x10], &[0xFF, 0x7F]];

fn unanswered(used: usize) -> Fed {
    Fed { used, ..Fed::default() }
}

#[test]
fn a_break_is_answered_once_at_its_byte() {
    for bytes in BREAKS {
        let mut model = Model::start();
        let (last, first) = bytes.split_last().unwrap();
        assert_eq!(model.feed(3, first, MIN_BUFFER), unanswered(first.len()));
        let answer = vec![0x01, 0x0A];
        assert_eq!(
            model.feed(3, &[*last, 1, 2, 3], MIN_BUFFER),
            Fed { refusal: 0, used: 1, answer }
        );
        assert!(model.stations[3].broken && model.stations[3].pending.is_empty());
        assert_eq!(model.feed(3, &[2, 1, 0x28, 0, 0], MIN_BUFFER), unanswered(5));
        assert_eq!(model.handles.iter().flatten().count(), 0);
    }
}

#[test]
fn a_break_is_of_one_station_only() {
    let mut model = Model::start();
    model.feed(3, &[0], MIN_BUFFER);
    assert_eq!(status(&mut model, 4, &[1, 8]), 0);
    assert_eq!(model.stations.iter().filter(|station| station.broken).count(), 1);
}

#[test]
fn reconnect_mends_a_break() {
    for bytes in BREAKS {
        let mut model = Model::start();
        model.feed(3, bytes, MIN_BUFFER);
        assert_eq!(model.reconnect(3), 0);
        assert_eq!(model, Model::start());
        assert_eq!(status(&mut model, 3, &[1, 8]), 0);
    }
}

#[test]
fn reconnect_drops_the_pending_bytes_and_nothing_else() {
    let mut model = Model::start();
    open(&mut model, 2, 8);
    model.feed(5, &[9, 1], MIN_BUFFER);
    let before = model.clone();
    model.feed(2, &[0x85, 0x02, 7, 7], MIN_BUFFER);
    assert_eq!(model.stations[2].pending, [0x85, 0x02, 7, 7]);
    assert_eq!(model.reconnect(2), 0);
    assert_eq!(model, before);
    assert_eq!(model.stations[5].pending, [9, 1]);
}

#[test]
fn a_frame_is_served_at_its_last_byte_in_any_cut() {
    let frame = framed(&body(&[1, 0x1EF]));
    for cut in 0..frame.len() {
        let mut model = Model::start();
        assert_eq!(model.feed(0, &frame[..cut], MIN_BUFFER), unanswered(cut));
        assert_eq!(model.stations[0].pending, frame[..cut]);
        let fed = model.feed(0, &frame[cut..], MIN_BUFFER);
        assert_eq!((fed.used, fed.answer), (frame.len() - cut, vec![2, 0, 1]));
        assert!(model.stations[0].pending.is_empty());
    }
}

#[test]
fn a_feed_stops_at_the_end_of_the_first_request() {
    let mut model = Model::start();
    let chunk = [framed(&[1, 8]), framed(&[1, 8])].concat();
    let fed = model.feed(0, &chunk, MIN_BUFFER);
    assert_eq!((fed.used, fed.answer), (3, vec![2, 0, 1]));
    assert_eq!(model.feed(0, &chunk[3..], MIN_BUFFER).answer, [2, 0, 2]);
}

#[test]
fn stations_may_take_turns_byte_by_byte() {
    let frame = framed(&body(&[1, 0x1EF]));
    let mut model = Model::start();
    for (at, &byte) in frame.iter().enumerate() {
        for station in 0..8 {
            let fed = model.feed(station, &[byte], MIN_BUFFER);
            let is_last = at + 1 == frame.len();
            let expected = if is_last { vec![2, 0, station as u8 + 1] } else { vec![] };
            assert_eq!(fed.answer, expected);
        }
    }
}

#[test]
fn the_longest_request_in_two_chunks() {
    let mut model = Model::start();
    let frame = framed(&[1; MAX_BODY]);
    let (most, last) = frame.split_at(frame.len() - 1);
    assert_eq!(model.feed(1, most, MIN_BUFFER), unanswered(most.len()));
    assert_eq!(model.memory().model(), Some(model.clone()));
    assert_eq!(model.feed(1, last, MIN_BUFFER).answer, [1, 1]);
    assert_eq!(model, Model::start());
}
