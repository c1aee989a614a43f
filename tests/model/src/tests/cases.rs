//! Cases A to L of document 01 with the report of document 02, W6, byte by byte, and after them all
//! in one run.

use super::{ask, body, send};
use crate::{framed, Fed, Model, MIN_BUFFER};

fn fed(model: &mut Model, station: u32, frame: &[u8]) -> Vec<u8> {
    let fed = model.feed(station, frame, MIN_BUFFER);
    assert_eq!((fed.refusal, fed.used), (0, frame.len()));
    fed.answer
}

/// The state after cases A and B.
fn after_b() -> Model {
    let mut model = Model::start();
    assert_eq!(fed(&mut model, 0, &[0x02, 0x01, 0x28]), [0x02, 0x00, 0x01]);
    let frame = [0x05, 0x05, 0x01, 0x01, 0x07, 0x00];
    assert_eq!(fed(&mut model, 0, &frame), [0x05, 0x00, 0x80, 0x01, 0x80, 0x01]);
    model
}

#[test]
fn a_opens_the_own_token() {
    let mut model = Model::start();
    assert_eq!(fed(&mut model, 0, &[0x02, 0x01, 0x28]), [0x02, 0x00, 0x01]);
    assert_eq!(model.handles.iter().flatten().count(), 1);
}

#[test]
fn b_disables_tcb_and_reports_that_it_was_present_and_enabled() {
    let model = after_b();
    assert!(!model.primary(0).privileges.holds(7));
    assert_eq!(model.primary(0).modified, 2);
}

#[test]
fn c_reports_the_four_words() {
    let answer = fed(&mut after_b(), 0, &[0x04, 0x04, 0x01, 0x03, 0x40]);
    let expected = [
        0x14, 0x00, 0xFC, 0xFF, 0xFF, 0xFF, 0xFF, 0x03, 0xFC, 0xFE, 0xFF, 0xFF, 0xFF, 0x03, 0xFC,
        0xFF, 0xFF, 0xFF, 0xFF, 0x03, 0x00,
    ];
    assert_eq!(answer, expected);
}

#[test]
fn d_needs_capacity_19() {
    let mut model = after_b();
    assert_eq!(fed(&mut model, 0, &[0x04, 0x04, 0x01, 0x03, 18]), [0x02, 0x09, 0x13]);
    assert_eq!(fed(&mut model, 0, &[0x04, 0x04, 0x01, 0x03, 19]).len(), 21);
}

#[test]
fn e_takes_length_2048() {
    let mut model = Model::start();
    let frame = [vec![0x80, 0x10], vec![0; 2048]].concat();
    assert_eq!(fed(&mut model, 0, &frame), [0x01, 0x01]);
    assert!(!model.stations[0].broken);
}

#[test]
fn f_breaks_at_length_2049() {
    let mut model = Model::start();
    let answer = vec![0x01, 0x0A];
    assert_eq!(model.feed(0, &[0x81, 0x10, 1], MIN_BUFFER), Fed { refusal: 0, used: 2, answer });
    assert!(model.stations[0].broken);
}

#[test]
fn g_refuses_the_handle_to_another_station() {
    let mut model = after_b();
    assert_eq!(fed(&mut model, 1, &[0x04, 0x04, 0x01, 0x03, 0x40]), [0x01, 0x02]);
}

#[test]
fn h_checks_the_mask() {
    let mut model = Model::start();
    assert_eq!(ask(&mut model, 0, &[1, 0x1EF]), [0, 1]);
    assert_eq!(ask(&mut model, 0, &[1, 0x10]), [5]);
}

#[test]
fn i_knows_privileges_up_to_36() {
    let mut model = after_b();
    let frame = |privilege| [0x05, 0x05, 0x01, 0x01, privilege, 0x00];
    let bit_36 = [0x80, 0x80, 0x80, 0x80, 0x80, 0x02];
    let report = [&[0x0D, 0x00][..], &bit_36, &bit_36].concat();
    assert_eq!(fed(&mut model, 0, &frame(36)), report);
    assert_eq!(fed(&mut model, 0, &frame(37)), [0x01, 0x05]);
}

#[test]
fn j_refuses_a_33rd_handle() {
    let mut model = Model::start();
    for count in 1..=32 {
        assert_eq!(ask(&mut model, count % 8, &[1, 8]), [0, count as u8]);
    }
    assert_eq!(ask(&mut model, 0, &[1, 8]), [8]);
}

#[test]
fn k_refuses_a_number_not_in_its_shortest_form() {
    let mut model = Model::start();
    assert_eq!(send(&mut model, 0, &[0x01, 0x80, 0x00]), [1]);
    assert_eq!(send(&mut model, 0, &[0x80, 0x00]), [1]);
}

#[test]
fn l_steps_modified_only_at_the_second_removal() {
    let mut model = Model::start();
    let remove = [0x05, 0x05, 0x01, 0x01, 0x07, 0x04];
    assert_eq!(fed(&mut model, 0, &[0x02, 0x01, 0x28]), [0x02, 0x00, 0x01]);
    assert_eq!(fed(&mut model, 0, &remove), [0x05, 0x00, 0x80, 0x01, 0x80, 0x01]);
    let mut expected = model.clone();
    expected.tokens[0].as_mut().unwrap().modified = 3;
    assert_eq!(fed(&mut model, 0, &remove), [0x03, 0x00, 0x00, 0x00]);
    assert_eq!(model, expected);
}

#[test]
fn the_first_minute_is_the_same_in_any_cut() {
    let frames: [&[u64]; 4] = [&[1, 0x28], &[5, 1, 1, 7, 0], &[4, 1, 3, 64], &[4, 1, 3, 18]];
    let stream = frames.map(|numbers| framed(&body(numbers))).concat();
    let mut whole = Model::start();
    let whole_answers = feed_in_chunks(&mut whole, &stream, stream.len());
    for size in 1..stream.len() {
        let mut cut = Model::start();
        assert_eq!(feed_in_chunks(&mut cut, &stream, size), whole_answers);
        assert_eq!(cut, whole);
    }
}

/// Feeds chunks of the size, each until it is used up.
fn feed_in_chunks(model: &mut Model, stream: &[u8], size: usize) -> Vec<u8> {
    let mut answers = Vec::new();
    for mut chunk in stream.chunks(size) {
        while !chunk.is_empty() {
            let fed = model.feed(0, chunk, MIN_BUFFER);
            answers.extend(fed.answer);
            chunk = &chunk[fed.used..];
        }
    }
    answers
}
