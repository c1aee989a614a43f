//! Open and close, requests 1 and 2; slots and numbers; the layout of requests.

use super::{ask, handle, open, send, start, status};
use crate::Handle;

#[test]
fn open_checks_the_mask() {
    let mut model = start();
    for mask in [0, 0x10, 0x200, 0x1FF, 0xFFFF_FFFF] {
        assert_eq!(ask(&mut model, 0, &[1, mask]), [5]);
    }
    for mask in [1, 2, 4, 8, 0x20, 0x40, 0x80, 0x100, 0x1EF] {
        open(&mut model, 6, mask);
    }
    let record = Handle { station: 6, number: 9, token: 1, mask: 0x1EF };
    assert_eq!(model.handles[8], Some(record));
}

#[test]
fn a_freed_slot_is_taken_again_but_not_its_number() {
    let mut model = start();
    for _ in 0..4 {
        open(&mut model, 0, 8);
    }
    assert_eq!(ask(&mut model, 0, &[2, 2]), [0]);
    assert_eq!(ask(&mut model, 0, &[2, 3]), [0]);
    assert_eq!(ask(&mut model, 0, &[1, 8]), [0, 5]);
    assert_eq!(model.handles[1].unwrap().number, 5);
    assert_eq!(model.handles[2], None);
}

#[test]
fn close_is_for_live_handles_of_the_station() {
    let mut model = start();
    let own = open(&mut model, 0, 8);
    assert_eq!(status(&mut model, 1, &[2, own]), 2);
    assert_eq!(status(&mut model, 0, &[2, 0]), 2);
    assert_eq!(status(&mut model, 0, &[2, own + 1]), 2);
    assert_eq!(status(&mut model, 0, &[2, own]), 0);
    assert_eq!(status(&mut model, 0, &[2, own]), 2);
}

#[test]
fn every_request_on_a_handle_asks_for_the_stations_own() {
    let mut model = start();
    let own = open(&mut model, 0, 0x1EF);
    let copy = handle(&mut model, 0, &[9, own, 2, 1, 4]);
    let requests: [&[u64]; 10] = [
        &[2, own],
        &[4, own, 1, 9],
        &[5, own, 1, 2, 0],
        &[6, own, 1, 0xFFFF_FFFF, 0],
        &[7, own, 1],
        &[8, own, 0, 0, 0, 0],
        &[9, own, 1, 0, 1],
        &[10, own, 0, 0, 0, 0],
        &[11, own],
        &[12, copy],
    ];
    for request in requests {
        assert_eq!(status(&mut model.clone(), 1, request), 2, "{request:?}");
        assert_eq!(status(&mut model.clone(), 0, request), 0, "{request:?}");
    }
}

#[test]
fn every_right_is_asked_for() {
    let rights: [(u64, &[u64]); 8] = [
        (8, &[4, 1, 1, 9]),
        (0x20, &[5, 1, 1, 2, 0]),
        (0x40, &[6, 1, 1, 0xFFFF_FFFF, 0]),
        (0x100, &[7, 1, 1]),
        (0x80, &[8, 1, 0, 0, 0, 0]),
        (2, &[9, 1, 1, 0, 2]),
        (2, &[10, 1, 0, 0, 0, 0]),
        (1, &[11, 1]),
    ];
    for (right, request) in rights {
        let mut model = start();
        open(&mut model, 0, 0x1EF & !right);
        assert_eq!(status(&mut model, 0, request), 3, "{request:?}");
        let mut model = start();
        open(&mut model, 0, right);
        assert_eq!(status(&mut model, 0, request), 0, "{request:?}");
    }
}

#[test]
fn the_last_token_is_freed_with_its_last_handle() {
    let mut model = start();
    let own = open(&mut model, 0, 0x1EF);
    let first = handle(&mut model, 0, &[9, own, 1, 0, 8]);
    let second = handle(&mut model, 0, &[9, own, 1, 0, 8]);
    assert_eq!(model.tokens.iter().flatten().count(), 3);
    assert_eq!(ask(&mut model, 0, &[2, first]), [0]);
    assert!(model.tokens[1].is_none() && model.token(3).is_some());
    let third = handle(&mut model, 0, &[9, own, 1, 0, 8]);
    assert_eq!(model.tokens[1].as_ref().unwrap().number, 4);
    for handle in [second, third, own] {
        assert_eq!(ask(&mut model, 0, &[2, handle]), [0]);
    }
    assert_eq!(model.tokens.iter().flatten().count(), 1);
}

#[test]
fn the_last_handle_number_is_never_given() {
    let mut model = start();
    model.next_handle = u32::MAX - 1;
    assert_eq!(ask(&mut model, 0, &[1, 8]), [0, 0xFE, 0xFF, 0xFF, 0xFF, 0x0F]);
    assert_eq!(model.next_handle, u32::MAX);
    assert_eq!(ask(&mut model, 0, &[1, 8]), [8]);
    assert_eq!(ask(&mut model, 0, &[2, u64::from(u32::MAX) - 1]), [0]);
    assert_eq!(ask(&mut model, 0, &[1, 8]), [8]);
    assert_eq!(ask(&mut model, 0, &[3, 50, 5, 0, 0, 0, 0]), [8]);
}

#[test]
fn the_last_token_number_is_never_given() {
    let mut model = start();
    model.next_token = u64::MAX - 1;
    let own = open(&mut model, 0, 0x1EF);
    let copy = handle(&mut model, 0, &[9, own, 1, 0, 0x1EF]);
    assert_eq!(super::token_of(&model, copy).number, u64::MAX - 1);
    assert_eq!(super::token_of(&model, copy).modified, u64::MAX - 1);
    assert_eq!(model.next_token, u64::MAX);
    assert_eq!(ask(&mut model, 0, &[9, own, 1, 0, 8]), [8]);
    assert_eq!(ask(&mut model, 0, &[10, own, 0, 0, 0, 0]), [8]);
    assert_eq!(ask(&mut model, 0, &[3, 50, 5, 0, 0, 0, 0]), [8]);
    assert_eq!(status(&mut model, 0, &[1, 8]), 0);
}

#[test]
fn a_17th_token_is_refused() {
    let mut model = start();
    for _ in 1..16 {
        handle(&mut model, 0, &[3, 50, 5, 0, 0, 0, 0]);
    }
    let own = open(&mut model, 0, 0x1EF);
    assert_eq!(ask(&mut model, 0, &[3, 50, 5, 0, 0, 0, 0]), [8]);
    assert_eq!(ask(&mut model, 0, &[9, own, 2, 0, 1]), [8]);
    assert_eq!(ask(&mut model, 0, &[10, own, 0, 0, 0, 0]), [8]);
    assert_eq!(ask(&mut model, 0, &[2, 5]), [0]);
    assert_eq!(status(&mut model, 0, &[10, own, 0, 0, 0, 0]), 0);
    assert_eq!(model.tokens[5].as_ref().unwrap().number, 17);
}

#[test]
fn refusal_1_is_for_layouts() {
    let mut model = start();
    let own = open(&mut model, 0, 0x1EF) as u8;
    let copy = handle(&mut model, 0, &[9, own.into(), 2, 1, 4]) as u8;
    let requests: [&[u8]; 13] = [
        &[1, 8],
        &[2, own],
        &[3, 50, 5, 0, 4, 4, 1, 60, 2],
        &[4, own, 1, 9],
        &[5, own, 2, 2, 0, 3, 0],
        &[6, own, 1, 0xFF, 0xFF, 0xFF, 0xFF, 0x0F, 0],
        &[7, own, 0x80, 0x01],
        &[8, own, 0, 0, 1, 3, 7, 8, 9],
        &[9, own, 1, 0, 1],
        &[10, own, 0, 4, 0, 2, 70, 71],
        &[11, own],
        &[12, copy],
        &[13],
    ];
    for request in requests {
        assert_eq!(send(&mut model.clone(), 0, request)[0], 0, "{request:?}");
        for end in 1..request.len() {
            assert_eq!(send(&mut model, 0, &request[..end]), [1], "{request:?} to {end}");
        }
        assert_eq!(send(&mut model, 0, &[request, &[0]].concat()), [1], "{request:?} and 0");
    }
}

#[test]
fn refusal_1_is_for_unknown_requests() {
    let mut model = start();
    for request in [0, 19, 20, 127, 128, 257, u64::MAX] {
        assert_eq!(ask(&mut model, 0, &[request]), [1]);
        assert_eq!(ask(&mut model, 0, &[request, 1]), [1]);
    }
}

#[test]
fn a_field_wider_than_its_width_is_a_matter_of_layout() {
    let mut model = start();
    let own = open(&mut model, 0, 0x1EF);
    assert_eq!(ask(&mut model, 0, &[1, 1 << 32]), [1]);
    assert_eq!(ask(&mut model, 0, &[2, own + (1 << 32)]), [1]);
    assert_eq!(ask(&mut model, 0, &[8, own, 1 << 16, 0, 0, 0]), [1]);
    assert_eq!(ask(&mut model, 0, &[8, own, 0, 1 << 16, 0, 0]), [1]);
    assert_eq!(ask(&mut model, 0, &[7, own, 1 << 32]), [1]);
    assert_eq!(ask(&mut model, 0, &[5, own, u64::from(u32::MAX), 2, 0]), [1]);
}
