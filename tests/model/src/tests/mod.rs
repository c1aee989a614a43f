//! Unit tests, and what they share.

mod calls;
mod cases;
mod clients;
mod conditions;
mod copies;
mod create;
mod defaults;
mod frames;
mod groups;
mod handles;
mod install;
mod lent;
mod memory;
mod numbers;
mod packed;
mod pair_memory;
mod pairs;
mod privileges;
mod program;
mod put_back;
mod query;
mod restrictions;
mod roots;
mod sid_memory;
mod sids;
mod slips;
mod streams;

use crate::{framed, write_number, Model, Sid, Token, MAX_LENGTH_BYTES, MIN_BUFFER, MORE};

/// The body that the numbers make.
fn body(numbers: &[u64]) -> Vec<u8> {
    let mut body = Vec::new();
    for &number in numbers {
        write_number(number, &mut body);
    }
    body
}

/// Feeds the body as one frame and gives the answer's body.
fn send(model: &mut Model, station: u32, body: &[u8]) -> Vec<u8> {
    let frame = framed(body);
    let before = model.clone();
    let fed = model.feed(station, &frame, MIN_BUFFER);
    assert_eq!((fed.refusal, fed.used), (0, frame.len()));
    let answer = unframed(&fed.answer);
    if answer[0] != 0 {
        assert_eq!(*model, before, "refusal {} changed something", answer[0]);
    }
    assert_eq!(model.memory().model().as_ref(), Some(&*model));
    answer
}

/// The answer's body without its length.
fn unframed(answer: &[u8]) -> Vec<u8> {
    assert!(answer.len() <= MIN_BUFFER);
    let length_bytes = if answer[0] < MORE { 1 } else { MAX_LENGTH_BYTES };
    let body = answer[length_bytes..].to_vec();
    assert_eq!(framed(&body), answer);
    body
}

/// The answer's body to a request of these numbers.
fn ask(model: &mut Model, station: u32, numbers: &[u64]) -> Vec<u8> {
    send(model, station, &body(numbers))
}

/// The status of the answer.
fn status(model: &mut Model, station: u32, numbers: &[u64]) -> u8 {
    ask(model, station, numbers)[0]
}

/// The handle that a request of these numbers gives.
fn handle(model: &mut Model, station: u32, numbers: &[u64]) -> u64 {
    let answer = ask(model, station, numbers);
    assert_eq!(answer[0], 0);
    assert!(answer.len() > 1);
    u64::from(model.next_handle) - 1
}

/// A new handle on the station's own token.
fn open(model: &mut Model, station: u32, mask: u64) -> u64 {
    handle(model, station, &[1, mask])
}

/// The token of a live handle.
fn token_of(model: &Model, handle: u64) -> &Token {
    let handles = model.handles.iter().flatten();
    let found = handles.into_iter().find(|live| u64::from(live.number) == handle);
    model.live(found.expect("a live handle").token)
}

/// The same token, to be changed in preparing a test.
fn token_of_mut(model: &mut Model, handle: u64) -> &mut Token {
    let number = token_of(model, handle).number;
    model.live_mut(number)
}

/// How many SIDs stand in the table of [`start`]; the last has number 199.
const STARTED_SIDS: u32 = 170;

/// The start, with the numbers from 32 to 199 in the table too.
fn start() -> Model {
    let mut model = Model::start();
    for sub_authority in 100..98 + STARTED_SIDS {
        model.sids.enter(Sid::nt(sub_authority));
    }
    model
}

/// A create request: user 50, session 9, privileges 2 to 36 present, and these groups.
fn create(groups: &[(u64, u64)]) -> Vec<u64> {
    let mut numbers = vec![3, 50, 9, 8192, crate::ALL_PRIVILEGES, 0, groups.len() as u64];
    numbers.extend(groups.iter().flat_map(|&(sid, attributes)| [sid, attributes]));
    numbers
}

/// A fresh model and station 0's handle with all rights on a token with these groups.
fn with_groups(groups: &[(u64, u64)]) -> (Model, u64) {
    let mut model = start();
    let handle = handle(&mut model, 0, &create(groups));
    (model, handle)
}
