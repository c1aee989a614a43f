//! Request 18 on a broker and on the model: known bytes, all short bodies, long ones, random ones.

use std::ops::Range;

use gen::{body, condition_body, each_seed, state, with_conditions, Broker, Call, Counts};
use model::{framed, write_number, Model, MAX_BODY, MIN_BUFFER, STATIONS};

use crate::lists::{Both, FEW_CALLS};

/// Bytes of conditions, and the answer to each after the start, with Tcb disabled on the token.
const KNOWN: [(&[u8], &[u8]); 34] = [
    (&[4, 2], &[2, 0, 1]),
    (&[4, 7], &[2, 0, 0]),
    (&[4, 36], &[2, 0, 1]),
    (&[4, 1], &[1, 5]),
    (&[4, 37], &[1, 5]),
    (&[4, 66], &[1, 5]),
    (&[4, 0xFF, 0xFF, 0xFF, 0xFF, 0x0F], &[1, 5]),
    (&[5, 18], &[2, 0, 0]),
    (&[5, 0xFF, 0xFF, 0xFF, 0xFF, 0x0F], &[2, 0, 0]),
    (&[1, 0], &[2, 0, 1]),
    (&[2, 0], &[2, 0, 0]),
    (&[1, 2, 4, 2, 4, 7], &[2, 0, 0]),
    (&[2, 2, 4, 7, 4, 2], &[2, 0, 1]),
    (&[1, 2, 4, 2, 3, 4, 7], &[2, 0, 1]),
    (&[3, 2, 2, 4, 7, 5, 18], &[2, 0, 1]),
    // An unknown privilege, also behind what decides.
    (&[2, 2, 4, 2, 4, 37], &[1, 5]),
    (&[1, 2, 4, 7, 4, 1], &[1, 5]),
    (&[1, 3, 2, 0, 3, 3, 4, 0, 4, 2], &[1, 5]),
    // Eight deep, and deeper.
    (&[3, 3, 3, 3, 3, 3, 3, 4, 2], &[2, 0, 0]),
    (&[3, 3, 3, 3, 3, 3, 3, 3, 4, 2], &[1, 1]),
    (&[1, 1, 1, 1, 1, 1, 1, 1, 1, 1, 1, 1, 1, 1, 1, 0], &[2, 0, 1]),
    (&[1, 1, 1, 1, 1, 1, 1, 1, 1, 1, 1, 1, 1, 1, 1, 1, 4, 2], &[1, 1]),
    (&[2, 1, 3, 1, 1, 3, 2, 1, 3, 3, 2, 0], &[2, 0, 0]),
    (&[2, 1, 3, 1, 1, 3, 2, 1, 3, 3, 3, 2, 0], &[1, 1]),
    (&[1, 2, 4, 2, 3, 3, 3, 3, 3, 3, 3, 4, 2], &[1, 1]),
    // Unknown kinds, cut short, counts beyond, bytes left, longer forms, more than 32 bits.
    (&[0, 2], &[1, 1]),
    (&[6, 2], &[1, 1]),
    (&[3], &[1, 1]),
    (&[1, 1], &[1, 1]),
    (&[2, 0xFF, 0xFF, 0xFF, 0xFF, 0x0F], &[1, 1]),
    (&[1, 1, 4, 2, 4, 2], &[1, 1]),
    (&[0x84, 0x00, 2], &[1, 1]),
    (&[4, 0x82, 0x00], &[1, 1]),
    (&[5, 0x80, 0x80, 0x80, 0x80, 0x10], &[1, 1]),
];

/// The start, with station 0's handles 1 and, without the right, 2 on the first token, and Tcb disabled
/// there.
fn with_handles<B: Broker>() -> Both<B> {
    let mut both = Both::start();
    both.feed(0, &[2, 1, 0x28]);
    both.feed(0, &[2, 1, 0x20]);
    both.feed(0, &[5, 5, 1, 1, 7, 0]);
    both
}

/// Known conditions get the known answers; without the handle or the right, 2 or 3, but 1 before.
pub fn compare_known<B: Broker>() {
    let mut both = with_handles::<B>();
    for (condition, answer) in KNOWN {
        let mut ask = |station, handle| {
            both.feed(station, &framed(&[&[18, handle], condition].concat())).answer
        };
        assert_eq!(ask(0, 1), answer, "{condition:02X?}");
        for (station, handle, refusal) in [(0, 2, 3), (0, 3, 2), (1, 1, 2)] {
            let refusal = if answer == [1, 1] { 1 } else { refusal };
            assert_eq!(ask(station, handle), [1, refusal], "{condition:02X?}");
        }
    }
}

/// Bytes that conditions are made of.
const BYTES: [u8; 12] = [0, 1, 2, 3, 4, 5, 6, 7, 36, 37, 0x80, 0x82];
/// Bytes of the longest of all short conditions.
const SHORT: u32 = 4;

/// Every condition of up to so many of these bytes. Gives how many were answered.
pub fn compare_short<B: Broker>() -> usize {
    let mut both = with_handles::<B>();
    let mut answered = 0;
    for length in 0..=SHORT {
        for all in 0..BYTES.len().pow(length) {
            let byte = |at: u32| BYTES[all / BYTES.len().pow(at) % BYTES.len()];
            let body: Vec<u8> = [18, 1].into_iter().chain((0..length).map(byte)).collect();
            answered += usize::from(both.feed(0, &framed(&body)).answer[0] == 2);
        }
    }
    answered
}

/// Negations and lists of one around a leaf, and lists of leaves, of every length that a body holds; the
/// lists also with a count one off. Gives how many were answered.
pub fn compare_long<B: Broker>() -> usize {
    let mut both = with_handles::<B>();
    let mut answered = 0;
    let mut ask = |begin: &[u8], rest: &[u8]| {
        let body = [&[18, 1], begin, rest].concat();
        if body.len() <= MAX_BODY {
            answered += usize::from(both.feed(0, &framed(&body)).answer[0] == 2);
        }
    };
    for length in 0..MAX_BODY {
        ask(&vec![3; length], &[4, 2]);
        ask(&[2, 1].repeat(length), &[1, 0]);
        for count in length.saturating_sub(1)..=length + 1 {
            let mut list = vec![2];
            write_number(count as u64, &mut list);
            ask(&list, &[4, 7].repeat(length));
        }
    }
    answered
}

/// A short list for each seed, most of it conditions.
pub fn compare_random<B: Broker>(seeds: Range<u64>, counts: &mut Counts) {
    each_seed(seeds, |seed, rng| {
        let first: Model = if seed % 3 == 0 { state(rng) } else { with_conditions(rng) };
        let mut both = Both::<B>::at(first);
        for station in 0..STATIONS as u32 {
            both.counted(&Call::Reconnect { station }, counts);
        }
        for _ in 0..FEW_CALLS {
            let station = rng.below(STATIONS);
            let draw = if rng.percent(80) { condition_body } else { body };
            let frame = framed(&draw(rng, &both.model, station));
            let cut = if rng.percent(30) { rng.below(frame.len()) } else { 0 };
            let chunks = [&frame[..cut], &frame[cut..]];
            for chunk in chunks.into_iter().filter(|chunk| !chunk.is_empty()) {
                let (station, chunk) = (station as u32, chunk.to_vec());
                both.counted(&Call::Feed { station, chunk, buffer_len: MIN_BUFFER }, counts);
            }
        }
    });
}
