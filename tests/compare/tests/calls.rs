//! Lists of calls through the static library, against the model: what each returns and answers,
//! the bytes after the answer, and every lent byte.

use std::io::Write;

use compare::lists::{self, Both};
use compare::Lent;
use gen::{each_seed, near_the_last_numbers, one_seed, state, Broker, Call, Counts};
use model::{framed, Model, HANDLES, LAST_REQUEST, MAX_BODY, MIN_BUFFER, STATIONS};

/// Prints past the test runner's capture, so that a run that passes shows it too.
fn print(text: &str) {
    writeln!(std::io::stdout().lock(), "{text}").expect("standard output");
}

#[test]
fn lists_of_calls() {
    let mut counts = Counts::default();
    lists::compare::<Lent>(0..990, &mut counts);
    lists::compare_pairs::<Lent>(10_000..11_000, &mut counts);
    print(&format!(
        "\nstatuses of the requests that the broker and the model served alike:\n{counts}"
    ));
    if one_seed().is_none() {
        counts.check_statuses(20);
        counts.check_groups(10);
        counts.check_restrictions(10);
        counts.check_roots(10);
        counts.check_clients(5);
        counts.check_refusals(20);
    }
}

#[test]
fn every_row_of_the_gate_table() {
    let mut counts = Counts::default();
    lists::compare_clients::<Lent>(0..4000, &mut counts);
    if one_seed().is_none() {
        counts.check_gates(8);
        counts.check_uses(4);
    }
}

#[test]
fn every_case_of_linking() {
    let mut counts = Counts::default();
    lists::compare_pairs::<Lent>(0..5000, &mut counts);
    if one_seed().is_none() {
        counts.check_links(5);
        counts.check_partners(5);
    }
}

#[test]
fn every_pair_of_first_bytes() {
    let mut both = Both::<Lent>::start();
    for first in 0..=255 {
        for second in 0..=255 {
            let station = u32::from(second) % STATIONS as u32;
            both.feed(station, &[first, second]);
            assert_eq!(both.reconnect(station), 0);
        }
    }
}

#[test]
fn every_body_of_two_bytes() {
    let mut start = Both::<Lent>::start();
    start.feed(0, &[3, 1, 0xEF, 3]);
    for request in 0..=LAST_REQUEST as u8 + 2 {
        for field in 0..=255 {
            let mut both = Both::<Lent>::at(start.model.clone());
            both.feed(0, &[2, request, field]);
        }
    }
}

#[test]
fn bodies_of_every_length() {
    let mut both = Both::<Lent>::start();
    for length in 1..=MAX_BODY {
        let frame = framed(&vec![1; length]);
        let (most, last) = frame.split_at(frame.len() - 1);
        let station = (length % STATIONS) as u32;
        assert_eq!(both.feed(station, most).answer, []);
        assert_eq!(both.feed(station, last).used, 1);
    }
}

#[test]
fn long_chunks() {
    let mut both = Both::<Lent>::start();
    let many = framed(&[1, 8]).repeat(30_000);
    for at in 0..HANDLES + 8 {
        assert_eq!(both.feed(2, &many[3 * at..]).used, 3);
    }
    both.feed(3, &[0]);
    assert_eq!(both.feed(3, &many).used, many.len());
    assert_eq!(both.feed(3, &many).answer, []);
}

#[test]
fn answer_buffers_of_every_kind() {
    for buffer_len in [
        0,
        1,
        2,
        MIN_BUFFER - 2,
        MIN_BUFFER - 1,
        MIN_BUFFER,
        MIN_BUFFER + 1,
        2 * MIN_BUFFER,
        65_536,
    ] {
        let mut both = Both::<Lent>::start();
        for chunk in [&[2, 1, 8][..], &[], &[0x80], &[0x80], &[1, 2, 3], &[]] {
            let call = Call::Feed { station: 7, chunk: chunk.to_vec(), buffer_len };
            assert_eq!(both.make(&call).refusal, if buffer_len < MIN_BUFFER { 12 } else { 0 });
        }
    }
}

#[test]
fn stations_above_7() {
    let mut both = Both::<Lent>::start();
    let none = STATIONS as u32;
    for station in [none, none + 1, 2 * none, 255, 256, 1 << 31, u32::MAX - none, u32::MAX] {
        assert_eq!(both.feed(station, &[2, 1, 8]).refusal, 11);
        assert_eq!(both.reconnect(station), 11);
    }
}

/// The slot that the state has the station's handle in.
fn slot(model: &Model, station: u32, number: u32) -> usize {
    let is_it = |handle: &Option<model::Handle>| {
        handle.is_some_and(|handle| handle.station == station && handle.number == number)
    };
    model.handles.iter().position(is_it).unwrap_or(HANDLES)
}

#[test]
fn handles_are_found() {
    let mut found = 0;
    each_seed(0..300, |seed, rng| {
        let model = if seed % 8 == 0 { near_the_last_numbers(rng) } else { state(rng) };
        let lent = Lent::lend(&model.memory());
        let given: Vec<u32> = model.handles.iter().flatten().map(|handle| handle.number).collect();
        for number in given.into_iter().chain([0, 1, model.next_handle, u32::MAX]) {
            for station in (0..=STATIONS as u32).chain([u32::MAX]) {
                let expected = slot(&model, station, number);
                assert_eq!(lent.find(station, number), expected, "{station}, {number}");
                found += usize::from(expected < HANDLES);
            }
        }
        assert!(lent.bytes() == model.memory().bytes(), "find wrote something");
    });
    assert!(found > 1000 || one_seed().is_some(), "{found}");
}
