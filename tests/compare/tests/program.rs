//! The program on sessions through pipes, against the model's own version of it.

use std::io::{Read, Write};
use std::sync::mpsc::{channel, Receiver};
use std::thread;
use std::time::Duration;

use compare::program::{compare, compare_sessions, spawn};
use gen::{one_seed, write_chunk, Rng};
use model::{framed, write_number, HANDLES, MAX_CHUNK, PENDING_ROW, STATIONS};

const OPEN: [u8; 3] = [2, 1, 0x28];

/// A session of these chunks.
fn session(chunks: &[(u32, &[u8])]) -> Vec<u8> {
    let mut input = Vec::new();
    for (station, chunk) in chunks {
        write_chunk(*station, chunk, &mut input);
    }
    input
}

/// The number in its one form.
fn number(number: u64) -> Vec<u8> {
    let mut bytes = Vec::new();
    write_number(number, &mut bytes);
    bytes
}

/// Compares on the input as it is and between two chunks that open a handle.
fn compare_between(bytes: &[u8]) {
    let open = session(&[(0, &OPEN)]);
    let rng = &mut Rng::new(7);
    compare(rng, bytes, &format!("{bytes:02X?}"));
    compare(rng, &[&open, bytes, &open].concat(), &format!("{bytes:02X?} between chunks"));
}

#[test]
fn random_sessions() {
    let answered = compare_sessions(0..400);
    println!("{answered} bytes of answers");
    assert!(answered > 10_000 || one_seed().is_some(), "{answered}");
}

#[test]
fn no_input() {
    compare_between(&[]);
}

#[test]
fn bad_numbers() {
    for bad in [&[0x80, 0x00][..], &[0x81, 0x00], &[0x80, 0x80, 0x00], &[0xFF; 11], &[0x80; 20]] {
        compare_between(bad);
        compare_between(&[&[0x00], bad].concat());
        compare_between(&[bad, &session(&[(0, &OPEN)])].concat());
    }
}

#[test]
fn numbers_of_every_width() {
    for bits in [7, 14, 21, 28, 31, 32, 35, 63] {
        for value in [(1u64 << bits) - 1, 1 << bits] {
            let (value, open) = (number(value), session(&[(0, &OPEN)]));
            compare_between(&[&value[..], &[3], &OPEN, &open].concat());
            compare_between(&[&[0], &value[..], &open].concat());
        }
    }
    compare_between(&number(u64::MAX));
}

#[test]
fn lengths_up_to_4096() {
    let around = [MAX_CHUNK - 1, MAX_CHUNK, MAX_CHUNK + 1, MAX_CHUNK + 2, 4 * MAX_CHUNK];
    for length in [&[0, 1, 127, 128, PENDING_ROW, PENDING_ROW + 1], &around[..]].concat() {
        let many = OPEN.repeat(1 + length / 3);
        compare_between(&session(&[(1, &many[..length])]));
        compare_between(&session(&[(STATIONS as u32, &many[..length])]));
        let broken = vec![0; length];
        compare_between(&session(&[(2, &broken), (2, &OPEN), (3, &OPEN)]));
    }
}

#[test]
fn chunks_cut_short_at_the_end() {
    let whole = session(&[(0, &OPEN), (130, &OPEN), (1, &OPEN.repeat(50)), (2, &[0])]);
    for end in 0..=whole.len() {
        compare(&mut Rng::new(end as u64), &whole[..end], &format!("cut at {end}"));
    }
}

#[test]
fn stations_above_7_are_passed_over() {
    let none = STATIONS as u32;
    for station in [none - 1, none, none + 1, 127, 128, 255, 256, u32::MAX] {
        compare_between(&session(&[(station, &OPEN), (station, &[]), (station, &[0])]));
    }
}

#[test]
fn empty_chunks_change_nothing() {
    let empty: &[u8] = &[];
    compare_between(&session(&[
        (0, empty),
        (0, &OPEN[..1]),
        (0, empty),
        (1, empty),
        (0, &OPEN[1..]),
    ]));
    compare_between(&session(&[(4, empty)]).repeat(5000));
}

/// Reads blocks in a thread, so that a wait for them can end.
fn blocks(mut output: impl Read + Send + 'static) -> Receiver<Vec<u8>> {
    let (sender, receiver) = channel();
    thread::spawn(move || loop {
        let mut block = [0; MAX_CHUNK];
        match output.read(&mut block) {
            Ok(count) if count > 0 && sender.send(block[..count].to_vec()).is_ok() => {}
            _ => return,
        }
    });
    receiver
}

#[test]
fn an_answer_comes_before_the_next_request_is_sent() {
    let mut child = spawn();
    let mut input = child.stdin.take().expect("a pipe");
    let output = blocks(child.stdout.take().expect("a pipe"));
    for count in 1..=HANDLES as u64 + 8 {
        input.write_all(&session(&[(0, &OPEN)])).expect("the program reads");
        let is_free = count <= HANDLES as u64;
        let expected = framed(&if is_free { [vec![0], number(count)].concat() } else { vec![8] });
        let mut answer = Vec::new();
        while answer.len() < expected.len() {
            let block = output.recv_timeout(Duration::from_secs(20));
            answer.extend(block.expect("an answer before the next request"));
        }
        assert_eq!(answer, expected);
    }
    drop(input);
    assert!(output.recv().is_err(), "nothing more is written");
    assert!(child.wait().is_ok());
}
