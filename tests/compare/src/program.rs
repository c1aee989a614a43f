//! Runs the program on an input and compares what it writes with the model's own program.

use std::io::{Read, Write};
use std::ops::Range;
use std::process::{Child, ChildStdin, Command, Stdio};
use std::thread;
use std::time::Duration;

use gen::{each_seed, session, Rng};

/// Starts the program with pipes to its input and from its output.
pub fn spawn() -> Child {
    Command::new(env!("OBRISKA_PROGRAM"))
        .stdin(Stdio::piped())
        .stdout(Stdio::piped())
        .spawn()
        .expect("the program starts")
}

/// All that the program writes for an input that comes in random blocks.
pub fn output(rng: &mut Rng, input: &[u8]) -> Vec<u8> {
    let mut child = spawn();
    let (stdin, mut stdout) = (child.stdin.take(), child.stdout.take().expect("a pipe"));
    let mut output = Vec::new();
    thread::scope(|scope| {
        scope.spawn(|| write_blocks(rng, stdin.expect("a pipe"), input));
        stdout.read_to_end(&mut output).expect("its output is read");
    });
    let status = child.wait().expect("the program ends");
    assert!(status.code().is_some(), "the program ended by a signal: {status}");
    output
}

/// Writes blocks of random sizes, now and then with a pause; the program may end before the input.
fn write_blocks(rng: &mut Rng, mut stdin: ChildStdin, mut input: &[u8]) {
    let most = rng.pick(&[1, 3, 40, 5000, 100_000]);
    let pauses = if input.len() / most < 2000 { 5 } else { 0 };
    while !input.is_empty() {
        let (block, rest) = input.split_at((1 + rng.below(most)).min(input.len()));
        if stdin.write_all(block).is_err() {
            return;
        }
        if rng.percent(pauses) {
            thread::sleep(Duration::from_micros(100));
        }
        input = rest;
    }
}

/// The program on the input, against the model's.
pub fn compare(rng: &mut Rng, input: &[u8], place: &str) {
    let (written, expected) = (output(rng, input), model::program(input));
    let at = written.iter().zip(&expected).position(|(byte, expected)| byte != expected);
    let lengths = (written.len(), expected.len());
    assert!(written == expected, "{place}: {lengths:?} bytes, first difference {at:?}");
}

/// A random session for each seed; gives how many bytes of answers there were.
pub fn compare_sessions(seeds: Range<u64>) -> usize {
    let mut answered = 0;
    each_seed(seeds, |seed, rng| {
        let input = session(seed);
        answered += model::program(&input).len();
        compare(rng, &input, &format!("a session of {} bytes", input.len()));
    });
    answered
}
