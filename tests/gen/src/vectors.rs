//! The vectors of the protocol, as calls and what they return.

use model::{Fed, MIN_BUFFER};

use crate::call::Call;

const FILE: &str = include_str!("../../../examples/vectors");

/// A line of a station, and the answer's line after it.
#[derive(Clone, Debug)]
pub struct Vector {
    /// What it says, numbers in decimal and lists in full.
    pub words: String,
    /// The call that it stands for.
    pub call: Call,
    /// What comes back, if anything does.
    pub answer: Option<Answer>,
}

/// An answer's line.
#[derive(Clone, Debug)]
pub struct Answer {
    /// What it says, numbers in decimal and lists in full.
    pub words: String,
    /// Its bytes.
    pub bytes: Vec<u8>,
}

impl Vector {
    /// What the call returns: all bytes are used.
    pub fn fed(&self) -> Fed {
        let used = match &self.call {
            Call::Feed { chunk, .. } => chunk.len(),
            Call::Reconnect { .. } => 0,
        };
        let answer = self.answer.as_ref().map_or(Vec::new(), |answer| answer.bytes.clone());
        Fed { refusal: 0, used, answer }
    }
}

/// All of them, in the order of the file.
pub fn vectors() -> Vec<Vector> {
    let mut vectors: Vec<Vector> = Vec::new();
    for line in FILE.lines().filter(|line| !line.is_empty() && !line.starts_with('#')) {
        match line.split_once(' ').expect("a station or <, then a blank") {
            ("<", text) => {
                let (words, bytes) = parts(text).expect("BYTES");
                let asked = vectors.last_mut().expect("a line before it");
                let other = asked.answer.replace(Answer { words, bytes });
                assert!(other.is_none(), "a second answer: {line}");
            }
            (station, text) => vectors.push(asked(station.parse().expect("a station"), text)),
        }
    }
    vectors
}

/// A station's line, still without its answer.
fn asked(station: u32, text: &str) -> Vector {
    if text == "reconnect" {
        return Vector { words: text.into(), call: Call::Reconnect { station }, answer: None };
    }
    let (words, chunk) = parts(text).expect("BYTES");
    let call = Call::Feed { station, chunk, buffer_len: MIN_BUFFER };
    Vector { words, call, answer: None }
}

/// The words, numbers in decimal and lists in full, and the bytes.
fn parts(text: &str) -> Option<(String, Vec<u8>)> {
    let (words, bytes) = text.split_once(" = ")?;
    let words: Vec<_> = words.split(' ').map(plain_word).collect();
    Some((words.join(" "), bytes.split(' ').flat_map(bytes_of).collect()))
}

/// The bytes of digits such as 0A0B, or 0407*3.
fn bytes_of(word: &str) -> Vec<u8> {
    let (digits, count) = repeated(word);
    let byte = |at: usize| u8::from_str_radix(&digits[at..at + 2], 16).expect("two digits");
    let bytes: Vec<_> = (0..digits.len()).step_by(2).map(byte).collect();
    bytes.repeat(count)
}

/// An item, and how often it stands there.
fn repeated(item: &str) -> (&str, usize) {
    item.split_once('*').map_or((item, 1), |(item, count)| (item, count.parse().expect("a count")))
}

/// KEY=VALUE with each item of the value; of a DACL, all its digits.
fn plain_word(word: &str) -> String {
    let Some((key, value)) = word.split_once('=') else { return word.into() };
    let items = value.split(',').map(repeated);
    let items: Vec<_> = items.flat_map(|(item, count)| vec![plain_item(item); count]).collect();
    format!("{key}={}", items.join(if key == "dacl" { "" } else { "," }))
}

fn plain_item(item: &str) -> String {
    let decimal = |number: &str| match number.strip_prefix("0x") {
        Some(digits) => u64::from_str_radix(digits, 16).expect("a number").to_string(),
        None => number.into(),
    };
    item.split(':').map(decimal).collect::<Vec<_>>().join(":")
}
