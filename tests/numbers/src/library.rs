//! The two libraries' C functions, and safe calls of them.

use model::{Memory, HANDLE_BYTES};

/// Which reader.
#[derive(Clone, Copy, Debug, PartialEq, Eq)]
pub enum Side {
    /// The one before.
    Before,
    /// The one that is there.
    Now,
}

/// Both, in the order in which they take turns.
pub const SIDES: [Side; 2] = [Side::Before, Side::Now];

/// What a feed returns to C.
#[repr(C)]
struct Turn {
    refusal: u32,
    used: usize,
    answered: usize,
}

#[rustfmt::skip]
macro_rules! declare {
    ($fields:ident, $words:ident, $skip:ident, $entries:ident, $feed:ident) => {
        #[allow(unsafe_code)]
        extern "C" {
            fn $fields(body: *const u8, len: usize, count: u64) -> u64;
            fn $words(body: *const u8, len: usize, count: u64) -> u64;
            fn $skip(body: *const u8, len: usize, count: u64, limit: u64) -> u64;
            fn $entries(body: *const u8, len: usize, count: u64) -> u64;
            fn $feed(
                station: u32, data: *const u8, data_len: usize, answer: *mut u8, answer_len: usize,
                tokens: *mut u64, tokens_len: usize, dacls: *mut u64, dacls_len: usize,
                handles: *mut u64, handles_len: usize, control: *mut u64, control_len: usize,
                pending: *mut u64, pending_len: usize,
            ) -> Turn;
        }
    };
}

declare!(bench_fields, bench_words, bench_skip, bench_entries, obriska_feed);
declare!(
    before_bench_fields,
    before_bench_words,
    before_bench_skip,
    before_bench_entries,
    before_obriska_feed
);

/// How the numbers of a body are read.
#[derive(Clone, Copy, Debug)]
pub enum Reading {
    /// u32 fields, one by one.
    Fields,
    /// u64 fields, one by one.
    Words,
    /// A list passed over, of this largest value.
    Skip(u64),
    /// Pairs of u32 numbers.
    Entries,
}

// SAFETY of each call: a pointer comes with the length of its own memory, is aligned for its
// elements, and is exclusive where C may write. The functions ask for nothing else.
#[allow(unsafe_code)]
impl Side {
    /// Reads so many numbers; gives a mixture of them, or the end of the list.
    pub fn read(self, how: Reading, body: &[u8], count: u64) -> u64 {
        let (at, len) = (body.as_ptr(), body.len());
        unsafe {
            match (self, how) {
                (Side::Before, Reading::Fields) => before_bench_fields(at, len, count),
                (Side::Before, Reading::Words) => before_bench_words(at, len, count),
                (Side::Before, Reading::Skip(limit)) => before_bench_skip(at, len, count, limit),
                (Side::Before, Reading::Entries) => before_bench_entries(at, len, count / 2),
                (Side::Now, Reading::Fields) => bench_fields(at, len, count),
                (Side::Now, Reading::Words) => bench_words(at, len, count),
                (Side::Now, Reading::Skip(limit)) => bench_skip(at, len, count, limit),
                (Side::Now, Reading::Entries) => bench_entries(at, len, count / 2),
            }
        }
    }

    /// Feeds a chunk; gives a mixture of refusal, bytes used, the answer's length and its last byte.
    pub fn feed(self, station: u32, data: &[u8], answer: &mut [u8], lent: &mut Lent) -> u64 {
        let call = if self == Side::Now { obriska_feed } else { before_obriska_feed };
        let [tokens, dacls, handles, control, pending] = &mut lent.parts;
        let turn = unsafe {
            call(
                station,
                data.as_ptr(),
                data.len(),
                answer.as_mut_ptr(),
                answer.len(),
                tokens.words.as_mut_ptr(),
                tokens.len,
                dacls.words.as_mut_ptr(),
                dacls.len,
                handles.words.as_mut_ptr(),
                handles.len,
                control.words.as_mut_ptr(),
                control.len,
                pending.words.as_mut_ptr(),
                pending.len,
            )
        };
        let last = answer[..turn.answered].last().copied().unwrap_or(0);
        let seen = u64::from(turn.refusal) << 40 | (turn.used as u64) << 20;
        seen | (turn.answered as u64) << 8 | u64::from(last)
    }
}

/// A part of the lent memory, in whole words: how many elements it has.
#[derive(Clone, Debug, PartialEq, Eq)]
struct Part {
    words: Vec<u64>,
    len: usize,
}

/// The five parts that a host lends.
#[derive(Clone, Debug, PartialEq, Eq)]
pub struct Lent {
    parts: [Part; 5],
}

impl Lent {
    /// A copy of the memory.
    pub fn new(memory: &Memory) -> Self {
        let mut widths = [8, 1, HANDLE_BYTES, 8, 1].into_iter();
        let parts = memory.bytes().map(|bytes| {
            let word = |chunk: &[u8]| {
                let mut word = [0; 8];
                word[..chunk.len()].copy_from_slice(chunk);
                u64::from_ne_bytes(word)
            };
            let len = bytes.len() / widths.next().expect("a width for each part");
            Part { words: bytes.chunks(8).map(word).collect(), len }
        });
        Lent { parts }
    }
}
