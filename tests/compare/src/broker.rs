//! The C functions of the proved code, and safe calls of them on memory that a host lends.

use gen::{Broker, Calls};
use model::{Bytes, Fed, Memory, HANDLE_BYTES, PARTS};

use crate::part::Part;
use crate::stack::fill_stack;

/// A handle's record to C: so many bytes, aligned as its token. What they hold is
/// [`model::HandleRecord`]'s to say.
type Record = [u64; HANDLE_BYTES / size_of::<u64>()];

/// Bytes of an element of each part.
const WIDTHS: [usize; PARTS.len()] =
    [size_of::<u64>(), size_of::<u8>(), size_of::<Record>(), size_of::<u64>(), size_of::<u8>()];

/// What a feed returns to C.
#[repr(C)]
struct Turn {
    refusal: u32,
    used: usize,
    answered: usize,
}

#[rustfmt::skip]
#[allow(unsafe_code)]
extern "C" {
    fn obriska_start(
        tokens: *mut u64, tokens_len: usize, dacls: *mut u8, dacls_len: usize,
        handles: *mut Record, handles_len: usize, control: *mut u64, control_len: usize,
        pending: *mut u8, pending_len: usize,
    ) -> u32;
    fn obriska_feed(
        station: u32, data: *const u8, data_len: usize, answer: *mut u8, answer_len: usize,
        tokens: *mut u64, tokens_len: usize, dacls: *mut u8, dacls_len: usize,
        handles: *mut Record, handles_len: usize, control: *mut u64, control_len: usize,
        pending: *mut u8, pending_len: usize,
    ) -> Turn;
    fn obriska_reconnect(
        station: u32, tokens: *const u64, tokens_len: usize, dacls: *const u8, dacls_len: usize,
        handles: *const Record, handles_len: usize, control: *mut u64, control_len: usize,
        pending: *mut u8, pending_len: usize,
    ) -> u32;
    fn obriska_find(
        handles: *const Record, handles_len: usize, station: u32, number: u32,
    ) -> usize;
    fn obriska_sid(
        control: *const u64, control_len: usize, number: u32, out: *mut u8, out_len: usize,
    ) -> usize;
}

/// What stands where nobody has written yet, if nothing else is asked for.
const FILLER: u8 = 0xA5;
/// Elements on each side of a part; odd, so that parts of bytes are not aligned.
const MARGIN: usize = 61;

/// The five parts that a host lends.
#[derive(Debug)]
pub struct Lent {
    parts: [Part; PARTS.len()],
    filler: u8,
}

// SAFETY of each call: a pointer comes with the length of its own part, is aligned for its elements,
// and is exclusive where C may write.
#[allow(unsafe_code)]
impl Lent {
    /// Calls start.
    pub fn call_start(&mut self) -> u32 {
        let [tokens, dacls, handles, control, pending] = &mut self.parts;
        unsafe {
            obriska_start(
                tokens.as_mut_ptr(),
                tokens.len(),
                dacls.as_mut_ptr(),
                dacls.len(),
                handles.as_mut_ptr(),
                handles.len(),
                control.as_mut_ptr(),
                control.len(),
                pending.as_mut_ptr(),
                pending.len(),
            )
        }
    }

    /// Calls feed; gives refusal, bytes used and the answer's length.
    pub fn call_feed(
        &mut self,
        station: u32,
        data: &[u8],
        answer: &mut [u8],
    ) -> (u32, usize, usize) {
        let [tokens, dacls, handles, control, pending] = &mut self.parts;
        let turn = unsafe {
            obriska_feed(
                station,
                data.as_ptr(),
                data.len(),
                answer.as_mut_ptr(),
                answer.len(),
                tokens.as_mut_ptr(),
                tokens.len(),
                dacls.as_mut_ptr(),
                dacls.len(),
                handles.as_mut_ptr(),
                handles.len(),
                control.as_mut_ptr(),
                control.len(),
                pending.as_mut_ptr(),
                pending.len(),
            )
        };
        (turn.refusal, turn.used, turn.answered)
    }

    /// Calls reconnect.
    pub fn call_reconnect(&mut self, station: u32) -> u32 {
        let [tokens, dacls, handles, control, pending] = &mut self.parts;
        unsafe {
            obriska_reconnect(
                station,
                tokens.as_ptr(),
                tokens.len(),
                dacls.as_ptr(),
                dacls.len(),
                handles.as_ptr(),
                handles.len(),
                control.as_mut_ptr(),
                control.len(),
                pending.as_mut_ptr(),
                pending.len(),
            )
        }
    }

    /// The slot of the station's live handle of this number, past the last if there is none.
    pub fn find(&self, station: u32, number: u32) -> usize {
        let [_, _, handles, _, _] = &self.parts;
        unsafe { obriska_find(handles.as_ptr(), handles.len(), station, number) }
    }

    /// Writes the packed SID that has this number; gives its size, or 0.
    fn call_sid(&self, number: u32, out: &mut [u8]) -> usize {
        let [_, _, _, control, _] = &self.parts;
        unsafe { obriska_sid(control.as_ptr(), control.len(), number, out.as_mut_ptr(), out.len()) }
    }
}

impl Lent {
    /// A copy of the memory, each part with margins of so many elements. The filler stands in them,
    /// in the answer buffers and, before each of [`Calls`], on the stack.
    fn new(memory: &Memory, margin: usize, filler: u8) -> Self {
        let bytes = memory.bytes();
        let part = |at: usize| Part::new(&bytes[at], WIDTHS[at], margin, filler);
        Lent { parts: std::array::from_fn(part), filler }
    }

    /// A copy of the memory, with this filler.
    pub fn with_filler(memory: &Memory, filler: u8) -> Self {
        Lent::new(memory, MARGIN, filler)
    }

    /// A copy of the memory without margins.
    pub fn without_margins(memory: &Memory) -> Self {
        Lent::new(memory, 0, FILLER)
    }

    /// The packed SID that has this number, in so many bytes; `None` for 0. Nothing else is written.
    pub fn sid(&self, number: u32, out_len: usize) -> Option<Vec<u8>> {
        let before = self.bytes();
        let mut out = Part::new(&vec![self.filler; out_len], 1, MARGIN, self.filler);
        fill_stack(self.filler);
        let size = self.call_sid(number, out.bytes_mut());
        self.check(0, &before);
        assert!(self.bytes() == before, "the SID's number {number}, and the memory is written");
        assert!(out.margins_are_whole() && size <= out_len, "size {size}");
        let (packed, rest) = out.bytes().split_at(size);
        assert!(rest.iter().all(|&byte| byte == self.filler), "written after {size} bytes");
        (size > 0).then(|| packed.to_vec())
    }

    /// What holds after each call: margins whole, and nothing written by a refused one.
    fn check(&self, refusal: u32, before: &Bytes) {
        let margins_are_whole = self.parts.iter().all(Part::margins_are_whole);
        assert!(margins_are_whole, "written outside of the lent parts");
        assert!(refusal == 0 || self.bytes() == *before, "refusal {refusal} and something written");
    }
}

impl Calls for Lent {
    fn feed(&mut self, station: u32, chunk: &[u8], buffer_len: usize) -> Fed {
        let before = self.bytes();
        let mut buffer = Part::new(&vec![self.filler; buffer_len], 1, MARGIN, self.filler);
        fill_stack(self.filler);
        let (refusal, used, answered) = self.call_feed(station, chunk, buffer.bytes_mut());
        self.check(refusal, &before);
        assert!(buffer.margins_are_whole(), "written outside of the answer buffer");
        assert!(used <= chunk.len() && answered <= buffer_len, "used {used}, answered {answered}");
        let (answer, rest) = buffer.bytes().split_at(answered);
        let rest_is_whole = rest.iter().all(|&byte| byte == self.filler);
        assert!(rest_is_whole, "written after the answer of {answered} bytes");
        Fed { refusal, used, answer: answer.to_vec() }
    }

    fn reconnect(&mut self, station: u32) -> u32 {
        let before = self.bytes();
        fill_stack(self.filler);
        let refusal = self.call_reconnect(station);
        self.check(refusal, &before);
        refusal
    }
}

impl Broker for Lent {
    fn lend(memory: &Memory) -> Self {
        Lent::with_filler(memory, FILLER)
    }

    fn bytes(&self) -> Bytes {
        self.parts.each_ref().map(|part| part.bytes().to_vec())
    }

    fn start(&mut self) -> u32 {
        let before = self.bytes();
        fill_stack(self.filler);
        let refusal = self.call_start();
        self.check(refusal, &before);
        refusal
    }
}
