//! The thin program: chunks from standard input, answers to standard output.

use crate::feed::MIN_BUFFER;
use crate::number::Reader;
use crate::state::Model;

/// The longest chunk that the program takes.
pub const MAX_CHUNK: usize = 4096;
/// After so many chunks the program stops.
const MAX_CHUNKS: u32 = u32::MAX;

/// All that the program writes, given all that it reads.
pub fn program(input: &[u8]) -> Vec<u8> {
    let mut model = Model::start();
    let mut reader = Reader::new(input);
    let mut output = Vec::new();
    for _ in 0..MAX_CHUNKS {
        let Some((station, chunk)) = next_chunk(&mut reader) else { break };
        output.extend(model.feed_all(station, chunk));
    }
    output
}

/// A station, a length and so many bytes; `None` at a bad number, a length too large or the end.
fn next_chunk<'a>(reader: &mut Reader<'a>) -> Option<(u32, &'a [u8])> {
    let station = reader.u32()?;
    let length = usize::try_from(reader.u32()?).ok()?;
    if length > MAX_CHUNK {
        return None;
    }
    Some((station, reader.take(length)?))
}

impl Model {
    /// Feeds a chunk until it is used up or refused; gives the answers one after the other.
    pub fn feed_all(&mut self, station: u32, mut chunk: &[u8]) -> Vec<u8> {
        let mut answers = Vec::new();
        loop {
            let fed = self.feed(station, chunk, MIN_BUFFER);
            answers.extend(fed.answer);
            chunk = &chunk[fed.used..];
            if fed.refusal != 0 || chunk.is_empty() {
                return answers;
            }
        }
    }
}
