//! What the program reads: stations, lengths and chunks, and how the input may end.

use model::{framed, write_number, Model, MAX_CHUNK, STATIONS};

use crate::body::body;
use crate::call::{Call, Script};
use crate::rng::Rng;

/// A random input of the program.
pub fn session(seed: u64) -> Vec<u8> {
    let mut rng = Rng::new(seed);
    let mut model = Model::start();
    let mut script = Script::new(seed);
    let mut input = Vec::new();
    for _ in 0..rng.pick(&[0, 1, 5, 40, 150]) {
        let (station, chunk) = if rng.percent(3) {
            let station = rng.below(STATIONS);
            (station as u32, long_chunk(&mut rng, &model, station))
        } else {
            next_chunk(&mut script, &model)
        };
        model.feed_all(station, &chunk);
        script.sent(station, chunk.len());
        write_chunk(station, &chunk, &mut input);
    }
    end(&mut rng, &mut input);
    input
}

/// Station, length and bytes.
pub fn write_chunk(station: u32, chunk: &[u8], input: &mut Vec<u8>) {
    write_number(station.into(), input);
    write_number(chunk.len() as u64, input);
    input.extend_from_slice(chunk);
}

/// The script's next feed; the program knows no reconnects.
fn next_chunk(script: &mut Script, model: &Model) -> (u32, Vec<u8>) {
    loop {
        if let Call::Feed { station, chunk, .. } = script.next(model) {
            return (station, chunk);
        }
    }
}

/// Requests one after the other, the last one cut at the longest chunk or one byte before.
fn long_chunk(rng: &mut Rng, model: &Model, station: usize) -> Vec<u8> {
    let mut chunk = Vec::new();
    while chunk.len() < MAX_CHUNK {
        chunk.extend(framed(&body(rng, model, station)));
    }
    chunk.truncate(MAX_CHUNK - rng.below(2));
    chunk
}

/// What may stand at the end, or before more that is never read.
const ENDS: [&[u8]; 12] = [
    &[],
    &[0x80, 0x00],
    &[0x80],
    &[0x00, 0x80, 0x00],
    &[0x00, 0x83],
    &[0x00, 0x81, 0x20],
    &[0x09, 0x81, 0x20],
    &[0x00, 0xFF, 0xFF, 0xFF, 0xFF, 0x0F],
    &[0x00, 0x80, 0x80, 0x80, 0x80, 0x10],
    &[0xFF, 0xFF, 0xFF, 0xFF, 0x1F, 0x00],
    &[0xFF, 0xFF, 0xFF, 0xFF, 0xFF, 0xFF, 0xFF, 0xFF, 0xFF, 0x01, 0x00],
    &[0x80, 0x80, 0x80, 0x80, 0x80, 0x80, 0x80, 0x80, 0x80, 0x80, 0x80, 0x01],
];

/// Ends the input: cleanly, at something bad with more after it, or within a chunk.
fn end(rng: &mut Rng, input: &mut Vec<u8>) {
    if rng.percent(30) {
        input.truncate(rng.below(input.len() + 1));
        return;
    }
    let bad = rng.pick(&ENDS);
    input.extend_from_slice(bad);
    if !bad.is_empty() && rng.percent(50) {
        let rest = rng.pick(&[1, 5, 5000, 100_000]);
        input.extend((0..rest).map(|_| rng.word() as u8));
    }
}
