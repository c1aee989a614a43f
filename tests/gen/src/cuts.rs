//! Demand 3's last part: two lists alike in reconnects and used bytes end alike.

use model::{Model, MIN_BUFFER};

use crate::broker::{run, Broker};
use crate::call::Call;
use crate::rng::Rng;

/// What happens to a station: a byte that was used, or a reconnect.
#[derive(Clone, Copy, Debug, PartialEq, Eq)]
pub enum Event {
    /// A byte.
    Byte(u8),
    /// A reconnect.
    Reconnect,
}

/// The answers with their stations, in order.
pub type Answers = Vec<(u32, Vec<u8>)>;

/// What a script did.
pub struct Record {
    /// What happened to the stations, in order.
    pub events: Vec<(u32, Event)>,
    /// The answers.
    pub answers: Answers,
    /// The last state.
    pub end: Model,
}

/// Makes so many calls of the seed's script on the model.
pub fn record(seed: u64, start: &Model, calls: usize) -> Record {
    let mut record = Record { events: vec![], answers: vec![], end: start.clone() };
    run(seed, start.clone(), calls, |step| {
        match step.call {
            Call::Reconnect { station } if step.fed.refusal == 0 => {
                record.events.push((*station, Event::Reconnect));
            }
            Call::Reconnect { .. } => {}
            Call::Feed { station, chunk, .. } => {
                let used = chunk[..step.fed.used].iter();
                record.events.extend(used.map(|&byte| (*station, Event::Byte(byte))));
                let answer = step.fed.answer.clone();
                record.answers.extend((!answer.is_empty()).then_some((*station, answer)));
            }
        }
        record.end = step.after.clone();
    });
    record
}

/// The same events in other cuts: a station's bytes in a row, cut where `cut` says so.
fn replay(
    events: &[(u32, Event)],
    broker: &mut impl Broker,
    mut cut: impl FnMut() -> bool,
) -> Answers {
    let mut answers = Answers::new();
    let mut chunk: (u32, Vec<u8>) = (0, Vec::new());
    for &(station, event) in events {
        if station != chunk.0 || event == Event::Reconnect || cut() {
            feed_all(broker, chunk.0, &chunk.1, &mut answers);
            chunk = (station, Vec::new());
        }
        match event {
            Event::Byte(byte) => chunk.1.push(byte),
            Event::Reconnect => assert_eq!(broker.reconnect(station), 0),
        }
    }
    feed_all(broker, chunk.0, &chunk.1, &mut answers);
    answers
}

/// Feeds a chunk until it is used up.
fn feed_all(broker: &mut impl Broker, station: u32, mut chunk: &[u8], answers: &mut Answers) {
    while !chunk.is_empty() {
        let fed = broker.feed(station, chunk, MIN_BUFFER);
        assert!(fed.refusal == 0 && fed.used > 0, "{fed:?}");
        answers.extend((!fed.answer.is_empty()).then_some((station, fed.answer)));
        chunk = &chunk[fed.used..];
    }
}

/// The script's events byte by byte, in whole runs and in random cuts: always the same answers
/// and the same memory at the end.
pub fn check_cuts<B: Broker>(seed: u64, start: &Model, calls: usize) {
    let record = record(seed, start, calls);
    let (mut rng, mut seldom) = (Rng::new(seed), Rng::new(seed));
    let cuts: [(&str, &mut dyn FnMut() -> bool); 4] = [
        ("every byte", &mut || true),
        ("nowhere", &mut || false),
        ("often", &mut || rng.percent(40)),
        ("seldom", &mut || seldom.percent(3)),
    ];
    for (name, cut) in cuts {
        let mut broker = B::lend(&start.memory());
        assert_eq!(replay(&record.events, &mut broker, cut), record.answers, "cut {name}");
        assert!(broker.bytes() == record.end.memory().bytes(), "memory, cut {name}");
    }
}
