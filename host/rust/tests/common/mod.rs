//! Requests as numbers, at station 0 unless said.

use obriska::codec::{Reply, Request, Sid, SidGroup};
use obriska::{number, Answer, Broker, Refusal};

/// The frame of a body of these numbers.
pub fn frame(numbers: &[u64]) -> Vec<u8> {
    let mut body = Vec::new();
    numbers.iter().for_each(|&n| number::write(n, &mut body));
    let mut frame = Vec::new();
    number::write(body.len() as u64, &mut frame);
    frame.extend(body);
    frame
}

/// Feeds a body of these numbers and gives its answer.
pub fn answer(broker: &mut Broker, numbers: &[u64]) -> Answer {
    answer_at(broker, 0, &frame(numbers))
}

/// Feeds a station one request and gives its answer.
pub fn answer_at(broker: &mut Broker, station: u32, frame: &[u8]) -> Answer {
    let answers = broker.feed(station, frame).expect("there is such a station");
    assert_eq!(answers.len(), 1);
    answers[0].clone()
}

/// The numbers after status 0.
pub fn ask(broker: &mut Broker, numbers: &[u64]) -> Vec<u64> {
    let answer = answer(broker, numbers);
    assert_eq!(answer.refusal(), None);
    number::read_all(answer.fields()).expect("fields are numbers")
}

/// A SID of the tests, S-1-5-21-n.
#[allow(dead_code)] // not every test file has SIDs
pub fn sid(n: u32) -> Sid {
    Sid::new(5, &[21, n]).expect("it has two sub-authorities")
}

/// Makes a token by SIDs of the tests, its user's and those of its groups, and gives its handle. The
/// words are session, integrity, present and default.
#[allow(dead_code)] // not every test file makes tokens
pub fn create(broker: &mut Broker, user: u32, words: [u64; 4], groups: &[[u32; 2]]) -> u64 {
    let groups: Vec<_> =
        groups.iter().map(|&[n, attributes]| SidGroup::new(sid(n), attributes)).collect();
    let [session, integrity, present, default] = words;
    let integrity = integrity.try_into().expect("32 bits");
    let (user, groups) = (sid(user), groups[..].into());
    made(broker, &Request::CreateWithSids { user, session, integrity, present, default, groups })
}

/// Sends a typed request that makes a token, and gives its handle.
#[allow(dead_code)] // not every test file makes tokens
pub fn made(broker: &mut Broker, request: &Request) -> u64 {
    let answer = answer_at(broker, 0, &request.to_bytes().expect("it fits"));
    match answer.reply(request) {
        Ok(Reply::Handle(handle)) => handle.into(),
        reply => panic!("{request:?}: {reply:?}"),
    }
}

/// The refusal, which has changed nothing.
#[allow(dead_code)] // not every test file has refusals
pub fn refused(broker: &mut Broker, numbers: &[u64]) -> Option<Refusal> {
    let before = broker.clone();
    let refusal = answer(broker, numbers).refusal();
    assert_eq!(*broker, before);
    refusal
}
