//! Runs the examples of docs/PROTOCOL.md from the page itself, and compares every byte.
//!
//! An example is a fenced block that begins with ```` ```obriska ````: from the start, or, with the
//! word `continued` after it, from where the example before it ended. Its lines are, up to a `#`:
//!
//! ```text
//! 0> 02 01 28       station 0 sends these bytes; 00*15 is fifteen times 00
//! 0< 02 00 01       what comes back for them: all of it, in one line or several
//! 8! 11             the host's call was refused by this number
//! 0 reconnects      the host reconnects the station
//! ```
//!
//! A section `### Request n: ..` has a row `| **k** | .. |` for each refusal k that the request can
//! get, in the order of checking. Each of these has an example, and so has the success of each request
//! and of each query class.

use std::collections::BTreeSet;

use obriska::{number, Answer, Broker, Refusal};

const PAGE: &str = include_str!("../../../docs/PROTOCOL.md");

/// The requests that there are, the one with classes, and its classes.
const REQUESTS: std::ops::RangeInclusive<u64> = 1..=18;
const QUERY: u64 = 4;
const CLASSES: std::ops::RangeInclusive<u64> = 1..=13;

/// A request's refusals, in the order in which they are checked.
const RANKS: [u64; 10] = [1, 2, 3, 4, 5, 6, 7, 14, 8, 9];

/// A request and the status that it was answered by.
type Answered = (u64, u64);

/// What the examples show.
#[derive(Debug, Default)]
struct Shown {
    examples: usize,
    exchanges: usize,
    statuses: BTreeSet<Answered>,
    classes: BTreeSet<u64>,
}

/// What is expected of a call: the bytes that come back, or its refusal.
#[derive(Debug, PartialEq, Eq)]
struct Outcome {
    bytes: Vec<u8>,
    refusal: Option<u32>,
}

/// The bytes of `02 0128 00*15`.
fn bytes(text: &str) -> Option<Vec<u8>> {
    let mut bytes = Vec::new();
    for word in text.split_whitespace() {
        let (digits, times) = word.split_once('*').unwrap_or((word, "1"));
        let pairs = (0..digits.len()).step_by(2).map(|at| digits.get(at..at + 2));
        let some: Option<Vec<u8>> = pairs.map(|pair| u8::from_str_radix(pair?, 16).ok()).collect();
        bytes.extend(some?.repeat(times.parse().ok()?));
    }
    Some(bytes)
}

/// The bodies of whole frames, one after the other; none where something else stands there.
fn bodies(mut stream: &[u8]) -> Vec<&[u8]> {
    let mut bodies = Vec::new();
    while let Some((size, rest)) = number::read(stream) {
        if size == 0 || size > rest.len() as u64 {
            break;
        }
        let (body, after) = rest.split_at(size as usize);
        bodies.push(body);
        stream = after;
    }
    if stream.is_empty() {
        bodies
    } else {
        Vec::new()
    }
}

impl Shown {
    /// Notes each request of a chunk that was answered.
    fn note(&mut self, chunk: &[u8], answers: &[Answer]) {
        let bodies = bodies(chunk);
        if bodies.len() != answers.len() {
            return;
        }
        for (body, answer) in bodies.into_iter().zip(answers) {
            let status = answer.refusal().map_or(0, Refusal::number).into();
            let Some((request, _)) = number::read(body) else { continue };
            self.statuses.insert((request, status));
            if let (QUERY, 0, Some([_, _, class, _])) =
                (request, status, number::read_all(body).as_deref())
            {
                self.classes.insert(*class);
            }
        }
    }

    /// Makes the call of a line; `None` where the line makes none.
    fn call(&mut self, broker: &mut Broker, line: &str) -> Option<Outcome> {
        let station = line.get(..1)?.parse().ok()?;
        let result = match line[1..].strip_prefix('>') {
            Some(sent) => {
                let chunk = bytes(sent)?;
                broker.feed(station, &chunk).inspect(|answers| self.note(&chunk, answers))
            }
            None if &line[1..] == " reconnects" => broker.reconnect(station).map(|()| Vec::new()),
            None => return None,
        };
        self.exchanges += 1;
        let refusal = result.as_ref().err().map(|refusal| refusal.number());
        let bytes = result.unwrap_or_default().iter().flat_map(Answer::bytes).copied().collect();
        Some(Outcome { bytes, refusal })
    }
}

/// Adds to what is expected at the station; `None` where the line is none that can stand here.
fn expect(expected: &mut Outcome, station: &str, line: &str) -> Option<()> {
    let rest = line.strip_prefix(station)?;
    match rest.strip_prefix('<') {
        Some(text) => expected.bytes.extend(bytes(text)?),
        None => expected.refusal = Some(rest.strip_prefix('!')?.trim().parse().ok()?),
    }
    Some(())
}

/// Plays an example's lines; a text says what is wrong.
fn play(shown: &mut Shown, broker: &mut Broker, lines: &[&str]) -> Result<(), String> {
    let lines: Vec<&str> =
        lines.iter().map(|line| line.split('#').next().unwrap().trim()).collect();
    let mut rest = lines.iter().filter(|line| !line.is_empty()).peekable();
    while let Some(line) = rest.next() {
        let outcome = shown.call(broker, line).ok_or(format!("{line}: not a call"))?;
        let mut expected = Outcome { bytes: Vec::new(), refusal: None };
        while let Some(said) = rest.next_if(|line| line[1..].starts_with(['<', '!'])) {
            expect(&mut expected, &line[..1], said).ok_or(format!("{said}: not understood"))?;
        }
        if outcome != expected {
            return Err(format!("{line}\n  came: {outcome:02X?}\n  page: {expected:02X?}"));
        }
    }
    Ok(())
}

/// Plays all examples of a page.
fn run(page: &str) -> Result<Shown, String> {
    let mut shown = Shown::default();
    let mut broker = Broker::start();
    let mut lines = page.lines();
    while let Some(line) = lines.next() {
        let Some(words) = line.strip_prefix("```obriska") else { continue };
        match words {
            "" => broker = Broker::start(),
            " continued" => {}
            _ => return Err(format!("{line}: no such example")),
        }
        let block: Vec<&str> = lines.by_ref().take_while(|line| *line != "```").collect();
        play(&mut shown, &mut broker, &block)?;
        shown.examples += 1;
    }
    Ok(shown)
}

/// The refusals that the page has rows for, in its order.
fn rows(page: &str) -> Vec<Answered> {
    let mut request = None;
    let mut rows = Vec::new();
    for line in page.lines() {
        if line.starts_with('#') {
            let number = line.strip_prefix("### Request ").and_then(|rest| rest.split(':').next());
            request = number.and_then(|number| number.parse().ok());
        }
        let row = line.strip_prefix("| **").and_then(|rest| rest.split("**").next());
        if let (Some(request), Some(row)) = (request, row) {
            rows.push((request, row.parse().expect("a refusal's number")));
        }
    }
    rows
}

#[test]
fn every_example_is_what_the_broker_does() {
    let shown = run(PAGE).unwrap_or_else(|wrong| panic!("{wrong}"));
    println!("{} examples, {} exchanges", shown.examples, shown.exchanges);
    for request in REQUESTS {
        assert!(shown.statuses.contains(&(request, 0)), "request {request} has no example");
    }
    assert!(CLASSES.eq(shown.classes), "a query class has no example, or is new");
}

#[test]
fn each_refusal_of_a_request_has_a_row_in_its_order_and_an_example() {
    let shown = run(PAGE).unwrap_or_else(|wrong| panic!("{wrong}"));
    let refused = |&(request, status): &Answered| REQUESTS.contains(&request) && status != 0;
    let refusals: BTreeSet<Answered> = shown.statuses.into_iter().filter(refused).collect();
    let rows = rows(PAGE);
    let rank = |&(request, refusal): &Answered| (request, RANKS.iter().position(|&r| r == refusal));
    for pair in rows.windows(2) {
        assert!(rank(&pair[0]) < rank(&pair[1]), "{pair:?}: not in the order of checking");
    }
    assert_eq!(refusals, rows.into_iter().collect(), "in the examples, and in the rows");
}

/// The page's answers with any one byte changed are not what the broker does.
#[test]
fn an_answer_with_another_byte_is_found() {
    let lines: Vec<&str> = PAGE.lines().collect();
    for at in (0..lines.len()).filter(|&at| lines[at].get(1..3) == Some("< ")) {
        let answer = bytes(lines[at][3..].split('#').next().unwrap()).expect("an answer's bytes");
        for changed in 0..answer.len() {
            let mut other = answer.clone();
            other[changed] ^= 1;
            let digits: String = other.iter().map(|byte| format!("{byte:02X}")).collect();
            let line = format!("{}{digits}", &lines[at][..3]);
            let page = [&lines[..at], &[line.as_str()], &lines[at + 1..]].concat().join("\n");
            assert!(run(&page).is_err(), "line {}: {}", at + 1, lines[at]);
        }
    }
}
