//! The vectors of the protocol: each request is built from its words, each answer is read into its
//! words, and all of them are played against the broker.

use std::collections::BTreeSet;
use std::path::Path;
use std::{fs, iter};

use obriska::codec::{GroupEntry, PrivilegeEntry, Reply, Report, Request, Sid, SidGroup};
use obriska::{Broker, Condition, Group, NO_CLIENT};

const VECTORS: &str = "../../examples/vectors";

/// A name and its values by their keys: numbers, in the order of the line; of pairs, both. SIDs stand
/// beside them, without the numbers that they are paired with.
#[derive(Debug, PartialEq)]
struct Words {
    name: String,
    values: Vec<(String, Vec<u64>)>,
    sids: Vec<(String, Vec<Sid>)>,
}

/// A line that is not empty: who says it, in which words, and its bytes.
struct Line<'a> {
    station: Option<u32>,
    text: &'a str,
    bytes: Vec<u8>,
}

impl<'a> Line<'a> {
    fn parse(line: &'a str) -> Self {
        let (station, rest) = line.split_once(' ').expect("a station or <, then a blank");
        let (text, bytes) = rest.split_once(" = ").unwrap_or((rest, ""));
        Line {
            station: station.parse().ok(),
            text,
            bytes: bytes.split(' ').flat_map(hex).collect(),
        }
    }
}

/// The bytes of digits such as 0A0B, or 0407*3.
fn hex(word: &str) -> Vec<u8> {
    let (digits, count) = repeated(word);
    let byte = |at: usize| u8::from_str_radix(&digits[at..at + 2], 16).expect("two digits");
    let bytes: Vec<_> = (0..digits.len()).step_by(2).map(byte).collect();
    bytes.repeat(count)
}

/// An item, and how often it stands there.
fn repeated(item: &str) -> (&str, usize) {
    item.split_once('*').map_or((item, 1), |(item, count)| (item, count.parse().expect("a count")))
}

/// The items of a list, each as often as it stands there.
fn items(list: &str) -> impl Iterator<Item = &str> {
    let list = if list == "none" { "" } else { list };
    let items = list.split(',').filter(|item| !item.is_empty()).map(repeated);
    items.flat_map(|(item, count)| iter::repeat(item).take(count))
}

fn number(text: &str) -> u64 {
    match text.strip_prefix("0x") {
        Some(digits) => u64::from_str_radix(digits, 16).expect("a number"),
        None => text.parse().expect("a number"),
    }
}

fn is_sid(text: &str) -> bool {
    text.starts_with("S-")
}

fn sid(text: &str) -> Sid {
    text.parse().unwrap_or_else(|error| panic!("{text}: {error}"))
}

impl Words {
    fn parse(text: &str) -> Self {
        let mut words = text.split(' ');
        let name = words.next().expect("a name").to_string();
        let (mut values, mut sids) = (Vec::new(), Vec::new());
        for word in words {
            let (key, value) = word.split_once('=').expect("KEY=VALUE");
            let parts = || items(value).flat_map(|item| item.split(':'));
            let numbers = match key {
                "dacl" => items(value).flat_map(hex).map(u64::from).collect(),
                _ => parts().filter(|part| !is_sid(part)).map(number).collect(),
            };
            values.push((key.to_string(), numbers));
            let key_sids = parts().filter(|part| is_sid(part)).map(sid);
            sids.push((key.to_string(), key_sids.collect()));
        }
        sids.retain(|(_, sids): &(_, Vec<Sid>)| !sids.is_empty());
        Words { name, values, sids }
    }

    fn new(name: &str, values: &[(&str, &[u64])]) -> Self {
        let values = values.iter().map(|(key, numbers)| (key.to_string(), numbers.to_vec()));
        Words { name: name.to_string(), values: values.collect(), sids: Vec::new() }
    }

    fn list(&self, key: &str) -> Vec<u64> {
        let found = self.values.iter().find(|(other, _)| other == key);
        found.unwrap_or_else(|| panic!("{self:?} has no {key}")).1.clone()
    }

    fn u64(&self, key: &str) -> u64 {
        self.list(key)[0]
    }

    fn u32(&self, key: &str) -> u32 {
        self.u64(key).try_into().expect("32 bits")
    }

    fn u32s(&self, key: &str) -> Vec<u32> {
        self.list(key).into_iter().map(|number| number.try_into().expect("32 bits")).collect()
    }

    /// The SIDs of a list.
    fn sids(&self, key: &str) -> Vec<Sid> {
        let found = self.sids.iter().find(|(other, _)| other == key);
        found.map_or(Vec::new(), |(_, sids)| sids.clone())
    }

    /// The pairs of a list, each as `item` has it.
    fn pairs<T>(&self, key: &str, item: impl Fn(u32, u32) -> T) -> Vec<T> {
        self.u32s(key).chunks(2).map(|pair| item(pair[0], pair[1])).collect()
    }
}

/// The bytes that a request of these words is written as, and is read back from.
fn written(words: &Words) -> Vec<u8> {
    let handle = || words.u32("handle");
    match words.name.as_str() {
        "open-own" => frame(Request::OpenOwn { mask: words.u32("mask") }),
        "close" => frame(Request::Close { handle: handle() }),
        "create" => create(words),
        "query" => {
            let [class, capacity] = [words.u32("class"), words.u32("capacity")];
            frame(Request::Query { handle: handle(), class, capacity })
        }
        "privileges" => {
            let entry = |privilege, attributes| PrivilegeEntry { privilege, attributes };
            let entries = words.pairs("entries", entry);
            frame(Request::Privileges { handle: handle(), entries: entries[..].into() })
        }
        "groups" => {
            let entries = words.pairs("entries", |index, enable| GroupEntry { index, enable });
            frame(Request::Groups { handle: handle(), entries: entries[..].into() })
        }
        "scope" => frame(Request::Scope { handle: handle(), scope: words.u32("scope") }),
        "defaults" => defaults(words),
        "duplicate" => {
            let [token_type, level, mask] = ["type", "level", "mask"].map(|key| words.u32(key));
            frame(Request::Duplicate { handle: handle(), token_type, level, mask })
        }
        "restrict" => restrict(words),
        "install" => frame(Request::Install { handle: handle() }),
        "impersonate" => frame(Request::Impersonate { handle: handle() }),
        "revert" => frame(Request::Revert),
        "link" => {
            let [elevated, filtered] = [words.u32("elevated"), words.u32("filtered")];
            frame(Request::Link { elevated, filtered, session: words.u64("session") })
        }
        "create-with-sids" => create_with_sids(words),
        "restrict-to-sids" => restrict_to_sids(words),
        "get-linked" => frame(Request::GetLinked { handle: handle() }),
        name => panic!("there is no request {name}"),
    }
}

fn create(words: &Words) -> Vec<u8> {
    let groups = words.pairs("groups", Group::new);
    frame(Request::Create {
        user: words.u32("user"),
        session: words.u64("session"),
        integrity: words.u32("integrity"),
        present: words.u64("present"),
        default: words.u64("default"),
        groups: groups[..].into(),
    })
}

fn defaults(words: &Words) -> Vec<u8> {
    let index = |key| words.u64(key).try_into().expect("16 bits");
    let dacl: Vec<_> = words.list("dacl").into_iter().map(|byte| byte as u8).collect();
    frame(Request::Defaults {
        handle: words.u32("handle"),
        owner: index("owner"),
        primary_group: index("primary-group"),
        flag: words.u32("flag"),
        dacl: &dacl,
    })
}

fn restrict(words: &Words) -> Vec<u8> {
    frame(Request::Restrict {
        handle: words.u32("handle"),
        write_restricted: words.u32("write-restricted"),
        removed: words.u64("removed"),
        deny: words.u32s("deny")[..].into(),
        sids: words.u32s("sids")[..].into(),
    })
}

fn create_with_sids(words: &Words) -> Vec<u8> {
    let groups = words.sids("groups").into_iter().zip(words.u32s("groups"));
    let groups: Vec<_> = groups.map(|(sid, attributes)| SidGroup::new(sid, attributes)).collect();
    frame(Request::CreateWithSids {
        user: words.sids("user")[0],
        session: words.u64("session"),
        integrity: words.u32("integrity"),
        present: words.u64("present"),
        default: words.u64("default"),
        groups: groups[..].into(),
    })
}

fn restrict_to_sids(words: &Words) -> Vec<u8> {
    frame(Request::RestrictToSids {
        handle: words.u32("handle"),
        write_restricted: words.u32("write-restricted"),
        removed: words.u64("removed"),
        deny: words.u32s("deny")[..].into(),
        sids: words.sids("sids")[..].into(),
    })
}

/// The frame of a request, which is read back from it.
fn frame(request: Request) -> Vec<u8> {
    let frame = request.to_bytes().expect("it fits");
    assert_eq!(Request::read(&frame), Ok(request));
    frame
}

/// Request 18 by its words; `None` where they are no condition that a request may have.
fn evaluate(text: &str) -> Option<Vec<u8>> {
    let (handle, items_) = text.strip_prefix("handle=")?.split_once(" condition=")?;
    let mut items = items(items_);
    let condition = condition(&mut items)?;
    assert_eq!(items.next(), None, "{text}");
    let handle = number(handle) as u32;
    let request = Request::Evaluate { handle, condition: (&condition).into() };
    let bytes = request.to_bytes().ok()?;
    assert_eq!(Request::read(&bytes), Ok(request));
    Some(bytes)
}

/// The condition that the items begin with.
fn condition<'a>(items: &mut impl Iterator<Item = &'a str>) -> Option<Condition> {
    let item = items.next()?;
    let (kind, value) = item.split_once(':').unwrap_or((item, "0"));
    let value = number(value) as u32;
    match kind {
        "all" => (0..value).map(|_| condition(items)).collect::<Option<_>>().map(Condition::All),
        "any" => (0..value).map(|_| condition(items)).collect::<Option<_>>().map(Condition::Any),
        "not" => condition(items).map(Condition::not),
        "enabled" => Some(Condition::enabled(value)),
        "group" => Some(Condition::group(value)),
        kind => panic!("there is no condition {kind}"),
    }
}

/// A reply in the words of the file.
fn said(reply: Reply) -> Words {
    let refused = |status: u32, size: u32| {
        Words::new("refused", &[("status", &[status.into()]), ("size", &[size.into()])])
    };
    let one = |name, key, number| Words::new(name, &[(key, &[number])]);
    match reply {
        Reply::Refused(refusal) => refused(refusal.number(), 0),
        Reply::TooLarge { size } => refused(9, size),
        Reply::Done => Words::new("nothing", &[]),
        Reply::Handle(number) => one("handle", "number", number.into()),
        Reply::Report(report) => reported(report),
        Reply::Privileges(before) => Words::new(
            "privileges-before",
            &[("present", &[before.present]), ("enabled", &[before.enabled])],
        ),
        Reply::Groups(before) => Words::new("groups-before", &[("words", &before.words)]),
        Reply::Level(level) => one("level", "level", level.number().into()),
        Reply::Reverted(client) => {
            let (token, level) =
                client.map_or((NO_CLIENT, 0), |c| (c.token, c.level.number().into()));
            Words::new("reverted", &[("token", &[token]), ("level", &[level])])
        }
        Reply::Holds(holds) => one("evaluated", "holds", holds.into()),
        other => panic!("{other:?}"),
    }
}

fn reported(report: Report) -> Words {
    let one = |name, key, number| Words::new(name, &[(key, &[number])]);
    let list = |name, key, numbers: Vec<u64>| Words::new(name, &[(key, &numbers)]);
    match report {
        Report::User(sid) => one("user", "sid", sid.into()),
        Report::Groups(groups) => {
            let pairs = groups.iter().flat_map(|group| [group.sid.into(), group.attributes.into()]);
            list("groups", "groups", pairs.collect())
        }
        Report::Privileges(p) => {
            let words = [("present", p.present), ("enabled", p.enabled), ("default", p.default)];
            numbers("privileges", &[words[0], words[1], words[2], ("used", p.used)])
        }
        Report::Owner(sid) => one("owner", "sid", sid.into()),
        Report::PrimaryGroup(sid) => one("primary-group", "sid", sid.into()),
        Report::Dacl(dacl) => list("dacl", "dacl", dacl.iter().map(|&byte| byte.into()).collect()),
        Report::Type(token_type) => one("type", "type", token_type.number().into()),
        Report::Level(level) => one("level", "level", level.number().into()),
        Report::Statistics(s) => {
            let first = [("number", s.number), ("session", s.session), ("modified", s.modified)];
            let last = [("type", s.token_type.number().into()), ("root", s.root)];
            numbers("statistics", &[&first[..], &last].concat())
        }
        Report::Restricting(sids) => {
            list("restricting", "sids", sids.iter().map(u64::from).collect())
        }
        Report::Scope(scope) => one("scope", "scope", scope.into()),
        Report::Elevation(elevation) => one("elevation", "elevation", elevation.number().into()),
        Report::Integrity(integrity) => one("integrity", "integrity", integrity.into()),
        other => panic!("{other:?}"),
    }
}

fn numbers(name: &str, values: &[(&str, u64)]) -> Words {
    let values: Vec<_> = values.iter().map(|(key, number)| (*key, vec![*number])).collect();
    let values: Vec<_> = values.iter().map(|(key, numbers)| (*key, &numbers[..])).collect();
    Words::new(name, &values)
}

/// Builds the request that a line has words for, and compares its bytes.
fn build(line: &Line) {
    if line.text == "bytes" {
        return;
    }
    let built = match line.text.strip_prefix("evaluate ") {
        Some(words) => evaluate(words),
        None => Some(written(&Words::parse(line.text))),
    };
    match built {
        Some(bytes) => assert_eq!(bytes, line.bytes, "{}", line.text),
        None => assert!(Request::read(&line.bytes).is_err(), "{}", line.text),
    }
}

/// Reads an answer to what a station has sent, and compares its words.
fn read(sent: &[u8], answer: &Line) {
    let request = Request::read(sent);
    // What is no request is refused, and all refusals but 9 are read alike.
    let reply = Reply::read(request.as_ref().unwrap_or(&Request::Revert), &answer.bytes);
    let reply = reply.unwrap_or_else(|error| panic!("{}: {error}", answer.text));
    assert!(request.is_ok() || reply.refusal().is_some());
    assert_eq!(said(reply), Words::parse(answer.text));
}

/// Plays a line, and compares what comes back with the answer's line.
fn play(broker: &mut Broker, line: &Line, answer: Option<&Line>) {
    let station = line.station.expect("a station");
    if line.text == "reconnect" {
        broker.reconnect(station).expect("a station from 0 to 7");
        return;
    }
    build(line);
    let pending = broker.stations()[station as usize].pending.clone();
    let answers = broker.feed(station, &line.bytes).expect("a station from 0 to 7");
    let answers: Vec<_> = answers.iter().map(|answer| answer.bytes()).collect();
    let expected: Vec<_> = answer.iter().map(|answer| &answer.bytes[..]).collect();
    assert_eq!(answers, expected, "{}", line.text);
    if let Some(answer) = answer {
        read(&[&pending[..], &line.bytes].concat(), answer);
    }
}

/// The names that lines begin with.
fn names<'a>(lines: impl Iterator<Item = &'a Line<'a>>) -> BTreeSet<&'a str> {
    lines.map(|line| line.text.split(' ').next().expect("a name")).collect()
}

#[test]
fn the_vectors_are_built_read_and_played() {
    let here = Path::new(env!("CARGO_MANIFEST_DIR"));
    let text = fs::read_to_string(here.join(VECTORS)).ok();
    let text = text.expect("a file of vectors");
    let lines = text.lines().filter(|line| !line.is_empty() && !line.starts_with('#'));
    let lines: Vec<_> = lines.map(Line::parse).collect();
    let mut broker = Broker::start();
    for (index, line) in lines.iter().enumerate().filter(|(_, line)| line.station.is_some()) {
        let answer = lines.get(index + 1).filter(|next| next.station.is_none());
        play(&mut broker, line, answer);
    }
    let asked = names(lines.iter().filter(|line| line.station.is_some()));
    let answered = names(lines.iter().filter(|line| line.station.is_none()));
    assert_eq!(asked.len(), 18 + 2, "all requests, bytes and reconnect: {asked:?}");
    assert_eq!(answered.len(), 8 + 12, "all answers and reports, level being both: {answered:?}");
}
