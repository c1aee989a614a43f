//! The vectors of the protocol on the model: the answers byte by byte, and the words of each line.

use std::collections::BTreeSet;
use std::iter;

use gen::{fields, status, vectors, Calls, Field, Step, Vector};
use model::{framed, write_number, Condition, Model, Refusal, Request, Sid};
use model::{LAST_CLASS, LAST_REQUEST};

/// The reports, by their classes from 1 on.
const REPORTS: [&str; LAST_CLASS as usize] = [
    "user",
    "groups",
    "privileges",
    "owner",
    "primary-group",
    "dacl",
    "type",
    "level",
    "statistics",
    "restricting",
    "scope",
    "elevation",
    "integrity",
];

/// Plays a line; gives the request that the model reads at its end, if it reads one.
fn play(model: &mut Model, vector: &Vector) -> Option<Request> {
    let before = model.clone();
    let fed = model.make(&vector.call);
    assert_eq!(fed, vector.fed(), "{}", vector.words);
    let step = Step { call: &vector.call, before: &before, after: model, fed: &fed };
    step.ended().and_then(|(_, body)| Request::read(&body))
}

/// All lines from the start on, each with its request.
fn played() -> Vec<(Vector, Option<Request>)> {
    let mut model = Model::start();
    let play = |vector| {
        let request = play(&mut model, &vector);
        (vector, request)
    };
    vectors().into_iter().map(play).collect()
}

fn first(words: &str) -> &str {
    words.split(' ').next().expect("a name")
}

/// The status of the answer, if there is one.
fn status_of(vector: &Vector) -> Option<u32> {
    vector.answer.as_ref().and_then(|answer| status(&answer.bytes)).map(u32::from)
}

/// The request in the words of the file.
fn said(request: &Request) -> String {
    match request {
        Request::Open { mask } => format!("open-own mask={mask}"),
        Request::Close { handle } => format!("close handle={handle}"),
        Request::Create { .. } | Request::Default { .. } | Request::Restrict { .. } => {
            long(request)
        }
        Request::CreatePacked { .. } | Request::RestrictPacked { .. } => with_sids(request),
        Request::Query { handle, class, capacity } => {
            format!("query handle={handle} class={class} capacity={capacity}")
        }
        Request::Privileges { handle, entries } => {
            format!("privileges handle={handle} entries={}", pairs(entries))
        }
        Request::Groups { handle, entries } => {
            format!("groups handle={handle} entries={}", pairs(entries))
        }
        Request::Scope { handle, value } => format!("scope handle={handle} scope={value}"),
        Request::Duplicate { handle, kind, level, mask } => {
            format!("duplicate handle={handle} type={kind} level={level} mask={mask}")
        }
        Request::Install { handle } => format!("install handle={handle}"),
        Request::Impersonate { handle } => format!("impersonate handle={handle}"),
        Request::Revert => "revert".into(),
        Request::Link { elevated, filtered, session } => {
            format!("link elevated={elevated} filtered={filtered} session={session}")
        }
        Request::GetLinked { handle } => format!("get-linked handle={handle}"),
        Request::Evaluate { handle, condition } => {
            format!("evaluate handle={handle} condition={}", items(condition).join(","))
        }
    }
}

/// A request of many words.
fn long(request: &Request) -> String {
    match request {
        Request::Create { user, session, integrity, present, default, groups } => format!(
            "create user={user} session={session} integrity={integrity} present={present} \
             default={default} groups={}",
            pairs(groups)
        ),
        Request::Default { handle, owner, group, flag, dacl } => format!(
            "defaults handle={handle} owner={owner} primary-group={group} flag={flag} dacl={}",
            or_none(dacl.iter().map(|byte| format!("{byte:02X}")).collect())
        ),
        Request::Restrict { handle, write_restricted, remove, deny, sids } => format!(
            "restrict handle={handle} write-restricted={write_restricted} removed={remove} \
             deny={} sids={}",
            list(deny),
            list(sids)
        ),
        _ => panic!("{request:?}"),
    }
}

/// A request with packed SIDs.
fn with_sids(request: &Request) -> String {
    match request {
        Request::CreatePacked { user, session, integrity, present, default, groups } => {
            let groups = groups.iter().map(|(sid, with)| format!("{}:{with}", text(sid)));
            format!(
                "create-with-sids user={} session={session} integrity={integrity} \
                 present={present} default={default} groups={}",
                text(user),
                or_none(groups.collect::<Vec<_>>().join(","))
            )
        }
        Request::RestrictPacked { handle, write_restricted, remove, deny, sids } => format!(
            "restrict-to-sids handle={handle} write-restricted={write_restricted} \
             removed={remove} deny={} sids={}",
            list(deny),
            or_none(sids.iter().map(text).collect::<Vec<_>>().join(","))
        ),
        _ => panic!("{request:?}"),
    }
}

/// A SID's text.
fn text(sid: &Sid) -> String {
    let authority = sid.authority().into_iter().fold(0, |n, byte| n << 8 | u64::from(byte));
    let authority = match u32::try_from(authority) {
        Ok(authority) => authority.to_string(),
        Err(_) => format!("0x{authority:012X}"),
    };
    let rest = sid.sub_authorities().iter().map(|sub_authority| format!("-{sub_authority}"));
    format!("S-1-{authority}{}", rest.collect::<String>())
}

fn pairs(pairs: &[(u32, u32)]) -> String {
    let pairs: Vec<_> = pairs.iter().map(|(first, second)| format!("{first}:{second}")).collect();
    or_none(pairs.join(","))
}

fn list(numbers: &[u32]) -> String {
    or_none(numbers.iter().map(u32::to_string).collect::<Vec<_>>().join(","))
}

fn or_none(value: String) -> String {
    if value.is_empty() {
        "none".into()
    } else {
        value
    }
}

/// The conditions in the order of their bytes.
fn items(condition: &Condition) -> Vec<String> {
    let first = match condition {
        Condition::AllOf(list) => format!("all:{}", list.len()),
        Condition::AnyOf(list) => format!("any:{}", list.len()),
        Condition::Negated(_) => "not".into(),
        Condition::Privilege(privilege) => format!("enabled:{privilege}"),
        Condition::Group(sid) => format!("group:{sid}"),
    };
    iter::once(first).chain(condition.inner().iter().flat_map(items)).collect()
}

/// The name of the request's answer if it is not refused.
fn answer_name(request: &Request) -> &'static str {
    match request {
        Request::Open { .. } | Request::Create { .. } | Request::Duplicate { .. } => "handle",
        Request::Restrict { .. } | Request::GetLinked { .. } => "handle",
        Request::CreatePacked { .. } | Request::RestrictPacked { .. } => "handle",
        Request::Close { .. } | Request::Scope { .. } | Request::Default { .. } => "nothing",
        Request::Install { .. } | Request::Link { .. } => "nothing",
        Request::Query { class, .. } => REPORTS[*class as usize - 1],
        Request::Privileges { .. } => "privileges-before",
        Request::Groups { .. } => "groups-before",
        Request::Impersonate { .. } => "level",
        Request::Revert => "reverted",
        Request::Evaluate { .. } => "evaluated",
    }
}

/// The bytes of an answer of these words.
fn written(words: &str) -> Vec<u8> {
    let mut body = if words.starts_with("refused ") { vec![] } else { vec![0] };
    for (key, value) in words.split(' ').filter_map(|word| word.split_once('=')) {
        let value = if value == "none" { "" } else { value };
        match key {
            "size" if value == "0" => {}
            "dacl" => {
                write_number(value.len() as u64 / 2, &mut body);
                let byte = |at| u8::from_str_radix(&value[at..at + 2], 16).expect("two digits");
                body.extend((0..value.len()).step_by(2).map(byte));
            }
            "groups" | "sids" => {
                write_number(value.split_terminator(',').count() as u64, &mut body);
                write_numbers(value, &mut body);
            }
            _ => write_numbers(value, &mut body),
        }
    }
    framed(&body)
}

fn write_numbers(value: &str, body: &mut Vec<u8>) {
    for number in value.split_terminator([',', ':']) {
        write_number(number.parse().expect("a number"), body);
    }
}

#[test]
fn the_model_plays_the_vectors_and_reads_their_words() {
    for (vector, request) in played() {
        match (vector.words.as_str(), request) {
            ("bytes" | "reconnect", _) => {}
            (words, Some(request)) => assert_eq!(said(&request), words),
            (words, None) => {
                assert!(words.starts_with("evaluate "), "{words}");
                assert_eq!(status_of(&vector), Some(Refusal::Layout.number()), "{words}");
            }
        }
    }
}

#[test]
fn the_words_of_the_vectors_answers_are_their_bytes() {
    for (vector, request) in played() {
        let Some(answer) = &vector.answer else { continue };
        assert_eq!(written(&answer.words), answer.bytes, "{}", answer.words);
        let name = match status_of(&vector) {
            Some(0) => answer_name(request.as_ref().expect("a served request")),
            _ => "refused",
        };
        assert_eq!(first(&answer.words), name, "{}", vector.words);
    }
}

#[test]
fn the_vectors_have_every_request_report_answer_and_status() {
    let played = played();
    let statuses: BTreeSet<_> = played.iter().filter_map(|(vector, _)| status_of(vector)).collect();
    assert_eq!(statuses, (0..=10).chain([14]).collect());
    let served = played.iter().filter(|(vector, _)| status_of(vector) == Some(0));
    let served: Vec<_> = served.filter_map(|(_, request)| request.as_ref()).collect();
    let numbers: BTreeSet<_> = served.iter().map(|request| fields(request)[0].bytes()).collect();
    let all = (1..=LAST_REQUEST).map(|number| Field::Number(number.into()).bytes());
    assert_eq!(numbers, all.collect());
    assert_eq!(numbers.len(), 18);
    let classes = served.iter().filter_map(|request| match request {
        Request::Query { class, .. } => Some(*class),
        _ => None,
    });
    assert_eq!(classes.collect::<BTreeSet<_>>(), (1..=LAST_CLASS).collect());
    let answers = played.iter().filter_map(|(vector, _)| vector.answer.as_ref());
    let answers: BTreeSet<_> = answers.map(|answer| first(&answer.words)).collect();
    assert_eq!(answers.len(), 8 + 13 - 1, "level is an answer and a report: {answers:?}");
}
