//! The README's examples for Rust are those of this file, which runs them.

use std::error::Error;

/// What a host does with an answer.
fn send(station: u32, answer: &[u8]) {
    assert_eq!((station, answer), (0, &[0x02, 0x00, 0x01][..]));
}

#[test]
fn the_examples_run() -> Result<(), Box<dyn Error>> {
    let mut broker = obriska::Broker::start();
    for answer in broker.feed(0, &[0x02, 0x01, 0x28])? {
        send(0, answer.bytes()); // 02 00 01: handle 1
    }
    let kept = broker.to_bytes(); // across a restart: Broker::from_bytes(&kept)?
    assert_eq!(obriska::Broker::from_bytes(&kept)?, broker);

    use obriska::codec::{Class, List, PrivilegeEntry, Reply, Report, Request, Sid};
    use obriska::names::right;

    let open = Request::OpenOwn { mask: right::QUERY | right::ADJUST_PRIVILEGES };
    let answers = broker.feed(0, &open.to_bytes()?)?;
    let Reply::Handle(handle) = answers[0].reply(&open)? else { panic!("refused") };

    let entries = [PrivilegeEntry::disable(7)]; // SeTcbPrivilege
    let adjust = Request::Privileges { handle, entries: (&entries).into() };
    let answers = broker.feed(0, &adjust.to_bytes()?)?;
    let Reply::Privileges(before) = answers[0].reply(&adjust)? else { panic!("refused") };
    println!("it was {}", before.state(7)); // it was enabled
    assert_eq!(before.state(7).to_string(), "enabled");

    let query = Request::Query { handle, class: Class::Privileges.number(), capacity: 64 };
    let answers = broker.feed(0, &query.to_bytes()?)?;
    let Reply::Report(Report::Privileges(now)) = answers[0].reply(&query)? else {
        panic!("refused")
    };
    assert!(!now.enables(7));

    let close = Request::Close { handle };
    let answers = broker.feed(0, &close.to_bytes()?)?;
    assert_eq!(answers[0].reply(&close)?, Reply::Done);

    let user: Sid = "S-1-5-21-1000".parse()?; // SIDs are entered in the table, and get numbers
    let (session, integrity, present, default, groups) = (5, 8192, 0, 0, List::EMPTY);
    let create = Request::CreateWithSids { user, session, integrity, present, default, groups };
    broker.feed(0, &create.to_bytes()?)?;
    let token = broker.token(2).expect("it was just made");
    assert_eq!(broker.sid(token.user), Some(user));
    Ok(())
}

/// The text without blanks, however it is laid out.
fn dense(text: &str) -> String {
    text.split_whitespace().collect()
}

#[test]
fn they_are_the_readmes() {
    let here = dense(include_str!("readme.rs"));
    let readme = include_str!("../../../README.md");
    let blocks: Vec<_> = readme.split("```rust\n").skip(1).collect();
    assert_eq!(blocks.len(), 2);
    for line in blocks.iter().flat_map(|block| block.split("```").next()).flat_map(str::lines) {
        assert!(here.contains(&dense(line)), "{line}");
    }
}
