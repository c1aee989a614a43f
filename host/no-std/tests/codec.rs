//! The codec as a screen without std and without an allocator has it: the crate that is linked here
//! was compiled as `no_std`, from the same sources.
#![no_std]

use obriska_no_std::codec::{
    first_frame, Class, ConditionRef, List, PrivilegeEntry, Reply, Report, Request, Sid,
};
use obriska_no_std::names::right;
use obriska_no_std::{Refusal, MAX_FRAME};

/// Writes the request and compares its bytes.
fn is_written(request: Request, bytes: &[u8]) -> bool {
    let mut buffer = [0; MAX_FRAME];
    let length = request.write(&mut buffer).expect("it fits");
    buffer[..length] == *bytes && Request::read(bytes) == Ok(request)
}

#[test]
fn requests_are_written() {
    let mask = right::QUERY | right::ADJUST_PRIVILEGES;
    assert!(is_written(Request::OpenOwn { mask }, &[0x02, 0x01, 0x28]));
    let entries = [PrivilegeEntry::disable(7)];
    let adjust = Request::Privileges { handle: 1, entries: (&entries).into() };
    assert!(is_written(adjust, &[0x05, 0x05, 0x01, 0x01, 0x07, 0x00]));
    let condition = ConditionRef::read(&[0x03, 0x05, 0x14]).expect("not group 20");
    let evaluate = Request::Evaluate { handle: 1, condition };
    assert!(is_written(evaluate, &[0x05, 0x12, 0x01, 0x03, 0x05, 0x14]));
}

#[test]
fn sids_are_written_and_read() {
    let sid: Sid = "S-1-5-32-544".parse().expect("it is one");
    assert_eq!(Sid::read(sid.packed()), Ok(sid));
    assert_eq!("S-1-5-32-".parse::<Sid>().map_err(|error| error.place), Err(9));
    let sids = [sid];
    let restrict = Request::RestrictToSids {
        handle: 1,
        write_restricted: 0,
        removed: 0,
        deny: List::EMPTY,
        sids: (&sids).into(),
    };
    let bytes = [0x16, 0x0F, 1, 0, 0, 0, 1, 1, 2, 0, 0, 0, 0, 0, 5, 32, 0, 0, 0, 0x20, 2, 0, 0];
    assert!(is_written(restrict, &bytes));
}

#[test]
fn answers_are_read_as_they_come() {
    let stream = [0x04, 0x00, 0x02, 0x64, 0x65, 0x01, 0x02, 0x01];
    let query = Request::Query { handle: 1, class: Class::Restricting.number(), capacity: 64 };
    let (answer, rest) = first_frame(&stream).expect("a length").expect("it is whole");
    let Ok(Reply::Report(Report::Restricting(sids))) = Reply::read(&query, answer) else {
        panic!("no report");
    };
    assert!(sids.iter().eq([100, 101]));
    let (answer, rest) = first_frame(rest).expect("a length").expect("it is whole");
    assert_eq!(Reply::read(&query, answer), Ok(Reply::Refused(Refusal::Handle)));
    assert_eq!(first_frame(rest), Ok(None));
}
