//! The codec: requests and answers as typed values and as bytes, damaged ones, and against the
//! broker.

use obriska::codec::{
    Class, ConditionRef, GroupEntry, List, PrivilegeEntry, ReadError, Reply, Report, Request, Sid,
    SidGroup, Statistics, WriteError, KEEP,
};
use obriska::names::{right, ALL_PRIVILEGES, ALL_RIGHTS};
use obriska::{
    Answer, Broker, Client, Condition, Elevation, Group, Level, PreviousGroups, PreviousPrivileges,
    Privileges, Refusal, TokenType, GROUP_WORDS, MAX_ANSWER, MAX_BODY, MAX_DEPTH, MAX_FRAME,
};

const GROUPS: [Group; 2] = [Group::new(100, 3), Group::new(u32::MAX, 0xC000_0002)];
const ENTRIES: [PrivilegeEntry; 2] = [
    PrivilegeEntry { privilege: 7, attributes: 0 },
    PrivilegeEntry { privilege: 20, attributes: 4 },
];
const LARGEST: [u8; 5] = [0xFF, 0xFF, 0xFF, 0xFF, 0x0F];

fn condition() -> Condition {
    Condition::all([
        Condition::enabled(7),
        Condition::any([Condition::group(300), Condition::not(Condition::enabled(19))]),
        Condition::any([]),
    ])
}

/// A request and its bytes.
type Written<'a> = (Request<'a>, Vec<u8>);

/// What some requests borrow.
struct Lent {
    condition: Condition,
    groups: [SidGroup; 2],
    sids: [Sid; 3],
}

impl Lent {
    fn new() -> Self {
        let sids = unpacked();
        let groups = [(sids[0], 0xC000_0002), (sids[2], 3)];
        let groups = groups.map(|(sid, attributes)| SidGroup::new(sid, attributes));
        Lent { condition: condition(), groups, sids }
    }

    /// Every request with its bytes, in the order of their numbers.
    fn requests(&self) -> Vec<Written<'_>> {
        let with_sids = with_sids(&self.groups, &self.sids);
        let before = [tokens(), privileges_and_groups(), others()].concat();
        [before, with_sids, linking(), evaluations(&self.condition)].concat()
    }
}

/// Requests 1 to 4.
fn tokens() -> Vec<Written<'static>> {
    let created = [
        &[0x1F, 0x03, 0xE8, 0x07][..],
        &[0xFF, 0xFF, 0xFF, 0xFF, 0xFF, 0xFF, 0xFF, 0xFF, 0xFF, 0x01], // the session
        &[0x80, 0x40, 0x88, 0x01, 0x08, 0x02, 0x64, 0x03],
        &LARGEST,
        &[0x82, 0x80, 0x80, 0x80, 0x0C],
    ];
    let create = Request::Create {
        user: 1000,
        session: u64::MAX,
        integrity: 8192,
        present: 0x88,
        default: 8,
        groups: (&GROUPS).into(),
    };
    vec![
        (Request::OpenOwn { mask: ALL_RIGHTS }, vec![0x03, 0x01, 0xEF, 0x03]),
        (Request::Close { handle: u32::MAX }, [&[0x06, 0x02][..], &LARGEST].concat()),
        (create, created.concat()),
        (Request::Query { handle: 1, class: 3, capacity: 64 }, vec![0x04, 0x04, 0x01, 0x03, 0x40]),
    ]
}

/// Requests 5 and 6.
fn privileges_and_groups() -> Vec<Written<'static>> {
    let privileges = |entries| Request::Privileges { handle: 1, entries };
    let groups = |entries| Request::Groups { handle: 1, entries };
    vec![
        (privileges((&ENTRIES).into()), vec![0x07, 0x05, 0x01, 0x02, 0x07, 0x00, 0x14, 0x04]),
        (
            privileges((&[PrivilegeEntry::RESET]).into()),
            vec![0x09, 0x05, 0x01, 0x01, 0x00, 0x80, 0x80, 0x80, 0x80, 0x08],
        ),
        (
            groups((&[GroupEntry { index: 2, enable: 1 }]).into()),
            vec![0x05, 0x06, 0x01, 0x01, 0x02, 0x01],
        ),
        (
            groups((&[GroupEntry::RESET]).into()),
            [&[0x09, 0x06, 0x01, 0x01][..], &LARGEST, &[0x00]].concat(),
        ),
        (groups(List::EMPTY), vec![0x03, 0x06, 0x01, 0x00]),
    ]
}

/// Requests 7 to 13.
fn others() -> Vec<Written<'static>> {
    let [owner, primary_group] = [2, KEEP];
    let dacl = &[0x80, 0x00];
    let [deny, sids] = [(&[0, 2]).into(), (&[77, 78]).into()];
    vec![
        (Request::Scope { handle: 1, scope: 9 }, vec![0x03, 0x07, 0x01, 0x09]),
        (
            Request::Defaults { handle: 1, owner, primary_group, flag: 1, dacl },
            vec![0x0A, 0x08, 0x01, 0x02, 0xFF, 0xFF, 0x03, 0x01, 0x02, 0x80, 0x00],
        ),
        (
            Request::Duplicate { handle: 1, token_type: 2, level: 1, mask: 8 },
            vec![0x05, 0x09, 0x01, 0x02, 0x01, 0x08],
        ),
        (
            Request::Restrict { handle: 1, write_restricted: 1, removed: 0x80, deny, sids },
            vec![0x0B, 0x0A, 0x01, 0x01, 0x80, 0x01, 0x02, 0x02, 0x00, 0x02, 0x4D, 0x4E],
        ),
        (Request::Install { handle: 2 }, vec![0x02, 0x0B, 0x02]),
        (Request::Impersonate { handle: 300 }, vec![0x03, 0x0C, 0xAC, 0x02]),
        (Request::Revert, vec![0x01, 0x0D]),
    ]
}

/// Three SIDs, packed: the first without sub-authorities.
const BARE: [u8; 8] = [0x01, 0x00, 0xFF, 0xEE, 0xDD, 0xCC, 0xBB, 0xAA];
const OPERATORS: [u8; 16] = [1, 2, 0, 0, 0, 0, 0, 5, 32, 0, 0, 0, 0x20, 2, 0, 0];
const SYSTEM: [u8; 12] = [1, 1, 0, 0, 0, 0, 0, 5, 18, 0, 0, 0];

/// The SIDs that they are.
fn unpacked() -> [Sid; 3] {
    let bare = Sid::new(0xFFEE_DDCC_BBAA, &[]).expect("48 bits");
    [bare, Sid::new(5, &[32, 544]).expect("two sub-authorities"), Sid::SYSTEM]
}

/// Requests 14 and 15.
fn with_sids<'a>(groups: &'a [SidGroup], sids: &'a [Sid]) -> Vec<Written<'a>> {
    let create = Request::CreateWithSids {
        user: sids[1],
        session: 300,
        integrity: 8192,
        present: 0x88,
        default: 8,
        groups: groups.into(),
    };
    let created = [
        &[0x33, 0x0E][..],
        &OPERATORS,
        &[0xAC, 0x02, 0x80, 0x40, 0x88, 0x01, 0x08, 0x02], // the session first
        &BARE,
        &[0x82, 0x80, 0x80, 0x80, 0x0C],
        &SYSTEM,
        &[0x03],
    ];
    let [write_restricted, handle] = [1, 300];
    let (removed, deny, sids) = (0x80, (&[0, 2]).into(), sids.into());
    let restricted = [
        &[0x2E, 0x0F, 0xAC, 0x02, 0x01, 0x80, 0x01, 0x02, 0x03, 0x00, 0x02][..],
        &BARE,
        &OPERATORS,
        &SYSTEM,
    ];
    vec![
        (create, created.concat()),
        (
            Request::RestrictToSids { handle, write_restricted, removed, deny, sids },
            restricted.concat(),
        ),
    ]
}

/// Requests 16 and 17.
fn linking() -> Vec<Written<'static>> {
    vec![
        (
            Request::Link { elevated: 3, filtered: 4, session: 5 },
            vec![0x04, 0x10, 0x03, 0x04, 0x05],
        ),
        (Request::GetLinked { handle: 3 }, vec![0x02, 0x11, 0x03]),
    ]
}

/// Request 18.
fn evaluations(condition: &Condition) -> Vec<Written<'_>> {
    let bytes = [
        &[0x10, 0x12, 0x01, 0x01, 0x03, 0x04, 0x07][..], // all of three, enabled 7
        &[0x02, 0x02, 0x05, 0xAC, 0x02, 0x03, 0x04, 0x13], // any of two, group 300, not enabled 19
        &[0x02, 0x00],
    ];
    vec![(Request::Evaluate { handle: 1, condition: condition.into() }, bytes.concat())]
}

/// A request, its answer's bytes and what they say.
type Answered = (Request<'static>, Vec<u8>, Reply<'static>);

/// Every answer.
fn replies() -> Vec<Answered> {
    [refusals(), reports(), other_replies()].concat()
}

fn refusals() -> Vec<Answered> {
    let own = Request::OpenOwn { mask: 8 };
    let linked = Request::GetLinked { handle: 1 };
    let query = Request::Query { handle: 1, class: 2, capacity: 6 };
    vec![
        (own, vec![0x01, 0x05], Reply::Refused(Refusal::Field)),
        (own, vec![0x01, 0x0A], Reply::Refused(Refusal::Broken)),
        (linked, vec![0x01, 0x0E], Reply::Refused(Refusal::NotLinked)),
        (query, vec![0x03, 0x09, 0x82, 0x02], Reply::TooLarge { size: 258 }),
    ]
}

/// The report of a class that has these fields.
fn report(class: Class, fields: &[u8], report: Report<'static>) -> Answered {
    let request = Request::Query { handle: 1, class: class.number(), capacity: 64 };
    (request, [&[1 + fields.len() as u8, 0], fields].concat(), Reply::Report(report))
}

/// Statistics of a token: number 2, session 999, modified 4, primary, root 2.
fn statistics() -> Statistics {
    let mut broker = Broker::start();
    broker.feed(0, &[0x08, 3, 18, 0xE7, 0x07, 0, 0, 0, 0]).expect("station 0");
    broker.feed(0, &[0x03, 7, 1, 9, 0x03, 7, 1, 9]).expect("station 0");
    (&broker.token(2).expect("it was made")).into()
}

/// A report of every class.
fn reports() -> Vec<Answered> {
    let groups = [&[0x02, 0x64, 0x03][..], &LARGEST, &[0x82, 0x80, 0x80, 0x80, 0x0C]].concat();
    let privileges = Privileges { present: 0x88, enabled: 8, default: 8, used: 4 };
    let privileges = Report::Privileges(privileges);
    let statistics = Report::Statistics(statistics());
    let sids = Report::Restricting((&[100, 101]).into());
    vec![
        report(Class::User, &[0xE8, 0x07], Report::User(1000)),
        report(Class::Groups, &groups, Report::Groups((&GROUPS).into())),
        report(Class::Groups, &[0x00], Report::Groups(List::EMPTY)),
        report(Class::Privileges, &[0x88, 0x01, 0x08, 0x08, 0x04], privileges),
        report(Class::Owner, &[0x65], Report::Owner(101)),
        report(Class::PrimaryGroup, &[0x64], Report::PrimaryGroup(100)),
        report(Class::Dacl, &[0x03, 0x80, 0x00, 0xFF], Report::Dacl(&[0x80, 0x00, 0xFF])),
        report(Class::Type, &[0x01], Report::Type(TokenType::Primary)),
        report(Class::Level, &[0x02], Report::Level(Level::Impersonation)),
        report(Class::Statistics, &[0x02, 0xE7, 0x07, 0x04, 0x01, 0x02], statistics),
        report(Class::Restricting, &[0x02, 0x64, 0x65], sids),
        report(Class::Restricting, &[0x00], Report::Restricting(List::EMPTY)),
        report(Class::Scope, &[0x09], Report::Scope(9)),
        report(Class::Elevation, &[0x03], Report::Elevation(Elevation::Limited)),
        report(Class::Integrity, &[0x80, 0x40], Report::Integrity(8192)),
    ]
}

fn other_replies() -> Vec<Answered> {
    let own = Request::OpenOwn { mask: 8 };
    let close = Request::Close { handle: 1 };
    let privileges = Request::Privileges { handle: 1, entries: List::EMPTY };
    let groups = Request::Groups { handle: 1, entries: List::EMPTY };
    let impersonate = Request::Impersonate { handle: 1 };
    let condition = ConditionRef::read(&[1, 0]).expect("all()");
    let evaluate = Request::Evaluate { handle: 1, condition };
    let before = PreviousPrivileges::new(0x80, 0);
    let mut words = [0; GROUP_WORDS];
    words[0] = 5;
    let group_words = [&[0x11, 0x00, 0x05][..], &[0; 15]].concat();
    let client = Client::new(16, Level::Delegation);
    vec![
        (own, vec![0x03, 0x00, 0xAC, 0x02], Reply::Handle(300)),
        (close, vec![0x01, 0x00], Reply::Done),
        (privileges, vec![0x04, 0x00, 0x80, 0x01, 0x00], Reply::Privileges(before)),
        (groups, group_words, Reply::Groups(PreviousGroups { words })),
        (impersonate, vec![0x02, 0x00, 0x01], Reply::Level(Level::Identification)),
        (Request::Revert, vec![0x03, 0x00, 0x10, 0x03], Reply::Reverted(Some(client))),
        (Request::Revert, vec![0x03, 0x00, 0x00, 0x00], Reply::Reverted(None)),
        (evaluate, vec![0x02, 0x00, 0x01], Reply::Holds(true)),
        (evaluate, vec![0x02, 0x00, 0x00], Reply::Holds(false)),
    ]
}

/// The frame with each byte changed to each other value.
fn changed(frame: &[u8]) -> impl Iterator<Item = Vec<u8>> + '_ {
    let places = (0..frame.len()).flat_map(|place| (1..=255).map(move |change| (place, change)));
    places.map(|(place, change): (usize, u8)| {
        let mut changed = frame.to_vec();
        changed[place] ^= change;
        changed
    })
}

/// The frames of the begins of a frame's body.
fn shortened(frame: &[u8]) -> impl Iterator<Item = Vec<u8>> + '_ {
    (1..frame.len() - 1).map(|length| [&[length as u8], &frame[1..=length]].concat())
}

#[test]
fn every_request_is_written_and_read_back() {
    let lent = Lent::new();
    let mut numbers = Vec::new();
    for (request, bytes) in lent.requests() {
        assert_eq!(request.to_bytes().as_deref(), Ok(&bytes[..]), "{request:?}");
        assert_eq!(Request::read(&bytes), Ok(request));
        numbers.push(request.number());
    }
    numbers.dedup();
    assert!(numbers.into_iter().eq(1..=18));
}

#[test]
fn a_request_is_written_into_a_buffer_that_holds_it() {
    let lent = Lent::new();
    for (request, bytes) in lent.requests() {
        let mut buffer = [0x5A; MAX_FRAME];
        assert_eq!(request.frame_len(), Ok(bytes.len()));
        assert_eq!(request.write(&mut buffer), Ok(bytes.len()));
        assert_eq!(buffer[..bytes.len()], bytes);
        assert!(buffer[bytes.len()..].iter().all(|&byte| byte == 0x5A));

        let mut short = vec![0x5A; bytes.len() - 1];
        let needed = bytes.len();
        assert_eq!(request.write(&mut short), Err(WriteError::Buffer { needed }));
        assert!(short.iter().all(|&byte| byte == 0x5A));
    }
}

#[test]
fn a_request_that_is_cut_is_an_error_with_its_place() {
    let lent = Lent::new();
    for (_, bytes) in lent.requests() {
        for end in 0..bytes.len() {
            let error = Request::read(&bytes[..end]).expect_err("it is cut");
            assert_eq!(error.place, end, "{bytes:?}");
        }
        for frame in shortened(&bytes) {
            let error = Request::read(&frame).expect_err("its body is cut");
            assert!((1..=frame.len()).contains(&error.place), "{error}");
        }
        let longer = [&bytes[..], &[0]].concat();
        assert_eq!(Request::read(&longer).expect_err("a byte is left").place, bytes.len());
    }
}

#[test]
fn a_changed_request_is_another_one_or_an_error_with_its_place() {
    let lent = Lent::new();
    for (request, bytes) in lent.requests() {
        for frame in changed(&bytes) {
            match Request::read(&frame) {
                Ok(other) => {
                    assert_ne!(other, request);
                    assert_eq!(other.to_bytes().as_deref(), Ok(&frame[..]), "there is one form");
                }
                Err(error) => assert!(error.place <= frame.len(), "{error}"),
            }
        }
    }
}

/// The broker's answer to a whole frame, unless the frame is no request in its layout.
fn answer(broker: &mut Broker, frame: &[u8]) -> Option<Answer> {
    let answers = broker.feed(0, frame).expect("station 0");
    let is_whole = answers.len() == 1 && broker.stations()[0].pending.is_empty();
    broker.reconnect(0).expect("station 0");
    let answer = answers.into_iter().next().filter(|_| is_whole)?;
    let is_refused = matches!(answer.refusal(), Some(Refusal::Layout | Refusal::Broken));
    (!is_refused).then_some(answer)
}

/// Whether the frame is read as a request: just where the broker takes it for one, and then what it
/// answers is read too.
fn is_read(broker: &mut Broker, frame: &[u8]) -> bool {
    let request = Request::read(frame);
    let answer = answer(broker, frame);
    assert_eq!(request.is_ok(), answer.is_some(), "{frame:?}: {request:?}");
    if let (Ok(request), Some(answer)) = (request, &answer) {
        assert!(answer.reply(&request).is_ok(), "{request:?}: {answer:?}");
    }
    answer.is_some()
}

#[test]
fn just_what_the_broker_takes_is_read() {
    let lent = Lent::new();
    let mut broker = Broker::start();
    let mut counts = [0; 2];
    for (_, bytes) in lent.requests() {
        for frame in changed(&bytes).chain(shortened(&bytes)) {
            counts[usize::from(is_read(&mut broker, &frame))] += 1;
        }
    }
    assert!(counts.iter().all(|&count| count > 5000), "{counts:?}");
}

/// Numbers that look like chance (xorshift).
struct Chance(u64);

impl Chance {
    fn below(&mut self, end: u64) -> u64 {
        self.0 ^= self.0 << 13;
        self.0 ^= self.0 >> 7;
        self.0 ^= self.0 << 17;
        self.0 % end
    }

    /// A frame that begins like a request; its other bytes are small more often than not.
    fn frame(&mut self) -> Vec<u8> {
        let length = 1 + self.below(12);
        let mut frame = vec![length as u8, 1 + self.below(18) as u8];
        while frame.len() <= length as usize {
            let end = [4, 4, 4, 10, 40, 256][self.below(6) as usize];
            frame.push(self.below(end) as u8);
        }
        frame
    }
}

#[test]
fn so_it_is_with_frames_by_chance() {
    let mut broker = Broker::start();
    let mut chance = Chance(0x0B21_5CA1);
    let mut counts = [0; 2];
    for _ in 0..20_000 {
        counts[usize::from(is_read(&mut broker, &chance.frame()))] += 1;
    }
    assert!(counts.iter().all(|&count| count > 1000), "{counts:?}");
}

#[test]
fn an_error_says_where_and_what() {
    let text = |frame: &[u8]| Request::read(frame).unwrap_err().to_string();
    let cases: [(&[u8], &str); 14] = [
        (&[0x00], "byte 0: expected the length of a body"),
        (&[0x03, 0x01, 0x28], "byte 3: expected the rest of the frame"),
        (&[0x02, 0x01, 0x28, 0x00], "byte 3: expected the end of the frame"),
        (&[0x03, 0x01, 0x28, 0x00], "byte 3: expected the end of the body"),
        (&[0x01, 0x13], "byte 1: expected the number of a request"),
        (&[0x03, 0x01, 0x88, 0x00], "byte 2: expected a mask"), // not its shortest form
        (&[0x06, 0x02, 0xFF, 0xFF, 0xFF, 0xFF, 0x1F], "byte 2: expected a handle"), // 33 bits
        (&[0x04, 0x05, 0x01, 0x01, 0x07], "byte 5: expected an entry"), // half of one
        (&[0x07, 0x08, 0x01, 0x00, 0x00, 0x01, 0x02, 0xAA], "byte 8: expected the bytes of a DACL"),
        (&[0x04, 0x12, 0x01, 0x06, 0x07], "byte 3: expected a kind of condition"),
        (&[0x08, 14, 1, 0, 0, 0, 0, 0, 0], "byte 9: expected a packed SID"), // a byte is missing
        (&[0x09, 14, 2, 0, 0, 0, 0, 0, 0, 5], "byte 2: expected revision 1 of a SID"),
        (&[0x09, 14, 1, 16, 0, 0, 0, 0, 0, 5], "byte 3: expected at most 15 sub-authorities"),
        (
            &[0x0C, 14, 1, 1, 0, 0, 0, 0, 0, 5, 18, 0, 0],
            "byte 13: expected the sub-authorities of a SID",
        ),
    ];
    for (frame, expected) in cases {
        assert_eq!(text(frame), expected);
    }
}

#[test]
fn every_answer_is_read() {
    for (request, bytes, reply) in replies() {
        assert_eq!(Reply::read(&request, &bytes), Ok(reply), "{request:?}");
    }
}

#[test]
fn a_damaged_answer_is_another_one_or_an_error_with_its_place() {
    for (request, bytes, reply) in replies() {
        for end in 0..bytes.len() {
            let error = Reply::read(&request, &bytes[..end]).expect_err("it is cut");
            assert_eq!(error.place, end);
        }
        for frame in shortened(&bytes) {
            let error = Reply::read(&request, &frame).expect_err("its body is cut");
            assert!((1..=frame.len()).contains(&error.place), "{error}");
        }
        for frame in changed(&bytes) {
            match Reply::read(&request, &frame) {
                Ok(other) => assert_ne!(other, reply, "there is one form"),
                Err(error) => assert!(error.place <= frame.len(), "{error}"),
            }
        }
    }
}

#[test]
fn an_answer_is_none_of_another_request() {
    let query = |class, capacity| Request::Query { handle: 1, class, capacity };
    let place = |request: Request, frame: &[u8]| Reply::read(&request, frame).unwrap_err().place;
    assert_eq!(place(Request::Revert, &[0x02, 0x09, 0x05]), 1); // 9 is request 4's alone
    assert_eq!(place(query(2, 64), &[0x02, 0x09, 0x40]), 2); // 64 bytes would do
    assert_eq!(place(query(14, 64), &[0x02, 0x00, 0x01]), 1); // there is no class 14
    assert_eq!(place(Request::Revert, &[0x01, 0x0B]), 1); // 11 refuses a call
    assert_eq!(place(Request::Revert, &[0x03, 0x00, 0x00, 0x01]), 3); // none has no level
    assert_eq!(place(query(2, 64), &[0x02, 0x00, 0x41]), 2); // 65 groups
    assert_eq!(place(query(10, 64), &[0x02, 0x00, 0x11]), 2); // 17 SIDs
    assert_eq!(place(query(7, 64), &[0x02, 0x00, 0x03]), 2); // there is no type 3
}

#[test]
fn what_no_frame_holds_is_not_written() {
    let sids = vec![u32::MAX; MAX_BODY];
    let deny = List::EMPTY;
    let restrict = Request::Restrict {
        handle: 1,
        write_restricted: 0,
        removed: 0,
        deny,
        sids: sids[..].into(),
    };
    let error = restrict.to_bytes().expect_err("it is too long");
    assert_eq!(error.to_string(), "the request is over 2048 bytes");

    let deep = (0..MAX_DEPTH).fold(Condition::all([]), |inner, _| Condition::not(inner));
    let evaluate = Request::Evaluate { handle: 1, condition: (&deep).into() };
    assert_eq!(evaluate.frame_len(), Err(WriteError::TooDeep));
    let Condition::Not(inner) = deep else { unreachable!() };
    let evaluate = Request::Evaluate { handle: 1, condition: (&*inner).into() };
    assert_eq!(Request::read(&evaluate.to_bytes().expect("it fits")), Ok(evaluate));

    let longest =
        Condition::any([vec![Condition::group(1); 1020], vec![Condition::group(128)]].concat());
    let evaluate = Request::Evaluate { handle: 127, condition: (&longest).into() };
    assert_eq!(evaluate.frame_len(), Ok(MAX_FRAME));
    let evaluate = Request::Evaluate { handle: 128, condition: (&longest).into() };
    assert_eq!(evaluate.write(&mut [0; 2 * MAX_FRAME]), Err(WriteError::TooLong));
}

#[test]
fn a_condition_is_the_same_lent_and_read() {
    let tree = condition();
    let bytes = tree.to_bytes().expect("it fits");
    let read = ConditionRef::read(&bytes).expect("it is one");
    assert_eq!(read, ConditionRef::from(&tree));
    assert_eq!(ConditionRef::from(&tree), read);
    assert_eq!(read.to_condition(), tree);
    let more = Condition::all([tree.clone()]);
    assert_ne!(read, ConditionRef::from(&more));
    for end in 0..bytes.len() {
        assert!(ConditionRef::read(&bytes[..end]).is_err());
    }
    let nine_deep = [3, 3, 3, 3, 3, 3, 3, 3, 4, 7];
    let error: ReadError = ConditionRef::read(&nine_deep).expect_err("it is nine deep");
    assert_eq!((error.place, error.expected), (8, "no condition deeper than eight"));
    assert_eq!(ConditionRef::read(&nine_deep[1..]).map(|read| read.to_condition().depth()), Ok(8));
}

/// Sends a typed request without an allocation and gives its answer's frame.
fn ask<'b>(broker: &mut Broker, request: &Request, buffer: &'b mut [u8; MAX_ANSWER]) -> &'b [u8] {
    let mut frame = [0; MAX_FRAME];
    let length = request.write(&mut frame).expect("it fits");
    let fed = broker.feed_into(0, &frame[..length], buffer).expect("station 0");
    assert_eq!(fed.used, length);
    fed.answer.expect("a whole request is answered")
}

#[test]
fn the_broker_is_opened_adjusted_queried_and_closed() {
    let mut broker = Broker::start();
    let mut buffer = [0; MAX_ANSWER];
    let open = Request::OpenOwn { mask: right::QUERY | right::ADJUST_PRIVILEGES };
    let reply = Reply::read(&open, ask(&mut broker, &open, &mut buffer));
    let Ok(Reply::Handle(handle)) = reply else { panic!("{reply:?}") };

    let entries = [PrivilegeEntry::disable(7)];
    let adjust = Request::Privileges { handle, entries: (&entries).into() };
    let before = PreviousPrivileges::new(1 << 7, 1 << 7);
    let reply = Reply::read(&adjust, ask(&mut broker, &adjust, &mut buffer));
    assert_eq!(reply, Ok(Reply::Privileges(before)));

    let query = Request::Query { handle, class: Class::Privileges.number(), capacity: 64 };
    let reply = Reply::read(&query, ask(&mut broker, &query, &mut buffer));
    let Ok(Reply::Report(Report::Privileges(now))) = reply else { panic!("{reply:?}") };
    assert_eq!((now.present, now.enabled), (ALL_PRIVILEGES, ALL_PRIVILEGES & !(1 << 7)));

    let close = Request::Close { handle };
    for expected in [Reply::Done, Reply::Refused(Refusal::Handle)] {
        assert_eq!(Reply::read(&close, ask(&mut broker, &close, &mut buffer)), Ok(expected));
    }
}

#[test]
fn every_class_of_a_token_is_read() {
    let mut broker = Broker::start();
    let mut buffer = [0; MAX_ANSWER];
    let [user, owner, system] = unpacked();
    let groups = [(system, 3), (owner, 8)].map(|(sid, attributes)| SidGroup::new(sid, attributes));
    let groups = (&groups).into();
    let [session, present, default] = [5, 8, 8];
    let create =
        Request::CreateWithSids { user, session, integrity: 8192, present, default, groups };
    let reply = Reply::read(&create, ask(&mut broker, &create, &mut buffer));
    assert_eq!(reply, Ok(Reply::Handle(1)));
    let token = broker.token(2).expect("it was made");
    assert_eq!(
        (broker.sid(token.user), broker.sid(token.groups[0].sid)),
        (Some(user), Some(system))
    );
    for class in Class::ALL {
        let query = Request::Query { handle: 1, class: class.number(), capacity: 512 };
        let reply = Reply::read(&query, ask(&mut broker, &query, &mut buffer));
        let Ok(Reply::Report(report)) = reply else { panic!("{class:?}: {reply:?}") };
        match report {
            Report::User(user) => assert_eq!(user, token.user),
            Report::Groups(groups) => assert!(groups.iter().eq(token.groups.iter().copied())),
            Report::Privileges(privileges) => assert_eq!(privileges, token.privileges),
            Report::Owner(sid) | Report::PrimaryGroup(sid) => assert_eq!(sid, token.user),
            Report::Dacl(dacl) => assert_eq!(dacl, token.dacl),
            Report::Type(token_type) => assert_eq!(token_type, token.token_type),
            Report::Level(level) => assert_eq!(level, token.level),
            Report::Statistics(statistics) => assert_eq!(statistics, (&token).into()),
            Report::Restricting(sids) => assert!(sids.is_empty()),
            Report::Scope(scope) => assert_eq!(scope, token.scope),
            Report::Elevation(elevation) => assert_eq!(elevation, token.elevation),
            Report::Integrity(integrity) => assert_eq!(integrity, token.integrity),
            other => panic!("{other:?}"),
        }
    }
}

#[test]
fn feeding_into_a_buffer_is_feeding() {
    let stream = [0x02, 0x01, 0x08, 0x01, 0x0D, 0x02, 0x01, 0x81, 0x10, 0x02]; // breaks at the end
    for first in 0..=stream.len() {
        let mut broker = Broker::start();
        let mut other = broker.clone();
        let mut buffer = [0; MAX_ANSWER];
        let mut answers = Vec::new();
        for chunk in [&stream[..first], &stream[first..]] {
            let mut rest = chunk;
            while !rest.is_empty() {
                let fed = broker.feed_into(3, rest, &mut buffer).expect("station 3");
                answers.extend(fed.answer.map(<[u8]>::to_vec));
                rest = &rest[fed.used..];
            }
        }
        let expected = other.feed(3, &stream).expect("station 3");
        assert!(expected.iter().map(|answer| answer.bytes()).eq(&answers));
        assert_eq!(broker, other);
    }
}

#[test]
fn a_refused_feed_is_without_effect() {
    let mut broker = Broker::start();
    let open = [0x02, 0x01, 0x28];
    let mut buffer = [0x5A; MAX_ANSWER];
    assert_eq!(broker.feed_into(8, &open, &mut buffer), Err(Refusal::Station));
    assert_eq!(broker.feed_into(0, &open, &mut buffer[1..]), Err(Refusal::Buffer));
    assert_eq!(broker, Broker::start());
    assert!(buffer.iter().all(|&byte| byte == 0x5A));
}
