//! Lists of feeds to be timed, each with the memory that it begins on.

use gen::{fields, flat, Rng, NEEDED};
use model::{
    framed, Elevation, Group, Handle, Level, Mask, Memory, Model, Pair, Request, Token, TokenType,
    ALL_PRIVILEGES, FIRST_ENTERED, HANDLES, LAST_CLASS, MAX_BODY, MAX_DACL, MAX_GROUPS,
    MAX_RESTRICTING, MIN_BUFFER, NO_CHANGE, PAIRS, SIDS, STATIONS, TOKENS,
};

use crate::{condition_work, sid_work};

/// A list of feeds.
pub struct Work {
    /// What it is.
    pub name: &'static str,
    /// The memory before the first.
    pub memory: Memory,
    /// All the chunks' bytes in a row.
    bytes: Vec<u8>,
    /// Stations, and where each chunk begins and ends.
    feeds: Vec<(u32, usize, usize)>,
}

/// Stations and chunks.
pub(crate) type Feeds = Vec<(u32, Vec<u8>)>;

impl Work {
    pub(crate) fn new(name: &'static str, model: &Model, feeds: &Feeds) -> Self {
        let mut work = Work { name, memory: model.memory(), bytes: vec![], feeds: vec![] };
        for (station, chunk) in feeds {
            let begin = work.bytes.len();
            work.bytes.extend_from_slice(chunk);
            work.feeds.push((*station, begin, work.bytes.len()));
        }
        work
    }

    /// Stations and chunks.
    pub fn feeds(&self) -> impl ExactSizeIterator<Item = (u32, &[u8])> {
        self.feeds.iter().map(|&(station, begin, end)| (station, &self.bytes[begin..end]))
    }
}

/// Feeds of whole requests in a list, and how many of them are fed byte by byte.
const REQUESTS: usize = 2000;
const IN_BYTES: usize = 200;
/// Feeds of an empty chunk.
const EMPTY: usize = 1000;
/// A query's capacity that every report fits in.
const CAPACITY: u32 = MIN_BUFFER as u32;

/// SIDs of a desk at work: operators, their groups, and what they are restricted to.
const DESK_SIDS: usize = 2 + OPERATORS as usize + GROUPS.len() + 2;
const OPERATORS: u32 = 100;
/// The attributes of an operator's groups.
const GROUPS: [u32; 6] = [2, 3, 10, 8, 0, 0xC000_0002];
/// The first group's number, and the first that a copy is restricted to.
const FIRST_GROUP: u32 = FIRST_ENTERED + OPERATORS;
const FIRST_RESTRICTING: u32 = FIRST_GROUP + GROUPS.len() as u32;

/// All the lists.
pub fn all() -> Vec<Work> {
    let (start, desk, full) = (Model::start(), sid_work::with_sids(DESK_SIDS), full());
    let (shift, on_full) = (shift(&desk, REQUESTS), on_full_tables(&full, REQUESTS));
    let empty = vec![(0, vec![]); EMPTY];
    let mut all = vec![
        Work::new("empty chunk, start", &start, &empty),
        Work::new("empty chunk, full tables", &full, &empty),
        Work::new("whole requests, a shift", &desk, &shift),
        Work::new("whole requests, full tables", &full, &on_full),
        Work::new("one-byte chunks, a shift", &desk, &byte_by_byte(&shift[..IN_BYTES])),
        Work::new("one-byte chunks, full tables", &full, &byte_by_byte(&on_full[..IN_BYTES])),
    ];
    all.extend(sid_work::all());
    all.extend(condition_work::all());
    all
}

fn byte_by_byte(feeds: &[(u32, Vec<u8>)]) -> Feeds {
    let bytes = |(station, chunk): &(u32, Vec<u8>)| {
        let station = *station;
        chunk.clone().into_iter().map(move |byte| (station, vec![byte]))
    };
    feeds.iter().flat_map(bytes).collect()
}

/// Makes requests on the model and keeps their frames.
struct Recorder {
    model: Model,
    feeds: Feeds,
}

impl Recorder {
    /// A request of the station; gives the handle if it makes one.
    fn ask(&mut self, station: u32, request: Request) -> u32 {
        let frame = framed(&flat(&fields(&request)));
        let fed = self.model.feed(station, &frame, MIN_BUFFER);
        assert_eq!(fed.used, frame.len());
        self.feeds.push((station, frame));
        self.model.next_handle - 1
    }
}

/// Operators take over stations, look, adjust, act by copies and leave: so many requests.
fn shift(desk: &Model, requests: usize) -> Feeds {
    let mut rng = Rng::new(1);
    let mut recorder = Recorder { model: desk.clone(), feeds: vec![] };
    while recorder.feeds.len() < requests {
        let station = rng.below(STATIONS) as u32;
        operator(&mut rng, &mut recorder, station);
    }
    assert!(recorder.model.handles.iter().all(Option::is_none), "each operator closes all");
    recorder.feeds.truncate(requests);
    recorder.feeds
}

/// One operator at one station, from taking over to leaving.
fn operator(rng: &mut Rng, desk: &mut Recorder, station: u32) {
    let own = desk.ask(station, Request::Open { mask: Mask::ALL.0 });
    let user = FIRST_ENTERED + rng.below(OPERATORS as usize) as u32;
    let groups = (FIRST_GROUP..).zip(GROUPS);
    let made = desk.ask(
        station,
        Request::Create {
            user,
            session: 7,
            integrity: 8192,
            present: ALL_PRIVILEGES,
            default: NEEDED,
            groups: groups.collect(),
        },
    );
    desk.ask(station, Request::Install { handle: made });
    for _ in 0..2 {
        for class in [1, 2, 3, 9, 6, 13] {
            desk.ask(station, Request::Query { handle: made, class, capacity: CAPACITY });
        }
        desk.ask(station, Request::Privileges { handle: made, entries: vec![(20, 2), (21, 2)] });
        desk.ask(station, Request::Groups { handle: made, entries: vec![(3, 1), (4, 1)] });
        let dacl = (0..40).collect();
        let (owner, group) = (3, NO_CHANGE);
        desk.ask(station, Request::Default { handle: made, owner, group, flag: 1, dacl });
        desk.ask(station, Request::Scope { handle: made, value: rng.below(9) as u32 });
        let (kind, level) = (TokenType::Impersonation as u32, Level::Impersonation as u32);
        let mask = Mask::QUERY.0 | Mask::ADJUST_PRIVILEGES.0;
        let copy = desk.ask(station, Request::Duplicate { handle: made, kind, level, mask });
        desk.ask(station, Request::Query { handle: copy, class: 2, capacity: 16 });
        let (deny, sids) = (vec![3, 4], vec![FIRST_RESTRICTING, FIRST_RESTRICTING + 1]);
        let (write_restricted, remove) = (0, 1 << 20);
        let less = desk
            .ask(station, Request::Restrict { handle: made, write_restricted, remove, deny, sids });
        desk.ask(station, Request::Query { handle: less, class: 10, capacity: CAPACITY });
        for handle in [copy, less] {
            desk.ask(station, Request::Close { handle });
        }
    }
    desk.ask(station, Request::Install { handle: own });
    for handle in [made, own] {
        desk.ask(station, Request::Close { handle });
    }
}

/// Every slot taken, every list as long as it may be, bytes pending at every other station; groups
/// that request 6 may switch.
pub fn full() -> Model {
    let mut model = sid_work::with_sids(SIDS);
    let last = *model.sids.numbers().last().expect("a full table");
    let attributes = Group::ENABLED_BY_DEFAULT | Group::ENABLED | Group::OWNER;
    for (slot, number) in (0..TOKENS).zip(1..) {
        let groups = (0..MAX_GROUPS as u32).map(|sid| Group { sid: last - sid, attributes });
        model.tokens[slot] = Some(Token {
            groups: groups.collect(),
            restricting: (0..MAX_RESTRICTING as u32).map(|sid| last - sid).collect(),
            dacl: full_dacl(),
            ..Token { number, ..Token::first() }
        });
    }
    link_last(&mut model);
    for (slot, number) in (0..HANDLES).zip(1..) {
        let (station, token) = (number % STATIONS as u32, u64::from(number % TOKENS as u32) + 1);
        model.handles[slot] = Some(Handle { station, number, token, mask: Mask::ALL.0 });
    }
    for station in [1, 3, 5, 7] {
        let pending = &mut model.stations[station].pending;
        *pending = framed(&[1; MAX_BODY]);
        pending.pop();
    }
    (model.next_token, model.next_handle) = (TOKENS as u64 + 1, HANDLES as u32 + 1);
    model
}

/// Takes all places for pairs, by the last tokens.
fn link_last(model: &mut Model) {
    let (_, last) = model.tokens.split_at_mut(TOKENS - 2 * PAIRS);
    for ((tokens, place), session) in last.chunks_mut(2).zip(&mut model.pairs).zip(1..) {
        let mut link = |at: usize, elevation| {
            let token = tokens[at].as_mut().expect("every slot is taken");
            (token.session, token.elevation) = (session, elevation);
            token.number
        };
        let (elevated, filtered) = (link(0, Elevation::Full), link(1, Elevation::Limited));
        *place = Some(Pair { session, elevated, filtered });
    }
}

/// The longest DACL.
fn full_dacl() -> Vec<u8> {
    (0..MAX_DACL).map(|byte| byte as u8).collect()
}

/// Requests that leave the tables full: reports, adjustments, and what finds no slot.
fn on_full_tables(full: &Model, requests: usize) -> Feeds {
    let mut rng = Rng::new(2);
    let mut desk = Recorder { model: full.clone(), feeds: vec![] };
    for _ in 0..requests {
        let station = rng.pick(&[0, 2, 4, 6]);
        let others = STATIONS * rng.below(HANDLES / STATIONS);
        let handle = others as u32 + if station == 0 { STATIONS as u32 } else { station };
        let class = 1 + rng.below(LAST_CLASS as usize) as u32;
        let request = match rng.below(10) {
            0..=3 => Request::Query { handle, class, capacity: CAPACITY },
            4 => Request::Privileges { handle, entries: vec![(20, 0), (21, 2)] },
            5 => Request::Groups {
                handle,
                entries: (0..MAX_GROUPS as u32).map(|group| (group, 1)).collect(),
            },
            6 => Request::Scope { handle, value: 5 },
            7 => Request::Default {
                handle,
                owner: MAX_GROUPS as u16,
                group: 1,
                flag: 1,
                dacl: full_dacl().into_iter().rev().collect(),
            },
            8 => Request::Duplicate {
                handle,
                kind: TokenType::Primary as u32,
                level: Level::Anonymous as u32,
                mask: Mask::ALL.0,
            },
            _ => Request::Open { mask: Mask::QUERY.0 },
        };
        desk.ask(station, request);
    }
    desk.feeds
}
