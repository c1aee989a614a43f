//! Requests with SIDs: what 14 and 15 find in the table and enter, and numbers that 3 and 10 don't find
//! there; how often each case came, and its status. What a case gets is said here once more, after
//! document 02 alone.

use std::collections::BTreeMap;
use std::fmt;

use model::{Request, Sid, MAX_SUB_AUTHORITIES};
use Case::*;

use crate::broker::Step;
use crate::packed_layout::{flaw, Flaw, FLAWS};
use crate::sid_grounds::{asked_by_number, Asked};

/// Which number is not in the table.
#[derive(Clone, Copy, Debug, PartialEq, Eq, PartialOrd, Ord)]
pub(crate) enum Number {
    Below7,
    Below18,
    Below32,
    /// The one that the next SID would get.
    Next,
    Beyond,
}

const NUMBERS: [Number; 5] =
    [Number::Below7, Number::Below18, Number::Below32, Number::Next, Number::Beyond];

/// What is asked; a request may be of several cases.
#[derive(Clone, Copy, Debug, PartialEq, Eq, PartialOrd, Ord)]
pub(crate) enum Case {
    /// A packed SID is none; whether it is the request's first.
    Broken(Flaw, bool),
    /// The same, with a handle that is not live, or the privilege not held.
    BrokenToo,
    /// All SIDs are in the table; the same, and that is full.
    Old,
    FullOld,
    /// Some are new.
    New,
    /// A new one stands there twice.
    NewTwice,
    /// They fill the table.
    LastRoom,
    /// They fit, but would not if repeated ones counted.
    RepeatsFit,
    /// A new one differs from one in the table by a byte; by a zero sub-authority more or less.
    NearByte,
    NearZero,
    /// A new one or an old one has so many sub-authorities.
    NewLength(usize),
    OldLength(usize),
    /// More new ones than there is room for; by one; and the table was full.
    Over,
    OverByOne,
    FullNew,
    /// There is room for the new ones, but no slot or number.
    NoPlace,
    /// A field is bad, with new SIDs; with more than there is room for; with old ones alone.
    Bad,
    BadOver,
    BadOld,
    /// 14: a group has the user's SID, which is new.
    UserToo,
    /// 14: the same, and that alone is bad.
    UserTooBad,
    /// 14: CreateToken is not held, with new SIDs; with more than there is room for; with old ones alone.
    NotHeld,
    NotHeldOver,
    NotHeldOld,
    /// 15: no such handle, or without the right.
    NoHandle,
    NoRight,
    /// 15: no SIDs.
    NoneGiven,
    /// 15: an unrestricted source gets one new SID twice; more than 16.
    Repeated,
    Many,
    /// 15: a restricted source lacks a new one; the same, and more than 16 are given.
    Dropped,
    DroppedMany,
    /// 15: the same, and there is no room for what it lacks.
    DroppedOver,
    /// 15: a restricted source has none of them; the same, and there is no room.
    NoneLeft,
    NoneLeftOver,
    /// 15: write-restricted, of a restricted source without the mark.
    Mark,
    /// 3: the user's number or a group's is not in the table; 10: one of an unrestricted source's.
    Unknown(Number),
    /// 3: a group's alone.
    UnknownGroup,
    /// 3: the same as either, and CreateToken is not held.
    UnknownNotHeld,
    /// 3 and 10: the same, and there is no place.
    UnknownNoPlace,
    /// 10: the same, and there are more than 16.
    UnknownMany,
    /// 10: one that a restricted source lacks, and one that it has.
    UnknownDropped,
}

/// What 14 and 15 have in common, and the status.
const BOTH: [(Case, u8); 16] = [
    (BrokenToo, 1),
    (Old, 0),
    (FullOld, 0),
    (New, 0),
    (NewTwice, 0),
    (LastRoom, 0),
    (RepeatsFit, 0),
    (NearByte, 0),
    (NearZero, 0),
    (Over, 8),
    (OverByOne, 8),
    (FullNew, 8),
    (NoPlace, 8),
    (Bad, 5),
    (BadOver, 5),
    (BadOld, 5),
];

const OF_14: [(Case, u8); 5] =
    [(UserToo, 0), (UserTooBad, 5), (NotHeld, 4), (NotHeldOver, 4), (NotHeldOld, 4)];

const OF_15: [(Case, u8); 11] = [
    (NoHandle, 2),
    (NoRight, 3),
    (NoneGiven, 0),
    (Repeated, 0),
    (Many, 8),
    (Dropped, 0),
    (DroppedMany, 0),
    (DroppedOver, 8),
    (NoneLeft, 5),
    (NoneLeftOver, 5),
    (Mark, 5),
];

const OF_3: [(Case, u8); 3] = [(UnknownGroup, 5), (UnknownNotHeld, 4), (UnknownNoPlace, 5)];
const OF_10: [(Case, u8); 3] = [(UnknownNoPlace, 5), (UnknownMany, 5), (UnknownDropped, 5)];

/// Every case of each request, and its status.
fn expected() -> Vec<(u32, Case, u8)> {
    let lengths = (0..=MAX_SUB_AUTHORITIES).flat_map(|count| [NewLength(count), OldLength(count)]);
    let broken = FLAWS.into_iter().flat_map(|flaw| [Broken(flaw, true), Broken(flaw, false)]);
    let both: Vec<(Case, u8)> =
        lengths.map(|case| (case, 0)).chain(broken.map(|case| (case, 1))).chain(BOTH).collect();
    let unknown: Vec<(Case, u8)> = NUMBERS.map(|number| (Unknown(number), 5)).to_vec();
    let all = [
        (3, [&unknown[..], &OF_3].concat()),
        (10, [&unknown[..], &OF_10].concat()),
        (14, [&both[..], &OF_14].concat()),
        (15, [&both[..], &OF_15].concat()),
    ];
    all.into_iter()
        .flat_map(|(request, cases)| cases.into_iter().map(move |(case, s)| (request, case, s)))
        .collect()
}

/// The counts; printed as a list.
#[derive(Default)]
pub(crate) struct SidCounts(BTreeMap<(u32, Case, u8), usize>);

impl SidCounts {
    /// Counts what a request 3, 10, 14 or 15 got.
    pub fn step(&mut self, step: &Step) {
        let Some((station, body)) = step.ended() else { return };
        let status = step.status().expect("an ended request has a status");
        let (number, cases) = match Request::read(&body) {
            None => match (body[0], flaw(&body)) {
                (number @ (14 | 15), Some((flaw, is_first))) => {
                    let bad_too = Asked::is_refused_otherwise(step.before, station, &body);
                    let too = bad_too.then_some(BrokenToo);
                    let cases = [Broken(flaw, is_first)].into_iter().chain(too).collect();
                    (number.into(), cases)
                }
                _ => return,
            },
            Some(request) => match Asked::of(step.before, station, &request) {
                Some(asked) => (asked.number, asked.cases()),
                None => asked_by_number(step.before, station, &request),
            },
        };
        for case in cases {
            *self.0.entry((number, case, status)).or_default() += 1;
        }
    }

    fn of(&self, request: u32, case: Case, status: u8) -> usize {
        self.0.get(&(request, case, status)).copied().unwrap_or(0)
    }

    /// Each case got its status so often at least, and no other.
    pub fn check(&self, least: usize) {
        for (request, case, expected) in expected() {
            let count = self.of(request, case, expected);
            assert!(count >= least, "request {request}, {case:?}, status {expected}: {count}");
            for (&(_, _, status), count) in
                self.0.range((request, case, 0)..=(request, case, u8::MAX))
            {
                assert_eq!(status, expected, "request {request}, {case:?}: {count} times");
            }
        }
    }
}

impl fmt::Display for SidCounts {
    fn fmt(&self, f: &mut fmt::Formatter) -> fmt::Result {
        write!(f, "SIDs")?;
        for (request, case, status) in expected() {
            let count = self.of(request, case, status);
            write!(f, "\n{request:2}  {:22}  {status}: {count}", format!("{case:?}"))?;
        }
        Ok(())
    }
}

/// Whether they differ in one byte of one length.
pub(crate) fn differ_by_a_byte(one: Sid, other: Sid) -> bool {
    let (one, other) = (one.packed(), other.packed());
    let differing = one.iter().zip(&other).filter(|(one, other)| one != other).count();
    one.len() == other.len() && differing == 1
}

/// Whether one is the other with a zero sub-authority at its end.
pub(crate) fn differ_by_a_zero(one: Sid, other: Sid) -> bool {
    let is_longer = |one: Sid, other: Sid| {
        let shorter = [other.sub_authorities(), &[0]].concat();
        one.authority() == other.authority() && one.sub_authorities() == shorter
    };
    is_longer(one, other) || is_longer(other, one)
}
