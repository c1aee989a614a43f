//! The cases of request 10's restricting SIDs, and how often each got which status.

use std::collections::BTreeMap;
use std::fmt;

use model::{Model, Request, Token, ALL_PRIVILEGES, MAX_RESTRICTING};
use Case::*;

/// What is asked, by the source and the SIDs given; a request may be of several cases.
#[derive(Clone, Copy, Debug, PartialEq, Eq, PartialOrd, Ord)]
enum Case {
    /// A restricted source, with no SIDs.
    NoneGiven,
    /// All of its SIDs, in another order than its own.
    OtherOrder,
    /// Some of its SIDs, and not others.
    Fewer,
    /// Some of its SIDs, and such as it lacks.
    Foreign,
    /// One that it has twice.
    TwiceInSource,
    /// One that it has, twice.
    TwiceGiven,
    /// More than a list may have, and some of its SIDs among them.
    Many,
    /// None of its SIDs.
    NoneLeft,
    /// None of its SIDs, and more than a list may have.
    ManyNoneLeft,
    /// None of its SIDs, and no slot is free.
    NoneLeftAndFull,
    /// Write-restricted, of a restricted source with the mark and of its SIDs.
    MarkAgain,
    /// The same, with no SIDs.
    MarkAgainNoneGiven,
    /// Write-restricted, of a restricted source without the mark and of its SIDs.
    Mark,
    /// The same, with no SIDs.
    MarkNoneGiven,
    /// The same as either, and no slot is free.
    MarkAndFull,
    /// An unrestricted source, with SIDs.
    First,
    /// The same, as many as a list may have.
    FirstMost,
    /// The same, one of them twice.
    FirstTwice,
    /// The same, more than a list may have.
    FirstMany,
    /// An unrestricted source with the mark, with SIDs.
    FirstMarked,
    /// The same, and write-restricted again.
    FirstMarkAgain,
}

/// The status that each gets; instead of 0 also 8, when the slots or numbers run out.
const EXPECTED: [(Case, u8); 21] = [
    (NoneGiven, 0),
    (OtherOrder, 0),
    (Fewer, 0),
    (Foreign, 0),
    (TwiceInSource, 0),
    (TwiceGiven, 0),
    (Many, 0),
    (NoneLeft, 5),
    (ManyNoneLeft, 5),
    (NoneLeftAndFull, 5),
    (MarkAgain, 0),
    (MarkAgainNoneGiven, 0),
    (Mark, 5),
    (MarkNoneGiven, 5),
    (MarkAndFull, 5),
    (First, 0),
    (FirstMost, 0),
    (FirstTwice, 0),
    (FirstMany, 8),
    (FirstMarked, 0),
    (FirstMarkAgain, 0),
];

/// The counts; printed as a list.
#[derive(Default)]
pub(crate) struct RestrictionCounts(BTreeMap<(Case, u8), usize>);

impl RestrictionCounts {
    /// Counts what the station's request got, if it is a request 10 that is otherwise good.
    pub fn request(&mut self, model: &Model, station: usize, body: &[u8], status: u8) {
        let Some(Request::Restrict { handle, write_restricted, remove, deny, sids }) =
            Request::read(body)
        else {
            return;
        };
        let mut handles = model.handles.iter().flatten();
        let handle = handles.find(|live| live.number == handle && live.station as usize == station);
        let source = handle.and_then(|handle| model.token(handle.token));
        let (Some(source), 0 | 5 | 8) = (source, status) else { return };
        let is_out = deny.iter().any(|&index| index as usize >= source.groups.len());
        let is_unknown = sids.iter().any(|&sid| !model.sids.has(sid));
        if write_restricted > 1 || remove & !ALL_PRIVILEGES != 0 || has_twice(&deny) || is_out {
            return;
        }
        if is_unknown {
            return;
        }
        let is_full = model.tokens.iter().all(Option::is_some);
        let cases = if source.is_restricted() {
            again(source, write_restricted == 1, &sids, is_full)
        } else {
            first(source, write_restricted == 1, &sids)
        };
        for (case, _) in cases.into_iter().filter(|&(_, is_it)| is_it) {
            *self.0.entry((case, status)).or_default() += 1;
        }
    }

    fn of(&self, case: Case, status: u8) -> usize {
        self.0.get(&(case, status)).copied().unwrap_or(0)
    }

    /// Each case got its status so often at least, and no other.
    pub fn check(&self, least: usize) {
        for (case, expected) in EXPECTED {
            let count = self.of(case, expected);
            assert!(count >= least, "{case:?}, status {expected}: {count}");
            let others = [0, 5, 8].into_iter().filter(|&other| other != expected);
            for other in others.filter(|&other| (expected, other) != (0, 8)) {
                assert_eq!(self.of(case, other), 0, "{case:?} got status {other}");
            }
        }
    }
}

/// Whether an item stands there twice.
fn has_twice(items: &[u32]) -> bool {
    items.iter().enumerate().any(|(at, item)| items[..at].contains(item))
}

/// The cases of an unrestricted source.
fn first(source: &Token, mark: bool, given: &[u32]) -> Vec<(Case, bool)> {
    if given.is_empty() {
        return vec![];
    }
    let fits = given.len() <= MAX_RESTRICTING;
    vec![
        (First, fits),
        (FirstMost, given.len() == MAX_RESTRICTING),
        (FirstTwice, fits && has_twice(given)),
        (FirstMany, !fits),
        (FirstMarked, fits && source.write_restricted),
        (FirstMarkAgain, fits && source.write_restricted && mark),
    ]
}

/// The cases of a restricted source.
fn again(source: &Token, mark: bool, given: &[u32], is_full: bool) -> Vec<(Case, bool)> {
    let (is_bad_mark, is_mark_again) =
        (mark && !source.write_restricted, mark && source.write_restricted);
    if given.is_empty() {
        return vec![
            (NoneGiven, !is_bad_mark),
            (MarkNoneGiven, is_bad_mark),
            (MarkAndFull, is_bad_mark && is_full),
            (MarkAgainNoneGiven, is_mark_again),
        ];
    }
    let own = &source.restricting;
    let kept: Vec<u32> = own.iter().copied().filter(|sid| given.contains(sid)).collect();
    let found: Vec<u32> = given.iter().copied().filter(|sid| own.contains(sid)).collect();
    let (is_left, many) = (!kept.is_empty(), given.len() > MAX_RESTRICTING);
    let is_good = is_left && !is_bad_mark;
    vec![
        (OtherOrder, is_good && kept == *own && found != *own),
        (Fewer, is_good && kept.len() < own.len()),
        (Foreign, is_good && found.len() < given.len()),
        (TwiceInSource, is_good && has_twice(&kept)),
        (TwiceGiven, is_good && has_twice(&found)),
        (Many, is_good && many),
        (NoneLeft, !is_left),
        (ManyNoneLeft, !is_left && many),
        (NoneLeftAndFull, !is_left && is_full),
        (MarkAgain, is_left && is_mark_again),
        (Mark, is_left && is_bad_mark),
        (MarkAndFull, is_bad_mark && is_full),
    ]
}

impl fmt::Display for RestrictionCounts {
    fn fmt(&self, f: &mut fmt::Formatter) -> fmt::Result {
        write!(f, "restrictions")?;
        for (case, _) in EXPECTED {
            write!(f, "\n{:18}", format!("{case:?}"))?;
            for (&(_, status), count) in self.0.range((case, 0)..=(case, u8::MAX)) {
                write!(f, "  {status}: {count}")?;
            }
        }
        Ok(())
    }
}
