//! Linking: what request 16 reads of its tokens, how often each case came, and its status. What a case
//! gets is said here once more, after document 02 alone.

use std::collections::BTreeMap;
use std::fmt;

use model::{Elevation, Handle, Mask, Model, Pair, Request, Token, TokenType, PAIRS, TCB};
use Case::*;

use crate::broker::Step;

/// Why two tokens can't be a pair of a session.
#[derive(Clone, Copy, Debug, PartialEq, Eq, PartialOrd, Ord)]
pub(crate) enum Ground {
    ElevatedType,
    FilteredType,
    ElevatedSession,
    FilteredSession,
    User,
    SameToken,
    /// The elevated one is Limited.
    WasLimited,
    /// The filtered one is Full.
    WasFull,
}

const GROUNDS: [Ground; 8] = [
    Ground::ElevatedType,
    Ground::FilteredType,
    Ground::ElevatedSession,
    Ground::FilteredSession,
    Ground::User,
    Ground::SameToken,
    Ground::WasLimited,
    Ground::WasFull,
];

/// All grounds against the pair.
pub(crate) fn grounds(elevated: &Token, filtered: &Token, session: u64) -> Vec<Ground> {
    let applies = |ground: &Ground| match ground {
        Ground::ElevatedType => elevated.kind == TokenType::Impersonation,
        Ground::FilteredType => filtered.kind == TokenType::Impersonation,
        Ground::ElevatedSession => elevated.session != session,
        Ground::FilteredSession => filtered.session != session,
        Ground::User => elevated.user != filtered.user,
        Ground::SameToken => elevated.number == filtered.number,
        Ground::WasLimited => elevated.elevation == Elevation::Limited,
        Ground::WasFull => filtered.elevation == Elevation::Full,
    };
    GROUNDS.into_iter().filter(applies).collect()
}

/// What a token was before it was linked.
#[derive(Clone, Copy, Debug, PartialEq, Eq, PartialOrd, Ord)]
pub(crate) enum Was {
    Default,
    /// In the session's pair, in the same part.
    Paired,
    /// In that part once, or given so, and in no pair.
    Outside,
}

/// What is asked, by the state and the request; a request may be of several cases.
#[derive(Clone, Copy, Debug, PartialEq, Eq, PartialOrd, Ord)]
enum Case {
    /// A session without a pair.
    First,
    /// The session's pair again.
    Again,
    /// Its elevated token with another filtered one.
    OtherFiltered,
    OtherElevated,
    /// Two others.
    BothOther,
    /// All places are taken, one of them by the session.
    InFullPlaces,
    Elevated(Was),
    Filtered(Was),
    /// The station's own token is one of them.
    Own,
    /// The old pair's elevated token went with its last reference.
    FreedElevated,
    FreedFiltered,
    FreedBoth,
    /// The old pair's token that is in the new one no more stays.
    Kept,
    /// Tcb was not used before.
    UsesTcb,
    /// Not a live handle of the station: the first, the second, both.
    NoElevated,
    NoFiltered,
    NoneOfBoth,
    /// One is not live, and the other lacks the right.
    NoneAndRight,
    /// The right is missing on the first, the second, both.
    RightElevated,
    RightFiltered,
    RightBoth,
    /// The right is missing, and Tcb is not held.
    RightAndHeld,
    NotHeld,
    /// Tcb is not held, and they can't be a pair.
    NotHeldNoPair,
    /// They can't be a pair for this alone.
    Bad(Ground),
    /// They can't be a pair, and there is no place.
    BadAndFifth,
    /// No place.
    Fifth,
}

/// The cases that are no field's own, and the status that each gets.
const STATUSES: [(Case, u8); 23] = [
    (First, 0),
    (Again, 0),
    (OtherFiltered, 0),
    (OtherElevated, 0),
    (BothOther, 0),
    (InFullPlaces, 0),
    (Own, 0),
    (FreedElevated, 0),
    (FreedFiltered, 0),
    (FreedBoth, 0),
    (Kept, 0),
    (UsesTcb, 0),
    (NoElevated, 2),
    (NoFiltered, 2),
    (NoneOfBoth, 2),
    (NoneAndRight, 2),
    (RightElevated, 3),
    (RightFiltered, 3),
    (RightBoth, 3),
    (RightAndHeld, 3),
    (NotHeld, 4),
    (NotHeldNoPair, 4),
    (BadAndFifth, 5),
];

/// Every case and its status.
fn expected() -> impl Iterator<Item = (Case, u8)> {
    let parts = [Was::Default, Was::Paired, Was::Outside].into_iter();
    let parts = parts.flat_map(|was| [(Elevated(was), 0), (Filtered(was), 0)]);
    let grounds = GROUNDS.into_iter().map(|ground| (Bad(ground), 5));
    STATUSES.into_iter().chain(parts).chain(grounds).chain([(Fifth, 8)])
}

/// The counts; printed as a list.
#[derive(Default)]
pub(crate) struct LinkCounts(BTreeMap<(Case, u8), usize>);

impl LinkCounts {
    /// Counts what a request 16 in its layout got.
    pub fn step(&mut self, step: &Step) {
        let Some((station, body)) = step.ended() else { return };
        let Some(Request::Link { elevated, filtered, session }) = Request::read(&body) else {
            return;
        };
        let status = step.status().expect("an ended request has a status");
        let cases = refused(step.before, station, [elevated, filtered], session)
            .unwrap_or_else(|| linked(step, station, [elevated, filtered], session));
        for case in cases {
            *self.0.entry((case, status)).or_default() += 1;
        }
    }

    fn of(&self, case: Case, status: u8) -> usize {
        self.0.get(&(case, status)).copied().unwrap_or(0)
    }

    /// Each case got its status so often at least, and no other.
    pub fn check(&self, least: usize) {
        for (case, expected) in expected() {
            let count = self.of(case, expected);
            assert!(count >= least, "{case:?}, status {expected}: {count}");
            for (&(_, status), count) in self.0.range((case, 0)..=(case, u8::MAX)) {
                assert_eq!(status, expected, "{case:?}: {count} times");
            }
        }
    }
}

fn handle_of(model: &Model, station: usize, number: u32) -> Option<&Handle> {
    let mut handles = model.handles.iter().flatten();
    handles.find(|live| live.number == number && live.station as usize == station)
}

/// The cases that 2 and 3 refuse.
fn not_granted(live: [Option<&Handle>; 2], held: bool) -> Option<Vec<Case>> {
    let lacks =
        live.map(|handle| handle.is_some_and(|handle| handle.mask & Mask::DUPLICATE.0 == 0));
    let first = match (live.map(|handle| handle.is_some()), lacks) {
        ([false, true], _) => NoElevated,
        ([true, false], _) => NoFiltered,
        ([false, false], _) => NoneOfBoth,
        (_, [true, false]) => RightElevated,
        (_, [false, true]) => RightFiltered,
        (_, [true, true]) => RightBoth,
        (_, [false, false]) => return None,
    };
    let too = match first {
        NoElevated | NoFiltered => lacks.contains(&true).then_some(NoneAndRight),
        NoneOfBoth => None,
        _ => (!held).then_some(RightAndHeld),
    };
    Some([first].into_iter().chain(too).collect())
}

/// The refused cases that the request is of; `None` if it is good.
fn refused(model: &Model, station: usize, handles: [u32; 2], session: u64) -> Option<Vec<Case>> {
    let live = handles.map(|number| handle_of(model, station, number));
    let held = model.primary(station).privileges.enabled >> TCB & 1 == 1;
    let cases = not_granted(live, held);
    let ([Some(elevated), Some(filtered)], None) = (live, &cases) else { return cases };
    let [elevated, filtered] =
        [elevated, filtered].map(|handle| model.token(handle.token).expect("it lives"));
    let grounds = grounds(elevated, filtered, session);
    if !held {
        let bad = (!grounds.is_empty()).then_some(NotHeldNoPair);
        return Some([NotHeld].into_iter().chain(bad).collect());
    }
    no_pair(model, &grounds, session)
}

/// What is refused of tokens with these grounds against them, by 5 or by 8.
fn no_pair(model: &Model, grounds: &[Ground], session: u64) -> Option<Vec<Case>> {
    let sessions: Vec<u64> = model.pairs.iter().flatten().map(|pair| pair.session).collect();
    let is_fifth = sessions.len() == PAIRS && !sessions.contains(&session);
    match (grounds, is_fifth) {
        ([], false) => None,
        ([], true) => Some(vec![Fifth]),
        (_, true) => Some(vec![BadAndFifth]),
        ([ground], false) => Some(vec![Bad(*ground)]),
        _ => Some(vec![]),
    }
}

/// The cases of a success.
fn linked(step: &Step, station: usize, handles: [u32; 2], session: u64) -> Vec<Case> {
    let (before, after) = (step.before, step.after);
    let tokens = handles.map(|number| handle_of(before, station, number).expect("good").token);
    let old = before.pairs.iter().flatten().find(|pair| pair.session == session);
    let mut cases = match old.map(|pair| [pair.elevated == tokens[0], pair.filtered == tokens[1]]) {
        None => vec![First],
        Some([true, true]) => vec![Again],
        Some([true, false]) => vec![OtherFiltered],
        Some([false, true]) => vec![OtherElevated],
        Some([false, false]) => vec![BothOther],
    };
    let [elevated, filtered] = tokens.map(|token| was(before, token));
    let own = before.primary(station);
    let is_full = old.is_some() && before.pairs.iter().all(Option::is_some);
    cases.extend([Elevated(elevated), Filtered(filtered)]);
    cases.extend(is_full.then_some(InFullPlaces));
    cases.extend(tokens.contains(&own.number).then_some(Own));
    cases.extend((own.privileges.used >> TCB & 1 == 0).then_some(UsesTcb));
    cases.extend(old.map(|pair| gone(after, pair, tokens)).unwrap_or_default());
    cases
}

/// What became of the old pair's tokens.
fn gone(after: &Model, old: &Pair, new: [u64; 2]) -> Vec<Case> {
    let is_gone = old.tokens().map(|token| after.token(token).is_none());
    let kept =
        old.tokens().iter().any(|token| !new.contains(token) && after.token(*token).is_some());
    let freed = match is_gone {
        [true, false] => Some(FreedElevated),
        [false, true] => Some(FreedFiltered),
        [true, true] => Some(FreedBoth),
        [false, false] => None,
    };
    freed.into_iter().chain(kept.then_some(Kept)).collect()
}

fn was(model: &Model, number: u64) -> Was {
    let token = model.token(number).expect("it lives");
    let is_paired = model.pairs.iter().flatten().any(|pair| pair.tokens().contains(&number));
    match (token.elevation, is_paired) {
        (_, true) => Was::Paired,
        (Elevation::Default, false) => Was::Default,
        _ => Was::Outside,
    }
}

impl fmt::Display for LinkCounts {
    fn fmt(&self, f: &mut fmt::Formatter) -> fmt::Result {
        write!(f, "links      ")?;
        for (case, _) in expected() {
            write!(f, "  {case:?}")?;
            for (&(_, status), count) in self.0.range((case, 0)..=(case, u8::MAX)) {
                write!(f, " {status}: {count}")?;
            }
        }
        Ok(())
    }
}
