//! Conditions: the cases of request 18, and how often each got which answer. What a case gets is said
//! here once more, after document 02 alone.

use std::collections::BTreeMap;
use std::fmt;

use model::{Condition, Handle, Mask, Model, Request, Token, MAX_BODY};
use Case::*;
use Condition::{AllOf, AnyOf, Negated};

use crate::broker::Step;
use crate::condition_layout::{number, Flaw, Walk, DEEPEST, FLAWS};
use crate::condition_leaves::{leaves_told, Leaf, LEAVES};
use crate::condition_meaning::{has_empty, is_met, unknown_ones, up_to_unknown};

/// The number of the request.
const EVALUATE: u64 = 18;

#[derive(Clone, Copy, Debug, PartialEq, Eq, PartialOrd, Ord)]
enum Kind {
    All,
    Any,
    Not,
    Enabled,
    InGroup,
}

const KINDS: [Kind; 5] = [Kind::All, Kind::Any, Kind::Not, Kind::Enabled, Kind::InGroup];

fn kind(condition: &Condition) -> Kind {
    match condition {
        AllOf(_) => Kind::All,
        AnyOf(_) => Kind::Any,
        Negated(_) => Kind::Not,
        Condition::Privilege(_) => Kind::Enabled,
        Condition::Group(_) => Kind::InGroup,
    }
}

/// Which condition of a list decides it, all others pointing the other way.
#[derive(Clone, Copy, Debug, PartialEq, Eq, PartialOrd, Ord)]
enum Place {
    First,
    Middle,
    Last,
}

const PLACES: [Place; 3] = [Place::First, Place::Middle, Place::Last];

/// What an unknown privilege is.
#[derive(Clone, Copy, Debug, PartialEq, Eq, PartialOrd, Ord)]
enum Unknown {
    /// Below the first.
    Below,
    /// One above the last.
    Next,
    /// Beyond the word's bits.
    Beyond,
}

const UNKNOWNS: [Unknown; 3] = [Unknown::Below, Unknown::Next, Unknown::Beyond];

/// What is asked, by the state and the body; a request may be of several cases.
#[derive(Clone, Copy, Debug, PartialEq, Eq, PartialOrd, Ord)]
enum Case {
    /// The outermost condition, and its meaning.
    Outermost(Kind, bool),
    /// So deep.
    Deep(usize, bool),
    /// An empty list stands eighth.
    EmptyEighth(bool),
    /// The outermost list is decided there alone.
    DecidedAt(Kind, Place),
    /// A leaf whose meaning the answer tells.
    Told(Leaf),
    /// As long as a body may be.
    FullBody(bool),
    /// No condition: with a handle that grants the right; with none; with one that doesn't.
    Flawed(Flaw),
    FlawedNoHandle,
    FlawedNoRight,
    /// With an unknown privilege before the flaw.
    FlawedUnknown,
    NoHandle,
    /// Another station's.
    OthersHandle,
    NoHandleUnknown,
    NoRight,
    NoRightUnknown,
    /// It alone is refused.
    Named(Unknown),
    /// It stands where one condition after the other, up to what decides, comes to it; or behind that.
    UnknownReached,
    UnknownBehind,
    /// It stands eighth.
    UnknownEighth,
}

/// What a request got: its answer or its status.
#[derive(Clone, Copy, Debug, PartialEq, Eq, PartialOrd, Ord)]
enum Outcome {
    Met(bool),
    Refused(u8),
}

/// The cases that are no table's rows, and the status that each gets.
const STATUSES: [(Case, u8); 11] = [
    (FlawedNoHandle, 1),
    (FlawedNoRight, 1),
    (FlawedUnknown, 1),
    (NoHandle, 2),
    (OthersHandle, 2),
    (NoHandleUnknown, 2),
    (NoRight, 3),
    (NoRightUnknown, 3),
    (UnknownReached, 5),
    (UnknownBehind, 5),
    (UnknownEighth, 5),
];

/// Every case and what it gets.
fn expected() -> Vec<(Case, Outcome)> {
    let both = [false, true];
    let mut cases: Vec<(Case, Outcome)> = Vec::new();
    for met in both {
        let kinds = KINDS.map(|kind| Outermost(kind, met)).into_iter();
        let depths = (1..=DEEPEST).map(|depth| Deep(depth, met));
        let all = kinds.chain(depths).chain([EmptyEighth(met), FullBody(met)]);
        cases.extend(all.map(|case| (case, Outcome::Met(met))));
    }
    for (kind, met) in [(Kind::All, false), (Kind::Any, true)] {
        cases.extend(PLACES.map(|place| (DecidedAt(kind, place), Outcome::Met(met))));
    }
    cases.extend(LEAVES.map(|(leaf, met)| (Told(leaf), Outcome::Met(met))));
    cases.extend(FLAWS.map(|flaw| (Flawed(flaw), Outcome::Refused(1))));
    cases.extend(UNKNOWNS.map(|unknown| (Named(unknown), Outcome::Refused(5))));
    cases.extend(STATUSES.map(|(case, status)| (case, Outcome::Refused(status))));
    cases
}

/// The counts; printed as a list.
#[derive(Default)]
pub(crate) struct ConditionCounts(BTreeMap<(Case, Outcome), usize>);

impl ConditionCounts {
    /// Counts what a request 18 got that has a handle's number.
    pub fn step(&mut self, step: &Step) {
        let Some((station, body)) = step.ended() else { return };
        let Some((handle, condition)) = asked(&body) else { return };
        let outcome = match (step.status(), &step.fed.answer[..]) {
            (Some(0), [2, 0, met @ (0 | 1)]) => Outcome::Met(*met == 1),
            (Some(status), [1, _]) => Outcome::Refused(status),
            _ => panic!("no answer of request 18: {:02X?}", step.fed.answer),
        };
        assert_eq!(without_streams(step.before), without_streams(step.after), "{:?}", step.call);
        let mut walk = Walk::new(condition);
        let flaw = walk.flaw();
        let whole = Request::read(&body);
        assert_eq!(whole.is_none(), flaw.is_some(), "{flaw:?}: {body:02X?}");
        let cases = match (flaw, whole) {
            (Some(flaw), _) => flawed(step.before, station, handle, flaw, walk.passed_unknown),
            (_, Some(Request::Evaluate { condition, .. })) => {
                whole_ones(step.before, station, handle, &condition, body.len())
            }
            _ => panic!("read as another request: {body:02X?}"),
        };
        for (case, told) in cases {
            let outcome = match outcome {
                Outcome::Met(met) => Outcome::Met(met == told),
                refused => refused,
            };
            *self.0.entry((case, outcome)).or_default() += 1;
        }
    }

    /// Each case got what it should so often at least, and nothing else.
    pub fn check(&self, least: usize) {
        for (case, expected) in expected() {
            let count = self.0.get(&(case, expected)).copied().unwrap_or(0);
            assert!(count >= least, "{case:?}, {expected:?}: {count}");
            for (outcome, count) in self.of(case) {
                assert_eq!(outcome, expected, "{case:?}: {count} times");
            }
        }
    }

    fn of(&self, case: Case) -> impl Iterator<Item = (Outcome, usize)> + '_ {
        let all = (case, Outcome::Met(false))..=(case, Outcome::Refused(u8::MAX));
        self.0.range(all).map(|(&(_, outcome), &count)| (outcome, count))
    }
}

/// The handle and the condition's bytes of a request 18.
fn asked(body: &[u8]) -> Option<(u64, &[u8])> {
    let mut rest = body;
    number(&mut rest).ok().filter(|&request| request == EVALUATE)?;
    let handle = number(&mut rest).ok()?;
    Some((handle, rest))
}

fn without_streams(model: &Model) -> Model {
    let mut model = model.clone();
    for station in &mut model.stations {
        (station.pending, station.broken) = (Vec::new(), false);
    }
    model
}

fn handle_of(model: &Model, handle: u64) -> Option<Handle> {
    let mut handles = model.handles.iter().flatten();
    handles.find(|live| u64::from(live.number) == handle).copied()
}

/// The refusal by 2 or 3 that the handle is for, if any.
fn not_granted(model: &Model, station: usize, handle: u64) -> Option<Case> {
    match handle_of(model, handle) {
        None => Some(NoHandle),
        Some(live) if live.station as usize != station => Some(OthersHandle),
        Some(live) => (live.mask & Mask::QUERY.0 == 0).then_some(NoRight),
    }
}

/// The cases, and for each which answer is to be told as met.
type Cases = Vec<(Case, bool)>;

fn refused(cases: impl IntoIterator<Item = Case>) -> Cases {
    cases.into_iter().map(|case| (case, true)).collect()
}

/// The cases of bytes that are no condition.
fn flawed(model: &Model, station: usize, handle: u64, flaw: Flaw, unknown: bool) -> Cases {
    let first = match not_granted(model, station, handle) {
        None => Flawed(flaw),
        Some(NoRight) => FlawedNoRight,
        Some(_) => FlawedNoHandle,
    };
    refused([first].into_iter().chain(unknown.then_some(FlawedUnknown)))
}

/// The cases of a whole condition.
fn whole_ones(
    model: &Model,
    station: usize,
    handle: u64,
    condition: &Condition,
    bytes: usize,
) -> Cases {
    let unknown = unknown_ones(condition, 1);
    if let Some(case) = not_granted(model, station, handle) {
        let too = if case == NoRight { NoRightUnknown } else { NoHandleUnknown };
        return refused([case].into_iter().chain((!unknown.is_empty()).then_some(too)));
    }
    let handle = handle_of(model, handle).expect("it is granted");
    let token = model.token(handle.token).expect("it lives");
    if !unknown.is_empty() {
        return refused(unknown_cases(condition, token, &unknown));
    }
    let met = is_met(condition, token);
    let mut cases = vec![Outermost(kind(condition), met), Deep(condition.depth(), met)];
    cases.extend(has_empty(condition, DEEPEST).then_some(EmptyEighth(met)));
    cases.extend((bytes == MAX_BODY).then_some(FullBody(met)));
    cases.extend(decided_at(condition, token));
    let told = leaves_told(condition, token, model.primary(station));
    let told = told.into_iter().map(|(leaf, as_met)| (Told(leaf), as_met));
    cases.into_iter().map(|case| (case, true)).chain(told).collect()
}

fn unknown_cases(condition: &Condition, token: &Token, unknown: &[(u32, usize)]) -> Vec<Case> {
    let reached =
        if up_to_unknown(condition, token).is_none() { UnknownReached } else { UnknownBehind };
    let eighth = unknown.iter().any(|&(_, depth)| depth == DEEPEST).then_some(UnknownEighth);
    let which = |&(privilege, _): &(u32, usize)| match privilege {
        0 | 1 => Some(Named(Unknown::Below)),
        37 => Some(Named(Unknown::Next)),
        64.. => Some(Named(Unknown::Beyond)),
        _ => None,
    };
    let which = if let [one] = unknown { which(one) } else { None };
    [reached].into_iter().chain(eighth).chain(which).collect()
}

/// The case of a list of several that one of them alone decides.
fn decided_at(condition: &Condition, token: &Token) -> Option<Case> {
    let (list, decides) = match condition {
        AllOf(list) => (list, false),
        AnyOf(list) => (list, true),
        _ => return None,
    };
    let deciding: Vec<usize> =
        (0..list.len()).filter(|&at| is_met(&list[at], token) == decides).collect();
    let [at] = deciding[..] else { return None };
    let place = match at {
        _ if list.len() < 2 => return None,
        0 => Place::First,
        _ if at + 1 == list.len() => Place::Last,
        _ => Place::Middle,
    };
    Some(DecidedAt(kind(condition), place))
}

impl fmt::Display for ConditionCounts {
    fn fmt(&self, f: &mut fmt::Formatter) -> fmt::Result {
        write!(f, "conditions ")?;
        for (case, _) in expected() {
            write!(f, "  {case:?}")?;
            for (outcome, count) in self.of(case) {
                write!(f, " {outcome:?}: {count}")?;
            }
        }
        Ok(())
    }
}
