//! Getting the linked token: the cases of request 17, and how often each got which status. What a case
//! gets is said here once more, after document 02 alone.

use std::collections::BTreeMap;
use std::fmt;

use model::{Elevation, Mask, Model, Request, Token, TokenType, TCB};
use Case::*;

use crate::broker::Step;

/// What is asked, by the state and the handle; a request may be of several cases.
#[derive(Clone, Copy, Debug, PartialEq, Eq, PartialOrd, Ord)]
enum Case {
    /// With Tcb, of the elevated token: the filtered one.
    FilteredItself,
    ElevatedItself,
    /// Without Tcb, of the elevated token: a clone of the filtered one.
    FilteredClone,
    ElevatedClone,
    /// The partner itself, though no token slot is free.
    ItselfNoTokenSlot,
    /// Tcb was not used before, and is by then.
    UsesTcb,
    /// Tcb was not used before, nor is it by then.
    LeavesTcb,
    /// In no pair: of Default elevation, Full or Limited, the same and for impersonation as a clone.
    NeverLinked,
    LinkedOnce,
    OfClone,
    /// In no pair, and no handle slot is free.
    UnlinkedFull,
    /// With Tcb, and no handle slot is free.
    ItselfFull,
    /// Without Tcb, and no handle slot is free, or no token slot.
    CloneNoHandleSlot,
    CloneNoTokenSlot,
    NoHandle,
    NoRight,
    /// The right is missing, and it is in no pair.
    NoRightUnlinked,
}

/// The status that each gets.
const EXPECTED: [(Case, u8); 17] = [
    (FilteredItself, 0),
    (ElevatedItself, 0),
    (FilteredClone, 0),
    (ElevatedClone, 0),
    (ItselfNoTokenSlot, 0),
    (UsesTcb, 0),
    (LeavesTcb, 0),
    (NeverLinked, 14),
    (LinkedOnce, 14),
    (OfClone, 14),
    (UnlinkedFull, 14),
    (ItselfFull, 8),
    (CloneNoHandleSlot, 8),
    (CloneNoTokenSlot, 8),
    (NoHandle, 2),
    (NoRight, 3),
    (NoRightUnlinked, 3),
];

/// The counts; printed as a list.
#[derive(Default)]
pub(crate) struct PartnerCounts(BTreeMap<(Case, u8), usize>);

impl PartnerCounts {
    /// Counts what a request 17 in its layout got.
    pub fn step(&mut self, step: &Step) {
        let Some((station, body)) = step.ended() else { return };
        let Some(Request::GetLinked { handle }) = Request::read(&body) else { return };
        let status = step.status().expect("an ended request has a status");
        for case in cases(step, station, handle) {
            *self.0.entry((case, status)).or_default() += 1;
        }
    }

    fn of(&self, case: Case, status: u8) -> usize {
        self.0.get(&(case, status)).copied().unwrap_or(0)
    }

    /// Each case got its status so often at least, and no other.
    pub fn check(&self, least: usize) {
        for (case, expected) in EXPECTED {
            let count = self.of(case, expected);
            assert!(count >= least, "{case:?}, status {expected}: {count}");
            for (&(_, status), count) in self.0.range((case, 0)..=(case, u8::MAX)) {
                assert_eq!(status, expected, "{case:?}: {count} times");
            }
        }
    }
}

/// The cases that the request is of.
fn cases(step: &Step, station: usize, handle: u32) -> Vec<Case> {
    let model = step.before;
    let mut handles = model.handles.iter().flatten();
    let live = handles.find(|live| live.number == handle && live.station as usize == station);
    let Some(live) = live else { return vec![NoHandle] };
    let token = model.token(live.token).expect("it lives");
    let mut pairs = model.pairs.iter().flatten();
    let pair = pairs.find(|pair| pair.elevated == token.number || pair.filtered == token.number);
    if live.mask & Mask::QUERY.0 == 0 {
        return vec![if pair.is_some() { NoRight } else { NoRightUnlinked }];
    }
    let no_handle_slot = model.handles.iter().all(Option::is_some);
    let Some(pair) = pair else {
        let full = no_handle_slot.then_some(UnlinkedFull);
        return [unlinked(token)].into_iter().chain(full).collect();
    };
    of_pair(step, station, pair.elevated == token.number, no_handle_slot)
}

fn unlinked(token: &Token) -> Case {
    match (token.elevation, token.kind) {
        (Elevation::Default, _) => NeverLinked,
        (_, TokenType::Primary) => LinkedOnce,
        (_, TokenType::Impersonation) => OfClone,
    }
}

/// The cases of a token in a pair, the elevated one or not.
fn of_pair(step: &Step, station: usize, is_elevated: bool, no_handle_slot: bool) -> Vec<Case> {
    let model = step.before;
    let no_token_slot = model.tokens.iter().all(Option::is_some);
    let own = model.primary(station);
    let held = own.privileges.enabled >> TCB & 1 == 1;
    let numbers_left = model.next_handle < u32::MAX && (held || model.next_token < u64::MAX);
    if !numbers_left {
        return vec![];
    }
    let mut cases = match (held, no_handle_slot, no_token_slot) {
        (true, true, _) => return vec![ItselfFull],
        (false, true, _) => return vec![CloneNoHandleSlot],
        (false, false, true) => return vec![CloneNoTokenSlot],
        (true, false, _) => vec![if is_elevated { FilteredItself } else { ElevatedItself }],
        (false, false, false) => vec![if is_elevated { FilteredClone } else { ElevatedClone }],
    };
    cases.extend(no_token_slot.then_some(ItselfNoTokenSlot));
    cases.extend(used(step.before, step.after, own.number, held));
    cases
}

/// Whether Tcb's used bit came exactly where Tcb was needed; told where it was not there before.
fn used(before: &Model, after: &Model, own: u64, held: bool) -> Option<Case> {
    let [was, is] = [before, after]
        .map(|model| model.token(own).expect("it lives").privileges.used >> TCB & 1 == 1);
    assert_eq!(is, was || held, "Tcb's used bit");
    (!was).then_some(if held { UsesTcb } else { LeavesTcb })
}

impl fmt::Display for PartnerCounts {
    fn fmt(&self, f: &mut fmt::Formatter) -> fmt::Result {
        write!(f, "partners   ")?;
        for (case, _) in EXPECTED {
            write!(f, "  {case:?}")?;
            for (&(_, status), count) in self.0.range((case, 0)..=(case, u8::MAX)) {
                write!(f, " {status}: {count}")?;
            }
        }
        Ok(())
    }
}
