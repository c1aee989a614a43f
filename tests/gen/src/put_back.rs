//! Putting back what was: the successes of request 5 that a list may still put back, and the requests
//! that do it. What is claimed of them is said here after document 02, W13, alone.

use std::collections::{BTreeMap, BTreeSet};

use model::{
    framed, Handle, Mask, Model, Privileges, Reader, Request, Token, DISABLE, ENABLE, MIN_BUFFER,
};

use crate::broker::{status, Step};
use crate::call::Call;
use crate::fields::{fields, flat};
use crate::put_back_cases::{Between, Case};
use crate::rng::Rng;

/// A success of request 5 with enable and disable entries only.
pub(crate) struct Switch {
    pub station: usize,
    pub handle: u32,
    pub named: Vec<u32>,
    pub answer: Vec<u8>,
    pub before: Privileges,
    pub after: Privileges,
    /// Handles made since have this number or a higher one.
    pub next_handle: u32,
    pub between: BTreeSet<Between>,
}

/// What may be put back: of each token its last success of request 5, if that has enable and disable
/// entries only.
#[derive(Default)]
pub(crate) struct Switches(BTreeMap<u64, Switch>);

impl Switches {
    /// Takes note of what a call did.
    pub fn step(&mut self, step: &Step) {
        let Some((station, body)) = step.ended() else { return };
        let Some(request) = Request::read(&body) else { return };
        let is_success = step.status() == Some(0);
        match &request {
            Request::Privileges { handle, entries } if is_success => {
                self.adjusted(step, station, *handle, entries);
            }
            _ => {
                for (handle, between) in came_between(&request, is_success) {
                    let token = token_of(step.before, station, handle);
                    let switch = token.and_then(|token| self.0.get_mut(&token.number));
                    switch.into_iter().for_each(|switch| _ = switch.between.insert(between));
                }
            }
        }
    }

    /// A success of request 5: what was remembered of its token can be put back no more.
    fn adjusted(&mut self, step: &Step, station: usize, handle: u32, entries: &[(u32, u32)]) {
        let token = token_of(step.before, station, handle).expect("a success has a token");
        self.0.remove(&token.number);
        self.0.values_mut().for_each(|other| _ = other.between.insert(Between::OtherToken));
        if !entries.iter().all(|&(_, action)| action == ENABLE || action == DISABLE) {
            return;
        }
        let switch = Switch {
            station,
            handle,
            named: entries.iter().map(|&(privilege, _)| privilege).collect(),
            answer: step.fed.answer.clone(),
            before: token.privileges,
            after: step.after.token(token.number).expect("it stays").privileges,
            next_handle: step.after.next_handle,
            between: BTreeSet::new(),
        };
        self.0.insert(token.number, switch);
    }

    /// Requests that put back all that may be, each on one of the live handles that it can be made on.
    pub fn put_backs(&self, rng: &mut Rng, model: &Model) -> Vec<PutBack> {
        let put_back = |(&token, switch): (&u64, &Switch)| {
            let handle = rng.pick_any(&granting(model, token))?;
            Some(PutBack::new(rng, model, switch, handle))
        };
        self.0.iter().filter_map(put_back).collect()
    }
}

/// What a request may mean for putting back, by its handles. Of refused ones only request 5 counts.
fn came_between(request: &Request, is_success: bool) -> Vec<(u32, Between)> {
    match *request {
        Request::Privileges { handle, .. } => vec![(handle, Between::Refused)],
        _ if !is_success => vec![],
        Request::Groups { handle, .. } => vec![(handle, Between::Groups)],
        Request::Scope { handle, .. } => vec![(handle, Between::Scope)],
        Request::Default { handle, .. } => vec![(handle, Between::Default)],
        Request::Duplicate { handle, .. }
        | Request::Restrict { handle, .. }
        | Request::RestrictPacked { handle, .. } => {
            vec![(handle, Between::Copied)]
        }
        Request::Install { handle } => vec![(handle, Between::Installed)],
        Request::Impersonate { handle } => vec![(handle, Between::ActedFor)],
        Request::Link { elevated, filtered, .. } => {
            vec![(elevated, Between::Linked), (filtered, Between::Linked)]
        }
        _ => vec![],
    }
}

/// The token of the station's live handle.
fn token_of(model: &Model, station: usize, handle: u32) -> Option<&Token> {
    let mut handles = model.handles.iter().flatten();
    let live = handles.find(|live| live.number == handle && live.station as usize == station)?;
    model.token(live.token)
}

/// The live handles on the token that grant request 5, of all stations.
fn granting(model: &Model, token: u64) -> Vec<Handle> {
    let grants = |handle: &Handle| {
        handle.token == token && Mask::ADJUST_PRIVILEGES.within(Mask(handle.mask))
    };
    model.handles.iter().flatten().copied().filter(grants).collect()
}

/// The entries that are made from the answer's bytes: one for each privilege that the request named.
fn entries(named: &[u32], answer: &[u8]) -> Vec<(u32, u32)> {
    // Length and status have a byte each.
    let mut report = Reader::new(&answer[2..]);
    let _present = report.u64().expect("the present word");
    let enabled = report.u64().expect("the enabled word");
    let was_enabled = |privilege: u32| enabled >> privilege & 1 == 1;
    let entry = |&privilege| (privilege, if was_enabled(privilege) { ENABLE } else { DISABLE });
    named.iter().map(entry).collect()
}

/// A request that puts back what was.
#[derive(Debug)]
pub struct PutBack {
    token: u64,
    /// The token's words before the request that is put back.
    before: Privileges,
    /// The calls that serve it in the state that it was drawn for.
    pub calls: Vec<Call>,
    pub(crate) cases: Vec<Case>,
}

impl PutBack {
    /// The entries may stand in any order.
    fn new(rng: &mut Rng, model: &Model, switch: &Switch, handle: Handle) -> Self {
        let entries = rng.shuffled(&entries(&switch.named, &switch.answer));
        let request = Request::Privileges { handle: handle.number, entries };
        let frame = framed(&flat(&fields(&request)));
        PutBack {
            token: handle.token,
            before: switch.before,
            calls: calls(rng, model, handle.station, &frame),
            cases: Case::all_of(model, switch, handle),
        }
    }

    /// The claim: it succeeds, and all privilege words but used are those before.
    pub fn check(&self, answer: &[u8], after: &Model) {
        assert_eq!(status(answer), Some(0), "{self:02X?}");
        let words = after.token(self.token).expect("it lives").privileges;
        assert_eq!(Privileges { used: self.before.used, ..words }, self.before, "{self:02X?}");
    }
}

/// The frame in one chunk or two, after what its station has begun is dropped.
fn calls(rng: &mut Rng, model: &Model, station: u32, frame: &[u8]) -> Vec<Call> {
    let stream = &model.stations[station as usize];
    let is_fresh = stream.pending.is_empty() && !stream.broken;
    let cut = if rng.percent(30) { rng.below(frame.len()) } else { 0 };
    let feed = |chunk: &[u8]| Call::Feed { station, chunk: chunk.to_vec(), buffer_len: MIN_BUFFER };
    let reconnect = (!is_fresh).then_some(Call::Reconnect { station });
    let chunks = [&frame[..cut], &frame[cut..]].into_iter().filter(|chunk| !chunk.is_empty());
    reconnect.into_iter().chain(chunks.map(feed)).collect()
}
