//! What is for and against a request with SIDs, found after documents 01 and 02 alone.

use model::{
    Handle, Mask, Model, Reader, Request, Sid, Token, ALL_PRIVILEGES, CREATE_TOKEN,
    INTEGRITY_LEVELS, MAX_GROUPS, MAX_RESTRICTING, SIDS,
};

use crate::sid_cases::{differ_by_a_byte, differ_by_a_zero, Case, Case::*, Number};

/// What a request 14 or 15 asks for.
pub(crate) struct Asked<'a> {
    pub number: u32,
    model: &'a Model,
    given: Vec<Sid>,
    /// The different new ones.
    new: Vec<Sid>,
    /// How often new ones stand there.
    times: usize,
    room: usize,
    /// Against it, before the SIDs' room is asked for.
    against: Vec<Case>,
    /// What else it is if nothing is against it; with too little room.
    otherwise: Vec<Case>,
    otherwise_over: Vec<Case>,
}

impl<'a> Asked<'a> {
    /// What a request 14 or 15 asks for.
    pub fn of(model: &'a Model, station: usize, request: &Request) -> Option<Self> {
        match request {
            Request::CreatePacked { user, groups, .. } => {
                let given = [*user].into_iter().chain(groups.iter().map(|&(sid, _)| sid));
                let mut asked = Asked::new(14, model, given.collect());
                asked.create(station, request);
                Some(asked)
            }
            Request::RestrictPacked { sids, .. } => {
                let mut asked = Asked::new(15, model, sids.clone());
                asked.restrict(station, request);
                Some(asked)
            }
            _ => None,
        }
    }

    fn new(number: u32, model: &'a Model, given: Vec<Sid>) -> Self {
        let is_new = |sid: &&Sid| !model.sids.sids().contains(sid);
        let all: Vec<Sid> = given.iter().filter(is_new).copied().collect();
        let mut new = all.clone();
        new.sort_unstable();
        new.dedup();
        let room = SIDS - model.sids.sids().len();
        let (against, otherwise, otherwise_over) = (vec![], vec![], vec![]);
        let times = all.len();
        Asked { number, model, given, new, times, room, against, otherwise, otherwise_over }
    }

    /// Whether a body with a flaw would also be refused by 2 or 4.
    pub fn is_refused_otherwise(model: &Model, station: usize, body: &[u8]) -> bool {
        let mut reader = Reader::new(body);
        match (reader.u32(), reader.u32()) {
            (Some(14), _) => !is_held(model, station),
            (_, Some(handle)) => handle_of(model, station, handle).is_none(),
            _ => false,
        }
    }

    fn is_over(&self) -> bool {
        self.new.len() > self.room
    }

    fn create(&mut self, station: usize, request: &Request) {
        let Request::CreatePacked { user, integrity, present, default, groups, .. } = request
        else {
            return;
        };
        let has_new = !self.new.is_empty();
        let is_over = self.is_over();
        let is_user_new = self.new.contains(user);
        let is_user_too = is_user_new && groups.iter().any(|(sid, _)| sid == user);
        let other_bad = !INTEGRITY_LEVELS.contains(integrity)
            || default & !present != 0
            || present & !ALL_PRIVILEGES != 0
            || groups.len() > MAX_GROUPS
            || groups.iter().any(|&(_, attributes)| is_bad_group(attributes, false));
        let is_bad = groups.iter().any(|&(sid, with)| is_bad_group(with, sid == *user));
        self.otherwise = if is_user_too { vec![UserToo] } else { vec![] };
        self.against = match (is_held(self.model, station), other_bad, is_bad) {
            (false, ..) if is_over => vec![NotHeldOver],
            (false, ..) if has_new => vec![NotHeld],
            (false, ..) => vec![NotHeldOld],
            (_, false, true) if is_user_new && !is_over => vec![UserTooBad, Bad],
            (_, true, _) | (_, _, true) => vec![bad(has_new, is_over)],
            _ => vec![],
        };
    }

    fn restrict(&mut self, station: usize, request: &Request) {
        let Request::RestrictPacked { handle, write_restricted, remove, deny, sids } = request
        else {
            return;
        };
        let (has_new, is_over) = (!self.new.is_empty(), self.is_over());
        let Some(handle) = handle_of(self.model, station, *handle) else {
            self.against = vec![NoHandle];
            return;
        };
        if handle.mask & Mask::DUPLICATE.0 == 0 {
            self.against = vec![NoRight];
            return;
        }
        let source = self.model.token(handle.token).expect("it lives");
        let own = own_sids(self.model, source);
        let is_mark = *write_restricted == 1 && !own.is_empty() && !source.write_restricted;
        let is_bad = *write_restricted > 1
            || remove & !ALL_PRIVILEGES != 0
            || deny.iter().any(|&index| index as usize >= source.groups.len())
            || deny.iter().enumerate().any(|(at, index)| deny[..at].contains(index));
        let is_left = sids.is_empty() || own.iter().any(|sid| sids.contains(sid));
        let (is_many, repeats) = (sids.len() > MAX_RESTRICTING, self.times > self.new.len());
        self.against = match own.is_empty() {
            _ if is_bad => vec![bad(has_new, is_over)],
            _ if is_mark => vec![Mark],
            false if !is_left && is_over => vec![NoneLeftOver],
            false if !is_left => vec![NoneLeft],
            true if is_many => vec![Many],
            _ => vec![],
        };
        let drops = !own.is_empty() && has_new;
        let otherwise = [
            (NoneGiven, sids.is_empty()),
            (Repeated, own.is_empty() && repeats),
            (Dropped, drops),
            (DroppedMany, drops && is_many),
        ];
        self.otherwise = those(&otherwise);
        self.otherwise_over = those(&[(DroppedOver, drops)]);
    }

    /// The cases that it is of.
    pub fn cases(&self) -> Vec<Case> {
        if !self.against.is_empty() {
            return self.against.clone();
        }
        if self.is_over() {
            let over = [
                (Over, self.room > 0),
                (OverByOne, self.new.len() == self.room + 1),
                (FullNew, self.room == 0),
            ];
            return [those(&over), self.otherwise_over.clone()].concat();
        }
        if has_no_place(self.model) {
            return those(&[(NoPlace, !self.new.is_empty())]);
        }
        [self.found(), self.lengths(), self.otherwise.clone()].concat()
    }

    /// What the SIDs are to a table with room for them.
    fn found(&self) -> Vec<Case> {
        let (new, count) = (!self.new.is_empty(), self.new.len());
        let near = |differ: fn(Sid, Sid) -> bool| {
            let old = self.model.sids.sids();
            self.new.iter().any(|&sid| old.iter().any(|&other| differ(sid, other)))
        };
        let is_old = !new && !self.given.is_empty();
        those(&[
            (Old, is_old),
            (FullOld, is_old && self.room == 0),
            (New, new),
            (NewTwice, self.times > count),
            (LastRoom, new && count == self.room),
            (RepeatsFit, self.times > self.room && new),
            (NearByte, near(differ_by_a_byte)),
            (NearZero, near(differ_by_a_zero)),
        ])
    }

    fn lengths(&self) -> Vec<Case> {
        let length = |sid: &Sid| match (self.new.contains(sid), sid.sub_authorities().len()) {
            (true, count) => NewLength(count),
            (false, count) => OldLength(count),
        };
        let mut lengths: Vec<Case> = self.given.iter().map(length).collect();
        lengths.sort_unstable();
        lengths.dedup();
        lengths
    }
}

/// The cases of a request 3 or 10 with a number that is not in the table.
pub(crate) fn asked_by_number(
    model: &Model,
    station: usize,
    request: &Request,
) -> (u32, Vec<Case>) {
    match request {
        Request::Create { user, groups, .. } => {
            let numbers = [*user].into_iter().chain(groups.iter().map(|&(sid, _)| sid));
            let unknown: Vec<u32> = numbers.filter(|&sid| !model.sids.has(sid)).collect();
            let Some(&first) = unknown.first() else { return (3, vec![]) };
            if !is_held(model, station) {
                return (3, vec![UnknownNotHeld]);
            }
            let cases = [
                (Unknown(kind(model, first)), true),
                (UnknownGroup, model.sids.has(*user)),
                (UnknownNoPlace, has_no_place(model)),
            ];
            (3, those(&cases))
        }
        Request::Restrict { handle, sids, .. } => {
            let live = handle_of(model, station, *handle);
            let Some(handle) = live.filter(|live| live.mask & Mask::DUPLICATE.0 != 0) else {
                return (10, vec![]);
            };
            let unknown = sids.iter().find(|&&sid| !model.sids.has(sid));
            let Some(&first) = unknown else { return (10, vec![]) };
            let own = &model.token(handle.token).expect("it lives").restricting;
            let cases = [
                (Unknown(kind(model, first)), own.is_empty()),
                (UnknownNoPlace, has_no_place(model)),
                (UnknownMany, own.is_empty() && sids.len() > MAX_RESTRICTING),
                (UnknownDropped, own.iter().any(|sid| sids.contains(sid))),
            ];
            (10, those(&cases))
        }
        _ => (0, vec![]),
    }
}

fn kind(model: &Model, number: u32) -> Number {
    let next = 30 + model.sids.sids().len() as u32;
    match number {
        0..=6 => Number::Below7,
        7..=17 => Number::Below18,
        18..=31 => Number::Below32,
        _ if number == next => Number::Next,
        _ => Number::Beyond,
    }
}

fn those(cases: &[(Case, bool)]) -> Vec<Case> {
    cases.iter().filter(|&&(_, is_it)| is_it).map(|&(case, _)| case).collect()
}

fn bad(has_new: bool, is_over: bool) -> Case {
    match (has_new, is_over) {
        (_, true) => BadOver,
        (true, _) => Bad,
        _ => BadOld,
    }
}

fn is_held(model: &Model, station: usize) -> bool {
    model.primary(station).privileges.enabled >> CREATE_TOKEN & 1 == 1
}

fn handle_of(model: &Model, station: usize, number: u32) -> Option<&Handle> {
    let mut handles = model.handles.iter().flatten();
    handles.find(|live| live.number == number && live.station as usize == station)
}

fn own_sids(model: &Model, source: &Token) -> Vec<Sid> {
    source.restricting.iter().filter_map(|&number| model.sids.sid(number)).collect()
}

/// Whether no slot or no number is left for a token and its handle.
fn has_no_place(model: &Model) -> bool {
    model.tokens.iter().all(Option::is_some)
        || model.handles.iter().all(Option::is_some)
        || model.next_token == u64::MAX
        || model.next_handle == u32::MAX
}

/// Whether a new group may not have these attributes, with the user's SID or another.
fn is_bad_group(attributes: u32, is_user: bool) -> bool {
    let [mandatory, by_default, deny_only] =
        [1, 2, 0x10].map(|attribute| attributes & attribute != 0);
    let logon = attributes >> 30;
    attributes & !0xC000_001B != 0
        || matches!(logon, 1 | 2)
        || (by_default && deny_only)
        || (!by_default && (mandatory || logon != 0 || is_user))
}
