//! Requests that make sense in a state, with a bad value now and then.

use model::{
    number_length, Handle, Level, Mask, Model, Privileges, Reader, Refusal, Request, Token,
    TokenType, ALL_PRIVILEGES, ASSIGN_PRIMARY, CREATE_TOKEN, DISABLE, ENABLE, FIRST_PRIVILEGE,
    HANDLES, IMPERSONATE, INTEGRITY_LEVELS, LAST_CLASS, LAST_PRIVILEGE, LAST_REQUEST, MAX_DACL,
    MAX_GROUPS, MAX_RESTRICTING, NO_CHANGE, REMOVE, RESET_GROUPS, RESET_PRIVILEGES, SIDS, TCB,
    TOKENS,
};

use crate::condition_wishes::Draw;
use crate::damage::{is_client, is_paired};
use crate::fields::{fields, flat};
use crate::groups::{kind, Kind};
use crate::rng::Rng;
use crate::roots::STATISTICS;

/// What a request is drawn from.
pub(crate) struct Wish<'a> {
    pub rng: &'a mut Rng,
    pub model: &'a Model,
    pub station: usize,
}

/// The privileges that requests are refused without.
const NEEDED_ONES: [u32; 3] = [CREATE_TOKEN, ASSIGN_PRIMARY, TCB];
/// Their bits.
pub const NEEDED: u64 = 1 << CREATE_TOKEN | 1 << ASSIGN_PRIMARY | 1 << TCB;

/// The size of the longest report: all groups there may be, of the highest SIDs and attributes.
const LONGEST_REPORT: u32 = (number_length(MAX_GROUPS as u64)
    + MAX_GROUPS * (number_length(SIDS as u64) + number_length(u32::MAX as u64)))
    as u32;

/// The right that each request needs on its handle.
const RIGHTS: [Mask; LAST_REQUEST as usize + 1] = [
    Mask(0),
    Mask(0),
    Mask(0),
    Mask(0),
    Mask::QUERY,
    Mask::ADJUST_PRIVILEGES,
    Mask::ADJUST_GROUPS,
    Mask::ADJUST_SCOPE,
    Mask::ADJUST_DEFAULT,
    Mask::DUPLICATE,
    Mask::DUPLICATE,
    Mask::ASSIGN_PRIMARY,
    Mask::IMPERSONATE,
    Mask(0),
    Mask(0),
    Mask::DUPLICATE,
    Mask::DUPLICATE,
    Mask::QUERY,
    Mask::QUERY,
];

impl Wish<'_> {
    /// A request of the kind that the state lets choose.
    pub fn request(&mut self) -> Request {
        let kind = self.kind();
        self.request_of(kind)
    }

    /// A request of this number.
    pub fn request_of(&mut self, kind: usize) -> Request {
        let wanted = self.handle(kind);
        let handle = wanted.number;
        match kind {
            1 => Request::Open { mask: self.mask(Mask::ALL.0) },
            2 => Request::Close { handle },
            3 => self.create(),
            4 => self.query(handle),
            5 => Request::Privileges { handle, entries: self.privilege_entries(wanted) },
            6 => Request::Groups { handle, entries: self.group_entries(wanted) },
            7 => Request::Scope { handle, value: self.rng.word() as u32 >> self.rng.below(32) },
            8 => self.default(wanted),
            9 => self.duplicate(wanted),
            10 => self.restrict(wanted),
            11 => Request::Install { handle },
            12 => Request::Impersonate { handle: self.again().unwrap_or(handle) },
            14 => self.create_packed(),
            15 => self.restrict_packed(wanted),
            16 => self.link(),
            17 => Request::GetLinked { handle },
            18 => self.evaluate(wanted),
            _ => Request::Revert,
        }
    }

    /// A request's number: open without handles, close when slots run out, groups if there are any,
    /// restrict what is restricted, act for what may be acted for, give up what one acts for, link what
    /// can be linked, get what is linked, ask for groups if there are any.
    fn kind(&mut self) -> usize {
        let mut weights: [_; RIGHTS.len()] =
            [0, 16, 6, 10, 14, 14, 14, 8, 12, 14, 14, 20, 5, 2, 8, 8, 4, 4, 6];
        let own = self.own_handles();
        if own.len() < 2 {
            weights[1] = 60;
        }
        for (kind, more) in [(2, 4), (6, 20), (10, 8), (12, 16), (15, 4), (17, 12), (18, 6)] {
            if own.iter().any(|&handle| self.suits(kind, handle)) {
                weights[kind] += more;
            }
        }
        weights[16] += if self.can_link() { 16 } else { 0 };
        if let Some(client) = self.model.stations[self.station].client {
            weights[13] += 8;
            let mut handles = self.model.handles.iter().flatten();
            if handles.all(|handle| handle.token != client.token) {
                weights[12] += 12;
                weights[13] += 4;
            }
        }
        if self.model.handles.iter().flatten().count() > HANDLES - 3 {
            weights[2] += 8;
        }
        if self.model.tokens.iter().flatten().count() > TOKENS - 2 {
            weights[2] += 14;
        }
        self.rng.weighted(&weights)
    }

    /// Whether a request of this number has something to do on the handle's token: close what stays
    /// though it was the last handle on it.
    fn suits(&self, kind: usize, handle: Handle) -> bool {
        let Some(token) = self.token(handle) else { return false };
        match kind {
            2 => is_client(self.model, token.number) || is_paired(self.model, token.number),
            6 | 8 | 18 => !token.groups.is_empty(),
            9 => token.root != token.number,
            10 | 15 => token.is_restricted() || token.write_restricted,
            11 | 16 => token.kind == TokenType::Primary,
            12 => token.kind == TokenType::Impersonation,
            17 => is_paired(self.model, token.number),
            _ => true,
        }
    }

    pub(crate) fn own_handles(&self) -> Vec<Handle> {
        let live = self.model.handles.iter().flatten().copied();
        live.filter(|handle| handle.station as usize == self.station).collect()
    }

    /// Mostly an own handle that suits the request; now and then one without the right,
    /// another's, or none at all.
    pub(crate) fn handle(&mut self, kind: usize) -> Handle {
        let right = RIGHTS[kind];
        let own = self.own_handles();
        let (granting, lacking): (Vec<_>, Vec<_>) =
            own.iter().partition(|handle| right.within(Mask(handle.mask)));
        let wanted = self.rng.percent(80);
        let is_wanted = |handle: &Handle| self.suits(kind, *handle) == wanted;
        let suiting: Vec<_> = granting.iter().copied().filter(is_wanted).collect();
        let all: Vec<_> = self.model.handles.iter().flatten().copied().collect();
        let found = match self.rng.below(100) {
            0..=62 => self.rng.pick_any(&suiting).or_else(|| self.rng.pick_any(&granting)),
            63..=79 => self.rng.pick_any(&granting),
            80..=92 => self.rng.pick_any(&lacking).or_else(|| self.rng.pick_any(&granting)),
            93..=96 => self.rng.pick_any(&all),
            _ => None,
        };
        found.unwrap_or_else(|| self.no_handle())
    }

    /// A handle number that is mostly not live.
    fn no_handle(&mut self) -> Handle {
        let next = self.model.next_handle;
        let odd = self.rng.word() as u32;
        let number = self.rng.pick(&[0, next, next.wrapping_sub(1), odd, u32::MAX, 1]);
        Handle { station: self.station as u32, number, token: 0, mask: Mask::ALL.0 }
    }

    pub(crate) fn token(&self, handle: Handle) -> Option<&Token> {
        self.model.token(handle.token)
    }

    /// Mostly a valid mask within the limit.
    fn mask(&mut self, limit: u32) -> u32 {
        let (mask, odd) = (self.rng.bits() as u32 & limit, self.rng.word() as u32);
        match self.rng.below(20) {
            0..=6 => limit,
            7..=15 => mask,
            16 => limit & !self.rng.bit(Mask::ALL.0.ilog2() + 1) as u32,
            17 => Mask::ALL.0,
            _ => self.rng.pick(&[0, 0x10, 0x200, 0x1FF, odd]),
        }
    }

    /// Now and then a handle on the token that the station acts for.
    fn again(&mut self) -> Option<u32> {
        let client = self.model.stations[self.station].client.filter(|_| self.rng.percent(40))?;
        let mut own = self.own_handles();
        own.retain(|handle| handle.token == client.token);
        self.rng.pick_any(&own).map(|handle| handle.number)
    }

    pub(crate) fn create(&mut self) -> Request {
        let mut user = self.number();
        let session = self.rng.pick(&[999, 999, 9, 0, 5, u64::MAX]);
        let mut integrity = self.rng.pick(&INTEGRITY_LEVELS);
        let mut present = (self.rng.bits() | NEEDED) & ALL_PRIVILEGES;
        let without_tcb = NEEDED & !(1 << TCB);
        let kept = self.rng.pick(&[NEEDED, NEEDED, without_tcb, without_tcb, without_tcb, 0]);
        let mut default = (self.rng.bits() & !NEEDED | kept) & present;
        let mut groups = self.new_groups(user);
        match self.rng.below(30) {
            0 => integrity = self.rng.pick(&[1, 4095, 16385, 20480, u32::MAX]),
            1 => present |= self.unknown_privilege(),
            2 => default = self.rng.word(),
            3 => groups.extend([(user, 2); MAX_GROUPS + 1]),
            4 => user = self.no_number(),
            5 => groups.push((self.no_number(), 2)),
            _ => {}
        }
        Request::Create { user, session, integrity, present, default, groups }
    }

    /// The bit of a privilege that does not exist.
    fn unknown_privilege(&mut self) -> u64 {
        1 << self.rng.pick(&[0, FIRST_PRIVILEGE - 1, LAST_PRIVILEGE + 1, u64::BITS - 1])
    }

    fn new_groups(&mut self, user: u32) -> Vec<(u32, u32)> {
        let count = match self.rng.below(12) {
            0 => 0,
            1 => MAX_GROUPS - self.rng.below(2),
            2 => self.rng.below(MAX_GROUPS),
            _ => 1 + self.rng.below(6),
        };
        let bad = self.rng.percent(6);
        let mut groups: Vec<_> = (0..count).map(|_| self.new_group(user)).collect();
        if let (true, Some(group)) = (bad, groups.last_mut()) {
            group.1 = self.rng.pick(&[1, 4, 6, 0x12, 0x20, 0x4000_0002, 0x8000_0002, 0xC000_0000]);
        }
        groups
    }

    fn new_group(&mut self, user: u32) -> (u32, u32) {
        let sid = self.number();
        if sid == user {
            return (sid, self.rng.pick(&[2, 2, 3, 10, 0xC000_0002]));
        }
        (sid, self.rng.pick(&[0, 2, 2, 3, 8, 10, 11, 0x10, 0x18, 0xC000_0002, 0xC000_000B]))
    }

    fn query(&mut self, handle: u32) -> Request {
        let class = match self.rng.below(25) {
            0 => self.rng.pick(&[0, LAST_CLASS + 1, LAST_CLASS + 2, 128, u32::MAX]),
            1..=5 => STATISTICS,
            _ => 1 + self.rng.below(LAST_CLASS as usize) as u32,
        };
        let capacity = match self.rng.below(4) {
            0 => self.report_size(handle, class).saturating_sub(1),
            1 => self.report_size(handle, class),
            2 => self.rng.pick(&[0, 1, u32::MAX]),
            _ => LONGEST_REPORT - 1 + self.rng.below(4) as u32,
        };
        Request::Query { handle, class, capacity }
    }

    /// The size of a report, as a query without capacity tells it; 0 if it is refused.
    fn report_size(&self, handle: u32, class: u32) -> u32 {
        let query = flat(&fields(&Request::Query { handle, class, capacity: 0 }));
        let answer = self.model.clone().serve(self.station, &query);
        match answer.split_first() {
            Some((&status, size)) if u32::from(status) == Refusal::Capacity(0).number() => {
                Reader::new(size).u32().unwrap_or_default()
            }
            _ => 0,
        }
    }

    /// A condition on the handle's token.
    fn evaluate(&mut self, handle: Handle) -> Request {
        let token = self.model.token(handle.token);
        let condition = Draw { rng: self.rng, token }.condition(handle.number);
        Request::Evaluate { handle: handle.number, condition }
    }

    fn privilege_entries(&mut self, handle: Handle) -> Vec<(u32, u32)> {
        if self.rng.percent(12) {
            return vec![RESET_PRIVILEGES];
        }
        let words = self.token(handle).map_or(Privileges::default(), |token| token.privileges);
        let often = NEEDED_ONES.into_iter().chain([IMPERSONATE; 3]);
        let all: Vec<u32> = often.chain(FIRST_PRIVILEGE..=LAST_PRIVILEGE).collect();
        let mut named = self.rng.some(&all, 4);
        named.push(self.rng.pick(&all));
        if !self.rng.percent(4) {
            named.sort_unstable();
            named.dedup();
        }
        let mut entries: Vec<_> =
            named.into_iter().map(|named| (named, self.privilege_action(named, words))).collect();
        match self.rng.below(30) {
            0 => entries.clear(),
            1 => entries[0].0 = self.rng.pick(&[0, 1, LAST_PRIVILEGE + 1, u64::BITS, u32::MAX]),
            2 => entries[0].1 = self.rng.pick(&[1, 3, 6, 0x8000_0000, u32::MAX]),
            3 => entries.push(RESET_PRIVILEGES),
            _ => {}
        }
        entries
    }

    /// What to ask of the privilege: all that may be asked of it, whether absent, disabled or
    /// enabled; seldom to remove what the other requests need, or to enable an absent one.
    fn privilege_action(&mut self, named: u32, words: Privileges) -> u32 {
        let is_needed = NEEDED_ONES.contains(&named);
        let weights = match [words.present, words.enabled].map(|word| word >> named & 1 == 1) {
            [false, _] => [12, 1, 6],
            [true, _] if named == TCB => [15, 34, 1],
            [true, _] if is_needed => [9, 40, 1],
            [true, false] if named == IMPERSONATE => [1, 4, 1],
            [true, true] if named == IMPERSONATE => [4, 1, 1],
            [true, false] => [1, 1, 1],
            [true, true] => [3, 5, 2],
        };
        [DISABLE, ENABLE, REMOVE][self.rng.weighted(&weights)]
    }

    fn group_entries(&mut self, handle: Handle) -> Vec<(u32, u32)> {
        let kinds: Vec<Kind> = self.token(handle).map_or(vec![], |token| {
            token.groups.iter().map(|&group| kind(group, token.user)).collect()
        });
        if self.rng.percent(15) || (kinds.is_empty() && self.rng.percent(80)) {
            return vec![RESET_GROUPS];
        }
        let named = self.groups_to_name(&kinds);
        let mut entries: Vec<_> =
            named.into_iter().map(|index| (index as u32, self.rng.below(2) as u32)).collect();
        let (past, again) = (kinds.len() as u32, entries.first().copied().unwrap_or(RESET_GROUPS));
        if self.rng.percent(5) {
            entries.clear();
        } else if self.rng.percent(35) {
            let bad = self.rng.pick(&[(past, 0), (past, 1), (0, 2), RESET_GROUPS, again]);
            entries.insert(self.rng.below(entries.len() + 1), bad);
        }
        entries
    }

    /// Indexes of one group, of each kind as likely; of some that may be switched; or of any.
    fn groups_to_name(&mut self, kinds: &[Kind]) -> Vec<usize> {
        let all: Vec<usize> = (0..kinds.len()).collect();
        let of = |wanted: &[Kind]| -> Vec<usize> {
            all.iter().copied().filter(|&index| wanted.contains(&kinds[index])).collect()
        };
        let most = if self.rng.percent(10) { MAX_GROUPS } else { 4 };
        match self.rng.below(20) {
            0..=12 => {
                let mut present = kinds.to_vec();
                present.sort_unstable();
                present.dedup();
                let kind = self.rng.pick_any(&present);
                kind.and_then(|kind| self.rng.pick_any(&of(&[kind]))).into_iter().collect()
            }
            13..=16 => self.rng.some(&of(&[Kind::User, Kind::Other]), most),
            _ => self.rng.some(&all, most),
        }
    }

    fn default(&mut self, handle: Handle) -> Request {
        let count = self.token(handle).map_or(0, |token| token.groups.len()) as u16;
        let owners: Vec<u16> = match self.token(handle) {
            Some(token) => (0..=count).filter(|&index| token.may_own(index)).collect(),
            None => vec![0],
        };
        let mut owner = if self.rng.percent(30) { NO_CHANGE } else { self.rng.pick(&owners) };
        let any_group = self.rng.below(usize::from(count) + 1) as u16;
        let mut group = if self.rng.percent(30) { NO_CHANGE } else { any_group };
        match self.rng.below(20) {
            0 => owner = any_group,
            1 => owner = self.rng.pick(&[count + 1, NO_CHANGE - 1]),
            2 => group = self.rng.pick(&[count + 1, NO_CHANGE - 1]),
            _ => {}
        }
        let (flag, dacl) = self.dacl();
        Request::Default { handle: handle.number, owner, group, flag, dacl }
    }

    fn dacl(&mut self) -> (u32, Vec<u8>) {
        let length = match self.rng.below(6) {
            0 => 0,
            1 => self.rng.pick(&[127, 128, MAX_DACL - 1, MAX_DACL]),
            _ => self.rng.below(40),
        };
        let bytes = (0..length).map(|_| self.rng.word() as u8).collect();
        match self.rng.below(20) {
            0 => (1, vec![7; MAX_DACL + 1 + self.rng.below(3)]),
            1 => (self.rng.pick(&[0, 2, u32::MAX]), bytes),
            2..=7 => (0, vec![]),
            _ => (1, bytes),
        }
    }

    fn duplicate(&mut self, handle: Handle) -> Request {
        let source = self.token(handle).map(|token| (token.kind, token.level as usize));
        let mut kind = 1 + self.rng.below(2) as u32;
        let highest = match source {
            Some((TokenType::Impersonation, level)) if kind == TokenType::Impersonation as u32 => {
                level
            }
            _ => Level::Delegation as usize,
        };
        let any_level = self.rng.below(highest + 1) as u32;
        let mut level = if self.rng.percent(12) { Level::Anonymous as u32 } else { any_level };
        match self.rng.below(25) {
            0 => kind = self.rng.pick(&[0, 3, u32::MAX]),
            1 => level = self.rng.pick(&[4, 5, u32::MAX]),
            2 => level = Level::Delegation as u32,
            _ => {}
        }
        let mask = self.mask(handle.mask);
        Request::Duplicate { handle: handle.number, kind, level, mask }
    }

    pub(crate) fn restrict(&mut self, handle: Handle) -> Request {
        let groups = self.token(handle).map_or(0, |token| token.groups.len());
        let indexes: Vec<u32> = (0..groups as u32).collect();
        let most = if self.rng.percent(10) { MAX_GROUPS } else { 3 };
        let mut deny = self.rng.some(&indexes, most);
        let sids = self.restricting(handle);
        let mut write_restricted = u32::from(self.mark(handle));
        let mut remove = self.rng.word() & self.rng.bits() & ALL_PRIVILEGES;
        if self.rng.percent(85) {
            remove &= !NEEDED;
        }
        match self.rng.below(30) {
            0 => write_restricted = 2,
            1 => remove |= self.unknown_privilege(),
            2 => deny.push(groups as u32),
            3 => deny.extend(deny.clone().first()),
            _ => {}
        }
        Request::Restrict { handle: handle.number, write_restricted, remove, deny, sids }
    }

    /// SIDs to restrict by: none, some or all of a restricted source's own, in any order, and others
    /// among them; now and then as many as a list may have, or more; seldom one that is not in the table.
    fn restricting(&mut self, handle: Handle) -> Vec<u32> {
        let own = self.token(handle).map_or(vec![], |token| token.restricting.clone());
        let mut sids = match self.rng.weighted(&[3, 3, 2, 4]) {
            0 => self.rng.some(&own, MAX_RESTRICTING),
            1 => self.rng.some(&own, 2),
            2 => own.iter().rev().copied().collect(),
            _ => vec![],
        };
        let others = match self.rng.below(10) {
            0..=3 => 0,
            4..=6 => 1 + self.rng.below(2),
            7 => MAX_RESTRICTING - sids.len().min(MAX_RESTRICTING),
            _ => MAX_RESTRICTING + 1 + self.rng.below(4 * MAX_RESTRICTING),
        };
        let all = self.model.sids.numbers();
        let is_common = self.rng.percent(60);
        for _ in 0..others {
            let sid = if is_common { self.number() } else { self.rng.pick(&all) };
            sids.insert(self.rng.below(sids.len() + 1), sid);
        }
        if self.rng.percent(8) {
            sids.retain(|sid| !own.contains(sid));
        }
        if self.rng.percent(5) {
            sids.insert(self.rng.below(sids.len() + 1), self.no_number());
        }
        sids
    }

    /// Write-restricted, more often where the source is: a restricted one must be.
    fn mark(&mut self, handle: Handle) -> bool {
        let is_marked = self.token(handle).is_some_and(|token| token.write_restricted);
        self.rng.percent(if is_marked { 60 } else { 25 })
    }
}
