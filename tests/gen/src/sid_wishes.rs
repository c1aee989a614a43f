//! SIDs of requests 3, 10, 14 and 15: numbers in the table and some that are not, old SIDs and new ones.

use model::{Handle, Request, Sid, MAX_BODY, MAX_GROUPS, MAX_RESTRICTING, SIDS, TOKENS};

use crate::fields::{fields, flat};
use crate::sids::{any_sid, new_sid, some_number, unknown_number};
use crate::wishes::Wish;

/// The requests that have SIDs, by numbers and packed; the packed ones more often.
const WITH_SIDS: [usize; 6] = [3, 10, 14, 14, 15, 15];

impl Wish<'_> {
    /// Mostly a request that has SIDs; often close when slots run out.
    pub fn with_sids(&mut self) -> Request {
        if self.model.tokens.iter().flatten().count() > TOKENS - 2 && self.rng.percent(40) {
            return self.request_of(2);
        }
        if self.rng.percent(15) {
            return self.request();
        }
        let kind = self.rng.pick(&WITH_SIDS);
        self.request_of(kind)
    }

    /// A number in the table: mostly one that a token has, or one of a few others.
    pub(crate) fn number(&mut self) -> u32 {
        let other = some_number(self.rng, &self.model.sids);
        let tokens: Vec<_> = self.model.tokens.iter().flatten().collect();
        let token = tokens[self.rng.below(tokens.len())];
        let of_groups = token.groups.iter().map(|group| group.sid);
        let had: Vec<u32> =
            of_groups.chain(token.restricting.iter().copied()).chain([token.user]).collect();
        if self.rng.percent(60) {
            self.rng.pick(&had)
        } else {
            other
        }
    }

    /// A number that is not in the table.
    pub(crate) fn no_number(&mut self) -> u32 {
        unknown_number(self.rng, &self.model.sids)
    }

    /// Request 14: what request 3 would ask for, with SIDs of the table and with others. Of the groups, as
    /// many as a body holds.
    pub(crate) fn create_packed(&mut self) -> Request {
        let Request::Create { user, session, integrity, present, default, groups } = self.create()
        else {
            unreachable!("a create request")
        };
        let mut draw = self.draw(groups.len());
        let (by_number, user) = (user, draw.sid(self, user));
        let mut sid = |number| if number == by_number { user } else { draw.sid(self, number) };
        let mut groups: Vec<(Sid, u32)> =
            groups.into_iter().map(|(number, with)| (sid(number), with)).collect();
        if self.rng.percent(10) {
            let with = self.rng.pick(&[0, 2, 3, 8, 10, 0x10]);
            groups.push((user, with));
        }
        fitted(groups, |groups| Request::CreatePacked {
            user,
            session,
            integrity,
            present,
            default,
            groups,
        })
    }

    /// Request 15, likewise.
    pub(crate) fn restrict_packed(&mut self, handle: Handle) -> Request {
        let Request::Restrict { handle, write_restricted, remove, deny, sids } =
            self.restrict(handle)
        else {
            unreachable!("a restrict request")
        };
        let mut draw = self.draw(sids.len());
        let mut sids: Vec<Sid> = sids.into_iter().map(|sid| draw.sid(self, sid)).collect();
        if self.rng.percent(25) {
            for sid in self.new_ones() {
                sids.insert(self.rng.below(sids.len() + 1), sid);
            }
        }
        if let Some(again) = self.rng.pick_any(&sids).filter(|_| self.rng.percent(20)) {
            sids.extend([again; 2]);
        }
        fitted(sids, |sids| {
            let deny = deny.clone();
            Request::RestrictPacked { handle, write_restricted, remove, deny, sids }
        })
    }

    /// New SIDs, about as many as the table has room for.
    fn new_ones(&mut self) -> Vec<Sid> {
        let room = SIDS - self.model.sids.sids().len();
        let count = (room + self.rng.below(3)).saturating_sub(1).clamp(1, MAX_RESTRICTING + 4);
        (0..count).map(|_| new_sid(self.rng, &self.model.sids)).collect()
    }

    /// How the SIDs of a request with so many of them come about.
    fn draw(&mut self, count: usize) -> Draw {
        let share = if count > MAX_GROUPS / 4 {
            self.rng.pick(&[0, 0, 5, 100])
        } else {
            self.rng.pick(&[0, 0, 20, 50, 100])
        };
        let new = if self.rng.percent(40) { self.new_ones() } else { vec![] };
        Draw { share, again: 30, new }
    }
}

/// The request with as many of the items as a body holds.
fn fitted<T: Clone>(mut items: Vec<T>, request: impl Fn(Vec<T>) -> Request) -> Request {
    loop {
        let request = request(items.clone());
        if flat(&fields(&request)).len() <= MAX_BODY || items.pop().is_none() {
            return request;
        }
    }
}

/// SIDs of one request.
struct Draw {
    /// So many of a hundred are new ones.
    share: usize,
    /// So many of these came before.
    again: usize,
    /// New ones that came, or are to come.
    new: Vec<Sid>,
}

impl Draw {
    /// The SID of this number, or a new one.
    fn sid(&mut self, wish: &mut Wish, number: u32) -> Sid {
        let old = wish.model.sids.sid(number).filter(|_| !wish.rng.percent(self.share));
        if let Some(sid) = old {
            return sid;
        }
        if let Some(sid) = wish.rng.pick_any(&self.new).filter(|_| wish.rng.percent(self.again)) {
            return sid;
        }
        let any = any_sid(wish.rng);
        let near = new_sid(wish.rng, &wish.model.sids);
        let sid = wish.rng.pick(&[any, near, near]);
        self.new.push(sid);
        sid
    }
}
