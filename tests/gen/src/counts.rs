//! How often each refusal came, each status of each request, what request 6 did to each kind of
//! group, request 10 to each kind of list, what was made from each kind of token, how stations came to
//! act for others, how tokens were linked and their partners given, which conditions were asked for, and
//! what SIDs requests had.

use std::collections::BTreeMap;
use std::fmt;

use model::{Fed, Model, Reader, Refusal, LAST_REQUEST};

use crate::broker::{status, Step};
use crate::clients::ClientCounts;
use crate::conditions::ConditionCounts;
use crate::groups::GroupCounts;
use crate::links::LinkCounts;
use crate::partners::PartnerCounts;
use crate::restrictions::RestrictionCounts;
use crate::roots::RootCounts;
use crate::sid_cases::SidCounts;

/// The statuses that each request can get; 0 stands for unknown requests.
const POSSIBLE: [(u32, &[u8]); LAST_REQUEST as usize + 1] = [
    (0, &[1]),
    (1, &[0, 1, 5, 8]),
    (2, &[0, 1, 2]),
    (3, &[0, 1, 4, 5, 8]),
    (4, &[0, 1, 2, 3, 5, 9]),
    (5, &[0, 1, 2, 3, 5]),
    (6, &[0, 1, 2, 3, 5, 6]),
    (7, &[0, 1, 2, 3, 4]),
    (8, &[0, 1, 2, 3, 5]),
    (9, &[0, 1, 2, 3, 5, 8]),
    (10, &[0, 1, 2, 3, 5, 8]),
    (11, &[0, 1, 2, 3, 4, 5, 7]),
    (12, &[0, 1, 2, 3, 5, 7]),
    (13, &[0, 1]),
    (14, &[0, 1, 4, 5, 8]),
    (15, &[0, 1, 2, 3, 5, 8]),
    (16, &[0, 1, 2, 3, 4, 5, 8]),
    (17, &[0, 1, 2, 3, 8, 14]),
    (18, &[0, 1, 2, 3, 5]),
];

/// The counts; printed as a table.
#[derive(Default)]
pub struct Counts {
    calls: usize,
    statuses: BTreeMap<(u32, u8), usize>,
    refusals: BTreeMap<u32, usize>,
    groups: GroupCounts,
    restrictions: RestrictionCounts,
    roots: RootCounts,
    clients: ClientCounts,
    links: LinkCounts,
    partners: PartnerCounts,
    conditions: ConditionCounts,
    sids: SidCounts,
}

impl Counts {
    /// Counts a call of a script.
    pub fn step(&mut self, step: &Step) {
        self.call(step.fed);
        if let Some((station, body)) = step.ended() {
            self.status(step.before, station, &body, step.fed);
        }
        self.clients.step(step);
        self.links.step(step);
        self.partners.step(step);
        self.conditions.step(step);
        self.sids.step(step);
    }

    /// Counts what a call returned.
    pub fn call(&mut self, fed: &Fed) {
        self.calls += 1;
        let refusal =
            if fed.refusal == 0 { status(&fed.answer).unwrap_or(0).into() } else { fed.refusal };
        *self.refusals.entry(refusal).or_default() += 1;
    }

    fn status(&mut self, before: &Model, station: usize, body: &[u8], fed: &Fed) {
        if let Some(status) = status(&fed.answer) {
            *self.statuses.entry((request_number(body), status)).or_default() += 1;
            self.groups.request(before, station, body, status);
            self.restrictions.request(before, station, body, status);
            self.roots.request(before, station, body, status);
        }
    }

    /// How often the request got the status.
    pub fn of(&self, request: u32, status: u8) -> usize {
        self.statuses.get(&(request, status)).copied().unwrap_or(0)
    }

    /// Each request got every status that it can get so often at least, and no other.
    pub fn check_statuses(&self, least: usize) {
        for (request, statuses) in POSSIBLE {
            for status in 0..=Refusal::LAST.number() as u8 {
                let count = self.of(request, status);
                let expected = statuses.contains(&status);
                assert!(!expected || count >= least, "request {request}, status {status}: {count}");
                assert!(expected || count == 0, "request {request} got status {status}");
            }
        }
    }

    /// Request 6 met each kind of group in each way so often at least, and did as the rule says.
    pub fn check_groups(&self, least: usize) {
        self.groups.check(least);
    }

    /// Each case of request 10's restricting SIDs came so often at least, and got its status.
    pub fn check_restrictions(&self, least: usize) {
        self.restrictions.check(least);
    }

    /// Tokens of each kind of root were copied in each way, and asked for it, so often at least.
    pub fn check_roots(&self, least: usize) {
        self.roots.check(least);
    }

    /// Each row of request 12's gate table came so often at least; each got what it should.
    pub fn check_gates(&self, least: usize) {
        self.clients.check_rows(least);
    }

    /// The same of requests whose use of Impersonate shows.
    pub fn check_uses(&self, least: usize) {
        self.clients.check_telling(least);
    }

    /// Each thing that can happen to a client came so often at least.
    pub fn check_clients(&self, least: usize) {
        self.clients.check_events(least);
    }

    /// Each case of request 16 came so often at least, and got its status.
    pub fn check_links(&self, least: usize) {
        self.links.check(least);
    }

    /// The same of request 17.
    pub fn check_partners(&self, least: usize) {
        self.partners.check(least);
    }

    /// The same of request 18.
    pub fn check_conditions(&self, least: usize) {
        self.conditions.check(least);
    }

    /// Each case of SIDs in requests 3, 10, 14 and 15 came so often at least, and got its status.
    pub fn check_sids(&self, least: usize) {
        self.sids.check(least);
    }

    /// Each refusal came so often at least.
    pub fn check_refusals(&self, least: usize) {
        for (refusal, count) in self.refusals() {
            assert!(count >= least, "refusal {refusal} came {count} times");
        }
    }

    /// The refusals, and how often each came.
    fn refusals(&self) -> impl Iterator<Item = (u32, usize)> + '_ {
        let count = |refusal| self.refusals.get(&refusal).copied().unwrap_or(0);
        (1..=Refusal::LAST.number()).map(move |refusal| (refusal, count(refusal)))
    }
}

/// The number of the request, 0 if there is no such request.
fn request_number(body: &[u8]) -> u32 {
    Reader::new(body).u32().filter(|number| *number <= LAST_REQUEST).unwrap_or(0)
}

impl fmt::Display for Counts {
    fn fmt(&self, f: &mut fmt::Formatter) -> fmt::Result {
        for (request, _) in POSSIBLE {
            write!(f, "request {request:2} ")?;
            for (&(_, status), count) in self.statuses.range((request, 0)..(request + 1, 0)) {
                write!(f, "  {status}: {count}")?;
            }
            writeln!(f)?;
        }
        write!(f, "refusals   ")?;
        for (refusal, count) in self.refusals() {
            write!(f, "  {refusal}: {count}")?;
        }
        writeln!(f, "  in {} calls", self.calls)?;
        writeln!(f, "{}", self.groups)?;
        writeln!(f, "{}", self.restrictions)?;
        writeln!(f, "{}", self.roots)?;
        writeln!(f, "{}", self.clients)?;
        writeln!(f, "{}", self.links)?;
        writeln!(f, "{}", self.partners)?;
        writeln!(f, "{}", self.conditions)?;
        self.sids.fmt(f)
    }
}
