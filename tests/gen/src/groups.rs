//! The kinds of groups that request 6 tells apart, and how often it did what to each.

use std::collections::BTreeMap;
use std::fmt;

use model::{Group, Model, Request, Token, RESET_GROUPS};
use Kind::{Denied, DenyOnly, Logon, Mandatory, Other, Several, User, UserToo};
use Way::{AfterBad, BeforeBad, Disable, Enable, Reset};

/// A group by what protects it: attributes, the user's SID, both or neither.
#[derive(Clone, Copy, Debug, PartialEq, Eq, PartialOrd, Ord)]
pub(crate) enum Kind {
    Mandatory,
    DenyOnly,
    Logon,
    /// Mandatory, and made deny-only by request 10.
    Denied,
    /// Logon, and one of the others.
    Several,
    /// Any of these, with the user's SID.
    UserToo,
    /// None of these, with the user's SID.
    User,
    Other,
}

/// What a request asks of a group.
#[derive(Clone, Copy, Debug, PartialEq, Eq, PartialOrd, Ord)]
enum Way {
    /// By its only entry.
    Disable,
    /// By its only entry.
    Enable,
    Reset,
    /// Either, before a bad entry.
    BeforeBad,
    /// Either, after a bad entry.
    AfterBad,
}

const WAYS: [Way; 5] = [Disable, Enable, Reset, BeforeBad, AfterBad];

/// The status that each kind gets, by way.
const EXPECTED: [(Kind, [u8; WAYS.len()]); 8] = [
    (Mandatory, [6, 6, 0, 5, 5]),
    (DenyOnly, [6, 6, 0, 5, 5]),
    (Logon, [6, 6, 0, 5, 5]),
    (Denied, [6, 6, 0, 5, 5]),
    (Several, [6, 6, 0, 5, 5]),
    (UserToo, [6, 6, 0, 5, 5]),
    (User, [6, 0, 0, 5, 5]),
    (Other, [0, 0, 0, 5, 5]),
];

/// The kind of a group of a token of this user.
pub(crate) fn kind(group: Group, user: u32) -> Kind {
    let [mandatory, deny_only, logon] =
        [Group::MANDATORY, Group::DENY_ONLY, Group::LOGON_ID].map(|kind| group.has(kind));
    match (mandatory, deny_only, logon, group.sid == user) {
        (false, false, false, false) => Other,
        (false, false, false, true) => User,
        (_, _, _, true) => UserToo,
        (true, false, false, _) => Mandatory,
        (false, true, false, _) => DenyOnly,
        (false, false, true, _) => Logon,
        (true, true, false, _) => Denied,
        _ => Several,
    }
}

/// The counts; printed as a table.
#[derive(Default)]
pub(crate) struct GroupCounts(BTreeMap<(Kind, Way, u8), usize>);

impl GroupCounts {
    /// Counts what the station's request got, if it is a request 6 whose entries were judged.
    pub fn request(&mut self, model: &Model, station: usize, body: &[u8], status: u8) {
        let Some(Request::Groups { handle, entries }) = Request::read(body) else { return };
        let mut handles = model.handles.iter().flatten();
        let handle = handles.find(|live| live.number == handle && live.station as usize == station);
        let token = handle.and_then(|handle| model.token(handle.token));
        if let (Some(token), 0 | 5 | 6) = (token, status) {
            for (kind, way) in asked(token, &entries) {
                *self.0.entry((kind, way, status)).or_default() += 1;
            }
        }
    }

    fn of(&self, kind: Kind, way: Way, status: u8) -> usize {
        self.0.get(&(kind, way, status)).copied().unwrap_or(0)
    }

    /// Each kind got its status by each way so often at least, and no other.
    pub fn check(&self, least: usize) {
        for (kind, statuses) in EXPECTED {
            for (way, expected) in WAYS.into_iter().zip(statuses) {
                let count = self.of(kind, way, expected);
                assert!(count >= least, "{kind:?}, {way:?}, status {expected}: {count}");
                for status in [0, 5, 6].into_iter().filter(|&status| status != expected) {
                    let count = self.of(kind, way, status);
                    assert_eq!(count, 0, "{kind:?}, {way:?} got status {status}");
                }
            }
        }
    }
}

/// What the entries ask of groups of the token, as far as it is told apart.
fn asked(token: &Token, entries: &[(u32, u32)]) -> Vec<(Kind, Way)> {
    let kinds: Vec<Kind> = token.groups.iter().map(|&group| kind(group, token.user)).collect();
    if entries == [RESET_GROUPS] {
        return kinds.into_iter().map(|kind| (kind, Reset)).collect();
    }
    let is_good = |&(index, enable): &(u32, u32)| (index as usize) < kinds.len() && enable <= 1;
    let kind_of = |&(index, _): &(u32, u32)| kinds[index as usize];
    match (entries, entries.iter().position(|entry| !is_good(entry))) {
        ([entry], None) => vec![(kind_of(entry), if entry.1 == 1 { Enable } else { Disable })],
        (_, None) => vec![],
        (_, Some(bad)) => {
            let (before, after) = entries.split_at(bad);
            let before = before.iter().map(|entry| (kind_of(entry), BeforeBad));
            let after = after.iter().filter(|entry| is_good(entry));
            before.chain(after.map(|entry| (kind_of(entry), AfterBad))).collect()
        }
    }
}

impl fmt::Display for GroupCounts {
    fn fmt(&self, f: &mut fmt::Formatter) -> fmt::Result {
        write!(f, "groups     ")?;
        for way in WAYS {
            write!(f, "  {:>12}", format!("{way:?}"))?;
        }
        for (kind, _) in EXPECTED {
            write!(f, "\n{:11}", format!("{kind:?}"))?;
            for way in WAYS {
                let got = |status| match self.of(kind, way, status) {
                    0 => String::new(),
                    count => format!("{status}: {count}"),
                };
                write!(f, "  {:>12}", [0, 5, 6].map(got).concat())?;
            }
        }
        Ok(())
    }
}
