//! Acting for another: how often each row of request 12's gate table came, and each thing that can
//! happen to a client. What a row gets is said here once more, after document 02 alone.

use std::cmp::Ordering;
use std::collections::BTreeMap;
use std::fmt;

use model::{Level, Model, Reader, Refusal, Request, Token, TokenType, IMPERSONATE};
use Event::*;

use crate::broker::Step;
use crate::call::Call;
use crate::state::LEVELS;

/// What the gates read of the station's token, the server, and the handle's, the client.
#[derive(Clone, Copy, Debug, PartialEq, Eq, PartialOrd, Ord)]
struct Row {
    same_user: bool,
    server_restricted: bool,
    client_restricted: bool,
    held: bool,
    /// The client's beside the server's.
    integrity: Ordering,
    /// The client's own.
    level: Level,
}

/// What comes of a row: the level in force or the refusal, and whether Impersonate is used.
#[derive(Clone, Copy, Debug, PartialEq, Eq)]
struct Outcome {
    level: Result<u32, u32>,
    uses: bool,
}

impl Row {
    fn new(server: &Token, client: &Token) -> Self {
        Row {
            same_user: server.user == client.user,
            server_restricted: !server.restricting.is_empty(),
            client_restricted: !client.restricting.is_empty(),
            held: server.privileges.enabled >> IMPERSONATE & 1 == 1,
            integrity: client.integrity.cmp(&server.integrity),
            level: client.level,
        }
    }

    /// Every row.
    fn all() -> impl Iterator<Item = Row> {
        let bits = (0..16_u32).flat_map(|bits| LEVELS.map(|level| (bits, level)));
        bits.flat_map(|(bits, level)| {
            let [same_user, server_restricted, client_restricted, held] =
                [0, 1, 2, 3].map(|at| bits >> at & 1 == 1);
            let row = move |integrity| Row {
                same_user,
                server_restricted,
                client_restricted,
                held,
                integrity,
                level,
            };
            [Ordering::Less, Ordering::Equal, Ordering::Greater].map(row)
        })
    }

    /// What document 02 says of it.
    fn expected(self) -> Outcome {
        let restricted = (self.server_restricted, self.client_restricted);
        let own = self.level as u32;
        let capped = own.min(Level::Identification as u32);
        let below = if self.integrity == Ordering::Greater { capped } else { own };
        let (level, uses) = match (self.same_user, restricted, self.held) {
            (true, (true, true) | (false, false), _) => (Ok(below), false),
            (_, _, true) => (Ok(below), true),
            (_, (true, false), false) => (Err(Refusal::Mismatch.number()), false),
            (_, _, false) => (Ok(capped), false),
        };
        Outcome { level, uses }
    }
}

/// What can happen to a client.
#[derive(Clone, Copy, Debug, PartialEq, Eq, PartialOrd, Ord)]
enum Event {
    /// Request 12 by a station that acted for none.
    First,
    /// For another token.
    Replaced,
    /// For the same one, at the same level in force.
    Again,
    /// The same, at another.
    AgainOtherLevel,
    /// Request 12 is refused, and the client stays.
    RefusedActing,
    /// The replaced token went with its last reference.
    FreedByReplacing,
    /// Request 13 by a station that acts for one.
    Revert,
    /// By one that acts for none.
    RevertNone,
    /// The token went with its last reference.
    FreedByRevert,
    /// A level other than request 12 would answer by then.
    RevertOldLevel,
    /// The last handle on the token is closed, which stays.
    LastHandleClosed,
    /// Request 11 by a station that acts for one.
    InstallActing,
    ReconnectActing,
}

const EVENTS: [Event; 13] = [
    First,
    Replaced,
    Again,
    AgainOtherLevel,
    RefusedActing,
    FreedByReplacing,
    Revert,
    RevertNone,
    FreedByRevert,
    RevertOldLevel,
    LastHandleClosed,
    InstallActing,
    ReconnectActing,
];

/// The counts; printed as a summary.
#[derive(Default)]
pub(crate) struct ClientCounts {
    rows: BTreeMap<Row, usize>,
    /// Of these, where Impersonate was not used before, so that its bit tells something.
    telling: BTreeMap<Row, usize>,
    events: BTreeMap<Event, usize>,
}

impl ClientCounts {
    /// Counts a call, and checks what request 12 did.
    pub fn step(&mut self, step: &Step) {
        if let (Call::Reconnect { station }, 0) = (step.call, step.fed.refusal) {
            self.count(ReconnectActing, client(step.before, *station as usize).is_some());
        }
        let Some((station, body)) = step.ended() else { return };
        let Some(request) = Request::read(&body) else { return };
        match (request, step.status() == Some(0)) {
            (Request::Impersonate { handle }, is_success) => {
                self.row(step, station, handle);
                self.impersonate(step, station, is_success);
            }
            (Request::Revert, _) => self.revert(step, station),
            (Request::Close { handle }, true) => self.close(step, station, handle),
            (Request::Install { .. }, true) => {
                self.count(InstallActing, client(step.before, station).is_some());
            }
            _ => {}
        }
    }

    fn count(&mut self, event: Event, happened: bool) {
        *self.events.entry(event).or_default() += usize::from(happened);
    }

    /// A request 12 that the gates judged got what its row says.
    fn row(&mut self, step: &Step, station: usize, handle: u32) {
        let Some(client) = token_of(step.before, station, handle) else { return };
        let level = match step.status().map(u32::from) {
            Some(0) => Ok(Reader::new(&step.fed.answer[2..]).u32().expect("a level")),
            Some(refusal @ 7) => Err(refusal),
            _ => return,
        };
        assert_eq!(client.kind, TokenType::Impersonation, "{:?}", step.call);
        let server = step.before.primary(station);
        let row = Row::new(server, client);
        let is_used = |token: &Token| token.privileges.used >> IMPERSONATE & 1 == 1;
        let after = step.after.token(server.number).expect("the server stays");
        let uses = is_used(after) && !is_used(server);
        let expected = row.expected();
        let expected = Outcome { uses: expected.uses && !is_used(server), ..expected };
        assert_eq!(Outcome { level, uses }, expected, "{row:?}, {:?}", step.call);
        *self.rows.entry(row).or_default() += 1;
        if !is_used(server) {
            *self.telling.entry(row).or_default() += 1;
        }
    }

    fn impersonate(&mut self, step: &Step, station: usize, is_success: bool) {
        let [old, new] = [step.before, step.after].map(|model| client(model, station));
        let Some(old) = old else { return self.count(First, is_success) };
        let new = new.expect("it acts for one still");
        if !is_success {
            assert_eq!(old, new, "{:?}", step.call);
            return self.count(RefusedActing, true);
        }
        self.count(Replaced, old.0 != new.0);
        self.count(Again, old == new);
        self.count(AgainOtherLevel, old.0 == new.0 && old.1 != new.1);
        self.count(FreedByReplacing, step.after.token(old.0).is_none());
    }

    fn revert(&mut self, step: &Step, station: usize) {
        let Some((token, level)) = client(step.before, station) else {
            return self.count(RevertNone, true);
        };
        let server = step.before.primary(station);
        let now = Row::new(server, step.before.token(token).expect("it lives")).expected().level;
        self.count(Revert, true);
        self.count(RevertOldLevel, now != Ok(level as u32));
        self.count(FreedByRevert, step.after.token(token).is_none());
    }

    fn close(&mut self, step: &Step, station: usize, handle: u32) {
        let token = token_of(step.before, station, handle).expect("a success has a token").number;
        let acts = |at: usize| client(step.before, at).is_some_and(|client| client.0 == token);
        if (0..step.before.stations.len()).any(acts) {
            assert!(step.after.token(token).is_some(), "{:?}", step.call);
            let mut handles = step.after.handles.iter().flatten();
            self.count(LastHandleClosed, handles.all(|handle| handle.token != token));
        }
    }

    /// Each row came so often at least.
    pub fn check_rows(&self, least: usize) {
        self.check(&self.rows, least);
    }

    /// The same where Impersonate was not used before.
    pub fn check_telling(&self, least: usize) {
        self.check(&self.telling, least);
    }

    fn check(&self, rows: &BTreeMap<Row, usize>, least: usize) {
        for row in Row::all() {
            let count = rows.get(&row).copied().unwrap_or(0);
            assert!(count >= least, "{row:?}: {count}");
        }
    }

    /// Each event came so often at least.
    pub fn check_events(&self, least: usize) {
        for event in EVENTS {
            let count = self.events.get(&event).copied().unwrap_or(0);
            assert!(count >= least, "{event:?}: {count}");
        }
    }
}

/// The number of the token that the station acts for, and the level in force.
fn client(model: &Model, station: usize) -> Option<(u64, Level)> {
    model.stations[station].client.map(|client| (client.token, client.level))
}

/// The token of the station's live handle.
fn token_of(model: &Model, station: usize, handle: u32) -> Option<&Token> {
    let mut handles = model.handles.iter().flatten();
    let live = handles.find(|live| live.number == handle && live.station as usize == station)?;
    model.token(live.token)
}

impl fmt::Display for ClientCounts {
    fn fmt(&self, f: &mut fmt::Formatter) -> fmt::Result {
        for (name, rows) in [("gate rows", &self.rows), ("telling ones", &self.telling)] {
            let counts: Vec<usize> =
                Row::all().map(|row| rows.get(&row).copied().unwrap_or(0)).collect();
            let met = counts.iter().filter(|&&count| count > 0).count();
            let (total, least) = (counts.iter().sum::<usize>(), counts.iter().min());
            let all = counts.len();
            writeln!(f, "{name}: {met} of {all} met, {total} times, least {least:?}")?;
        }
        write!(f, "clients    ")?;
        for event in EVENTS {
            write!(f, "  {event:?}: {}", self.events.get(&event).copied().unwrap_or(0))?;
        }
        Ok(())
    }
}
