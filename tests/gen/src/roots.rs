//! The kinds of roots: how often tokens of each kind were copied and in which way, and asked for it by
//! class 9.

use std::collections::BTreeMap;
use std::fmt;

use model::{Level, Model, Request, Token, TokenType, NO_ROOT};
use Root::{Gone, Live, Own, Without};
use Way::{Anonymous, Create, Impersonation, Primary, Restrict, Statistics};

/// The class of request 4 that tells the root.
pub(crate) const STATISTICS: u32 = 9;

/// What a token has for its root.
#[derive(Clone, Copy, Debug, PartialEq, Eq, PartialOrd, Ord)]
enum Root {
    /// Its own number.
    Own,
    /// Another token that lives.
    Live,
    /// Another, freed since.
    Gone,
    /// It is an anonymous copy, or made from one.
    Without,
}

const ROOTS: [Root; 4] = [Own, Live, Gone, Without];

fn kind(model: &Model, token: &Token) -> Root {
    match token.root {
        NO_ROOT => Without,
        root if root == token.number => Own,
        root if model.token(root).is_some() => Live,
        _ => Gone,
    }
}

/// What was done: how a token was made, or that class 9 was asked for.
#[derive(Clone, Copy, Debug, PartialEq, Eq, PartialOrd, Ord)]
enum Way {
    /// By a station whose token has such a root.
    Create,
    Primary,
    Impersonation,
    Anonymous,
    Restrict,
    /// Class 9.
    Statistics,
}

const WAYS: [Way; 6] = [Create, Primary, Impersonation, Anonymous, Restrict, Statistics];

/// The statuses that are counted: success, and for class 9 a capacity that is too small.
fn counted(way: Way) -> &'static [u8] {
    if way == Statistics {
        &[0, 9]
    } else {
        &[0]
    }
}

/// The counts; printed as a table.
#[derive(Default)]
pub(crate) struct RootCounts(BTreeMap<(Root, Way, u8), usize>);

impl RootCounts {
    /// Counts what the station's request got, if it makes a token or asks for class 9.
    pub fn request(&mut self, model: &Model, station: usize, body: &[u8], status: u8) {
        let Some((way, handle)) = Request::read(body).as_ref().and_then(asked) else { return };
        let token = match handle {
            Some(number) => {
                let mut handles = model.handles.iter().flatten();
                let handle =
                    handles.find(|live| live.number == number && live.station as usize == station);
                handle.and_then(|handle| model.token(handle.token))
            }
            None => Some(model.primary(station)),
        };
        if let (Some(token), true) = (token, counted(way).contains(&status)) {
            *self.0.entry((kind(model, token), way, status)).or_default() += 1;
        }
    }

    fn of(&self, root: Root, way: Way, status: u8) -> usize {
        self.0.get(&(root, way, status)).copied().unwrap_or(0)
    }

    /// Each was done to tokens of each kind so often at least.
    pub fn check(&self, least: usize) {
        for root in ROOTS {
            for way in WAYS {
                for &status in counted(way) {
                    let count = self.of(root, way, status);
                    assert!(count >= least, "{root:?}, {way:?}, status {status}: {count}");
                }
            }
        }
    }
}

/// What is asked, and of which handle's token; of the station's own when there is none.
fn asked(request: &Request) -> Option<(Way, Option<u32>)> {
    const PRIMARY: u32 = TokenType::Primary as u32;
    const ANONYMOUS: u32 = Level::Anonymous as u32;
    match *request {
        Request::Create { .. } | Request::CreatePacked { .. } => Some((Create, None)),
        Request::Duplicate { handle, kind: PRIMARY, .. } => Some((Primary, Some(handle))),
        Request::Duplicate { handle, level: ANONYMOUS, .. } => Some((Anonymous, Some(handle))),
        Request::Duplicate { handle, .. } => Some((Impersonation, Some(handle))),
        Request::Restrict { handle, .. } | Request::RestrictPacked { handle, .. } => {
            Some((Restrict, Some(handle)))
        }
        Request::Query { handle, class: STATISTICS, .. } => Some((Statistics, Some(handle))),
        _ => None,
    }
}

impl fmt::Display for RootCounts {
    fn fmt(&self, f: &mut fmt::Formatter) -> fmt::Result {
        write!(f, "roots      ")?;
        for way in WAYS {
            write!(f, "  {:>13}", format!("{way:?}"))?;
        }
        for root in ROOTS {
            write!(f, "\n{:11}", format!("{root:?}"))?;
            for way in WAYS {
                let got = |&status: &u8| format!("{status}: {}", self.of(root, way, status));
                let all: Vec<String> = counted(way).iter().map(got).collect();
                write!(f, "  {:>13}", all.join(" "))?;
            }
        }
        Ok(())
    }
}
