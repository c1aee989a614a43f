//! Requests with packed SIDs to be timed: as many as there are slots for their tokens, so that new SIDs
//! always find room.

use gen::{fields, flat};
use model::{framed, Mask, Model, Request, Sid, ALL_PRIVILEGES, SIDS, TOKENS};

use crate::work::{Feeds, Work};

/// SIDs of each request: groups beside the user, or restricting ones.
const EACH: u32 = 16;
/// Requests in a list; the first token is there before.
const REQUESTS: u32 = TOKENS as u32 - 2;
/// The handle on the first token.
const HANDLE: u32 = 1;

/// The start with so many SIDs in the table.
pub fn with_sids(count: usize) -> Model {
    let mut model = Model::start();
    for at in 0.. {
        if model.sids.sids().len() == count {
            return model;
        }
        model.sids.enter(domain_sid(at));
    }
    model
}

/// A list for each request, with SIDs of the table and with new ones.
pub fn all() -> Vec<Work> {
    let (few, many) = (with_sids(2), with_sids(SIDS));
    vec![
        Work::new("empty chunk, 256 SIDs", &many, &vec![(0, vec![]); 1000]),
        Work::new("request 14, old SIDs", &opened(&many), &feeds(create)),
        Work::new("request 14, new SIDs", &opened(&few), &feeds(create)),
        Work::new("request 15, old SIDs", &opened(&many), &feeds(restrict)),
        Work::new("request 15, new SIDs", &opened(&few), &feeds(restrict)),
    ]
}

/// S-1-5-21 with a domain of three and a number.
fn domain_sid(at: u32) -> Sid {
    Sid::new([0, 0, 0, 0, 0, 5], &[21, 1_004_336_348, 1_177_238_915, 682_003_330, 1000 + at])
        .expect("at most 15")
}

/// The state with a handle on the first token.
fn opened(model: &Model) -> Model {
    let mut model = model.clone();
    let open = framed(&flat(&fields(&Request::Open { mask: Mask::ALL.0 })));
    assert_eq!(model.feed(0, &open, model::MIN_BUFFER).answer, [2, 0, HANDLE as u8]);
    model
}

/// Requests that have each SID once.
fn feeds(request: fn(Vec<Sid>) -> Request) -> Feeds {
    let request = |at: u32| {
        let sids = (at * (EACH + 1)..(at + 1) * (EACH + 1)).map(domain_sid);
        (0, framed(&flat(&fields(&request(sids.collect())))))
    };
    (0..REQUESTS).map(request).collect()
}

/// The first SID is the user's.
fn create(sids: Vec<Sid>) -> Request {
    Request::CreatePacked {
        user: sids[0],
        session: 7,
        integrity: 8192,
        present: ALL_PRIVILEGES,
        default: 0,
        groups: sids[1..].iter().map(|&sid| (sid, 2)).collect(),
    }
}

fn restrict(sids: Vec<Sid>) -> Request {
    let (handle, write_restricted, remove, deny) = (HANDLE, 0, 0, vec![]);
    let sids = sids[1..].to_vec();
    Request::RestrictPacked { handle, write_restricted, remove, deny, sids }
}
