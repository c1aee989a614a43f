//! A start for request 18.

use model::{
    Group, Handle, Mask, Model, Privileges, Token, ALL_PRIVILEGES, MAX_GROUPS, STATIONS, TOKENS,
};

use crate::rng::Rng;
use crate::sids::table_of;

/// SIDs of users, groups and restricting ones alike.
const SIDS: [u32; 6] = [18, 50, 60, 127, 128, 285];
/// Handles of each station.
const HANDLES_EACH: usize = 3;

/// A start at which each station has handles on tokens of all kinds to ask conditions of, and an own
/// token with some privileges enabled; now and then without the right.
pub fn with_conditions(rng: &mut Rng) -> Model {
    let mut model = Model::start();
    model.sids = table_of(rng, model::SIDS);
    for (slot, number) in (0..TOKENS).zip(1..) {
        model.tokens[slot] = Some(token(rng, number));
    }
    for station in 0..STATIONS {
        model.stations[station].token = 1 + rng.below(4) as u64;
        for own in 0..HANDLES_EACH {
            let at = station * HANDLES_EACH + own;
            let (station, number, token) =
                (station as u32, at as u32 + 1, (at % TOKENS) as u64 + 1);
            let lacking = Mask::ALL.0 & !Mask::QUERY.0;
            let mask = if rng.percent(10) { lacking } else { Mask::ALL.0 };
            model.handles[at] = Some(Handle { station, number, token, mask });
        }
    }
    model.next_token = TOKENS as u64 + 1;
    model.next_handle = (STATIONS * HANDLES_EACH) as u32 + 1;
    model
}

/// A primary token with privileges absent, disabled and enabled, and with none, few or as many groups as
/// there may be, whose SIDs repeat or not.
fn token(rng: &mut Rng, number: u64) -> Token {
    let present = rng.bits() & ALL_PRIVILEGES;
    let enabled = rng.bits() & present;
    let sids: Vec<u32> = match rng.below(6) {
        0 => vec![],
        1 => (100..).take(MAX_GROUPS).collect(),
        2 => (0..MAX_GROUPS).map(|_| rng.pick(&SIDS)).collect(),
        _ => (0..1 + rng.below(6)).map(|_| rng.pick(&SIDS)).collect(),
    };
    let user = rng.pick(&SIDS);
    Token {
        privileges: Privileges { present, enabled, default: 0, used: rng.bits() & ALL_PRIVILEGES },
        groups: sids.into_iter().map(|sid| group(rng, sid)).collect(),
        restricting: rng.some(&SIDS, 2),
        ..Token::bare(number, user, 9)
    }
}

/// A group, enabled, disabled or deny-only.
fn group(rng: &mut Rng, sid: u32) -> Group {
    let attributes = [Group::ENABLED_BY_DEFAULT | Group::ENABLED, Group::OWNER, Group::DENY_ONLY];
    Group { sid, attributes: attributes[rng.weighted(&[2, 2, 1])] }
}
