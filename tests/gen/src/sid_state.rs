//! A start for requests with SIDs.

use model::{Handle, Mask, Model, Privileges, Token, ALL_PRIVILEGES, CREATE_TOKEN, HANDLES};
use model::{SIDS, STATIONS, TOKENS};

use crate::rng::Rng;
use crate::sids::{some_number, table_of};

/// The tokens: two that stations have, with CreateToken held and not; restricted ones, marked or not; and
/// one that is marked alone.
const OWN: usize = 2;
const RESTRICTED: usize = 4;
const SOURCES: usize = OWN + RESTRICTED + 1;
/// Handles of each station.
const HANDLES_EACH: usize = 3;

/// A start for requests 3, 10, 14 and 15: the table has any size, mostly nearly that which it may have;
/// each station has handles on tokens that are restricted or not, now and then without the right. Now and
/// then all slots of tokens or of handles are taken.
pub fn with_sids(rng: &mut Rng) -> Model {
    let mut model = Model::start();
    let room = rng.pick(&[0, 0, 1, 1, 2, 3, 5, 9, 20, 40, SIDS - 40, SIDS - 3, SIDS - 2]);
    model.sids = table_of(rng, SIDS - room);
    let tokens = if rng.percent(12) { TOKENS } else { SOURCES };
    for (slot, number) in (0..tokens).zip(1..) {
        model.tokens[slot] = Some(token(rng, &model, number));
    }
    for station in 0..STATIONS {
        model.stations[station].token = if station < 6 { 1 } else { 2 };
    }
    place_handles(rng, &mut model, tokens);
    model.next_token = tokens as u64 + 1;
    model
}

fn token(rng: &mut Rng, model: &Model, number: u64) -> Token {
    let user = some_number(rng, &model.sids);
    let held = if number == 2 { ALL_PRIVILEGES & !(1 << CREATE_TOKEN) } else { ALL_PRIVILEGES };
    let count = match number as usize {
        ..=OWN | SOURCES => 0,
        _ => 1 + rng.below(4),
    };
    Token {
        privileges: Privileges::new(ALL_PRIVILEGES, held),
        restricting: (0..count).map(|_| some_number(rng, &model.sids)).collect(),
        write_restricted: number % 2 == 1 && number > 1,
        ..Token::bare(number, user, 9)
    }
}

/// Each station has so many handles; every token has one at least.
fn place_handles(rng: &mut Rng, model: &mut Model, tokens: usize) {
    let all = if rng.percent(10) { HANDLES } else { STATIONS * HANDLES_EACH };
    for at in 0..all {
        let lacking = Mask::ALL.0 & !Mask::DUPLICATE.0;
        let mask = if rng.percent(10) { lacking } else { Mask::ALL.0 };
        let (station, number) = ((at % STATIONS) as u32, at as u32 + 1);
        model.handles[at] = Some(Handle { station, number, token: (at % tokens) as u64 + 1, mask });
    }
    model.next_handle = all as u32 + 1;
}
