//! Lists of calls in which what was is put back, on copies of the state, now and then and at the end.

use model::{
    Group, Handle, Level, Mask, Model, Privileges, Token, TokenType, ALL_PRIVILEGES, STATIONS,
};

use crate::body::switching_body;
use crate::broker::{run_of, Step};
use crate::pairs::with_pairs;
use crate::put_back::{PutBack, Switches};
use crate::rng::Rng;
use crate::sids::start_with_sids;
use crate::state::state;

/// How many calls a list has.
const CALLS: usize = 300;
/// In so many of a hundred states all is put back that may be.
const SHARE: usize = 10;

/// A state to begin a list in that is not the start.
pub fn put_back_state(rng: &mut Rng) -> Model {
    match rng.below(3) {
        0 => with_shared(rng),
        1 => with_pairs(rng),
        _ => state(rng),
    }
}

/// Makes the calls of the seed's list and shows each, with what may then be put back.
pub fn put_back_list(
    seed: u64,
    rng: &mut Rng,
    first: Model,
    mut show: impl FnMut(&Step, &[PutBack]),
) {
    let mut switches = Switches::default();
    let mut left = CALLS;
    run_of(switching_body, seed, first, CALLS, |step| {
        switches.step(step);
        left -= 1;
        let is_time = left == 0 || rng.percent(SHARE);
        let put_backs = if is_time { switches.put_backs(rng, step.after) } else { vec![] };
        show(step, &put_backs);
    });
}

/// The tokens of [`with_shared`]: the stations' own and those to act for. All could be installed, acted
/// for or linked.
const OWN: usize = 3;
const SHARED: usize = 6;
const HANDLES_EACH: usize = 3;

/// A state in which each token has handles of several stations, and two of one of these.
fn with_shared(rng: &mut Rng) -> Model {
    let mut model = start_with_sids();
    for (slot, number) in (0..SHARED).zip(1..) {
        model.tokens[slot] = Some(shared(rng, number, slot < OWN));
    }
    for station in 0..STATIONS {
        model.stations[station].token = (station % OWN) as u64 + 1;
        for own in 0..HANDLES_EACH {
            let at = station * HANDLES_EACH + own;
            let token = ((station + own / 2) % SHARED) as u64 + 1;
            let lacking = Mask::ALL.0 & !Mask::ADJUST_PRIVILEGES.0;
            let mask = if rng.percent(15) { lacking } else { Mask::ALL.0 };
            let (station, number) = (station as u32, at as u32 + 1);
            model.handles[at] = Some(Handle { station, number, token, mask });
        }
    }
    model.next_token = SHARED as u64 + 1;
    model.next_handle = (STATIONS * HANDLES_EACH) as u32 + 1;
    model
}

/// A token whose privileges are absent, disabled or enabled, by default or not.
fn shared(rng: &mut Rng, number: u64, is_primary: bool) -> Token {
    let present = (rng.bits() | rng.bits()) & ALL_PRIVILEGES;
    let (enabled, default) = (rng.bits() & present, rng.bits() & present);
    let attributes = [Group::ENABLED_BY_DEFAULT | Group::ENABLED, Group::OWNER];
    let token = Token {
        privileges: Privileges { present, enabled, default, used: 0 },
        groups: attributes.map(|attributes| Group { sid: 60, attributes }).to_vec(),
        ..Token::bare(number, 50, 9)
    };
    if is_primary {
        return token;
    }
    Token { kind: TokenType::Impersonation, level: Level::Delegation, ..token }
}
