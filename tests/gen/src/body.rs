//! Bodies of requests: mostly as wished, sometimes damaged.

use model::{Model, Request, LAST_REQUEST, MAX_BODY, MAX_GROUPS, MORE};

use crate::condition_damages;
use crate::fields::{fields, flat, Field};
use crate::packed_damages;
use crate::rng::Rng;
use crate::wishes::Wish;

/// The body of a random request for the station, of 1 to [`MAX_BODY`] bytes.
pub fn body(rng: &mut Rng, model: &Model, station: usize) -> Vec<u8> {
    let request = Wish { rng, model, station }.request();
    written(rng, &request)
}

/// The body of a random request 18.
pub fn condition_body(rng: &mut Rng, model: &Model, station: usize) -> Vec<u8> {
    let request = Wish { rng, model, station }.request_of(18);
    written(rng, &request)
}

/// The body of a random request that mostly has SIDs.
pub fn sid_body(rng: &mut Rng, model: &Model, station: usize) -> Vec<u8> {
    let request = Wish { rng, model, station }.with_sids();
    written(rng, &request)
}

/// The body of a random request of a list in which what was is put back.
pub(crate) fn switching_body(rng: &mut Rng, model: &Model, station: usize) -> Vec<u8> {
    let request = Wish { rng, model, station }.switching();
    written(rng, &request)
}

/// The request's bytes, sometimes damaged; a condition's and packed SIDs more often, in ways of their
/// own.
fn written(rng: &mut Rng, request: &Request) -> Vec<u8> {
    let fields = fields(request);
    let share = if fields.len() == 1 { 20 } else { 8 };
    let mut body = match request {
        Request::Evaluate { condition, .. } if rng.percent(20) => {
            [flat(&fields[..2]), condition_damages::damaged(rng, condition)].concat()
        }
        Request::CreatePacked { .. } | Request::RestrictPacked { .. } if rng.percent(12) => {
            packed_damages::damaged(rng, request).unwrap_or_else(|| flat(&fields))
        }
        _ if rng.percent(share) => damaged(rng, fields),
        _ => flat(&fields),
    };
    body.truncate(MAX_BODY);
    body
}

/// The fields with one thing wrong with them, most of the time; to a number alone, bytes are added.
fn damaged(rng: &mut Rng, mut fields: Vec<Field>) -> Vec<u8> {
    let way = if fields.len() == 1 { rng.pick(&[1, 5, 7]) } else { rng.below(8) };
    match way {
        0 => {
            let mut body = flat(&fields);
            body.truncate(1 + rng.below(body.len()));
            body
        }
        1 => {
            let rest = (0..1 + rng.below(3)).map(|_| rng.word() as u8).collect();
            [flat(&fields), rest].concat()
        }
        2 => {
            let at = rng.below(fields.len());
            fields[at] = long_form(rng, &fields[at]);
            flat(&fields)
        }
        3 => {
            let at = rng.below(fields.len());
            fields[at] = other_value(rng, &fields[at]);
            flat(&fields)
        }
        4 => {
            fields.remove(rng.below(fields.len()).max(1));
            flat(&fields)
        }
        5 => {
            let next = u64::from(LAST_REQUEST) + 1;
            fields[0] = Field::Number(rng.pick(&[0, next, next + 1, 200, u64::MAX]));
            flat(&fields)
        }
        6 => {
            let length = if rng.percent(20) { MAX_BODY } else { 1 + rng.below(20) };
            (0..length).map(|_| rng.word() as u8 >> rng.below(8)).collect()
        }
        _ => {
            let at = rng.below(fields.len());
            let copy = fields[at].clone();
            fields.insert(at, copy);
            flat(&fields)
        }
    }
}

/// The number in a longer form than the shortest.
pub(crate) fn long_form(rng: &mut Rng, field: &Field) -> Field {
    let mut bytes = field.bytes();
    for _ in 0..1 + rng.below(2) {
        if let Some(last) = bytes.last_mut() {
            *last |= MORE;
        }
        bytes.push(0);
    }
    Field::Bytes(bytes)
}

/// A count one off, a value at a limit or beyond the field's width.
fn other_value(rng: &mut Rng, field: &Field) -> Field {
    let Field::Number(number) = *field else {
        return field.clone();
    };
    let values = [
        number.wrapping_add(1),
        number.wrapping_sub(1),
        0,
        MAX_GROUPS as u64,
        MAX_GROUPS as u64 + 1,
        0xFFFF,
        0x1_0000,
        0xFFFF_FFFF,
        0x1_0000_0000,
        number.wrapping_add(0x1_0000_0000),
        u64::MAX,
    ];
    Field::Number(rng.pick(&values))
}
