//! Bodies of requests 14 and 15 with a packed SID that breaks the layout.

use model::Request;

use crate::fields::{fields, flat, Field};
use crate::rng::Rng;

/// The request's bytes with one thing wrong with one of its SIDs; without one, `None`.
pub(crate) fn damaged(rng: &mut Rng, request: &Request) -> Option<Vec<u8>> {
    let mut fields = fields(request);
    let sids: Vec<usize> =
        (0..fields.len()).filter(|&at| matches!(fields[at], Field::Bytes(_))).collect();
    let at = rng.pick_any(&sids)?;
    let Field::Bytes(bytes) = &mut fields[at] else { return None };
    match rng.below(6) {
        0 => bytes[0] = rng.pick(&[0, 2, 3, 0x81, 0xFF]),
        1 => bytes[1] = rng.pick(&[16, 16, 17, 0x80, 0xFF]),
        2 => bytes[1] = bytes[1].wrapping_add(rng.pick(&[1, 0xFF])),
        3 => _ = bytes.remove(rng.below(bytes.len())),
        way => {
            let end = if way == 4 { rng.below(8) } else { rng.below(bytes.len()) };
            bytes.truncate(end);
            fields.truncate(at + 1);
        }
    }
    Some(flat(&fields))
}
