//! Bodies of request 18 with something wrong with their layout.

use model::Condition;

use crate::body::long_form;
use crate::condition_layout::{numbers, Role};
use crate::fields::{flat, Field};
use crate::rng::Rng;

/// Kinds that there are not.
const UNKNOWN_KINDS: [u64; 6] = [0, 6, 7, 127, 128, u32::MAX as u64];

/// The condition's bytes with one thing wrong with them, each as likely.
pub(crate) fn damaged(rng: &mut Rng, condition: &Condition) -> Vec<u8> {
    let mut roles = numbers(condition);
    if !roles.iter().any(|&(role, _)| role == Role::Count) {
        roles.splice(0..0, [(Role::Kind, Condition::ANY_OF.into()), (Role::Count, 1)]);
    }
    let at_count = place(rng, &roles, |role| role == Role::Count);
    let at_kind = place(rng, &roles, |role| role == Role::Kind);
    let any = rng.below(roles.len());
    let mut fields: Vec<Field> = roles.iter().map(|&(_, value)| Field::Number(value)).collect();
    let mut set = |at: usize, value| fields[at] = Field::Number(value);
    match rng.below(7) {
        0 => set(at_count, roles[at_count].1 + 1 + rng.below(3) as u64),
        1 => set(at_count, rng.pick(&[u32::MAX.into(), 1 << 31, 1 << 14])),
        2 => set(at_kind, rng.pick(&UNKNOWN_KINDS)),
        3 => set(any, roles[any].1 | rng.pick(&[1 << 32, 1 << 35, 1 << 63])),
        4 => fields[any] = long_form(rng, &fields[any]),
        5 => fields.push(Field::Bytes((0..1 + rng.below(3)).map(|_| rng.word() as u8).collect())),
        _ => {
            let mut bytes = flat(&fields);
            bytes.truncate(rng.below(bytes.len()));
            return bytes;
        }
    }
    flat(&fields)
}

/// The place of one number of this role, of which there is one at least.
fn place(rng: &mut Rng, roles: &[(Role, u64)], is_it: impl Fn(Role) -> bool) -> usize {
    let places: Vec<usize> = (0..roles.len()).filter(|&at| is_it(roles[at].0)).collect();
    rng.pick(&places)
}
