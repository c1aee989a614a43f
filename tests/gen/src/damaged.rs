//! Memories damaged in every way, for tests to look at.

use model::{
    control_word, station_word, token_word, HandleRecord, Memory, Model, ATTRIBUTES_BIT, DACL_ROW,
    HANDLE_BYTES, MAX_BODY, MAX_DACL, MAX_GROUPS, MAX_RESTRICTING, PENDING_ROW, SIDS, SID_ROW,
    STATIONS, STATION_ROW, TOKENS, TOKEN_ROW,
};

use crate::damage_list::{Damage, DAMAGES};
use crate::rng::Rng;
use crate::seeds::{each_seed, one_seed};
use crate::state::state;

/// Shows `check` each damage on the random states of so many seeds; each finds a place ten times
/// at least.
pub fn each_damage(seeds: u64, mut check: impl FnMut(&Damage, &Model, Memory)) {
    for damage in DAMAGES {
        let mut applied = 0;
        each_seed(0..seeds, |_, rng| {
            let model = state(rng);
            if let Some(memory) = damage.apply(rng, &model) {
                check(damage, &model, memory);
                applied += 1;
            }
        });
        println!("{applied:5} {}: {}", damage.rule, damage.what);
        let enough = applied >= 10 || one_seed().is_some();
        assert!(enough, "{}, {}: {applied} times", damage.rule, damage.what);
    }
}

/// Writes a random or a telling value somewhere into memory of the right sizes.
pub fn poke(rng: &mut Rng, memory: &mut Memory) {
    let odd = rng.bits();
    let sizes = [MAX_GROUPS, MAX_DACL, MAX_BODY].map(|size| size as u64);
    let past = sizes.map(|size| size + 1);
    let live =
        memory.tokens.chunks(TOKEN_ROW).position(|row| row[token_word::NUMBER] != 0).unwrap_or(0);
    let number = memory.tokens[TOKEN_ROW * live + token_word::NUMBER];
    let about = [number.wrapping_sub(1), number, number.wrapping_add(1)];
    let few = [0, 1, 2, 3, 4, 8, PENDING_ROW as u64, 1 << 32, u64::MAX];
    let telling = [&few[..], &sizes, &past, &about].concat();
    let value = if rng.percent(10) { odd } else { rng.pick(&telling) };
    match rng.below(14) {
        0 => *any(rng, &mut memory.tokens) = value,
        1 => memory.tokens[TOKEN_ROW * live + rng.below(TOKEN_ROW)] ^= rng.bit(u64::BITS),
        2 => memory.tokens[TOKEN_ROW * live + rng.below(token_word::GROUPS)] = value,
        3 => *any(rng, &mut memory.dacls) = value as u8,
        4 => memory.dacls[DACL_ROW * live + rng.below(DACL_ROW)] = value as u8,
        5 => poke_handle(rng, &mut memory.handles, value),
        6 => *any(rng, &mut memory.control) = value,
        7 => *any(rng, &mut memory.pending) = value as u8,
        8 => {
            let row = control_word::STATIONS + STATION_ROW * rng.below(STATIONS);
            let word = rng.pick(&[station_word::CLIENT, station_word::CLIENT_LEVEL]);
            memory.control[row + word] = value;
        }
        9 => {
            let at = control_word::PAIRS + rng.below(control_word::SID_COUNT - control_word::PAIRS);
            let row = TOKEN_ROW * rng.below(TOKENS);
            let other = memory.tokens[row + rng.pick(&[token_word::NUMBER, token_word::SESSION])];
            memory.control[at] = rng.pick(&[value, other, other]);
        }
        10 => memory.pending[PENDING_ROW * rng.below(STATIONS) + rng.below(4)] = value as u8,
        11 => poke_token_sid(rng, &mut memory.tokens[TOKEN_ROW * live..][..TOKEN_ROW]),
        _ => poke_table(rng, &mut memory.control[control_word::SID_COUNT..], value),
    }
}

/// Writes another SID into a token's row: mostly a number that some tables have.
fn poke_token_sid(rng: &mut Rng, row: &mut [u64]) {
    let number = rng.pick(&[7, 18, 19, 31, 32, 33, 60, 61, 284, 285, 286]);
    let groups = row[token_word::GROUP_COUNT] as usize % MAX_GROUPS;
    let restricting = row[token_word::RESTRICTING_COUNT] as usize % MAX_RESTRICTING;
    match rng.below(3) {
        0 => row[token_word::USER] = number,
        1 => {
            let word = &mut row[token_word::GROUPS + rng.below(groups + 1)];
            *word = *word >> ATTRIBUTES_BIT << ATTRIBUTES_BIT | number;
        }
        _ => row[token_word::RESTRICTING + rng.below(restricting + 1)] = number,
    }
}

/// Changes the SID table: its count, a place, or a word of a row.
fn poke_table(rng: &mut Rng, table: &mut [u64], value: u64) {
    let count = table[0] as usize % (SIDS + 1);
    let rows = control_word::SID_ROWS - control_word::SID_COUNT;
    let (place, other) = (1 + rng.below(SIDS), 1 + rng.below(count + 1) % SIDS);
    let row = rows + SID_ROW * rng.below((count + 1).min(SIDS));
    match rng.below(7) {
        0 => table[0] = rng.pick(&[value, count as u64 + 1, (count as u64).wrapping_sub(1)]),
        1 => table[other] = rng.pick(&[value, table[place], count as u64]),
        2 => table.swap(other, place),
        3 => table[row] ^= rng.bit(u64::BITS),
        4 => table[row + rng.below(SID_ROW)] ^= rng.bit(u64::BITS),
        5 => table[row + rng.below(SID_ROW)] = value,
        _ => {
            let from = rows + SID_ROW * rng.below((count + 1).min(SIDS));
            table.copy_within(from..from + SID_ROW, row);
        }
    }
}

fn poke_handle(rng: &mut Rng, handles: &mut [HandleRecord], value: u64) {
    let (field, byte) = (rng.below(5), rng.below(HANDLE_BYTES));
    let handle = any(rng, handles);
    match field {
        0 => handle.station = value as u16,
        1 => handle.mask = value as u16,
        2 => handle.number = value as u32,
        3 => handle.token = value,
        _ => {
            let mut bytes = handle.bytes();
            bytes[byte] = value as u8;
            *handle = HandleRecord::from_bytes(&bytes);
        }
    }
}

/// Memory of the right sizes with anything in it.
pub fn garbage(rng: &mut Rng) -> Memory {
    filled_by(|| rng.word() as u8)
}

/// Memory of the right sizes with this byte everywhere.
pub fn filled(pattern: u8) -> Memory {
    filled_by(|| pattern)
}

fn filled_by(mut byte: impl FnMut() -> u8) -> Memory {
    let mut memory = Model::start().memory();
    for word in memory.tokens.iter_mut().chain(&mut memory.control) {
        *word = u64::from_ne_bytes(std::array::from_fn(|_| byte()));
    }
    for place in memory.dacls.iter_mut().chain(&mut memory.pending) {
        *place = byte();
    }
    memory.handles.fill_with(|| HandleRecord::from_bytes(&std::array::from_fn(|_| byte())));
    memory
}

fn any<'a, T>(rng: &mut Rng, items: &'a mut [T]) -> &'a mut T {
    &mut items[rng.below(items.len())]
}
