//! SIDs and SID tables to draw from.

use model::{Model, Sid, SidTable, MAX_SUB_AUTHORITIES, SIDS};

use crate::rng::Rng;

/// The last number in the table of [`start_with_sids`].
const LAST_NUMBER: u32 = 99;
/// How many SIDs are common.
const COMMON: u32 = 48;

/// The start, with numbers up to 99 in the table.
pub(crate) fn start_with_sids() -> Model {
    let mut model = Model::start();
    let mut common = (0..).map(common_sid);
    while !model.sids.has(LAST_NUMBER) {
        model.sids.enter(common.next().expect("there is always one more"));
    }
    model
}

/// One SID after the other, of all lengths.
pub(crate) fn common_sid(at: u32) -> Sid {
    let given: Vec<u32> = (0..at % 16).map(|sub| at.wrapping_mul(0x9E37_79B1) >> sub).collect();
    let [high, low] = (at as u16).to_be_bytes();
    Sid::new([0, 0, 0, 1, high, low], &given).expect("at most 15")
}

/// Any SID; each length as likely.
pub(crate) fn any_sid(rng: &mut Rng) -> Sid {
    let count = rng.below(MAX_SUB_AUTHORITIES + 1);
    let given: Vec<u32> = (0..count).map(|_| rng.word() as u32 >> rng.below(32)).collect();
    let authority = rng.pick(&[[0, 0, 0, 0, 0, 5], [0; 6], [0xFF; 6], [1, 2, 3, 4, 5, 6]]);
    Sid::new(authority, &given).expect("at most 15")
}

/// A SID that differs by one byte, by one zero sub-authority more or by one sub-authority less.
pub(crate) fn near_sid(rng: &mut Rng, sid: Sid) -> Sid {
    let mut authority = sid.authority();
    let mut given = sid.sub_authorities().to_vec();
    let places = authority.len() + 4 * given.len();
    match rng.below(4) {
        0 if given.len() < MAX_SUB_AUTHORITIES => given.push(0),
        1 if !given.is_empty() => _ = given.pop(),
        _ => {
            let (at, flipped) = (rng.below(places), rng.bit(8));
            match at.checked_sub(authority.len()) {
                None => authority[at] ^= flipped as u8,
                Some(at) => given[at / 4] ^= (flipped as u32) << (8 * (at % 4)),
            }
        }
    }
    Sid::new(authority, &given).expect("at most 15")
}

/// A SID that is mostly not in the table: one near to one that is, a common one, or any.
pub(crate) fn new_sid(rng: &mut Rng, table: &SidTable) -> Sid {
    let old = rng.pick(table.sids());
    match rng.below(10) {
        0..=4 => near_sid(rng, old),
        5 | 6 => common_sid(rng.below(COMMON as usize) as u32),
        _ => any_sid(rng),
    }
}

/// A table of so many SIDs, which is two at least.
pub(crate) fn table_of(rng: &mut Rng, count: usize) -> SidTable {
    let mut table = SidTable::default();
    while table.sids().len() < count {
        let sid = new_sid(rng, &table);
        table.enter(sid);
    }
    table
}

/// A table of any size; now and then of the least, full or nearly so.
pub(crate) fn any_table(rng: &mut Rng) -> SidTable {
    let any = 2 + rng.below(SIDS - 1);
    let count = rng.pick(&[2, 3, 8, 30, 30, 60, any, SIDS - 1, SIDS, SIDS]);
    table_of(rng, count)
}

/// A few numbers in the table: the first, the last, one between, and those of the start.
pub(crate) fn few_numbers(table: &SidTable) -> Vec<u32> {
    let all = table.numbers();
    let places = [0, 1, 2, all.len() / 2, all.len() - 1].map(|place| place.min(all.len() - 1));
    let mut few = places.map(|place| all[place]).to_vec();
    few.dedup();
    few
}

/// Mostly one of a few numbers in the table, else any in it.
pub(crate) fn some_number(rng: &mut Rng, table: &SidTable) -> u32 {
    let numbers = if rng.percent(80) { few_numbers(table) } else { table.numbers() };
    rng.pick(&numbers)
}

/// A number that is not in the table.
pub(crate) fn unknown_number(rng: &mut Rng, table: &SidTable) -> u32 {
    let last = SidTable::number_at(table.sids().len() - 1);
    let next = if last < 32 { 32 } else { last + 1 };
    rng.pick(&[0, 6, 8, 17, 19, 31, next, next + 1, 286, u32::MAX])
}
