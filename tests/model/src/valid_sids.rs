//! Valid memory's rules of the SID table, and of the SID numbers that tokens keep.

use crate::layout::control_word;
use crate::memory::{Memory, TokenRow};
use crate::sid::Sid;
use crate::sid_table::{SidTable, SIDS};

/// The SIDs that every table has.
fn at_start() -> SidTable {
    SidTable::default()
}

pub(crate) fn sid_count_is_in_range(memory: &Memory) -> bool {
    (at_start().sids().len() as u64..=SIDS as u64).contains(&memory.table_words().count)
}

/// 7 and 18 as at the start.
pub(crate) fn first_sids_are_the_starts(memory: &Memory) -> bool {
    let rows: Vec<u64> = at_start().sids().iter().flat_map(Sid::row).collect();
    memory.control[control_word::SID_ROWS..].starts_with(&rows)
}

pub(crate) fn rows_are_sids(memory: &Memory) -> bool {
    memory.table_words().rows().0.iter().all(|row| Sid::of_row(row).is_some())
}

pub(crate) fn sids_are_different(memory: &Memory) -> bool {
    let mut rows = memory.table_words().rows().0.to_vec();
    rows.sort_unstable();
    rows.windows(2).all(|two| two[0] != two[1])
}

/// Each row's place stands there once, and no row after a higher one.
pub(crate) fn places_are_in_the_rows_order(memory: &Memory) -> bool {
    let words = memory.table_words();
    let (places, rows) = (words.places().0, words.rows().0);
    let mut each = places.to_vec();
    each.sort_unstable();
    let is_each_once = each.into_iter().eq(0..rows.len() as u64);
    is_each_once && places.is_sorted_by_key(|&place| rows[place as usize])
}

/// The user, the groups' SIDs and the restricting ones; so they are u32.
pub(crate) fn tokens_keep_numbers_in_the_table(memory: &Memory) -> bool {
    let numbers = memory.table_words().numbers();
    let has = |sid: u64| numbers.binary_search(&sid).is_ok();
    memory.live_tokens().all(|row| sids_of(&row).into_iter().all(has))
}

fn sids_of(row: &TokenRow) -> Vec<u64> {
    let groups = row.groups();
    let groups = groups.iter().map(|group| group.sid.into());
    let restricting = row.restricting_words().0.iter().copied();
    [row.user()].into_iter().chain(groups).chain(restricting).collect()
}
