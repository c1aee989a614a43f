//! Valid memory, the papers' "memory in order": one function for each rule of that paragraph and of what
//! document 02 adds to it.

use std::collections::HashSet;

use crate::frame::may_be_pending;
use crate::layout::{
    control_word, CONTROL_WORDS, DACL_BYTES, HANDLE_ROWS, PENDING_BYTES, TOKEN_WORDS,
};
use crate::memory::{Memory, PairRow, StationRow, TokenRow};
use crate::privileges::ALL_PRIVILEGES;
use crate::record::HandleRecord;
use crate::rights::Mask;
use crate::state::STATIONS;
use crate::token::{
    Elevation, Group, Level, TokenType, INTEGRITY_LEVELS, MAX_DACL, MAX_GROUPS, MAX_RESTRICTING,
};
use crate::valid_sids::{
    first_sids_are_the_starts, places_are_in_the_rows_order, rows_are_sids, sid_count_is_in_range,
    sids_are_different, tokens_keep_numbers_in_the_table,
};

/// A rule's name and its check; all but the first are for memory of the right size.
pub type Rule = (&'static str, fn(&Memory) -> bool);

/// The rules in the papers' order.
pub const RULES: &[Rule] = &[
    ("size", size_is_right),
    ("next numbers", next_numbers_are_not_0),
    ("numbers", numbers_are_distinct_and_below_next),
    ("references", references_are_live),
    ("station tokens", station_tokens_are_primary),
    ("referred to", every_token_is_referred_to),
    ("free", free_slots_are_zero),
    ("ranges", values_are_in_range),
    ("within present", default_and_enabled_are_within_present),
    ("existing privileges", present_and_used_exist),
    ("attributes", attributes_are_known),
    ("primary level", primary_tokens_have_level_0),
    ("indexes", index_targets_are_allowed),
    ("deny-only", deny_only_groups_are_not_enabled),
    ("pending", pending_could_have_come_from_a_stream),
    ("roots", roots_are_at_most_the_number),
    ("client tokens", client_tokens_are_for_impersonation),
    ("client levels", levels_in_force_are_at_most_the_tokens_own),
    ("pair sessions", pairs_are_of_different_sessions),
    ("paired types", paired_tokens_are_primary),
    ("paired elevations", paired_tokens_are_full_and_limited),
    ("paired users", paired_tokens_are_of_one_user),
    ("paired sessions", paired_tokens_are_of_the_pairs_session),
    ("SID count", sid_count_is_in_range),
    ("first SIDs", first_sids_are_the_starts),
    ("SIDs", rows_are_sids),
    ("different SIDs", sids_are_different),
    ("SID places", places_are_in_the_rows_order),
    ("token SIDs", tokens_keep_numbers_in_the_table),
];

impl Memory {
    /// Whether the memory is valid.
    pub fn is_valid(&self) -> bool {
        RULES.iter().all(|(_, holds)| holds(self))
    }

    /// The names of the rules that the memory breaks.
    pub fn broken_rules(&self) -> Vec<&'static str> {
        if !size_is_right(self) {
            return vec![RULES[0].0];
        }
        RULES.iter().filter(|(_, holds)| !holds(self)).map(|&(name, _)| name).collect()
    }

    /// Whether each part has its size.
    pub fn has_right_sizes(&self) -> bool {
        size_is_right(self)
    }

    pub(crate) fn live_tokens(&self) -> impl Iterator<Item = TokenRow<'_>> {
        self.token_rows().filter(|row| row.number() != 0)
    }

    fn live_handles(&self) -> impl Iterator<Item = &HandleRecord> {
        self.handles.iter().filter(|handle| handle.number != 0)
    }

    /// The live tokens of this number: one, unless two have it.
    fn tokens_numbered(&self, number: u64) -> impl Iterator<Item = TokenRow<'_>> {
        self.live_tokens().filter(move |row| row.number() == number)
    }

    /// The stations that act for a token.
    fn acting_stations(&self) -> impl Iterator<Item = StationRow<'_>> {
        self.station_rows().filter(StationRow::has_client)
    }

    /// The places with a pair.
    fn live_pairs(&self) -> impl Iterator<Item = PairRow<'_>> {
        self.pair_rows().filter(|row| !row.is_free())
    }

    /// Whether this holds of each pair and each of its tokens.
    fn all_paired(&self, holds: impl Fn(PairRow, TokenRow) -> bool) -> bool {
        self.live_pairs().all(|pair| {
            let numbers = [pair.elevated(), pair.filtered()].into_iter();
            numbers.flat_map(|number| self.tokens_numbered(number)).all(|row| holds(pair, row))
        })
    }

    /// Every token number that a handle, a station or a pair refers to, the station as its own or as
    /// its client's.
    fn references(&self) -> HashSet<u64> {
        let handles = self.live_handles().map(|handle| handle.token);
        let primaries = self.station_rows().map(|row| row.token);
        let clients = self.acting_stations().map(|row| row.client);
        let paired = self.live_pairs().flat_map(|row| [row.elevated(), row.filtered()]);
        handles.chain(primaries).chain(clients).chain(paired).collect()
    }
}

fn size_is_right(memory: &Memory) -> bool {
    memory.tokens.len() == TOKEN_WORDS
        && memory.dacls.len() == DACL_BYTES
        && memory.handles.len() == HANDLE_ROWS
        && memory.control.len() == CONTROL_WORDS
        && memory.pending.len() == PENDING_BYTES
}

fn next_numbers_are_not_0(memory: &Memory) -> bool {
    memory.control[control_word::NEXT_TOKEN] != 0 && memory.control[control_word::NEXT_HANDLE] != 0
}

fn numbers_are_distinct_and_below_next(memory: &Memory) -> bool {
    let tokens: Vec<u64> = memory.live_tokens().map(|row| row.number()).collect();
    let handles: Vec<u64> = memory.live_handles().map(|handle| handle.number.into()).collect();
    let all_below = |numbers: &[u64], next| numbers.iter().all(|&number| number < next);
    are_distinct(&tokens)
        && are_distinct(&handles)
        && all_below(&tokens, memory.control[control_word::NEXT_TOKEN])
        && all_below(&handles, memory.control[control_word::NEXT_HANDLE])
}

fn are_distinct(numbers: &[u64]) -> bool {
    numbers.iter().collect::<HashSet<_>>().len() == numbers.len()
}

fn references_are_live(memory: &Memory) -> bool {
    let live: HashSet<u64> = memory.live_tokens().map(|row| row.number()).collect();
    memory.references().is_subset(&live)
}

fn station_tokens_are_primary(memory: &Memory) -> bool {
    let of_stations: HashSet<u64> = memory.station_rows().map(|row| row.token).collect();
    memory
        .live_tokens()
        .filter(|row| of_stations.contains(&row.number()))
        .all(|row| row.kind() == TokenType::Primary as u64)
}

fn every_token_is_referred_to(memory: &Memory) -> bool {
    let references = memory.references();
    memory.live_tokens().all(|row| references.contains(&row.number()))
}

fn free_slots_are_zero(memory: &Memory) -> bool {
    let token_is_clean = |row: TokenRow| {
        if row.number() == 0 {
            all_zero(row.words) && all_zero(row.dacl)
        } else {
            all_zero(row.group_words().1)
                && all_zero(row.restricting_words().1)
                && all_zero(row.dacl_bytes().1)
        }
    };
    memory.token_rows().all(token_is_clean)
        && memory.handles.iter().all(|handle| handle.number != 0 || all_zero(&handle.bytes()))
        && memory.station_rows().all(|row| all_zero(row.past_pending()))
        && memory.pair_rows().all(|row| !row.is_free() || all_zero(row.0))
        && all_zero(memory.table_words().places().1)
        && all_zero(memory.table_words().rows().1)
}

fn all_zero<T: Default + PartialEq>(items: &[T]) -> bool {
    items.iter().all(|item| *item == T::default())
}

fn values_are_in_range(memory: &Memory) -> bool {
    memory.live_tokens().all(|row| token_is_in_range(&row))
        && memory.live_handles().all(|handle| {
            usize::from(handle.station) < STATIONS && Mask(handle.mask.into()).is_valid()
        })
        && memory.station_rows().all(|row| row.broken <= 1)
        && memory.control[control_word::NEXT_HANDLE] <= u32::MAX.into()
}

fn token_is_in_range(row: &TokenRow) -> bool {
    let is_u32 = |word: u64| word <= u32::MAX.into();
    is_u32(row.scope())
        && TokenType::from_number(row.kind()).is_some()
        && Level::from_number(row.level()).is_some()
        && Elevation::from_number(row.elevation()).is_some()
        && row.marks().iter().all(|&mark| mark <= 1)
        && INTEGRITY_LEVELS.iter().any(|&integrity| row.integrity() == integrity.into())
        && row.group_count() <= MAX_GROUPS as u64
        && row.restricting_count() <= MAX_RESTRICTING as u64
        && row.dacl_length() <= MAX_DACL as u64
}

fn default_and_enabled_are_within_present(memory: &Memory) -> bool {
    memory
        .live_tokens()
        .map(|row| row.privileges())
        .all(|privileges| (privileges.default | privileges.enabled) & !privileges.present == 0)
}

fn present_and_used_exist(memory: &Memory) -> bool {
    memory
        .live_tokens()
        .map(|row| row.privileges())
        .all(|privileges| (privileges.present | privileges.used) & !ALL_PRIVILEGES == 0)
}

fn attributes_are_known(memory: &Memory) -> bool {
    memory
        .live_tokens()
        .flat_map(|row| row.groups())
        .all(|group| group.attributes & !Group::ALL == 0 && group.logon_is_whole())
}

fn primary_tokens_have_level_0(memory: &Memory) -> bool {
    memory.live_tokens().all(|row| row.kind() != TokenType::Primary as u64 || row.level() == 0)
}

fn index_targets_are_allowed(memory: &Memory) -> bool {
    memory.live_tokens().all(|row| {
        let groups = row.groups();
        let owner_is_allowed = match usize::try_from(row.owner()) {
            Ok(0) => true,
            Ok(k) => groups.get(k - 1).is_some_and(|group| group.has(Group::OWNER)),
            Err(_) => false,
        };
        owner_is_allowed && row.primary_group() <= groups.len() as u64
    })
}

fn deny_only_groups_are_not_enabled(memory: &Memory) -> bool {
    let mut groups = memory.live_tokens().flat_map(|row| row.groups());
    groups.all(|group| !group.has(Group::DENY_ONLY | Group::ENABLED))
}

fn pending_could_have_come_from_a_stream(memory: &Memory) -> bool {
    memory.station_rows().all(|row| {
        let count_is_whole = row.pending().len() as u64 == row.count;
        let broken_keeps_none = row.broken == 0 || row.count == 0;
        count_is_whole && broken_keeps_none && may_be_pending(row.pending())
    })
}

fn roots_are_at_most_the_number(memory: &Memory) -> bool {
    memory.live_tokens().all(|row| row.root() <= row.number())
}

fn client_tokens_are_for_impersonation(memory: &Memory) -> bool {
    memory
        .acting_stations()
        .flat_map(|station| memory.tokens_numbered(station.client))
        .all(|row| row.kind() == TokenType::Impersonation as u64)
}

/// Where there is no client, the level is 0.
fn levels_in_force_are_at_most_the_tokens_own(memory: &Memory) -> bool {
    memory.station_rows().all(|station| {
        if station.has_client() {
            let mut tokens = memory.tokens_numbered(station.client);
            tokens.all(|row| station.client_level <= row.level())
        } else {
            station.client_level == 0
        }
    })
}

fn pairs_are_of_different_sessions(memory: &Memory) -> bool {
    are_distinct(&memory.live_pairs().map(|pair| pair.session()).collect::<Vec<_>>())
}

fn paired_tokens_are_primary(memory: &Memory) -> bool {
    memory.all_paired(|_, row| row.kind() == TokenType::Primary as u64)
}

/// So they are two.
fn paired_tokens_are_full_and_limited(memory: &Memory) -> bool {
    let has = |number, elevation| {
        memory.tokens_numbered(number).all(|row| row.elevation() == elevation as u64)
    };
    memory.live_pairs().all(|pair| {
        has(pair.elevated(), Elevation::Full) && has(pair.filtered(), Elevation::Limited)
    })
}

fn paired_tokens_are_of_one_user(memory: &Memory) -> bool {
    memory.live_pairs().all(|pair| {
        let users = |number| memory.tokens_numbered(number).map(|row| row.user());
        let both: HashSet<u64> = users(pair.elevated()).chain(users(pair.filtered())).collect();
        both.len() <= 1
    })
}

fn paired_tokens_are_of_the_pairs_session(memory: &Memory) -> bool {
    memory.all_paired(|pair, row| row.session() == pair.session())
}
