//! The test of all lent memory. Loops over bytes gather by OR, so that they run many at a time.

use super::groups::attribute;
use super::layout::{
    pair_word, word, ALL_PRIVILEGES, ANONYMOUS, ATTRIBUTES, DACL_ROW, DELEGATION, DENY_ONLY,
    ENABLED, FULL, GIVEN, GROUPS, HANDLES, IMPERSONATION, INTEGRITY_STEP, LIMITED, LOGON_ID,
    MAX_BODY, MAX_DACL, MAX_GROUPS, MAX_INTEGRITY, MAX_LENGTH_BYTES, MAX_RESTRICTING, NEXT_HANDLE,
    NEXT_TOKEN, OWNER, PAIR_ROW, PRIMARY, STATIONS, TOKENS,
};
use super::memory::{Handle, Memory, Row, Station};
use super::reader::MORE;
use super::records::is_mask;
use super::stream::length;
use super::table::are_outside;

impl Memory<'_> {
    pub fn is_valid(&self) -> bool {
        let numbers: [u64; TOKENS] = std::array::from_fn(|slot| self.tokens[slot][word::NUMBER]);
        self.numbers_are_valid(&numbers)
            && self.sids.is_valid()
            && self
                .tokens
                .iter()
                .zip(self.dacls.iter())
                .all(|(row, dacl)| token_is_valid(row, dacl, *self.sids.count))
            && self.streams_are_valid()
            && self.references_are_valid(&numbers)
    }

    fn numbers_are_valid(&self, numbers: &[u64; TOKENS]) -> bool {
        let (next_token, next_handle) = (self.next[NEXT_TOKEN], self.next[NEXT_HANDLE]);
        let handles: [u32; HANDLES] = std::array::from_fn(|slot| self.handles[slot].number);
        let below = |bad: bool, number: u64, next: u64| bad | (number >= next);
        next_token != 0
            && next_handle != 0
            && next_handle <= u32::MAX.into()
            && !numbers.iter().fold(false, |bad, &number| below(bad, number, next_token))
            && !handles.iter().fold(false, |bad, &number| below(bad, number.into(), next_handle))
            && are_distinct(numbers)
            && are_distinct(&handles)
    }

    /// Every handle, station and pair refers to live tokens, and every live token is referred to.
    fn references_are_valid(&self, numbers: &[u64; TOKENS]) -> bool {
        let of_all = [self.of_handles(numbers), self.of_stations(numbers), self.of_pairs(numbers)];
        let [Some(handles), Some(stations), Some(pairs)] = of_all else { return false };
        let live = (0..TOKENS).fold(0, |live, slot| live | u32::from(numbers[slot] != 0) << slot);
        live == handles | stations | pairs
    }

    /// The slots that handles refer to; `None` if one is not as it should be.
    fn of_handles(&self, numbers: &[u64; TOKENS]) -> Option<u32> {
        let mut referred = 0;
        for handle in self.handles.iter() {
            if handle.number == 0 {
                if *handle != Handle::default() {
                    return None;
                }
                continue;
            }
            let slots = slots_of(numbers, handle.token);
            let in_range = usize::from(handle.station) < STATIONS && is_mask(handle.mask.into());
            if slots == 0 || !in_range {
                return None;
            }
            referred |= slots;
        }
        Some(referred)
    }

    /// The same of stations.
    fn of_stations(&self, numbers: &[u64; TOKENS]) -> Option<u32> {
        let mut referred = 0;
        for words in self.stations.iter() {
            let Station { token, acts_for, in_force, .. } = Station::new(words);
            let [own, other] = [token, acts_for].map(|number| slots_of(numbers, number));
            if own == 0 || self.row(own)[word::TYPE] != PRIMARY {
                return None;
            }
            let is_good = match acts_for {
                0 => in_force == 0,
                _ => other != 0 && may_be_acted_for(self.row(other), in_force),
            };
            if !is_good {
                return None;
            }
            referred |= own | other;
        }
        Some(referred)
    }

    /// The same of pairs.
    fn of_pairs(&self, numbers: &[u64; TOKENS]) -> Option<u32> {
        let mut referred = 0;
        for (place, pair) in self.pairs.iter().enumerate() {
            if pair[pair_word::ELEVATED] == 0 {
                if !words_are_zero(pair) {
                    return None;
                }
                continue;
            }
            let [elevated, filtered] = [pair_word::ELEVATED, pair_word::FILTERED]
                .map(|word| slots_of(numbers, pair[word]));
            let of_session = |other: &[u64; PAIR_ROW]| {
                other[pair_word::ELEVATED] != 0
                    && other[pair_word::SESSION] == pair[pair_word::SESSION]
            };
            if elevated == 0 || filtered == 0 || self.pairs[..place].iter().any(of_session) {
                return None;
            }
            if !are_a_pair(self.row(elevated), self.row(filtered), pair[pair_word::SESSION]) {
                return None;
            }
            referred |= elevated | filtered;
        }
        Some(referred)
    }

    /// The row of the lowest of these slots.
    fn row(&self, slots: u32) -> &Row {
        &self.tokens[slots.trailing_zeros() as usize]
    }

    fn streams_are_valid(&self) -> bool {
        self.stations.iter().zip(self.pending.iter()).all(|(words, row)| {
            let Station { count, broken, .. } = Station::new(words);
            let Some(rest) = usize::try_from(count).ok().and_then(|count| row.get(count..)) else {
                return false;
            };
            let count = count as usize;
            let begins = match (count, row[0], row[1]) {
                (0, ..) => broken <= 1,
                (_, 0, _) => false,
                (count, first @ ..MORE, _) => count <= first.into(),
                (1, ..) => true,
                (_, _, 0 | MORE..) => false,
                (count, first, second) => {
                    let length = length(first, second);
                    length <= MAX_BODY && count < MAX_LENGTH_BYTES + length
                }
            };
            begins && (count == 0 || broken == 0) && bytes_are_zero(rest)
        })
    }
}

fn may_be_acted_for(row: &Row, in_force: u64) -> bool {
    row[word::TYPE] == IMPERSONATION && in_force <= row[word::LEVEL]
}

/// Full and Limited, so two of them; primary, of the session and of one user.
fn are_a_pair(elevated: &Row, filtered: &Row, session: u64) -> bool {
    elevated[word::ELEVATION] == FULL
        && filtered[word::ELEVATION] == LIMITED
        && elevated[word::USER] == filtered[word::USER]
        && [elevated, filtered]
            .iter()
            .all(|row| row[word::TYPE] == PRIMARY && row[word::SESSION] == session)
}

/// The slots with this number, as bits; none for 0.
fn slots_of(numbers: &[u64; TOKENS], number: u64) -> u32 {
    let found =
        (0..TOKENS).fold(0, |slots, slot| slots | u32::from(numbers[slot] == number) << slot);
    if number == 0 {
        0
    } else {
        found
    }
}

/// Whether no number but 0 stands there twice.
fn are_distinct<T: Copy + Default + PartialEq, const N: usize>(numbers: &[T; N]) -> bool {
    let mut twice = false;
    for (at, &number) in numbers.iter().enumerate() {
        if number != T::default() {
            let same = |found: bool, &other: &T| found | (other == number);
            twice |= numbers[at + 1..].iter().fold(false, same);
        }
    }
    !twice
}

fn words_are_zero(words: &[u64]) -> bool {
    words.iter().fold(0, |all, word| all | word) == 0
}

fn bytes_are_zero(bytes: &[u8]) -> bool {
    bytes.iter().fold(0, |all, byte| all | byte) == 0
}

fn token_is_valid(row: &Row, dacl: &[u8; DACL_ROW], table: u64) -> bool {
    if row[word::NUMBER] == 0 {
        return words_are_zero(row) && bytes_are_zero(dacl);
    }
    let (kind, level, integrity) = (row[word::TYPE], row[word::LEVEL], row[word::INTEGRITY]);
    let counts = [word::GROUP_COUNT, word::RESTRICTING_COUNT, word::DACL_LENGTH];
    let [groups, restricting, length] = counts.map(|word| row[word] as usize);
    row[word::SCOPE] >> u32::BITS == 0
        && row[word::USER] >> u32::BITS == 0
        && !are_outside(&row[word::USER..][..1], table)
        && (kind == PRIMARY && level == ANONYMOUS || kind == IMPERSONATION && level <= DELEGATION)
        && row[word::ELEVATION].wrapping_sub(1) < LIMITED
        && (row[word::WRITE_RESTRICTED] | row[word::USER_DENY_ONLY]) <= 1
        && integrity % INTEGRITY_STEP == 0
        && integrity <= MAX_INTEGRITY
        && row[word::ROOT] <= row[word::NUMBER]
        && (row[word::ENABLED] | row[word::DEFAULT]) & !row[word::PRESENT] == 0
        && (row[word::PRESENT] | row[word::USED]) & !ALL_PRIVILEGES == 0
        && groups <= MAX_GROUPS
        && restricting <= MAX_RESTRICTING
        && length <= MAX_DACL
        && lists_are_valid(row, groups, restricting, table)
        && bytes_are_zero(&dacl[length..])
}

fn lists_are_valid(row: &Row, groups: usize, restricting: usize, table: u64) -> bool {
    let (groups, rest) = row[GROUPS].split_at(groups);
    let (sids, free) = row[GROUPS.end..].split_at(restricting);
    let (mut all, mut both, mut halves) = (0, 0, 0);
    for group in groups {
        let attributes = (group >> ATTRIBUTES) as u32;
        all |= attributes;
        both |= attributes & (attributes >> 2);
        halves |= attributes ^ (attributes << 1);
    }
    const { assert!(DENY_ONLY == ENABLED << 2 && LOGON_ID == 3 << 30) };
    let bad = all & !(GIVEN | ENABLED) | both & ENABLED | halves & 1 << 31;
    let wide = sids.iter().fold(0, |all, sid| all | sid) >> u32::BITS;
    let outside = are_outside(groups, table) | are_outside(sids, table);
    let owns = match row[word::OWNER] {
        0 => true,
        owner => {
            let group = groups.get((owner - 1) as usize);
            group.is_some_and(|&group| attribute(group, OWNER))
        }
    };
    bad == 0
        && wide == 0
        && !outside
        && owns
        && row[word::PRIMARY_GROUP] <= groups.len() as u64
        && words_are_zero(rest)
        && words_are_zero(free)
}
