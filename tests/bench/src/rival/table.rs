//! The SID table: rows by number, and their places by rising rows.

use super::layout::{
    ANONYMOUS_SID, FIRST_ENTERED, FIRST_ROWS, FIRST_SIDS, MAX_SUB_AUTHORITIES, NUMBERS, SIDS,
    SID_ROW, SYSTEM_SID,
};
use super::memory::{SidRow, Table};
use super::reader::Reader;

/// A SID of a request.
pub struct Named {
    row: SidRow,
    pub number: u32,
    /// Whether the number is in the table; a packed SID has none that is not.
    pub known: bool,
    /// Whether there was room for a packed one.
    pub room: bool,
}

impl Named {
    /// Whether it is this SID, which may have found no room.
    pub fn is<const PACKED: bool>(&self, other: &Named) -> bool {
        if PACKED {
            self.row == other.row
        } else {
            self.number == other.number
        }
    }
}

impl Table<'_> {
    /// The next SID of a request; a packed one is entered if it is new.
    pub fn read<const PACKED: bool>(&mut self, reader: &mut Reader) -> Named {
        if PACKED {
            let row = reader.sid();
            let entered = if row[0] == 0 { None } else { self.enter(&row) };
            let (number, room) = (entered.unwrap_or(0), entered.is_some());
            return Named { row, number, known: true, room };
        }
        let number = reader.u32();
        let known = !are_outside(&[number.into()], *self.count);
        Named { row: [0; SID_ROW], number, known, room: true }
    }

    /// The number of the SID, which is entered if it is new; `None` if there is no room.
    fn enter(&mut self, row: &SidRow) -> Option<u32> {
        let count = *self.count as usize;
        let by_row = |&place: &u64| self.rows[place as usize % SIDS].cmp(row);
        match self.places[..count].binary_search_by(by_row) {
            Ok(at) => Some(number_at(self.places[at] as usize)),
            Err(_) if count == SIDS => None,
            Err(at) => {
                self.places.copy_within(at..count, at + 1);
                self.places[at] = count as u64;
                self.rows[count] = *row;
                *self.count += 1;
                Some(number_at(count))
            }
        }
    }

    /// Takes out what was entered since there were so many.
    pub fn forget(&mut self, count: u64) {
        let (now, mut kept) = (*self.count as usize, 0);
        if now as u64 == count {
            return;
        }
        for at in 0..now {
            let place = self.places[at];
            if place < count {
                self.places[kept] = place;
                kept += 1;
            }
        }
        self.places[kept..now].fill(0);
        self.rows[kept..now].as_flattened_mut().fill(0);
        *self.count = count;
    }

    pub fn is_valid(&self) -> bool {
        let count = *self.count;
        if count < FIRST_SIDS as u64 || count > SIDS as u64 {
            return false;
        }
        let (places, free_places) = self.places.split_at(count as usize);
        let (rows, free_rows) = self.rows.split_at(count as usize);
        rows.starts_with(&FIRST_ROWS)
            && rows.iter().all(is_sid)
            && rise(places, rows)
            && is_zero(free_places)
            && is_zero(free_rows.as_flattened())
    }
}

/// Whether the places are of rows that rise, each above the one before.
fn rise(places: &[u64], rows: &[SidRow]) -> bool {
    let mut last: Option<&SidRow> = None;
    for &place in places {
        let row = usize::try_from(place).ok().and_then(|place| rows.get(place));
        match row {
            Some(row) if last.is_none_or(|last| last < row) => last = Some(row),
            _ => return false,
        }
    }
    true
}

/// Whether the row is a packed SID, and zero after it.
fn is_sid(row: &SidRow) -> bool {
    let (revision, count) = (row[0] as u8, (row[0] >> 8) as u8);
    if revision != 1 || count > MAX_SUB_AUTHORITIES {
        return false;
    }
    let (whole, half) = (1 + usize::from(count / 2), count % 2 == 1);
    let past = if half { row[whole] >> u32::BITS } else { row[whole] };
    past == 0 && is_zero(&row[whole + 1..])
}

fn is_zero(words: &[u64]) -> bool {
    words.iter().fold(0, |all, word| all | word) == 0
}

/// The number of the SID in this place.
fn number_at(place: usize) -> u32 {
    match place {
        0 => ANONYMOUS_SID as u32,
        1 => SYSTEM_SID as u32,
        _ => FIRST_ENTERED + (place - FIRST_SIDS) as u32,
    }
}

/// Whether the low halves of some words are not in a table of so many.
#[inline]
pub fn are_outside(words: &[u64], count: u64) -> bool {
    let entered = count as u32 - FIRST_SIDS as u32;
    let is_outside = |number: u32| {
        u32::from(number.wrapping_sub(FIRST_ENTERED) >= entered)
            & u32::from(number != ANONYMOUS_SID as u32)
            & u32::from(number != SYSTEM_SID as u32)
    };
    words.iter().fold(0, |all, &word| all | is_outside(word as u32)) != 0
}

/// A set of numbers in a table.
#[derive(Default)]
pub struct Numbers([u64; NUMBERS.div_ceil(64)]);

impl Numbers {
    /// Adds a number; one that no table has is left out.
    pub fn add(&mut self, number: u32) {
        if let Some(word) = self.0.get_mut(number as usize / 64) {
            *word |= 1 << (number % 64);
        }
    }

    pub fn has(&self, number: u64) -> bool {
        self.0[number as usize / 64] >> (number % 64) & 1 == 1
    }
}
