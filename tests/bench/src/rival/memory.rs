//! The lent parts, and the same parts as tables once their sizes are known to be right.

use super::layout::{
    station_word, word, ALL_PRIVILEGES, DACL_ROW, DEFAULT_ELEVATION, FIRST_ROWS, FIRST_SIDS,
    HANDLES, MAX_INTEGRITY, NEXT_HANDLE, NEXT_NUMBERS, NEXT_TOKEN, PAIRS, PAIR_ROW, PENDING_ROW,
    PRIMARY, SIDS, SID_ROW, STATIONS, STATION_ROW, SYSTEM_SID, TOKENS, TOKEN_ROW,
};

/// A handle's record; a free one is all zero.
#[derive(Clone, Copy, Default, PartialEq)]
#[allow(missing_docs)] // named as the handle's fields
pub struct Handle {
    pub station: u16,
    pub mask: u16,
    pub number: u32,
    pub token: u64,
}

/// The five parts as the host lends them.
#[derive(Clone)]
pub struct Parts {
    /// Token slots.
    pub tokens: Vec<u64>,
    /// Default DACLs.
    pub dacls: Vec<u8>,
    /// Handle records.
    pub handles: Vec<Handle>,
    /// Control words: next numbers, stations, pairs and SIDs.
    pub control: Vec<u64>,
    /// Pending bytes.
    pub pending: Vec<u8>,
}

/// A station's words.
pub struct Station {
    pub token: u64,
    pub count: u64,
    pub broken: u64,
    pub acts_for: u64,
    pub in_force: u64,
}

impl Station {
    #[inline]
    pub fn new(words: &[u64; STATION_ROW]) -> Self {
        Station {
            token: words[station_word::TOKEN],
            count: words[station_word::PENDING_COUNT],
            broken: words[station_word::BROKEN],
            acts_for: words[station_word::ACTS_FOR],
            in_force: words[station_word::IN_FORCE],
        }
    }
}

pub type Row = [u64; TOKEN_ROW];
pub type SidRow = [u64; SID_ROW];

/// The SID table.
pub struct Table<'a> {
    pub count: &'a mut u64,
    /// The rows' places, by rising rows.
    pub places: &'a mut [u64; SIDS],
    /// By number.
    pub rows: &'a mut [SidRow; SIDS],
}

/// The parts as tables.
pub struct Memory<'a> {
    pub tokens: &'a mut [Row; TOKENS],
    pub dacls: &'a mut [[u8; DACL_ROW]; TOKENS],
    pub handles: &'a mut [Handle; HANDLES],
    pub next: &'a mut [u64; NEXT_NUMBERS],
    pub stations: &'a mut [[u64; STATION_ROW]; STATIONS],
    pub pairs: &'a mut [[u64; PAIR_ROW]; PAIRS],
    pub sids: Table<'a>,
    pub pending: &'a mut [[u8; PENDING_ROW]; STATIONS],
}

impl Parts {
    /// The tables, when each part has its size.
    pub fn view(&mut self) -> Option<Memory<'_>> {
        let (next, rows) = self.control.split_first_chunk_mut()?;
        let (stations, rows) = rows.split_at_mut_checked(STATIONS * STATION_ROW)?;
        let (pairs, rows) = rows.split_at_mut_checked(PAIRS * PAIR_ROW)?;
        let (count, rows) = rows.split_first_mut()?;
        let (places, rows) = rows.split_first_chunk_mut()?;
        Some(Memory {
            tokens: table(&mut self.tokens)?,
            dacls: table(&mut self.dacls)?,
            handles: self.handles.as_mut_slice().try_into().ok()?,
            next,
            stations: table(stations)?,
            pairs: table(pairs)?,
            sids: Table { count, places, rows: table(rows)? },
            pending: table(&mut self.pending)?,
        })
    }
}

/// A slice as so many rows; `None` when it is longer or shorter.
fn table<T, const WIDTH: usize, const ROWS: usize>(
    items: &mut [T],
) -> Option<&mut [[T; WIDTH]; ROWS]> {
    let (rows, rest) = items.as_chunks_mut();
    if rest.is_empty() {
        rows.try_into().ok()
    } else {
        None
    }
}

impl Memory<'_> {
    pub fn start(&mut self) {
        *self.tokens = [[0; TOKEN_ROW]; TOKENS];
        let row = &mut self.tokens[0];
        row[word::NUMBER] = 1;
        row[word::MODIFIED] = 1;
        row[word::ROOT] = 1;
        row[word::SESSION] = 999;
        row[word::USER] = SYSTEM_SID;
        row[word::TYPE] = PRIMARY;
        row[word::ELEVATION] = DEFAULT_ELEVATION;
        row[word::INTEGRITY] = MAX_INTEGRITY;
        for privileges in [word::PRESENT, word::ENABLED, word::DEFAULT] {
            row[privileges] = ALL_PRIVILEGES;
        }
        self.dacls.as_flattened_mut().fill(0);
        self.pending.as_flattened_mut().fill(0);
        *self.handles = [Handle::default(); HANDLES];
        self.next[NEXT_TOKEN] = 2;
        self.next[NEXT_HANDLE] = 1;
        *self.stations = [[0; STATION_ROW]; STATIONS];
        self.stations.iter_mut().for_each(|words| words[station_word::TOKEN] = 1);
        *self.pairs = [[0; PAIR_ROW]; PAIRS];
        *self.sids.count = FIRST_SIDS as u64;
        *self.sids.places = [0; SIDS];
        self.sids.places[1] = 1;
        self.sids.rows.as_flattened_mut().fill(0);
        self.sids.rows[..FIRST_SIDS].copy_from_slice(&FIRST_ROWS);
    }

    pub fn station(&self, station: usize) -> Station {
        Station::new(&self.stations[station])
    }
}
