//! The SID table in the control words: a count, the rows' places by rising rows, and the rows.

use crate::layout::{control_word, CONTROL_WORDS, SID_ROW};
use crate::memory::{used, Memory};
use crate::number::Reader;
use crate::sid::Sid;
use crate::sid_table::{SidTable, SIDS};

/// Bytes of a word.
const WORD: usize = size_of::<u64>();

impl SidTable {
    /// The words of the table.
    pub(crate) fn words(&self) -> Vec<u64> {
        let rows: Vec<_> = self.sids().iter().map(Sid::row).collect();
        let mut places: Vec<usize> = (0..rows.len()).collect();
        places.sort_by_key(|&place| rows[place]);
        let mut words = vec![rows.len() as u64];
        words.extend(places.into_iter().map(|place| place as u64));
        words.resize(1 + SIDS, 0);
        words.extend(rows.into_flattened());
        words.resize(1 + SIDS + SIDS * SID_ROW, 0);
        words
    }
}

impl Sid {
    /// The packed SID, eight bytes a word, low byte first; zeros after it.
    pub fn row(&self) -> [u64; SID_ROW] {
        let mut row = [[0; WORD]; SID_ROW];
        let packed = self.packed();
        row.as_flattened_mut()[..packed.len()].copy_from_slice(&packed);
        row.map(u64::from_le_bytes)
    }

    /// The SID that a row holds; `None` for another row.
    pub(crate) fn of_row(row: &[u64]) -> Option<Sid> {
        let bytes: Vec<u8> = row.iter().flat_map(|word| word.to_le_bytes()).collect();
        let sid = Sid::read(&mut Reader::new(&bytes))?;
        (sid.row() == row).then_some(sid)
    }
}

/// The words of the table, which may hold anything.
pub(crate) struct TableWords<'a> {
    pub count: u64,
    places: &'a [u64],
    rows: &'a [u64],
}

impl TableWords<'_> {
    /// The places in use, and those after them.
    pub fn places(&self) -> (&[u64], &[u64]) {
        self.places.split_at(used(self.places, self.count))
    }

    /// The rows in use, and the words after them.
    pub fn rows(&self) -> (&[[u64; SID_ROW]], &[u64]) {
        let (rows, free) = self.rows.split_at(used(self.places, self.count) * SID_ROW);
        (rows.as_chunks().0, free)
    }

    /// The numbers in the table.
    pub fn numbers(&self) -> Vec<u64> {
        (0..self.places().0.len()).map(|place| SidTable::number_at(place).into()).collect()
    }
}

impl Memory {
    /// The words of the SID table.
    pub(crate) fn table_words(&self) -> TableWords<'_> {
        let (places, rows) = self.control[control_word::SID_PLACES..].split_at(SIDS);
        TableWords { count: self.control[control_word::SID_COUNT], places, rows }
    }

    /// The SID table; `None` when a row is not a SID's.
    pub(crate) fn sid_table(&self) -> Option<SidTable> {
        let rows = self.table_words();
        let sids = rows.rows().0.iter().map(|row| Sid::of_row(row)).collect::<Option<_>>()?;
        Some(SidTable::of(sids))
    }

    /// The packed SID that has this number. It asks for nothing but the control words' size, that the
    /// number is in their table, and that its row is a SID's.
    pub fn packed_sid(&self, number: u32) -> Option<Vec<u8>> {
        if self.control.len() != CONTROL_WORDS {
            return None;
        }
        let words = self.table_words();
        let rows = words.rows().0;
        let place = (0..rows.len()).find(|&place| SidTable::number_at(place) == number)?;
        Sid::of_row(&rows[place]).map(|sid| sid.packed())
    }
}
