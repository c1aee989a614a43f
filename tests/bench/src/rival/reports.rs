//! Request 4: a report is written once, and kept when it fits.

use super::layout::{right, word, ATTRIBUTES, LAST_CLASS};
use super::memory::{Memory, Row};
use super::reader::{refuse, Body, Reader, Refused};
use super::requests::Served;

impl Memory<'_> {
    pub fn query(&mut self, station: usize, reader: &mut Reader, out: &mut Body) -> Served {
        let (handle, class, capacity) = (reader.u32(), reader.u32(), reader.u32());
        reader.end()?;
        let (_, slot) = self.granted(station, handle, right::QUERY)?;
        refuse(5, (1..=LAST_CLASS).contains(&class))?;
        let row = &self.tokens[slot];
        match class {
            1 => out.number(row[word::USER]),
            2 => {
                out.number(row[word::GROUP_COUNT]);
                for &group in &row[word::GROUPS..][..row[word::GROUP_COUNT] as usize] {
                    out.number(group & u64::from(u32::MAX));
                    out.number(group >> ATTRIBUTES);
                }
            }
            3 => [word::PRESENT, word::ENABLED, word::DEFAULT, word::USED]
                .into_iter()
                .for_each(|word| out.number(row[word])),
            4 => out.number(sid_at(row, row[word::OWNER])),
            5 => out.number(sid_at(row, row[word::PRIMARY_GROUP])),
            6 => {
                out.number(row[word::DACL_LENGTH]);
                out.extend(&self.dacls[slot][..row[word::DACL_LENGTH] as usize]);
            }
            7 => out.number(row[word::TYPE]),
            8 => out.number(row[word::LEVEL]),
            9 => [word::NUMBER, word::SESSION, word::MODIFIED, word::TYPE, word::ROOT]
                .into_iter()
                .for_each(|word| out.number(row[word])),
            10 => {
                out.number(row[word::RESTRICTING_COUNT]);
                let sids = &row[word::RESTRICTING..][..row[word::RESTRICTING_COUNT] as usize];
                sids.iter().for_each(|&sid| out.number(sid));
            }
            11 => out.number(row[word::SCOPE]),
            12 => out.number(row[word::ELEVATION]),
            _ => out.number(row[word::INTEGRITY]),
        }
        let size = out.len() as u64 - 1;
        if size > capacity.into() {
            return Err(Refused { status: 9, size });
        }
        Ok(())
    }
}

/// The SID that an index names: 0 the user, k group k - 1.
fn sid_at(row: &Row, index: u64) -> u64 {
    match index as usize {
        0 => row[word::USER],
        at => row[word::GROUPS + at - 1] & u64::from(u32::MAX),
    }
}
