//! The requests on lent memory: reading, refusals in order, effect in place.

use super::groups::{attribute, in_word, Set, SET_WORDS, WORD_GROUPS};
use super::layout::{
    right, station_word, word, ALL_PRIVILEGES, ASSIGN_PRIMARY, DENY_ONLY, ENABLED,
    ENABLED_BY_DEFAULT, ENABLED_WORDS, LOGON_ID, MANDATORY, MAX_DACL, NO_CHANGE, OWNER, PRIMARY,
    RESET_GROUPS, RESET_PRIVILEGES, TCB,
};
use super::memory::{Handle, Memory};
use super::reader::{refuse, Body, Reader, Refused};
use super::records::is_mask;

pub type Served = Result<(), Refused>;

impl Memory<'_> {
    /// Serves a body; writes the answer and gives its length.
    pub fn serve(&mut self, station: usize, body: &[u8], answer: &mut [u8]) -> usize {
        let mut out = Body::new();
        out.number(0);
        if let Err(Refused { status, size }) = self.reply(station, body, &mut out) {
            out.clear();
            out.number(status.into());
            if status == 9 {
                out.number(size);
            }
        }
        out.write(answer)
    }

    fn reply(&mut self, station: usize, body: &[u8], out: &mut Body) -> Served {
        let mut reader = Reader::new(body);
        let reader = &mut reader;
        match reader.u32() {
            1 => self.open(station, reader, out),
            2 => self.close(station, reader),
            3 => self.create::<false>(station, reader, out),
            4 => self.query(station, reader, out),
            5 => self.adjust_privileges(station, reader, out),
            6 => self.adjust_groups(station, reader, out),
            7 => self.adjust_scope(station, reader),
            8 => self.adjust_default(station, reader),
            9 => self.duplicate(station, reader, out),
            10 => self.restrict::<false>(station, reader, out),
            11 => self.install(station, reader),
            12 => self.impersonate(station, reader, out),
            13 => self.revert(station, reader, out),
            14 => self.create::<true>(station, reader, out),
            15 => self.restrict::<true>(station, reader, out),
            16 => self.link(station, reader),
            17 => self.get_linked(station, reader, out),
            18 => self.evaluate(station, reader, out),
            _ => refuse(1, false),
        }
    }

    fn open(&mut self, station: usize, reader: &mut Reader, out: &mut Body) -> Served {
        let mask = reader.u32();
        reader.end()?;
        refuse(5, is_mask(mask))?;
        let slot = self.free_handle()?;
        let token = self.stations[station][station_word::TOKEN];
        out.number(self.place_handle(slot, station, token, mask));
        Ok(())
    }

    fn close(&mut self, station: usize, reader: &mut Reader) -> Served {
        let handle = reader.u32();
        reader.end()?;
        let slot = self.find(station, handle)?;
        let token = self.handles[slot].token;
        self.handles[slot] = Handle::default();
        self.free_if_last(token);
        Ok(())
    }

    fn adjust_privileges(&mut self, station: usize, reader: &mut Reader, out: &mut Body) -> Served {
        let (handle, count) = (reader.u32(), reader.u32());
        let (mut named, mut enable, mut disable, mut remove) = (0u64, 0, 0, 0);
        let (mut bad, mut reset) = (count == 0, false);
        reader.each(count, |reader| {
            let entry = (reader.u32(), reader.u32());
            reset = count == 1 && entry == RESET_PRIVILEGES;
            let bit = 1u64.checked_shl(entry.0).unwrap_or(0) & ALL_PRIVILEGES;
            bad |= bit == 0 || named & bit != 0;
            named |= bit;
            match entry.1 {
                0 => disable |= bit,
                2 => enable |= bit,
                4 => remove |= bit,
                _ => bad = true,
            }
        });
        reader.end()?;
        let (_, slot) = self.granted(station, handle, right::ADJUST_PRIVILEGES)?;
        let words = [word::PRESENT, word::ENABLED, word::DEFAULT];
        let [present, enabled, default] = words.map(|word| self.tokens[slot][word]);
        if reset {
            self.tokens[slot][word::ENABLED] = default;
            named = u64::MAX;
        } else {
            refuse(5, !bad && enable & !present == 0)?;
            let row = &mut self.tokens[slot];
            row[word::PRESENT] = present & !remove;
            row[word::ENABLED] = (enabled | enable) & !(disable | remove);
            row[word::DEFAULT] = default & !remove;
        }
        out.number(present & named);
        out.number(enabled & named);
        self.step_modified(slot);
        Ok(())
    }

    fn adjust_groups(&mut self, station: usize, reader: &mut Reader, out: &mut Body) -> Served {
        let (handle, count) = (reader.u32(), reader.u32());
        let (mut named, mut on) = (Set::default(), Set::default());
        let (mut bad, mut reset) = (count == 0, false);
        reader.each(count, |reader| {
            let entry = (reader.u32(), reader.u32());
            reset = count == 1 && entry == RESET_GROUPS;
            bad |= !named.add(entry.0) || entry.1 > 1;
            if entry.1 == 1 {
                on.add(entry.0);
            }
        });
        reader.end()?;
        let (_, slot) = self.granted(station, handle, right::ADJUST_GROUPS)?;
        let row = &mut self.tokens[slot];
        let (user, count) = (row[word::USER], row[word::GROUP_COUNT] as usize);
        let groups = &mut row[word::GROUPS..][..count];
        if !reset {
            refuse(5, !bad && named.is_below(count))?;
            let mut words = groups.chunks(WORD_GROUPS).zip(named.0.iter().zip(&on.0));
            let protected =
                words.any(|(groups, (&named, &on))| any_protected(groups, user, named, on));
            refuse(6, !protected)?;
        }
        let mut before = [0; SET_WORDS];
        let words = groups.chunks_mut(WORD_GROUPS).zip(named.0.iter().zip(&on.0));
        for (before, (groups, (&named, &on))) in before.iter_mut().zip(words) {
            *before = if reset { reset_word(groups) } else { adjust_word(groups, named, on) };
        }
        self.step_modified(slot);
        before.iter().for_each(|&word| out.number(word));
        out.extend(&[0; ENABLED_WORDS - SET_WORDS]);
        Ok(())
    }

    fn adjust_scope(&mut self, station: usize, reader: &mut Reader) -> Served {
        let (handle, value) = (reader.u32(), reader.u32());
        reader.end()?;
        let (_, slot) = self.granted(station, handle, right::ADJUST_SCOPE)?;
        let own = self.held(station, TCB)?;
        self.tokens[slot][word::SCOPE] = value.into();
        self.step_modified(slot);
        self.tokens[own][word::USED] |= 1 << TCB;
        Ok(())
    }

    fn adjust_default(&mut self, station: usize, reader: &mut Reader) -> Served {
        let handle = reader.u32();
        let (owner, group) = (reader.u16(), reader.u16());
        let (flag, length) = (reader.u32(), reader.u32());
        let dacl = reader.take(length);
        reader.end()?;
        let (_, slot) = self.granted(station, handle, right::ADJUST_DEFAULT)?;
        let row = &mut self.tokens[slot];
        let count = row[word::GROUP_COUNT] as usize;
        let may_own = match usize::from(owner) {
            0 => true,
            at => at <= count && attribute(row[word::GROUPS + at - 1], OWNER),
        };
        refuse(
            5,
            (flag == 0 && length == 0 || flag == 1 && length as usize <= MAX_DACL)
                && (owner == NO_CHANGE || may_own)
                && (group == NO_CHANGE || usize::from(group) <= count),
        )?;
        if owner != NO_CHANGE {
            row[word::OWNER] = owner.into();
        }
        if group != NO_CHANGE {
            row[word::PRIMARY_GROUP] = group.into();
        }
        if flag == 1 {
            row[word::DACL_LENGTH] = length.into();
            let (kept, free) = self.dacls[slot].split_at_mut(dacl.len());
            kept.copy_from_slice(dacl);
            free.fill(0);
        }
        self.step_modified(slot);
        Ok(())
    }

    fn install(&mut self, station: usize, reader: &mut Reader) -> Served {
        let handle = reader.u32();
        reader.end()?;
        let (handle, slot) = self.granted(station, handle, right::ASSIGN_PRIMARY)?;
        let own = self.held(station, ASSIGN_PRIMARY)?;
        let (old, new) = (&self.tokens[own], &self.tokens[slot]);
        refuse(5, new[word::TYPE] == PRIMARY)?;
        let differs =
            old[word::SESSION] != new[word::SESSION] || old[word::USER] != new[word::USER];
        refuse(7, !differs || old[word::ENABLED] >> TCB & 1 == 1)?;
        self.tokens[own][word::USED] |= 1 << ASSIGN_PRIMARY | u64::from(differs) << TCB;
        let token = &mut self.stations[station][station_word::TOKEN];
        let number = std::mem::replace(token, handle.token);
        self.free_if_last(number);
        Ok(())
    }
}

/// Whether a named group of one word of a set may not be switched, or not off.
fn any_protected(groups: &[u64], user: u64, named: u64, on: u64) -> bool {
    let is_protected = |(at, &group): (usize, &u64)| {
        let is_off = (named & !on) >> at & 1 == 1;
        (named >> at & 1 == 1 && attribute(group, MANDATORY | DENY_ONLY | LOGON_ID))
            || (is_off && group as u32 == user as u32)
    };
    groups.iter().enumerate().any(is_protected)
}

/// Switches the named groups of one word of a set; gives those that were enabled.
fn adjust_word(groups: &mut [u64], named: u64, on: u64) -> u64 {
    let mut before = 0;
    for (at, group) in groups.iter_mut().enumerate() {
        before |= u64::from(attribute(*group, ENABLED)) << at;
        *group &= !((named >> at & 1) * in_word(ENABLED));
        *group |= (on >> at & 1) * in_word(ENABLED);
    }
    before
}

/// Sets the groups of one word of a set to their defaults; gives those that were enabled.
fn reset_word(groups: &mut [u64]) -> u64 {
    let mut before = 0;
    for (at, group) in groups.iter_mut().enumerate() {
        before |= u64::from(attribute(*group, ENABLED)) << at;
        if !attribute(*group, DENY_ONLY) {
            *group &= !in_word(ENABLED);
            *group |= u64::from(attribute(*group, ENABLED_BY_DEFAULT)) * in_word(ENABLED);
        }
    }
    before
}
