//! Requests 3, 9 and 10, 14 and 15: new tokens, made in the free slot.

use super::groups::{attribute, in_word, is_fixed, Set, WORD_GROUPS};
use super::layout::{
    right, word, ALL_PRIVILEGES, ANONYMOUS, ANONYMOUS_SID, CREATE_TOKEN, DEFAULT_ELEVATION,
    DELEGATION, DENY_ONLY, ENABLED, ENABLED_BY_DEFAULT, GIVEN, GROUPS, IMPERSONATION,
    INTEGRITY_STEP, LOGON_ID, MAX_GROUPS, MAX_INTEGRITY, MAX_RESTRICTING, PRIMARY,
};
use super::memory::{Memory, Row};
use super::reader::{refuse, Body, Reader};
use super::records::is_mask;
use super::requests::Served;
use super::table::Numbers;

impl Memory<'_> {
    /// With SIDs packed or by number; what was entered goes again if it is refused.
    pub fn create<const PACKED: bool>(
        &mut self,
        station: usize,
        reader: &mut Reader,
        out: &mut Body,
    ) -> Served {
        let count = *self.sids.count;
        let served = self.create_token::<PACKED>(station, reader, out);
        if PACKED && served.is_err() {
            self.sids.forget(count);
        }
        served
    }

    fn create_token<const PACKED: bool>(
        &mut self,
        station: usize,
        reader: &mut Reader,
        out: &mut Body,
    ) -> Served {
        let user = self.sids.read::<PACKED>(reader);
        let (mut known, mut room) = (user.known, user.room);
        let (session, integrity) = (reader.u64(), u64::from(reader.u32()));
        let (present, default, count) = (reader.u64(), reader.u64(), reader.u32());
        let (mut groups, mut at, mut bad) = ([0; MAX_GROUPS], 0, count as usize > MAX_GROUPS);
        reader.each(count, |reader| {
            let (sid, attributes) = (self.sids.read::<PACKED>(reader), reader.u32());
            (known, room) = (known & sid.known, room & sid.room);
            let group = u64::from(sid.number) | in_word(attributes);
            let by_default = attribute(group, ENABLED_BY_DEFAULT);
            let logon = attributes & LOGON_ID;
            bad |= attributes & !GIVEN != 0
                || logon != 0 && logon != LOGON_ID
                || by_default && attribute(group, DENY_ONLY)
                || !by_default && (is_fixed(group) || sid.is::<PACKED>(&user));
            if let Some(place) = groups.get_mut(at) {
                *place = group | (u64::from(by_default) * in_word(ENABLED));
            }
            at += 1;
        });
        reader.end()?;
        let own = self.held(station, CREATE_TOKEN)?;
        refuse(
            5,
            !bad && known
                && integrity % INTEGRITY_STEP == 0
                && integrity <= MAX_INTEGRITY
                && default & !present == 0
                && present & !ALL_PRIVILEGES == 0,
        )?;
        refuse(8, room)?;
        let (slot, place) = (self.free_token()?, self.free_handle()?);
        let row = &mut self.tokens[slot];
        row[word::SESSION] = session;
        row[word::USER] = user.number.into();
        row[word::TYPE] = PRIMARY;
        row[word::ELEVATION] = DEFAULT_ELEVATION;
        row[word::INTEGRITY] = integrity;
        row[word::PRESENT] = present;
        row[word::ENABLED] = default;
        row[word::DEFAULT] = default;
        row[word::GROUP_COUNT] = count.into();
        row[GROUPS].copy_from_slice(&groups);
        let number = self.number_token(slot);
        self.tokens[slot][word::ROOT] = number;
        out.number(self.place_handle(place, station, number, right::ALL));
        self.tokens[own][word::USED] |= 1 << CREATE_TOKEN;
        Ok(())
    }

    pub fn duplicate(&mut self, station: usize, reader: &mut Reader, out: &mut Body) -> Served {
        let handle = reader.u32();
        let (kind, level) = (u64::from(reader.u32()), u64::from(reader.u32()));
        let mask = reader.u32();
        reader.end()?;
        let (handle, source) = self.granted(station, handle, right::DUPLICATE)?;
        let row = &self.tokens[source];
        refuse(
            5,
            (kind == PRIMARY || kind == IMPERSONATION)
                && level <= DELEGATION
                && is_mask(mask)
                && mask & !u32::from(handle.mask) == 0
                && !(kind == IMPERSONATION
                    && row[word::TYPE] == IMPERSONATION
                    && level > row[word::LEVEL]),
        )?;
        let (slot, place) = (self.free_token()?, self.free_handle()?);
        if kind == IMPERSONATION && level == ANONYMOUS {
            let used = self.tokens[source][word::USED];
            let row = &mut self.tokens[slot];
            row[word::USER] = ANONYMOUS_SID;
            row[word::TYPE] = IMPERSONATION;
            row[word::ELEVATION] = DEFAULT_ELEVATION;
            row[word::USED] = used;
        } else {
            self.copy(source, slot);
            let row = &mut self.tokens[slot];
            row[word::TYPE] = kind;
            row[word::LEVEL] = if kind == PRIMARY { ANONYMOUS } else { level };
            row[word::ELEVATION] = DEFAULT_ELEVATION;
        }
        let number = self.number_token(slot);
        out.number(self.place_handle(place, station, number, mask));
        Ok(())
    }

    /// The same as [`Memory::create`] with the SIDs.
    pub fn restrict<const PACKED: bool>(
        &mut self,
        station: usize,
        reader: &mut Reader,
        out: &mut Body,
    ) -> Served {
        let count = *self.sids.count;
        let served = self.restrict_token::<PACKED>(station, reader, out);
        if PACKED && served.is_err() {
            self.sids.forget(count);
        }
        served
    }

    fn restrict_token<const PACKED: bool>(
        &mut self,
        station: usize,
        reader: &mut Reader,
        out: &mut Body,
    ) -> Served {
        let (handle, write, remove) = (reader.u32(), reader.u32(), reader.u64());
        let (denies, count) = (reader.u32(), reader.u32());
        let (mut deny, mut sids, mut at) = (Set::default(), [0; MAX_RESTRICTING], 0);
        let mut bad = write > 1 || remove & !ALL_PRIVILEGES != 0;
        reader.each(denies, |reader| bad |= !deny.add(reader.u32()));
        let (mut known, mut room, mut given) = (true, true, Numbers::default());
        reader.each(count, |reader| {
            let sid = self.sids.read::<PACKED>(reader);
            (known, room) = (known & sid.known, room & sid.room);
            given.add(sid.number);
            if let Some(place) = sids.get_mut(at) {
                *place = u64::from(sid.number);
            }
            at += 1;
        });
        reader.end()?;
        let (handle, source) = self.granted(station, handle, right::DUPLICATE)?;
        let row = &self.tokens[source];
        let [groups, had] =
            [word::GROUP_COUNT, word::RESTRICTING_COUNT].map(|word| row[word] as usize);
        bad |= write == 1 && had > 0 && row[word::WRITE_RESTRICTED] == 0;
        refuse(5, !bad && known && deny.is_below(groups))?;
        if had == 0 {
            refuse(8, at <= MAX_RESTRICTING)?;
        } else {
            (sids, at) = narrowed(&row[word::RESTRICTING..][..had], &given, count == 0);
            refuse(5, at > 0)?;
        }
        refuse(8, room)?;
        let (slot, place) = (self.free_token()?, self.free_handle()?);
        self.copy(source, slot);
        let row = &mut self.tokens[slot];
        row[word::RESTRICTING_COUNT] = at as u64;
        row[word::RESTRICTING..].copy_from_slice(&sids);
        weaken(row, write.into(), remove, &deny);
        let number = self.number_token(slot);
        out.number(self.place_handle(place, station, number, handle.mask.into()));
        Ok(())
    }

    /// The token and its DACL into another slot.
    pub fn copy(&mut self, source: usize, slot: usize) {
        self.tokens[slot] = self.tokens[source];
        self.dacls[slot] = self.dacls[source];
    }
}

/// Those of a restricted token's SIDs that are also given, all if none is, and how many they are.
fn narrowed(own: &[u64], given: &Numbers, is_none: bool) -> ([u64; MAX_RESTRICTING], usize) {
    let (mut sids, mut kept) = ([0; MAX_RESTRICTING], 0);
    for &sid in own {
        if is_none || given.has(sid) {
            sids[kept] = sid;
            kept += 1;
        }
    }
    (sids, kept)
}

/// Sets the marks, removes the privileges and denies the groups.
fn weaken(row: &mut Row, write: u64, remove: u64, deny: &Set) {
    row[word::ELEVATION] = DEFAULT_ELEVATION;
    row[word::WRITE_RESTRICTED] |= write;
    row[word::USER_DENY_ONLY] |= write;
    for privileges in [word::PRESENT, word::ENABLED, word::DEFAULT] {
        row[privileges] &= !remove;
    }
    for (deny, groups) in deny.0.iter().zip(row[GROUPS].chunks_mut(WORD_GROUPS)) {
        for (at, group) in groups.iter_mut().enumerate() {
            if deny >> at & 1 == 1 {
                *group = *group & !in_word(ENABLED) | in_word(DENY_ONLY);
            }
        }
    }
}
