//! For each rule of valid memory the damages that break this rule and, but for four, no other.

use model::{
    control_word, framed, handle_byte, station_word, token_word, Client, Group, HandleRecord,
    Level, Memory, Model, Token, TokenType, ALL_PRIVILEGES, ATTRIBUTES_BIT, DACL_ROW, HANDLE_BYTES,
    MAX_BODY, MAX_DACL, MAX_GROUPS, MAX_LENGTH_BYTES, MAX_RESTRICTING, MORE, NO_CHANGE, NO_CLIENT,
    PARTS, PENDING_ROW, STATIONS, TOKEN_ROW,
};

use crate::damage::{is_client, is_paired, references, Target};
use crate::pair_damages as pairs;
use crate::rng::Rng;
use crate::table_damages as table;

type Apply = fn(&mut Target) -> Option<()>;

/// A damage to a memory.
pub struct Damage {
    /// The name of the rule that it breaks.
    pub rule: &'static str,
    /// What is wrong then.
    pub what: &'static str,
    apply: Apply,
}

impl Damage {
    /// The damaged memory of a valid state; `None` when the state leaves no place for it.
    pub fn apply(&self, rng: &mut Rng, model: &Model) -> Option<Memory> {
        let mut target = Target { rng, model, memory: model.memory() };
        (self.apply)(&mut target)?;
        Some(target.memory)
    }
}

const fn damage(rule: &'static str, what: &'static str, apply: Apply) -> Damage {
    Damage { rule, what, apply }
}

/// All the damages.
pub const DAMAGES: &[Damage] = &[
    damage("size", "a part is longer", |t| resize(t, 1)),
    damage("size", "a part is shorter", |t| resize(t, -1)),
    damage("size", "a part is empty", |t| resize(t, isize::MIN)),
    damage("next numbers", "the next token number is 0", |t| {
        t.memory.control[control_word::NEXT_TOKEN] = 0;
        Some(())
    }),
    damage("next numbers", "the next handle number is 0", |t| {
        t.memory.control[control_word::NEXT_HANDLE] = 0;
        t.model.handles.iter().all(Option::is_none).then_some(())
    }),
    damage("numbers", "two tokens have one number", two_tokens_with_one_number),
    damage("numbers", "two handles have one number", two_handles_with_one_number),
    damage("numbers", "a token number is not below the next", |t| {
        let highest = t.model.tokens.iter().flatten().map(|token| token.number).max()?;
        t.memory.control[control_word::NEXT_TOKEN] = t.rng.pick(&[highest, 1]);
        Some(())
    }),
    damage("numbers", "a handle number is not below the next", |t| {
        let highest = t.model.handles.iter().flatten().map(|handle| handle.number).max()?;
        t.memory.control[control_word::NEXT_HANDLE] = t.rng.pick(&[highest, 1]).into();
        Some(())
    }),
    damage("references", "a handle's token is not live", |t| {
        let model = t.model;
        let at = t.handle_slot(|handle| {
            handle.is_some_and(|handle| references(model, handle.token) > 1)
        })?;
        t.memory.handles[at].token = t.dead_number();
        Some(())
    }),
    damage("references", "a free handle slot with a number", number_in_a_free_handle_slot),
    damage("references", "a station's token is not live", |t| {
        let at = replaceable_station(t)?;
        *t.station(at, station_word::TOKEN) = t.dead_number();
        Some(())
    }),
    damage("references", "a client's token is not live", |t| {
        let at = station_for_client(t)?;
        let dead = match t.dead_number() {
            NO_CLIENT => t.model.next_token,
            number => number,
        };
        let level = t.rng.below(4) as u64;
        t.set_client(at, dead, level);
        Some(())
    }),
    damage("station tokens", "a station's token is for impersonation", |t| {
        let at = replaceable_station(t)?;
        let slot = t.slot(|token| token.kind == TokenType::Impersonation)?;
        *t.station(at, station_word::TOKEN) = t.token(slot)?.number;
        Some(())
    }),
    damage("referred to", "a token lost its handles", |t| {
        let model = t.model;
        let of_station = |number| model.stations.iter().any(|station| station.token == number);
        let kept =
            |number| of_station(number) || is_client(model, number) || is_paired(model, number);
        let slot = t.slot(|token| !kept(token.number))?;
        let number = t.token(slot)?.number;
        for handle in t.memory.handles.iter_mut().filter(|handle| handle.token == number) {
            *handle = HandleRecord::default();
        }
        Some(())
    }),
    damage("referred to", "a token lost the stations that act for it", |t| {
        let model = t.model;
        let has_handle = |number| model.handles.iter().flatten().any(|h| h.token == number);
        let slot = t.slot(|token| is_client(model, token.number) && !has_handle(token.number))?;
        let number = t.token(slot)?.number;
        for at in acting_for(model, number) {
            t.set_client(at, NO_CLIENT, 0);
        }
        Some(())
    }),
    damage("referred to", "a token more", |t| {
        let (slot, other) = (t.free_slot()?, t.slot(|_| true)?);
        let (from, to) = (other * TOKEN_ROW, slot * TOKEN_ROW);
        t.memory.tokens.copy_within(from..from + TOKEN_ROW, to);
        *t.word(slot, token_word::NUMBER) = t.model.next_token;
        *t.word(slot, token_word::DACL_LENGTH) = 0;
        t.memory.control[control_word::NEXT_TOKEN] = t.model.next_token.checked_add(1)?;
        Some(())
    }),
    damage("free", "a word of a free token slot", |t| {
        let (slot, word) = (t.free_slot()?, 1 + t.rng.below(TOKEN_ROW - 1));
        *t.word(slot, word) = t.rng.bit(u64::BITS);
        Some(())
    }),
    damage("free", "a byte of a free DACL row", |t| {
        let (slot, at) = (t.free_slot()?, t.rng.below(DACL_ROW));
        *t.dacl(slot, at) = t.rng.bit(u8::BITS) as u8;
        Some(())
    }),
    damage("free", "a group past the count", |t| {
        let slot = t.slot(|token| token.groups.len() < MAX_GROUPS)?;
        let count = t.token(slot)?.groups.len();
        let at = t.rng.pick(&[count, MAX_GROUPS - 1]);
        *t.group(slot, at) = t.rng.bit(u64::BITS);
        Some(())
    }),
    damage("free", "a restricting SID past the count", |t| {
        let slot = t.slot(|token| token.restricting.len() < MAX_RESTRICTING)?;
        let count = t.token(slot)?.restricting.len();
        let at = t.rng.pick(&[count, MAX_RESTRICTING - 1]);
        *t.restricting(slot, at) = t.rng.bit(u64::BITS);
        Some(())
    }),
    damage("free", "a DACL byte past the length", |t| {
        let slot = t.slot(|token| token.dacl.len() < MAX_DACL)?;
        let length = t.token(slot)?.dacl.len();
        let at = t.rng.pick(&[length, MAX_DACL - 1]);
        *t.dacl(slot, at) = 1;
        Some(())
    }),
    damage("free", "a byte of a free handle slot", |t| {
        let at = t.handle_slot(|handle| handle.is_none())?;
        let byte = t.rng.pick(&free_slot_bytes());
        let mut bytes = [0; HANDLE_BYTES];
        bytes[byte] = t.rng.bit(u8::BITS) as u8;
        t.memory.handles[at] = HandleRecord::from_bytes(&bytes);
        Some(())
    }),
    damage("free", "a pending byte past the count", |t| {
        let at = t.some_station(|_| true)?;
        let count = t.model.stations[at].pending.len();
        let byte = t.rng.pick(&[count, PENDING_ROW - 1]);
        *t.pending(at, byte) = 1;
        Some(())
    }),
    damage("ranges", "type", |t| {
        let model = t.model;
        let slot = t.slot(|token| impersonation(token) && !is_client(model, token.number))?;
        *t.word(slot, token_word::TYPE) = t.rng.pick(&[0, 3, (1 << 32) + 2]);
        Some(())
    }),
    damage("ranges", "level", |t| in_slot(t, impersonation, token_word::LEVEL, &[4, 1 << 32])),
    damage("ranges", "elevation", |t| {
        let slot = unpaired_slot(t)?;
        *t.word(slot, token_word::ELEVATION) = t.rng.pick(&[0, 4, (1 << 32) + 1]);
        Some(())
    }),
    damage("ranges", "write-restricted mark", |t| {
        in_slot(t, any, token_word::WRITE_RESTRICTED, &[2, 1 << 32])
    }),
    damage("ranges", "user-deny-only mark", |t| {
        in_slot(t, any, token_word::USER_DENY_ONLY, &[2, 1 << 32])
    }),
    damage("ranges", "scope", |t| in_slot(t, any, token_word::SCOPE, &[1 << 32, u64::MAX])),
    damage("ranges", "integrity", |t| {
        in_slot(t, any, token_word::INTEGRITY, &[1, 4095, 20480, (1 << 32) + 4096, u64::MAX])
    }),
    damage("ranges", "group count", |t| {
        let values = [MAX_GROUPS as u64 + 1, 1 << 32, u64::MAX];
        in_slot(t, has_all_groups, token_word::GROUP_COUNT, &values)
    }),
    damage("ranges", "restricting count", |t| {
        let values = [MAX_RESTRICTING as u64 + 1, 1 << 32, u64::MAX];
        in_slot(t, has_all_restricting, token_word::RESTRICTING_COUNT, &values)
    }),
    damage("ranges", "DACL length", |t| {
        in_slot(t, any, token_word::DACL_LENGTH, &[MAX_DACL as u64 + 1, 1 << 32, u64::MAX])
    }),
    damage("ranges", "a handle's station", |t| {
        let at = t.handle_slot(|handle| handle.is_some())?;
        t.memory.handles[at].station = t.rng.pick(&[STATIONS as u16, 256, u16::MAX]);
        Some(())
    }),
    damage("ranges", "a handle's mask", |t| {
        let at = t.handle_slot(|handle| handle.is_some())?;
        t.memory.handles[at].mask = t.rng.pick(&[0, 0x10, 0x200, 0x1FF, u16::MAX]);
        Some(())
    }),
    damage("ranges", "next handle number", |t| {
        t.memory.control[control_word::NEXT_HANDLE] = t.rng.pick(&[1 << 32, u64::MAX]);
        Some(())
    }),
    damage("ranges", "broken mark", |t| {
        let model = t.model;
        let at = t.some_station(|at| model.stations[at].pending.is_empty())?;
        *t.station(at, station_word::BROKEN) = t.rng.pick(&[2, 1 << 32, u64::MAX]);
        Some(())
    }),
    damage("within present", "enabled but absent", |t| absent_bit(t, token_word::ENABLED)),
    damage("within present", "default but absent", |t| absent_bit(t, token_word::DEFAULT)),
    damage("existing privileges", "present", |t| unknown_bit(t, token_word::PRESENT)),
    damage("existing privileges", "used", |t| unknown_bit(t, token_word::USED)),
    damage("attributes", "an unknown bit", |t| {
        let (slot, at) = grouped(t, |_| true)?;
        let known = u64::from(Group::ALL) << ATTRIBUTES_BIT | u64::from(u32::MAX);
        *t.group(slot, at) |= 1 << t.rng.pick(&clear_bits(known));
        Some(())
    }),
    damage("attributes", "one logon bit", |t| {
        let (slot, at) = grouped(t, |_| true)?;
        let logon = u64::from(Group::LOGON_ID) << ATTRIBUTES_BIT;
        *t.group(slot, at) ^= 1 << t.rng.pick(&[logon.trailing_zeros(), logon.ilog2()]);
        Some(())
    }),
    damage("primary level", "a primary token with a level", |t| {
        in_slot(t, |token| token.kind == TokenType::Primary, token_word::LEVEL, &[1, 2, 3])
    }),
    damage("indexes", "owner past the groups", |t| past_groups(t, token_word::OWNER)),
    damage("indexes", "primary group past the groups", |t| {
        past_groups(t, token_word::PRIMARY_GROUP)
    }),
    damage("indexes", "owner without the attribute", |t| {
        let (slot, at) = grouped(t, |group| !group.has(Group::OWNER))?;
        *t.word(slot, token_word::OWNER) = at as u64 + 1;
        Some(())
    }),
    damage("deny-only", "a deny-only group is enabled", |t| {
        let (slot, at) = grouped(t, |group| group.has(Group::DENY_ONLY))?;
        *t.group(slot, at) |= u64::from(Group::ENABLED) << ATTRIBUTES_BIT;
        Some(())
    }),
    damage("deny-only", "an enabled group is deny-only", |t| {
        let (slot, at) = grouped(t, |group| group.has(Group::ENABLED))?;
        *t.group(slot, at) |= u64::from(Group::DENY_ONLY) << ATTRIBUTES_BIT;
        Some(())
    }),
    damage("pending", "broken with pending bytes", |t| {
        let model = t.model;
        let at = t.some_station(|at| !model.stations[at].pending.is_empty())?;
        *t.station(at, station_word::BROKEN) = 1;
        Some(())
    }),
    damage("pending", "length 0", |t| t.set_pending(&[0])),
    damage("pending", "second length byte 0", |t| t.set_pending(&[MORE | 5, 0])),
    damage("pending", "second length byte with top bit", |t| t.set_pending(&[MORE | 5, MORE])),
    damage("pending", "a length one over the limit", |t| {
        t.set_pending(&framed(&[1; MAX_BODY + 1])[..=MAX_LENGTH_BYTES])
    }),
    damage("pending", "a second length byte one over the limit", |t| {
        t.set_pending(&framed(&[1; MAX_BODY + MORE as usize])[..MAX_LENGTH_BYTES])
    }),
    damage("pending", "a whole frame", |t| t.set_pending(&[2, 1, 8])),
    damage("pending", "more than a frame", |t| t.set_pending(&[2, 1, 8, 2])),
    damage("pending", "the longest frame, whole", |t| t.set_pending(&framed(&[7; MAX_BODY]))),
    damage("pending", "a count past the row", |t| {
        let at = t.some_station(|_| true)?;
        *t.station(at, station_word::BROKEN) = 0;
        *t.station(at, station_word::PENDING_COUNT) +=
            t.rng.pick(&[PENDING_ROW as u64 + 1, 1 << 32]);
        Some(())
    }),
    damage("roots", "a root above the token's number", |t| {
        let slot = t.slot(any)?;
        let number = t.token(slot)?.number;
        let above = [number + 1, t.model.next_token, number | 1 << 63, u64::MAX];
        let above: Vec<u64> = above.into_iter().filter(|&root| root > number).collect();
        *t.word(slot, token_word::ROOT) = t.rng.pick(&above);
        Some(())
    }),
    damage("client tokens", "a client is a primary token", |t| {
        let at = station_for_client(t)?;
        let slot = t.slot(|token| token.kind == TokenType::Primary)?;
        let number = t.token(slot)?.number;
        t.set_client(at, number, 0);
        Some(())
    }),
    damage("client tokens", "a client's token is primary now", |t| {
        let (_, Client { token, .. }) = acting_station(t, |_| true)?;
        let slot = t.slot(|other| other.number == token)?;
        *t.word(slot, token_word::TYPE) = TokenType::Primary as u64;
        *t.word(slot, token_word::LEVEL) = 0;
        for at in acting_for(t.model, token) {
            t.set_client(at, token, 0);
        }
        Some(())
    }),
    damage("client levels", "a level above the token's own", |t| {
        let (at, client) = acting_station(t, |_| true)?;
        let own = t.model.token(client.token)?.level as u64;
        let above = t.rng.pick(&[own + 1, 4, own | 1 << 32, u64::MAX]);
        t.set_client(at, client.token, above);
        Some(())
    }),
    damage("client levels", "the token's own level is below", |t| {
        let (_, client) = acting_station(t, |client| client.level > Level::Anonymous)?;
        let slot = t.slot(|token| token.number == client.token)?;
        *t.word(slot, token_word::LEVEL) = t.rng.below(client.level as usize) as u64;
        Some(())
    }),
    damage("client levels", "a level without a client", |t| {
        let model = t.model;
        let at = t.some_station(|at| model.stations[at].client.is_none())?;
        let level = t.rng.pick(&[1, 2, 3, 4, 1 << 32, u64::MAX]);
        t.set_client(at, NO_CLIENT, level);
        Some(())
    }),
    damage("references", "a pair's token is not live", pairs::dead_token),
    damage("referred to", "a token lost its pair", pairs::no_pair),
    damage("free", "a word of a free place for a pair", pairs::free_place),
    damage("pair sessions", "two pairs of one session", pairs::one_session),
    damage("pair sessions", "one pair twice", pairs::twice),
    damage("paired types", "a pair's token is for impersonation", pairs::other_type),
    damage("paired elevations", "a pair's token has another elevation", pairs::other_elevation),
    damage("paired elevations", "elevated and filtered exchanged", pairs::exchanged),
    damage("paired elevations", "a pair of one token", pairs::one_token),
    damage("paired users", "a pair's token is of another user", pairs::other_user),
    damage("paired sessions", "a pair's token is of another session", pairs::other_session),
    damage("paired sessions", "a pair is of another session", pairs::session_of_none),
    damage("SID count", "no SIDs", table::no_sids),
    damage("SID count", "one SID", table::one_sid),
    damage("SID count", "a count past the table", table::count_past_the_table),
    damage("first SIDs", "a SID of the start is another", table::other_first),
    damage("first SIDs", "the SIDs of the start exchanged", table::exchanged_first),
    damage("SIDs", "another revision", table::other_revision),
    damage("SIDs", "a count past 15", table::count_past_15),
    damage("SIDs", "past the last sub-authority", table::past_the_last),
    damage("SIDs", "a row of zeros", table::row_of_zeros),
    damage("different SIDs", "two equal rows", table::equal_rows),
    damage("SID places", "two places exchanged", table::swapped_places),
    damage("SID places", "a wrong place", table::wrong_place),
    damage("free", "a place behind the last SID", table::place_behind),
    damage("free", "a word behind the last SID", table::row_behind),
    damage("free", "the count is one less", table::count_one_less),
    damage("token SIDs", "a token's user", table::unknown_user),
    damage("token SIDs", "a group's SID", table::unknown_group),
    damage("token SIDs", "a restricting SID", table::unknown_restricting),
];

/// The stations that act for this token.
fn acting_for(model: &Model, token: u64) -> Vec<usize> {
    let acts = |&at: &usize| model.stations[at].client.is_some_and(|client| client.token == token);
    (0..model.stations.len()).filter(acts).collect()
}

/// A station with such a client.
fn acting_station(t: &mut Target, fits: fn(Client) -> bool) -> Option<(usize, Client)> {
    let model = t.model;
    let at = t.some_station(|at| model.stations[at].client.is_some_and(fits))?;
    Some((at, model.stations[at].client?))
}

/// A station without a client, or with one that is referred to elsewhere too.
fn station_for_client(t: &mut Target) -> Option<usize> {
    let model = t.model;
    t.some_station(|at| match model.stations[at].client {
        Some(client) => references(model, client.token) > 1,
        None => true,
    })
}

/// The bytes of a handle's record but its number's: a slot with a number is not free.
fn free_slot_bytes() -> Vec<usize> {
    (0..HANDLE_BYTES).filter(|at| !handle_byte::NUMBER.contains(at)).collect()
}

/// A slot with a token in no pair.
fn unpaired_slot(t: &mut Target) -> Option<usize> {
    let model = t.model;
    t.slot(|token| !is_paired(model, token.number))
}

fn any(_: &Token) -> bool {
    true
}

/// As many as there may be: past the last ones there are no SIDs in the table.
fn has_all_groups(token: &Token) -> bool {
    token.groups.len() == MAX_GROUPS
}

fn has_all_restricting(token: &Token) -> bool {
    token.restricting.len() == MAX_RESTRICTING
}

fn impersonation(token: &Token) -> bool {
    token.kind == TokenType::Impersonation
}

fn resize(t: &mut Target, by: isize) -> Option<()> {
    let size = |length: usize| length.saturating_add_signed(by);
    let memory = &mut t.memory;
    match t.rng.below(PARTS.len()) {
        0 => memory.tokens.resize(size(memory.tokens.len()), 0),
        1 => memory.dacls.resize(size(memory.dacls.len()), 0),
        2 => memory.handles.resize(size(memory.handles.len()), HandleRecord::default()),
        3 => memory.control.resize(size(memory.control.len()), 0),
        _ => memory.pending.resize(size(memory.pending.len()), 0),
    }
    Some(())
}

/// Both of one type and in no pair, the references go to the number that is left, and neither a root nor
/// a level in force is above what it may be.
fn two_tokens_with_one_number(t: &mut Target) -> Option<()> {
    let first = unpaired_slot(t)?;
    let (kept, kind) = (t.token(first)?.number, t.token(first)?.kind);
    let model = t.model;
    let second = t.slot(|token| {
        token.number != kept && token.kind == kind && !is_paired(model, token.number)
    })?;
    let lost = t.token(second)?.number;
    *t.word(second, token_word::NUMBER) = kept;
    let root = t.word(second, token_word::ROOT);
    *root = kept.min(*root);
    for handle in t.memory.handles.iter_mut().filter(|handle| handle.token == lost) {
        handle.token = kept;
    }
    for station in 0..t.model.stations.len() {
        if t.model.stations[station].token == lost {
            *t.station(station, station_word::TOKEN) = kept;
        }
    }
    for station in [acting_for(t.model, lost), acting_for(t.model, kept)].concat() {
        t.set_client(station, kept, 0);
    }
    Some(())
}

fn two_handles_with_one_number(t: &mut Target) -> Option<()> {
    let first = t.handle_slot(|handle| handle.is_some())?;
    let number = t.memory.handles[first].number;
    let second = t.handle_slot(|handle| handle.is_some_and(|handle| handle.number != number))?;
    t.memory.handles[second].number = number;
    Some(())
}

/// A number that was given and is not live, so that it is the other fields that are wrong.
fn number_in_a_free_handle_slot(t: &mut Target) -> Option<()> {
    let at = t.handle_slot(|handle| handle.is_none())?;
    let live: Vec<u32> = t.model.handles.iter().flatten().map(|handle| handle.number).collect();
    let given = 1..t.model.next_handle;
    let numbers = [1, given.end / 2, given.end - 1].into_iter();
    let unused: Vec<u32> = numbers.filter(|n| given.contains(n) && !live.contains(n)).collect();
    t.memory.handles[at].number = t.rng.pick_any(&unused)?;
    Some(())
}

/// A station whose token is referred to elsewhere too.
fn replaceable_station(t: &mut Target) -> Option<usize> {
    let model = t.model;
    t.some_station(|at| references(model, model.stations[at].token) > 1)
}

/// One of the values in a word of such a token.
fn in_slot(t: &mut Target, fits: fn(&Token) -> bool, word: usize, values: &[u64]) -> Option<()> {
    let slot = t.slot(fits)?;
    *t.word(slot, word) = t.rng.pick(values);
    Some(())
}

/// A slot and the index of such a group in it.
fn grouped(t: &mut Target, fits: fn(&Group) -> bool) -> Option<(usize, usize)> {
    let slot = t.slot(|token| token.groups.iter().any(fits))?;
    let groups = t.token(slot)?.groups.iter().enumerate();
    let indexes: Vec<usize> = groups.filter(|(_, group)| fits(group)).map(|(at, _)| at).collect();
    Some((slot, t.rng.pick_any(&indexes)?))
}

fn past_groups(t: &mut Target, word: usize) -> Option<()> {
    let slot = t.slot(any)?;
    let count = t.token(slot)?.groups.len() as u64;
    *t.word(slot, word) = t.rng.pick(&[count + 1, NO_CHANGE.into(), 1 << 16, 1 << 32, u64::MAX]);
    Some(())
}

fn absent_bit(t: &mut Target, word: usize) -> Option<()> {
    let slot = t.slot(any)?;
    let present = t.token(slot)?.privileges.present;
    *t.word(slot, word) |= 1 << t.rng.pick(&clear_bits(present));
    Some(())
}

fn unknown_bit(t: &mut Target, word: usize) -> Option<()> {
    let slot = t.slot(any)?;
    *t.word(slot, word) |= 1 << t.rng.pick(&clear_bits(ALL_PRIVILEGES));
    Some(())
}

/// The bits that are not set in the word.
fn clear_bits(word: u64) -> Vec<u32> {
    (0..u64::BITS).filter(|bit| word >> bit & 1 == 0).collect()
}
