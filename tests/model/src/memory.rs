//! The lent memory: the state written into five parts of fixed size.

use crate::layout::{
    control_word, pair_word, station_word, token_word, ATTRIBUTES_BIT, CONTROL_WORDS, DACL_ROW,
    PAIR_ROW, PENDING_ROW, STATION_ROW, TOKEN_ROW,
};
use crate::privileges::Privileges;
use crate::record::HandleRecord;
use crate::state::{Client, Model, Pair, Station, NO_CLIENT};
use crate::token::{Elevation, Group, Level, Token, TokenType};

/// The names of the parts, in the order in which they are lent.
pub const PARTS: [&str; 5] = ["tokens", "dacls", "handles", "control", "pending"];

/// Every byte of every part, in that order.
pub type Bytes = [Vec<u8>; PARTS.len()];

/// The five parts.
#[derive(Clone, Debug, PartialEq, Eq)]
pub struct Memory {
    /// A row of words for each token slot.
    pub tokens: Vec<u64>,
    /// A row of bytes for each token slot.
    pub dacls: Vec<u8>,
    /// A record for each handle slot.
    pub handles: Vec<HandleRecord>,
    /// The control words: the two next numbers, then a row of words for each station, one for each
    /// pair, and the SID table.
    pub control: Vec<u64>,
    /// A row of bytes for each station.
    pub pending: Vec<u8>,
}

impl Model {
    /// The memory that holds this state.
    pub fn memory(&self) -> Memory {
        let dacl = |token: &Option<Token>| match token {
            Some(token) => padded(&token.dacl, DACL_ROW),
            None => vec![0; DACL_ROW],
        };
        let pending = |station: &Station| padded(&station.pending, PENDING_ROW);
        Memory {
            tokens: self.tokens.each_ref().map(token_row).concat(),
            dacls: self.tokens.each_ref().map(dacl).concat(),
            handles: self.handles.iter().map(HandleRecord::of).collect(),
            control: self.control(),
            pending: self.stations.each_ref().map(pending).concat(),
        }
    }

    /// The control words.
    fn control(&self) -> Vec<u64> {
        let mut words = vec![0; CONTROL_WORDS];
        words[control_word::NEXT_TOKEN] = self.next_token;
        words[control_word::NEXT_HANDLE] = self.next_handle.into();
        let rows = words[control_word::STATIONS..control_word::PAIRS].chunks_mut(STATION_ROW);
        for (row, station) in rows.zip(&self.stations) {
            row[station_word::TOKEN] = station.token;
            row[station_word::PENDING_COUNT] = station.pending.len() as u64;
            row[station_word::BROKEN] = station.broken.into();
            if let Some(client) = station.client {
                row[station_word::CLIENT] = client.token;
                row[station_word::CLIENT_LEVEL] = client.level as u64;
            }
        }
        let rows = words[control_word::PAIRS..control_word::SID_COUNT].chunks_mut(PAIR_ROW);
        for (row, pair) in rows.zip(&self.pairs) {
            if let Some(pair) = pair {
                row[pair_word::SESSION] = pair.session;
                row[pair_word::ELEVATED] = pair.elevated;
                row[pair_word::FILTERED] = pair.filtered;
            }
        }
        words[control_word::SID_COUNT..].copy_from_slice(&self.sids.words());
        words
    }
}

/// The bytes, then zeros.
fn padded(bytes: &[u8], width: usize) -> Vec<u8> {
    let mut row = bytes.to_vec();
    row.resize(width, 0);
    row
}

fn token_row(slot: &Option<Token>) -> Vec<u64> {
    let Some(token) = slot else {
        return vec![0; TOKEN_ROW];
    };
    let privileges = token.privileges;
    let fields = [
        (token_word::NUMBER, token.number),
        (token_word::MODIFIED, token.modified),
        (token_word::SESSION, token.session),
        (token_word::USER, token.user.into()),
        (token_word::TYPE, token.kind as u64),
        (token_word::LEVEL, token.level as u64),
        (token_word::ELEVATION, token.elevation as u64),
        (token_word::WRITE_RESTRICTED, token.write_restricted.into()),
        (token_word::USER_DENY_ONLY, token.user_deny_only.into()),
        (token_word::OWNER, token.owner.into()),
        (token_word::PRIMARY_GROUP, token.primary_group.into()),
        (token_word::SCOPE, token.scope.into()),
        (token_word::INTEGRITY, token.integrity.into()),
        (token_word::PRESENT, privileges.present),
        (token_word::ENABLED, privileges.enabled),
        (token_word::DEFAULT, privileges.default),
        (token_word::USED, privileges.used),
        (token_word::GROUP_COUNT, token.groups.len() as u64),
        (token_word::RESTRICTING_COUNT, token.restricting.len() as u64),
        (token_word::DACL_LENGTH, token.dacl.len() as u64),
        (token_word::ROOT, token.root),
    ];
    let groups = (token_word::GROUPS..).zip(token.groups.iter().map(group_word));
    let sids = (token_word::RESTRICTING..).zip(token.restricting.iter().map(|&sid| sid.into()));
    let mut row = vec![0; TOKEN_ROW];
    for (word, value) in fields.into_iter().chain(groups).chain(sids) {
        row[word] = value;
    }
    row
}

fn group_word(group: &Group) -> u64 {
    u64::from(group.sid) | u64::from(group.attributes) << ATTRIBUTES_BIT
}

/// The group that a word holds.
pub(crate) fn word_group(word: u64) -> Group {
    Group { sid: word as u32, attributes: (word >> ATTRIBUTES_BIT) as u32 }
}

impl Memory {
    /// The state that the memory holds; `None` exactly when the memory is not valid.
    pub fn model(&self) -> Option<Model> {
        if !self.is_valid() {
            return None;
        }
        let tokens = self.token_rows().map(|row| row.token()).collect::<Option<Vec<_>>>()?;
        let handles: Vec<_> = self.handles.iter().map(HandleRecord::slot).collect();
        let stations = self.station_rows().map(|row| row.station()).collect::<Option<Vec<_>>>()?;
        Some(Model {
            tokens: tokens.try_into().ok()?,
            handles: handles.try_into().ok()?,
            stations: stations.try_into().ok()?,
            pairs: self.pair_rows().map(|row| row.pair()).collect::<Vec<_>>().try_into().ok()?,
            sids: self.sid_table()?,
            next_token: self.control[control_word::NEXT_TOKEN],
            next_handle: self.control[control_word::NEXT_HANDLE].try_into().ok()?,
        })
    }

    /// The token slots, each with its DACL's row.
    pub(crate) fn token_rows(&self) -> impl Iterator<Item = TokenRow<'_>> {
        let dacls = self.dacls.chunks(DACL_ROW);
        self.tokens.chunks(TOKEN_ROW).zip(dacls).map(|(words, dacl)| TokenRow { words, dacl })
    }

    /// The stations, each with its row of pending bytes.
    pub(crate) fn station_rows(&self) -> impl Iterator<Item = StationRow<'_>> {
        let rows = self.pending.chunks(PENDING_ROW);
        let stations =
            self.control[control_word::STATIONS..control_word::PAIRS].chunks(STATION_ROW);
        stations.zip(rows).map(|(words, row)| StationRow {
            token: words[station_word::TOKEN],
            count: words[station_word::PENDING_COUNT],
            broken: words[station_word::BROKEN],
            client: words[station_word::CLIENT],
            client_level: words[station_word::CLIENT_LEVEL],
            row,
        })
    }

    /// The places for pairs.
    pub(crate) fn pair_rows(&self) -> impl Iterator<Item = PairRow<'_>> {
        self.control[control_word::PAIRS..control_word::SID_COUNT].chunks(PAIR_ROW).map(PairRow)
    }

    /// Every byte of every part, as a host has them.
    pub fn bytes(&self) -> Bytes {
        let words = |words: &[u64]| {
            let words: Vec<_> = words.iter().map(|word| word.to_ne_bytes()).collect();
            words.into_flattened()
        };
        let records: Vec<_> = self.handles.iter().map(HandleRecord::bytes).collect();
        let (tokens, control) = (words(&self.tokens), words(&self.control));
        [tokens, self.dacls.clone(), records.into_flattened(), control, self.pending.clone()]
    }
}

/// The part of a row that a count uses; all of it when the count is too large.
pub(crate) fn used<T>(row: &[T], count: u64) -> usize {
    usize::try_from(count).map_or(row.len(), |count| count.min(row.len()))
}

/// A station's words and its row of pending bytes.
pub(crate) struct StationRow<'a> {
    pub token: u64,
    pub count: u64,
    pub broken: u64,
    pub client: u64,
    pub client_level: u64,
    pub row: &'a [u8],
}

impl StationRow<'_> {
    pub fn pending(&self) -> &[u8] {
        &self.row[..used(self.row, self.count)]
    }

    pub fn past_pending(&self) -> &[u8] {
        &self.row[used(self.row, self.count)..]
    }

    /// Whether it acts for a token.
    pub fn has_client(&self) -> bool {
        self.client != NO_CLIENT
    }

    fn station(&self) -> Option<Station> {
        let client = Client { token: self.client, level: Level::from_number(self.client_level)? };
        Some(Station {
            token: self.token,
            client: self.has_client().then_some(client),
            pending: self.pending().to_vec(),
            broken: self.broken == 1,
        })
    }
}

/// The words of a place for a pair.
#[derive(Clone, Copy)]
pub(crate) struct PairRow<'a>(pub &'a [u64]);

impl PairRow<'_> {
    pub fn session(&self) -> u64 {
        self.0[pair_word::SESSION]
    }

    pub fn elevated(&self) -> u64 {
        self.0[pair_word::ELEVATED]
    }

    pub fn filtered(&self) -> u64 {
        self.0[pair_word::FILTERED]
    }

    /// Whether there is no pair; session 0 may have one.
    pub fn is_free(&self) -> bool {
        self.elevated() == 0
    }

    fn pair(&self) -> Option<Pair> {
        let (session, elevated, filtered) = (self.session(), self.elevated(), self.filtered());
        (!self.is_free()).then_some(Pair { session, elevated, filtered })
    }
}

/// A token slot's words and its DACL's row.
pub(crate) struct TokenRow<'a> {
    pub words: &'a [u64],
    pub dacl: &'a [u8],
}

#[allow(missing_docs)]
impl TokenRow<'_> {
    pub fn number(&self) -> u64 {
        self.words[token_word::NUMBER]
    }
    pub fn root(&self) -> u64 {
        self.words[token_word::ROOT]
    }
    pub fn session(&self) -> u64 {
        self.words[token_word::SESSION]
    }
    pub fn user(&self) -> u64 {
        self.words[token_word::USER]
    }
    pub fn kind(&self) -> u64 {
        self.words[token_word::TYPE]
    }
    pub fn level(&self) -> u64 {
        self.words[token_word::LEVEL]
    }
    pub fn elevation(&self) -> u64 {
        self.words[token_word::ELEVATION]
    }
    pub fn marks(&self) -> [u64; 2] {
        [self.words[token_word::WRITE_RESTRICTED], self.words[token_word::USER_DENY_ONLY]]
    }
    pub fn owner(&self) -> u64 {
        self.words[token_word::OWNER]
    }
    pub fn primary_group(&self) -> u64 {
        self.words[token_word::PRIMARY_GROUP]
    }
    pub fn scope(&self) -> u64 {
        self.words[token_word::SCOPE]
    }
    pub fn integrity(&self) -> u64 {
        self.words[token_word::INTEGRITY]
    }
    pub fn privileges(&self) -> Privileges {
        use token_word::{DEFAULT, ENABLED, PRESENT, USED};
        let words = [PRESENT, ENABLED, DEFAULT, USED];
        let [present, enabled, default, used] = words.map(|word| self.words[word]);
        Privileges { present, enabled, default, used }
    }
    pub fn group_count(&self) -> u64 {
        self.words[token_word::GROUP_COUNT]
    }
    pub fn restricting_count(&self) -> u64 {
        self.words[token_word::RESTRICTING_COUNT]
    }
    pub fn dacl_length(&self) -> u64 {
        self.words[token_word::DACL_LENGTH]
    }

    /// The words of the groups in use, and those after them.
    pub fn group_words(&self) -> (&[u64], &[u64]) {
        let words = &self.words[token_word::GROUPS..token_word::RESTRICTING];
        words.split_at(used(words, self.group_count()))
    }

    /// The groups in use.
    pub fn groups(&self) -> Vec<Group> {
        self.group_words().0.iter().map(|&word| word_group(word)).collect()
    }

    /// The words of the restricting SIDs in use, and those after them.
    pub fn restricting_words(&self) -> (&[u64], &[u64]) {
        let words = &self.words[token_word::RESTRICTING..];
        words.split_at(used(words, self.restricting_count()))
    }

    /// The DACL's bytes, and those after them.
    pub fn dacl_bytes(&self) -> (&[u8], &[u8]) {
        self.dacl.split_at(used(self.dacl, self.dacl_length()))
    }

    /// The slot's token, `Some(None)` when it is free.
    fn token(&self) -> Option<Option<Token>> {
        if self.number() == 0 {
            return Some(None);
        }
        let sids = self.restricting_words().0.iter();
        Some(Some(Token {
            number: self.number(),
            root: self.root(),
            modified: self.words[token_word::MODIFIED],
            session: self.session(),
            user: self.user().try_into().ok()?,
            kind: TokenType::from_number(self.kind())?,
            level: Level::from_number(self.level())?,
            elevation: Elevation::from_number(self.elevation())?,
            privileges: self.privileges(),
            groups: self.groups(),
            restricting: sids.map(|&sid| sid.try_into().ok()).collect::<Option<_>>()?,
            write_restricted: self.marks()[0] == 1,
            user_deny_only: self.marks()[1] == 1,
            owner: self.owner().try_into().ok()?,
            primary_group: self.primary_group().try_into().ok()?,
            dacl: self.dacl_bytes().0.to_vec(),
            scope: self.scope().try_into().ok()?,
            integrity: self.integrity().try_into().ok()?,
        }))
    }
}
