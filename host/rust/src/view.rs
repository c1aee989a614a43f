//! What the broker keeps, as decoded values: docs/MEMORY.md says which word is what.

use crate::ffi;
use crate::layout::{
    control_word, station_word, token_word, ATTRIBUTES_BIT, DACL_BYTES, PENDING_BYTES,
    STATION_WORDS, TOKEN_WORDS,
};
use crate::limits::STATIONS;
use crate::memory::Memory;
use crate::terms::{Client, Elevation, Group, Level, Privileges, TokenType, NO_CLIENT};

/// A live token.
#[derive(Clone, Debug, PartialEq, Eq)]
#[non_exhaustive]
pub struct Token {
    /// Its own number, from 1.
    pub number: u64,
    /// The number of the started or created token that it descends from, which may be gone; its own
    /// for those; or [`NO_ROOT`](crate::NO_ROOT). It never changes.
    pub root: u64,
    /// Steps at each adjustment.
    pub modified: u64,
    /// The session of its user.
    pub session: u64,
    /// The number of the user's SID: [`Broker::sid`](crate::Broker::sid) gives the SID of a number.
    pub user: u32,
    /// Primary or impersonation.
    pub token_type: TokenType,
    /// The impersonation level.
    pub level: Level,
    /// The elevation type.
    pub elevation: Elevation,
    /// Whether the restricting SIDs count for writes only.
    pub write_restricted: bool,
    /// Whether the user counts for deny only.
    pub user_deny_only: bool,
    /// The default owner: 0 is the user, k is group k - 1.
    pub owner: u16,
    /// The default primary group, likewise.
    pub primary_group: u16,
    /// The interactivity scope.
    pub scope: u32,
    /// 0, 4096, 8192, 12288 or 16384: see [`names::INTEGRITY`](crate::names::INTEGRITY).
    pub integrity: u32,
    /// The privilege words.
    pub privileges: Privileges,
    /// The groups, at most [`MAX_GROUPS`](crate::MAX_GROUPS).
    pub groups: Vec<Group>,
    /// The numbers of the restricting SIDs, at most [`MAX_RESTRICTING`](crate::MAX_RESTRICTING); with
    /// any the token is restricted, and so are its copies but an anonymous one, by no other SIDs.
    pub restricting: Vec<u32>,
    /// The default DACL, at most [`MAX_DACL`](crate::MAX_DACL) bytes.
    pub dacl: Vec<u8>,
}

impl Token {
    pub(crate) fn all(memory: &Memory) -> impl Iterator<Item = Token> + '_ {
        let slots = memory.tokens.chunks(TOKEN_WORDS).zip(memory.dacls.chunks(DACL_BYTES));
        slots
            .filter(|(words, _)| words[token_word::NUMBER] != 0)
            .map(|(words, dacl)| Token::new(words, dacl))
    }

    fn new(words: &[u64], dacl: &[u8]) -> Self {
        let groups = &words[token_word::GROUPS..][..words[token_word::GROUP_COUNT] as usize];
        let restricting =
            &words[token_word::RESTRICTING..][..words[token_word::RESTRICTING_COUNT] as usize];
        Token {
            number: words[token_word::NUMBER],
            root: words[token_word::ROOT],
            modified: words[token_word::MODIFIED],
            session: words[token_word::SESSION],
            user: words[token_word::USER] as u32,
            token_type: kept(words[token_word::TYPE], TokenType::from_number),
            level: kept(words[token_word::LEVEL], Level::from_number),
            elevation: kept(words[token_word::ELEVATION], Elevation::from_number),
            write_restricted: words[token_word::WRITE_RESTRICTED] == 1,
            user_deny_only: words[token_word::USER_DENY_ONLY] == 1,
            owner: words[token_word::OWNER] as u16,
            primary_group: words[token_word::PRIMARY_GROUP] as u16,
            scope: words[token_word::SCOPE] as u32,
            integrity: words[token_word::INTEGRITY] as u32,
            privileges: Privileges {
                present: words[token_word::PRESENT],
                enabled: words[token_word::ENABLED],
                default: words[token_word::DEFAULT],
                used: words[token_word::USED],
            },
            groups: groups.iter().map(|&word| group(word)).collect(),
            restricting: restricting.iter().map(|&word| word as u32).collect(),
            dacl: dacl[..words[token_word::DACL_LENGTH] as usize].to_vec(),
        }
    }
}

/// What a word of valid memory stands for.
fn kept<T>(word: u64, from_number: fn(u32) -> Option<T>) -> T {
    u32::try_from(word).ok().and_then(from_number).expect("the memory is valid")
}

/// The SID is the low half, the attributes are the high half.
fn group(word: u64) -> Group {
    Group { sid: word as u32, attributes: (word >> ATTRIBUTES_BIT) as u32 }
}

/// A live handle.
#[derive(Clone, Copy, Debug, PartialEq, Eq)]
#[non_exhaustive]
pub struct Handle {
    /// Whose it is.
    pub station: u32,
    /// Its own number, from 1.
    pub number: u32,
    /// The number of its token.
    pub token: u64,
    /// The rights that it grants: see [`names::RIGHTS`](crate::names::RIGHTS).
    pub mask: u32,
}

impl Handle {
    pub(crate) fn all(memory: &Memory) -> impl Iterator<Item = Handle> + '_ {
        memory.handles.iter().filter(|slot| slot.number != 0).map(Handle::new)
    }

    pub(crate) fn new(slot: &ffi::Handle) -> Self {
        let &ffi::Handle { station, mask, number, token } = slot;
        Handle { station: station.into(), number, token, mask: mask.into() }
    }
}

/// A station and its stream.
#[derive(Clone, Debug, PartialEq, Eq)]
#[non_exhaustive]
pub struct Station {
    /// The number of its primary token.
    pub token: u64,
    /// The token that it acts for, if any; privileges are held by its primary one all the same.
    pub client: Option<Client>,
    /// The bytes of a request that is not whole yet, its length among them.
    pub pending: Vec<u8>,
    /// Whether its stream is broken.
    pub broken: bool,
}

impl Station {
    pub(crate) fn all(memory: &Memory) -> [Station; STATIONS] {
        std::array::from_fn(|station| {
            let words = &memory.control[control_word::FIRST_STATION + station * STATION_WORDS..];
            let pending = &memory.pending[station * PENDING_BYTES..];
            Station {
                token: words[station_word::TOKEN],
                client: client(words),
                pending: pending[..words[station_word::PENDING] as usize].to_vec(),
                broken: words[station_word::BROKEN] == 1,
            }
        })
    }
}

/// What the row of a station says that it acts for.
fn client(words: &[u64]) -> Option<Client> {
    let token = words[station_word::CLIENT];
    let level = kept(words[station_word::CLIENT_LEVEL], Level::from_number);
    (token != NO_CLIENT).then_some(Client { token, level })
}
