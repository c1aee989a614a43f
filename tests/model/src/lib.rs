//! A model of the rights broker, written from documents 000 to 004, 01 and 02 alone.
//!
//! [`Model`] is document 01's plain desk: it is fed chunks of bytes, station by station, and
//! gives the answers. [`Memory`] is the lent memory that holds the same state.
//! The model favours being plainly right over being quick; it shares no code with the broker.

mod adjust;
mod clients;
mod condition;
mod feed;
mod frame;
mod layout;
mod lent;
mod memory;
mod number;
mod packed;
mod pairs;
mod privileges;
mod program;
mod query;
mod record;
mod refusal;
mod request;
mod rights;
mod serve;
mod sid;
mod sid_memory;
mod sid_table;
mod state;
#[cfg(test)]
mod tests;
mod token;
mod tokens;
mod valid;
mod valid_sids;

pub use condition::{Condition, MAX_DEPTH};
pub use feed::{Fed, MIN_BUFFER};
pub use frame::{framed, MAX_BODY, MAX_LENGTH_BYTES};
pub use layout::{
    control_word, handle_byte, pair_word, station_word, token_word, ATTRIBUTES_BIT, CONTROL_WORDS,
    DACL_BYTES, DACL_ROW, HANDLE_BYTES, HANDLE_ROWS, PAIR_ROW, PENDING_BYTES, PENDING_ROW, SID_ROW,
    STATION_ROW, TOKEN_ROW, TOKEN_WORDS,
};
pub use memory::{Bytes, Memory, PARTS};
pub use number::{number_length, write_number, Reader, MORE};
pub use privileges::{
    Privileges, ALL_PRIVILEGES, ASSIGN_PRIMARY, CREATE_TOKEN, FIRST_PRIVILEGE, IMPERSONATE,
    LAST_PRIVILEGE, TCB,
};
pub use program::{program, MAX_CHUNK};
pub use query::LAST_CLASS;
pub use record::HandleRecord;
pub use refusal::Refusal;
pub use request::{
    Request, DISABLE, ENABLE, LAST_REQUEST, NO_CHANGE, REMOVE, RESET_GROUPS, RESET_PRIVILEGES,
};
pub use rights::Mask;
pub use sid::{Sid, MAX_SID_BYTES, MAX_SUB_AUTHORITIES, SID_REVISION};
pub use sid_table::{SidTable, FIRST_ENTERED, SIDS};
pub use state::{
    Client, Handle, Model, Pair, Station, HANDLES, NO_CLIENT, PAIRS, STATIONS, TOKENS,
};
pub use token::{
    Elevation, Group, Level, Token, TokenType, ANONYMOUS_SID, INTEGRITY_LEVELS, MAX_DACL,
    MAX_GROUPS, MAX_RESTRICTING, NO_ROOT, SYSTEM_SID,
};
pub use valid::{Rule, RULES};
