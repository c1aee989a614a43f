//! The proved rights broker, for hosts in Rust.
//!
//! Eight stations send bytes to one [`Broker`], which keeps access tokens and answers requests to
//! open, close, create, query, adjust, duplicate, restrict, install and link them, to evaluate a
//! [`Condition`] on one, to act for one and to revert. The code behind it is proved to do for every
//! input what its rules say; this crate owns the memory that it works on and makes its calls safe.
//! It has no dependencies.
//!
//! ```
//! use obriska::Broker;
//!
//! let mut broker = Broker::start();
//! // Station 0 opens its own token for query and adjust-privileges: it gets handle 1.
//! let answers = broker.feed(0, &[0x02, 0x01, 0x28])?;
//! assert_eq!(answers[0].bytes(), [0x02, 0x00, 0x01]);
//! // It disables Tcb, which was present and enabled.
//! let answers = broker.feed(0, &[0x05, 0x05, 0x01, 0x01, 0x07, 0x00])?;
//! assert_eq!(answers[0].bytes(), [0x05, 0x00, 0x80, 0x01, 0x80, 0x01]);
//!
//! let handle = broker.handle(0, 1).expect("it was just opened");
//! let token = broker.token(handle.token).expect("a handle's token is live");
//! assert!(!token.privileges.enables(7));
//! assert_eq!(token.modified, 2);
//! # Ok::<(), obriska::Refusal>(())
//! ```
//!
//! [`codec`] has requests and answers as typed values; [`Broker::feed_into`] hands answers out
//! without an allocation. Tokens, requests and answers have SIDs as numbers of a table, to which
//! [`CreateWithSids`](codec::Request::CreateWithSids) and
//! [`RestrictToSids`](codec::Request::RestrictToSids) add; [`Broker::sid`] gives a number's SID.
//!
//! # Building
//!
//! The build script links `libobriska.a` from the directory that `OBRISKA_LIB_DIR` names. If that
//! is not set, it proves and compiles the broker by `rt lib`.
//!
//! Without the feature `std`, which is on by default, there is no broker and nothing is linked: the
//! codec is left, for `no_std`; with the feature `alloc`, conditions and putting back too.

#![cfg_attr(not(any(test, feature = "std")), no_std)]

#[cfg(feature = "alloc")]
extern crate alloc;

#[cfg(feature = "std")]
mod answer;
#[cfg(feature = "std")]
mod broker;
pub mod codec;
#[cfg(feature = "alloc")]
mod condition;
#[cfg(feature = "std")]
mod ffi;
#[cfg(feature = "std")]
mod kept;
#[cfg(feature = "std")]
mod layout;
mod limits;
#[cfg(feature = "std")]
mod memory;
pub mod names;
pub mod number;
#[cfg(feature = "std")]
mod pair;
mod previous;
mod refusal;
#[cfg(feature = "alloc")]
mod restore;
#[cfg(feature = "std")]
mod sids;
mod terms;
mod version;
#[cfg(feature = "std")]
mod view;

#[cfg(feature = "std")]
pub use answer::Answer;
#[cfg(feature = "std")]
pub use broker::{Broker, Fed};
#[cfg(feature = "alloc")]
pub use condition::{Condition, ConditionError};
#[cfg(feature = "std")]
pub use kept::{KeptError, KEPT_BYTES};
#[cfg(feature = "std")]
pub use layout::MEMORY_BYTES;
pub use limits::{
    GROUP_WORDS, HANDLES, LENGTH_BYTES, MAX_ANSWER, MAX_BODY, MAX_DACL, MAX_DEPTH, MAX_FRAME,
    MAX_GROUPS, MAX_RESTRICTING, MAX_SID, MAX_SUB_AUTHORITIES, PAIRS, SIDS, STATIONS, TOKENS,
};
#[cfg(feature = "std")]
pub use pair::Pair;
pub use previous::{PreviousGroups, PreviousPrivileges, PrivilegeState};
pub use refusal::Refusal;
#[cfg(feature = "alloc")]
pub use restore::{Restore, RestoreError};
pub use terms::{Client, Elevation, Group, Level, Privileges, TokenType, NO_CLIENT, NO_ROOT};
#[cfg(feature = "std")]
pub use version::{library_layout, library_version};
pub use version::{LAYOUT, VERSION};
#[cfg(feature = "std")]
pub use view::{Handle, Station, Token};
