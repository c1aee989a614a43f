//! The bytes of the protocol (docs/PROTOCOL.md): typed requests to bytes, answers to typed replies.
//!
//! Nothing here allocates but what gives a `Vec` or a [`Condition`](crate::Condition): a [`Request`]
//! borrows its lists and is written into a caller's buffer, and a [`Reply`] borrows them from the
//! frame that it was read from. Without the crate's feature `std` it is there without the broker and
//! its library, for screens that talk to a broker elsewhere.
//!
//! ```
//! use obriska::codec::{Class, PrivilegeEntry, Reply, Report, Request};
//! use obriska::names::right;
//! use obriska::Broker;
//!
//! let mut broker = Broker::start();
//! let open = Request::OpenOwn { mask: right::QUERY | right::ADJUST_PRIVILEGES };
//! let answers = broker.feed(0, &open.to_bytes()?)?;
//! let Reply::Handle(handle) = answers[0].reply(&open)? else { panic!("refused") };
//!
//! let entries = [PrivilegeEntry::disable(7)]; // SeTcbPrivilege
//! let adjust = Request::Privileges { handle, entries: (&entries).into() };
//! let answers = broker.feed(0, &adjust.to_bytes()?)?;
//! let Reply::Privileges(before) = answers[0].reply(&adjust)? else { panic!("refused") };
//! assert_eq!(before.state(7).to_string(), "enabled");
//!
//! let query = Request::Query { handle, class: Class::Privileges.number(), capacity: 64 };
//! let answers = broker.feed(0, &query.to_bytes()?)?;
//! let Reply::Report(Report::Privileges(now)) = answers[0].reply(&query)? else {
//!     panic!("refused")
//! };
//! assert!(!now.enables(7));
//!
//! let close = Request::Close { handle };
//! let answers = broker.feed(0, &close.to_bytes()?)?;
//! assert_eq!(answers[0].reply(&close)?, Reply::Done);
//! # Ok::<(), Box<dyn std::error::Error>>(())
//! ```

pub(crate) mod condition;
mod entry;
mod error;
mod frame;
mod list;
mod reader;
mod reply;
mod report;
mod request;
mod request_read;
mod sid;
mod writer;

pub use condition::ConditionRef;
pub use entry::{GroupEntry, PrivilegeEntry};
pub use error::{ReadError, WriteError};
pub use frame::first_frame;
pub use list::{Item, Items, List};
pub use reply::Reply;
pub use report::{Class, Report, Statistics};
pub use request::{Request, KEEP};
pub use sid::{Sid, SidGroup};
