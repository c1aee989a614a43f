//! The proved code against the independent model: [`Lent`] makes the calls through the static
//! library, [`program`] runs the program, [`lists`], [`conditions`], [`put_back`], [`sids`] and [`damages`]
//! compare.

pub mod conditions;
pub mod damages;
pub mod lists;
pub mod program;
pub mod put_back;
pub mod sids;

mod broker;
mod part;
mod stack;

pub use broker::Lent;
