//! The twin: document 01, and of 02 what has landed, once more in Rust, after the documents alone and for speed.
//!
//! It shares no code, no table and no constant with the proved library, so that a slip in one of the
//! two, or in the compiler behind either, shows as a difference.

pub mod book;
pub mod fields;
pub mod message;
pub mod packet;
pub mod session;

pub use book::{Best, Faults, Inside, Order};
pub use message::Message;
pub use packet::Header;
pub use session::Session;

/// A refusal, by its number in document 01.
#[derive(Clone, Copy, Debug, PartialEq, Eq)]
pub struct Refusal(pub u8);
