//! Sessions on the overnight multicast feed of an OTC venue, for firms that make markets there.
//!
//! A [`Session`] takes the packets of one channel as they come, from two lines and from retransmission, applies each message
//! once and in order, and answers what a quoting loop asks: best prices, orders, insides, what was lost. It is a thin cover
//! over a library whose every function is proved to meet its contract; what stands here only lends it memory.
//!
//! ```
//! use jangsebit::{Refusal, Session};
//!
//! let mut session = Session::open(1);
//! // Number 2 comes before number 1: it waits.
//! let second = [0, 15, 0, 0, 0, 2, 0, 1, 0, 0, 0, 0, 0, 3, 28];
//! let first = [0, 15, 0, 0, 0, 1, 0, 1, 0, 0, 0, 0, 0, 3, 28];
//! assert_eq!(session.take(&second)?.messages, 0);
//! assert_eq!(session.gaps().next().map(|gap| (gap.start, gap.count)), Some((1, 1)));
//! assert_eq!(session.take(&first)?.messages, 2);
//! assert_eq!(session.numbers().next, 3);
//! # Ok::<(), Refusal>(())
//! ```
//!
//! A loop that must not apply too many messages at once keeps packets as they come and applies what waits in portions:
//! [`Session::keep`] and [`Session::apply`].
//!
//! A venue gets new types of messages now and then. One that is not listed here is applied without effect and counted,
//! and the book stays as good as it was; [`Session::open_strict`] opens a session that has it as a fault. See [`Rule`].
//!
//! Packets of 12 to 1,472 bytes, messages of 3 to 128, 256 numbers that can wait, 256 live orders, 64 insides. Sockets, login,
//! order entry and text channels are the host's.
#![deny(missing_docs)]
#![deny(unsafe_code)]

mod answers;
mod message;
mod refusal;
mod session;
mod sys;
mod tables;
mod wire;

pub use answers::{Answer, Applied, Burst, Kept, Question, Quote};
pub use message::{Message, Terms};
pub use refusal::{Fault, Refusal, UnknownNumber};
pub use session::{Faults, Gap, Gaps, Numbers, Rule, Session};
pub use tables::{symbol, Inside, Level, Order, Side};
pub use wire::{id_value, judge, walk, Header, Messages, Refused};
