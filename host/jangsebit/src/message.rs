//! One message, without a session.

use crate::refusal::{refused, Refusal};
use crate::sys;

/// The price of an execution.
#[derive(Clone, Copy, Debug, PartialEq, Eq)]
pub enum Terms {
    /// The order's own price, as published.
    Published,
    /// A price of its own, in millionths.
    Own(u64),
}

/// A message of the overnight channels, with the fields of its layout in their order.
///
/// ```
/// use jangsebit::{Message, Refusal};
///
/// // A Trading Session with one byte behind its fields, which is not read and not written.
/// let bytes = [0, 13, 20, 0, 0, 0, 0, 0, 0, 0, 1, 5, 0xee];
/// let message = Message::read(&bytes)?;
/// assert_eq!(message, Message::TradingSession { time: 1, session: 5 });
/// let mut buffer = [0; 12];
/// assert_eq!(message.write(&mut buffer, 0)?, 12);
/// assert_eq!(buffer, [0, 12, 20, 0, 0, 0, 0, 0, 0, 0, 1, 5]);
/// assert_eq!(message.write(&mut buffer, 1), Err(Refusal::BufferTooShort));
/// # Ok::<(), Refusal>(())
/// ```
#[allow(missing_docs)] // the fields are the layouts'
#[derive(Clone, Copy, Debug, PartialEq, Eq)]
pub enum Message {
    Security {
        symbol: [u8; 14],
        updated: u64,
        action: u8,
        class: u8,
        security: u32,
        flags: u16,
        tier: u8,
        reporting: u8,
        status: u8,
    },
    SpinStart {
        spin: u8,
        time: u64,
        last: u32,
    },
    SpinEnd {
        spin: u8,
        count: u32,
        time: u64,
        last: u32,
    },
    TradingSession {
        time: u64,
        session: u8,
    },
    Add {
        time: u32,
        id: [u8; 14],
        side: u8,
        quantity: u32,
        symbol: [u8; 14],
        price: u64,
        firm: [u8; 4],
        unsolicited: u8,
        flags: u16,
    },
    Update {
        time: u32,
        id: [u8; 14],
        quantity: u32,
        price: u64,
        flags: u16,
    },
    Delete {
        time: u32,
        id: [u8; 14],
    },
    Execution {
        time: u32,
        id: [u8; 14],
        executed: u32,
        remaining: u32,
        execution: u64,
        terms: Terms,
    },
    Top {
        time: u32,
        symbol: [u8; 14],
        ask: u64,
        ask_volume: u32,
        bid: u64,
        bid_volume: u32,
        unsolicited: u8,
    },
    Trade {
        time: u32,
        side: u8,
        quantity: u32,
        symbol: [u8; 14],
        price: u64,
        execution: u64,
        reserved: u64,
    },
    /// Imbalance and every unlisted type: the type alone.
    Other(u8),
}

impl Message {
    /// The most bytes that a message has.
    pub const LONGEST: usize = 128;

    /// The message that the bytes are, all of them.
    ///
    /// # Errors
    ///
    /// [`Refusal::BadMessage`], then [`Refusal::BadField`].
    pub fn read(bytes: &[u8]) -> Result<Message, Refusal> {
        let (refusal, numbers) = sys::message(bytes);
        refused(refusal)?;
        Ok(Message::told(&mut Told(numbers.iter().copied())))
    }

    /// Writes the message at a place of a buffer, its exact size, and answers how many bytes that took. Other bytes stay.
    ///
    /// # Errors
    ///
    /// [`Refusal::BadField`], also for [`Message::Other`], then [`Refusal::BufferTooShort`]; nothing is then written.
    pub fn write(&self, buffer: &mut [u8], at: usize) -> Result<usize, Refusal> {
        let mut given = Given {
            numbers: [0; 14],
            count: 0,
        };
        self.give(&mut given);
        let (refusal, count) = sys::write_message(&given.numbers, buffer, at);
        refused(refusal)?;
        Ok(count as usize)
    }

    fn told(t: &mut Told<impl Iterator<Item = u64>>) -> Message {
        let kind = t.number() as u8;
        match kind {
            9 => Message::Security {
                symbol: t.text(),
                updated: t.number(),
                action: t.number() as u8,
                class: t.number() as u8,
                security: t.number() as u32,
                flags: t.number() as u16,
                tier: t.number() as u8,
                reporting: t.number() as u8,
                status: t.number() as u8,
            },
            11 => Message::SpinStart {
                spin: t.number() as u8,
                time: t.number(),
                last: t.number() as u32,
            },
            12 => Message::SpinEnd {
                spin: t.number() as u8,
                count: t.number() as u32,
                time: t.number(),
                last: t.number() as u32,
            },
            20 => Message::TradingSession {
                time: t.number(),
                session: t.number() as u8,
            },
            21 => Message::Add {
                time: t.number() as u32,
                id: t.text(),
                side: t.number() as u8,
                quantity: t.number() as u32,
                symbol: t.text(),
                price: t.number(),
                firm: (t.number() as u32).to_be_bytes(),
                unsolicited: t.number() as u8,
                flags: t.number() as u16,
            },
            22 => Message::Update {
                time: t.number() as u32,
                id: t.text(),
                quantity: t.number() as u32,
                price: t.number(),
                flags: t.number() as u16,
            },
            23 => Message::Delete {
                time: t.number() as u32,
                id: t.text(),
            },
            24 | 25 => Message::Execution {
                time: t.number() as u32,
                id: t.text(),
                executed: t.number() as u32,
                remaining: t.number() as u32,
                execution: t.number(),
                terms: if kind == 24 {
                    Terms::Published
                } else {
                    Terms::Own(t.number())
                },
            },
            26 => Message::Top {
                time: t.number() as u32,
                symbol: t.text(),
                ask: t.number(),
                ask_volume: t.number() as u32,
                bid: t.number(),
                bid_volume: t.number() as u32,
                unsolicited: t.number() as u8,
            },
            27 => Message::Trade {
                time: t.number() as u32,
                side: t.number() as u8,
                quantity: t.number() as u32,
                symbol: t.text(),
                price: t.number(),
                execution: t.number(),
                reserved: t.number(),
            },
            other => Message::Other(other),
        }
    }

    fn give(&self, g: &mut Given) {
        match *self {
            Message::Security {
                symbol,
                updated,
                action,
                class,
                security,
                flags,
                tier,
                reporting,
                status,
            } => g
                .put(9u8)
                .text(&symbol)
                .put(updated)
                .put(action)
                .put(class)
                .put(security)
                .put(flags)
                .put(tier)
                .put(reporting)
                .put(status),
            Message::SpinStart { spin, time, last } => g.put(11u8).put(spin).put(time).put(last),
            Message::SpinEnd {
                spin,
                count,
                time,
                last,
            } => g.put(12u8).put(spin).put(count).put(time).put(last),
            Message::TradingSession { time, session } => g.put(20u8).put(time).put(session),
            Message::Add {
                time,
                id,
                side,
                quantity,
                symbol,
                price,
                firm,
                unsolicited,
                flags,
            } => g
                .put(21u8)
                .put(time)
                .text(&id)
                .put(side)
                .put(quantity)
                .text(&symbol)
                .put(price)
                .put(u32::from_be_bytes(firm))
                .put(unsolicited)
                .put(flags),
            Message::Update {
                time,
                id,
                quantity,
                price,
                flags,
            } => g
                .put(22u8)
                .put(time)
                .text(&id)
                .put(quantity)
                .put(price)
                .put(flags),
            Message::Delete { time, id } => g.put(23u8).put(time).text(&id),
            Message::Execution {
                time,
                id,
                executed,
                remaining,
                execution,
                terms,
            } => {
                let (kind, price) = match terms {
                    Terms::Published => (24u8, 0),
                    Terms::Own(price) => (25, price),
                };
                g.put(kind)
                    .put(time)
                    .text(&id)
                    .put(executed)
                    .put(remaining)
                    .put(execution)
                    .put(price)
            }
            Message::Top {
                time,
                symbol,
                ask,
                ask_volume,
                bid,
                bid_volume,
                unsolicited,
            } => g
                .put(26u8)
                .put(time)
                .text(&symbol)
                .put(ask)
                .put(ask_volume)
                .put(bid)
                .put(bid_volume)
                .put(unsolicited),
            Message::Trade {
                time,
                side,
                quantity,
                symbol,
                price,
                execution,
                reserved,
            } => g
                .put(27u8)
                .put(time)
                .put(side)
                .put(quantity)
                .text(&symbol)
                .put(price)
                .put(execution)
                .put(reserved),
            Message::Other(kind) => g.put(kind),
        };
    }
}

/// The numbers of a message as the library tells them.
struct Told<I>(I);

impl<I: Iterator<Item = u64>> Told<I> {
    fn number(&mut self) -> u64 {
        self.0.next().unwrap_or(0)
    }

    /// A text comes as its first eight bytes, the next four and the last two.
    fn text(&mut self) -> [u8; 14] {
        let mut text = [0; 14];
        text[..8].copy_from_slice(&self.number().to_be_bytes());
        text[8..12].copy_from_slice(&(self.number() as u32).to_be_bytes());
        text[12..].copy_from_slice(&(self.number() as u16).to_be_bytes());
        text
    }
}

/// The numbers of a message as the library is given them.
struct Given {
    numbers: [u64; 14],
    count: usize,
}

impl Given {
    fn put(&mut self, number: impl Into<u64>) -> &mut Given {
        self.numbers[self.count] = number.into();
        self.count += 1;
        self
    }

    fn text(&mut self, text: &[u8; 14]) -> &mut Given {
        let number = |bytes: &[u8]| bytes.iter().fold(0, |n, b| 256 * n + u64::from(*b));
        self.put(number(&text[..8]))
            .put(number(&text[8..12]))
            .put(number(&text[12..]))
    }
}
