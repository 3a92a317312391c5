//! One message: the sizes by type, reading from its bytes, writing back.

use super::fields::{
    be16, be32, be64, id_value, price_good, quote_good, session_good, side_good, symbol_good, text,
    unsolicited_good,
};
use super::Refusal;

pub const LONGEST: usize = 128;
pub const HEAD: usize = 3;

/// The least size of a message by its type, header counted; an unlisted type needs its header alone.
pub static LEAST: [u8; 256] = least();

const fn least() -> [u8; 256] {
    let mut table = [HEAD as u8; 256];
    table[9] = 36;
    table[11] = 16;
    table[12] = 20;
    table[20] = 12;
    table[21] = 55;
    table[22] = 35;
    table[23] = 21;
    table[24] = 37;
    table[25] = 45;
    table[26] = 46;
    table[27] = 50;
    table
}

/// The price of an execution: the published one, or one of its own.
#[derive(Clone, Copy, Debug, PartialEq, Eq)]
pub enum At {
    Published,
    Own(u64),
}

#[derive(Clone, Copy, Debug, PartialEq, Eq)]
pub enum Message {
    Security {
        symbol: [u8; 14],
        updated: u64,
        action: u8,
        class: u8,
        security: u32,
        flags: u16,
        tier: u8,
        reporting: u8,
        status: u8,
    },
    SpinStart {
        kind: u8,
        time: u64,
        last: u32,
    },
    SpinEnd {
        kind: u8,
        count: u32,
        time: u64,
        last: u32,
    },
    TradingSession {
        time: u64,
        code: u8,
    },
    Add {
        time: u32,
        id: [u8; 14],
        side: u8,
        quantity: u32,
        symbol: [u8; 14],
        price: u64,
        firm: [u8; 4],
        unsolicited: u8,
        flags: u16,
    },
    Update {
        time: u32,
        id: [u8; 14],
        quantity: u32,
        price: u64,
        flags: u16,
    },
    Delete {
        time: u32,
        id: [u8; 14],
    },
    Execution {
        time: u32,
        id: [u8; 14],
        executed: u32,
        remaining: u32,
        execution: u64,
        at: At,
    },
    Top {
        time: u32,
        symbol: [u8; 14],
        ask: u64,
        asked: u32,
        bid: u64,
        bidden: u32,
        unsolicited: u8,
    },
    Trade {
        time: u32,
        side: u8,
        quantity: u32,
        symbol: [u8; 14],
        price: u64,
        execution: u64,
        reserved: [u8; 8],
    },
    /// Imbalance and every unlisted type: the type alone.
    Other(u8),
}

/// Reads the message that `bytes` are, whole.
pub fn read(bytes: &[u8]) -> Result<Message, Refusal> {
    if bytes.len() < HEAD || bytes.len() > LONGEST {
        return Err(Refusal(7));
    }
    let kind = bytes[2];
    if be16(bytes, 0) as usize != bytes.len() || bytes.len() < LEAST[kind as usize] as usize {
        return Err(Refusal(7));
    }
    let message = fields(kind, &bytes[HEAD..]);
    if message.good() {
        Ok(message)
    } else {
        Err(Refusal(14))
    }
}

/// The fields of a payload that is long enough for its type.
fn fields(kind: u8, p: &[u8]) -> Message {
    match kind {
        9 => Message::Security {
            symbol: text(p, 0),
            updated: be64(p, 14),
            action: p[22],
            class: p[23],
            security: be32(p, 24),
            flags: be16(p, 28),
            tier: p[30],
            reporting: p[31],
            status: p[32],
        },
        11 => Message::SpinStart {
            kind: p[0],
            time: be64(p, 1),
            last: be32(p, 9),
        },
        12 => Message::SpinEnd {
            kind: p[0],
            count: be32(p, 1),
            time: be64(p, 5),
            last: be32(p, 13),
        },
        20 => Message::TradingSession {
            time: be64(p, 0),
            code: p[8],
        },
        21 => Message::Add {
            time: be32(p, 0),
            id: text(p, 4),
            side: p[18],
            quantity: be32(p, 19),
            symbol: text(p, 23),
            price: be64(p, 37),
            firm: text(p, 45),
            unsolicited: p[49],
            flags: be16(p, 50),
        },
        22 => Message::Update {
            time: be32(p, 0),
            id: text(p, 4),
            quantity: be32(p, 18),
            price: be64(p, 22),
            flags: be16(p, 30),
        },
        23 => Message::Delete {
            time: be32(p, 0),
            id: text(p, 4),
        },
        24 | 25 => Message::Execution {
            time: be32(p, 0),
            id: text(p, 4),
            executed: be32(p, 18),
            remaining: be32(p, 22),
            execution: be64(p, 26),
            at: if kind == 24 {
                At::Published
            } else {
                At::Own(be64(p, 34))
            },
        },
        26 => Message::Top {
            time: be32(p, 0),
            symbol: text(p, 4),
            ask: be64(p, 18),
            asked: be32(p, 26),
            bid: be64(p, 30),
            bidden: be32(p, 38),
            unsolicited: p[42],
        },
        27 => Message::Trade {
            time: be32(p, 0),
            side: p[4],
            quantity: be32(p, 5),
            symbol: text(p, 9),
            price: be64(p, 23),
            execution: be64(p, 31),
            reserved: text(p, 39),
        },
        other => Message::Other(other),
    }
}

impl Message {
    /// The number that says its type.
    pub fn kind(&self) -> u8 {
        match self {
            Message::Security { .. } => 9,
            Message::SpinStart { .. } => 11,
            Message::SpinEnd { .. } => 12,
            Message::TradingSession { .. } => 20,
            Message::Add { .. } => 21,
            Message::Update { .. } => 22,
            Message::Delete { .. } => 23,
            Message::Execution {
                at: At::Published, ..
            } => 24,
            Message::Execution { .. } => 25,
            Message::Top { .. } => 26,
            Message::Trade { .. } => 27,
            Message::Other(kind) => *kind,
        }
    }

    /// Whether every field keeps its rule.
    pub fn good(&self) -> bool {
        match *self {
            Message::TradingSession { code, .. } => session_good(code),
            Message::Add {
                id,
                side,
                quantity,
                symbol,
                price,
                unsolicited,
                ..
            } => {
                id_value(&id).is_some()
                    && side_good(side)
                    && quantity != 0
                    && symbol_good(&symbol)
                    && price_good(price)
                    && unsolicited_good(unsolicited)
            }
            Message::Update {
                id,
                quantity,
                price,
                ..
            } => id_value(&id).is_some() && quantity != 0 && price_good(price),
            Message::Delete { id, .. } => id_value(&id).is_some(),
            Message::Execution {
                id, executed, at, ..
            } => {
                let price = match at {
                    At::Published => true,
                    At::Own(price) => price_good(price),
                };
                id_value(&id).is_some() && executed != 0 && price
            }
            Message::Top {
                symbol,
                ask,
                bid,
                unsolicited,
                ..
            } => {
                symbol_good(&symbol)
                    && quote_good(ask)
                    && quote_good(bid)
                    && unsolicited_good(unsolicited)
            }
            Message::Trade {
                side,
                quantity,
                symbol,
                price,
                ..
            } => side == b'B' && quantity != 0 && symbol_good(&symbol) && price_good(price),
            _ => true,
        }
    }

    /// Writes the message at a place, exact in size, and says how many bytes that took.
    pub fn write(&self, buffer: &mut [u8], at: usize) -> Result<usize, Refusal> {
        if matches!(self, Message::Other(_)) || !self.good() {
            return Err(Refusal(14));
        }
        let size = LEAST[self.kind() as usize] as usize;
        let place = at
            .checked_add(size)
            .and_then(|behind| buffer.get_mut(at..behind))
            .ok_or(Refusal(11))?;
        place[..2].copy_from_slice(&(size as u16).to_be_bytes());
        place[2] = self.kind();
        self.put(&mut Pen {
            left: &mut place[HEAD..],
        });
        Ok(size)
    }

    fn put(&self, pen: &mut Pen) {
        match *self {
            Message::Security {
                symbol,
                updated,
                action,
                class,
                security,
                flags,
                tier,
                reporting,
                status,
            } => {
                pen.text(&symbol);
                pen.text(&updated.to_be_bytes());
                pen.text(&[action, class]);
                pen.text(&security.to_be_bytes());
                pen.text(&flags.to_be_bytes());
                pen.text(&[tier, reporting, status]);
            }
            Message::SpinStart { kind, time, last } => {
                pen.text(&[kind]);
                pen.text(&time.to_be_bytes());
                pen.text(&last.to_be_bytes());
            }
            Message::SpinEnd {
                kind,
                count,
                time,
                last,
            } => {
                pen.text(&[kind]);
                pen.text(&count.to_be_bytes());
                pen.text(&time.to_be_bytes());
                pen.text(&last.to_be_bytes());
            }
            Message::TradingSession { time, code } => {
                pen.text(&time.to_be_bytes());
                pen.text(&[code]);
            }
            Message::Add {
                time,
                id,
                side,
                quantity,
                symbol,
                price,
                firm,
                unsolicited,
                flags,
            } => {
                pen.text(&time.to_be_bytes());
                pen.text(&id);
                pen.text(&[side]);
                pen.text(&quantity.to_be_bytes());
                pen.text(&symbol);
                pen.text(&price.to_be_bytes());
                pen.text(&firm);
                pen.text(&[unsolicited]);
                pen.text(&flags.to_be_bytes());
            }
            Message::Update {
                time,
                id,
                quantity,
                price,
                flags,
            } => {
                pen.text(&time.to_be_bytes());
                pen.text(&id);
                pen.text(&quantity.to_be_bytes());
                pen.text(&price.to_be_bytes());
                pen.text(&flags.to_be_bytes());
            }
            Message::Delete { time, id } => {
                pen.text(&time.to_be_bytes());
                pen.text(&id);
            }
            Message::Execution {
                time,
                id,
                executed,
                remaining,
                execution,
                at,
            } => {
                pen.text(&time.to_be_bytes());
                pen.text(&id);
                pen.text(&executed.to_be_bytes());
                pen.text(&remaining.to_be_bytes());
                pen.text(&execution.to_be_bytes());
                if let At::Own(price) = at {
                    pen.text(&price.to_be_bytes());
                }
            }
            Message::Top {
                time,
                symbol,
                ask,
                asked,
                bid,
                bidden,
                unsolicited,
            } => {
                pen.text(&time.to_be_bytes());
                pen.text(&symbol);
                pen.text(&ask.to_be_bytes());
                pen.text(&asked.to_be_bytes());
                pen.text(&bid.to_be_bytes());
                pen.text(&bidden.to_be_bytes());
                pen.text(&[unsolicited]);
            }
            Message::Trade {
                time,
                side,
                quantity,
                symbol,
                price,
                execution,
                reserved,
            } => {
                pen.text(&time.to_be_bytes());
                pen.text(&[side]);
                pen.text(&quantity.to_be_bytes());
                pen.text(&symbol);
                pen.text(&price.to_be_bytes());
                pen.text(&execution.to_be_bytes());
                pen.text(&reserved);
            }
            Message::Other(_) => {}
        }
    }
}

/// What is left to write of a message.
struct Pen<'a> {
    left: &'a mut [u8],
}

impl Pen<'_> {
    fn text(&mut self, bytes: &[u8]) {
        let (here, behind) = std::mem::take(&mut self.left).split_at_mut(bytes.len());
        here.copy_from_slice(bytes);
        self.left = behind;
    }
}
