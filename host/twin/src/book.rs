//! The tables: live orders, insides, the session code, and what a message does to them.

use super::fields::{
    be32, be64, id_value, price_good, quote_good, session_good, side_good, symbol_good, symbol_key,
    text, unsolicited_good,
};
use super::Refusal;

pub const ORDERS: usize = 256;
pub const INSIDES: usize = 64;
const BUCKETS: usize = 512;
const SLOTS: usize = 128;
const NOWHERE: u16 = u16::MAX;
/// The fault of a type that is not in the table; whether it is one, the session's rule says.
pub const UNLISTED: u8 = 1;
/// Spreads keys by their product's upper bits.
const SPREAD: u64 = 0x9e37_79b9_7f4a_7c15;

/// A live order. Shares of 0 mark a free place, since no live order is empty.
#[derive(Clone, Copy, Debug, Default, PartialEq, Eq)]
pub struct Order {
    pub id: u64,
    pub price: u64,
    pub shares: u32,
    pub firm: [u8; 4],
    pub symbol: [u8; 14],
    pub side: u8,
    pub unsolicited: u8,
}

#[derive(Clone, Copy, Debug, Default, PartialEq, Eq)]
pub struct Inside {
    pub ask: u64,
    pub bid: u64,
    pub time: u32,
    pub asked: u32,
    pub bidden: u32,
    pub symbol: [u8; 14],
    pub unsolicited: u8,
}

/// The best price of a symbol's side, with all shares and orders there.
#[derive(Clone, Copy, Debug, Default, PartialEq, Eq)]
pub struct Best {
    pub price: u64,
    pub shares: u64,
    pub orders: u64,
}

/// How many messages faulted, and the first of them: its number and reason.
#[derive(Clone, Copy, Debug, Default, PartialEq, Eq)]
pub struct Faults {
    pub count: u64,
    pub number: u64,
    pub reason: u8,
}

pub struct Book {
    orders: [Order; ORDERS],
    /// The next place in a bucket's chain.
    follower: [u16; ORDERS],
    bucket: [u16; BUCKETS],
    /// From `live` on: the free places.
    free: [u8; ORDERS],
    live: usize,
    /// No place from here on has been used.
    used: usize,
    insides: [Inside; INSIDES],
    keys: [(u64, u64); INSIDES],
    /// Open addressing; a place and one, or 0.
    slot: [u8; SLOTS],
    held: usize,
    code: u8,
}

#[inline(always)]
fn bucket_of(id: u64) -> usize {
    (id.wrapping_mul(SPREAD) >> 55) as usize
}

#[inline(always)]
fn slot_of(key: (u64, u64)) -> usize {
    ((key.0 ^ key.1.rotate_left(23)).wrapping_mul(SPREAD) >> 57) as usize
}

impl Book {
    pub fn new() -> Book {
        Book {
            orders: [Order::default(); ORDERS],
            follower: [NOWHERE; ORDERS],
            bucket: [NOWHERE; BUCKETS],
            free: std::array::from_fn(|place| place as u8),
            live: 0,
            used: 0,
            insides: [Inside::default(); INSIDES],
            keys: [(0, 0); INSIDES],
            slot: [0; SLOTS],
            held: 0,
            code: 0,
        }
    }

    /// Applies one message, of a size that its type allows; the answer is the fault, 0 if there is none.
    #[inline(always)]
    pub fn apply(&mut self, message: &[u8]) -> u8 {
        let payload = &message[3..];
        match message[2] {
            20 => self.trading_session(payload),
            21 => self.add(payload),
            22 => self.update(payload),
            23 => self.delete(payload),
            24 => self.execution(payload, true),
            25 => match payload.first_chunk::<42>() {
                Some(p) => self.execution(p, price_good(be64(p, 34))),
                None => 2,
            },
            26 => self.top(payload),
            27 => trade(payload),
            9 | 11 | 12 | 28 => 0,
            _ => UNLISTED,
        }
    }

    fn trading_session(&mut self, payload: &[u8]) -> u8 {
        let Some(p) = payload.first_chunk::<9>() else {
            return 2;
        };
        if !session_good(p[8]) {
            return 2;
        }
        self.code = p[8];
        0
    }

    #[inline(always)]
    fn add(&mut self, payload: &[u8]) -> u8 {
        let Some(p) = payload.first_chunk::<52>() else {
            return 2;
        };
        let Some(id) = id_value(&text(p, 4)) else {
            return 2;
        };
        let order = Order {
            id,
            side: p[18],
            shares: be32(p, 19),
            symbol: text(p, 23),
            price: be64(p, 37),
            firm: text(p, 45),
            unsolicited: p[49],
        };
        if !(side_good(order.side)
            && order.shares != 0
            && symbol_good(&order.symbol)
            && price_good(order.price)
            && unsolicited_good(order.unsolicited))
        {
            return 2;
        }
        let bucket = bucket_of(id);
        if self.in_chain(self.bucket[bucket], id).is_some() {
            return 3;
        }
        if self.live == ORDERS {
            return 4;
        }
        let place = self.free[self.live] as usize;
        self.live += 1;
        self.used = self.used.max(self.live);
        self.orders[place] = order;
        self.follower[place] = self.bucket[bucket];
        self.bucket[bucket] = place as u16;
        0
    }

    #[inline(always)]
    fn update(&mut self, payload: &[u8]) -> u8 {
        let Some(p) = payload.first_chunk::<32>() else {
            return 2;
        };
        let shares = be32(p, 18);
        let price = be64(p, 22);
        let Some(id) = id_value(&text(p, 4)) else {
            return 2;
        };
        if shares == 0 || !price_good(price) {
            return 2;
        }
        let Some(place) = self.find(id) else {
            return 5;
        };
        self.orders[place].shares = shares;
        self.orders[place].price = price;
        0
    }

    #[inline(always)]
    fn delete(&mut self, payload: &[u8]) -> u8 {
        let Some(p) = payload.first_chunk::<18>() else {
            return 2;
        };
        match id_value(&text(p, 4)) {
            None => 2,
            Some(id) => {
                if self.remove(id) {
                    0
                } else {
                    5
                }
            }
        }
    }

    #[inline(always)]
    fn execution(&mut self, payload: &[u8], price: bool) -> u8 {
        let Some(p) = payload.first_chunk::<34>() else {
            return 2;
        };
        let executed = be32(p, 18);
        let Some(id) = id_value(&text(p, 4)) else {
            return 2;
        };
        if executed == 0 || !price {
            return 2;
        }
        let Some(place) = self.find(id) else {
            return 5;
        };
        let shares = self.orders[place].shares;
        if executed > shares {
            return 6;
        }
        if be32(p, 22) != shares - executed {
            return 7;
        }
        if executed == shares {
            self.remove(id);
        } else {
            self.orders[place].shares = shares - executed;
        }
        0
    }

    #[inline(always)]
    fn top(&mut self, payload: &[u8]) -> u8 {
        let Some(p) = payload.first_chunk::<43>() else {
            return 2;
        };
        let inside = Inside {
            time: be32(p, 0),
            symbol: text(p, 4),
            ask: be64(p, 18),
            asked: be32(p, 26),
            bid: be64(p, 30),
            bidden: be32(p, 38),
            unsolicited: p[42],
        };
        if !(symbol_good(&inside.symbol)
            && quote_good(inside.ask)
            && quote_good(inside.bid)
            && unsolicited_good(inside.unsolicited))
        {
            return 2;
        }
        let key = symbol_key(&inside.symbol);
        let place = match self.look(key) {
            Ok(place) => place,
            Err(_) if self.held == INSIDES => return 8,
            Err(slot) => {
                let place = self.held;
                self.held += 1;
                self.slot[slot] = self.held as u8;
                self.keys[place] = key;
                place
            }
        };
        self.insides[place] = inside;
        0
    }

    #[inline(always)]
    fn in_chain(&self, mut place: u16, id: u64) -> Option<usize> {
        while place != NOWHERE {
            let here = place as usize % ORDERS;
            if self.orders[here].id == id {
                return Some(here);
            }
            place = self.follower[here];
        }
        None
    }

    #[inline(always)]
    fn find(&self, id: u64) -> Option<usize> {
        self.in_chain(self.bucket[bucket_of(id)], id)
    }

    /// Takes an order out of its chain and the table; false if it is not live.
    #[inline(always)]
    fn remove(&mut self, id: u64) -> bool {
        let bucket = bucket_of(id);
        let mut before = NOWHERE;
        let mut place = self.bucket[bucket];
        while place != NOWHERE {
            let here = place as usize % ORDERS;
            if self.orders[here].id == id {
                if before == NOWHERE {
                    self.bucket[bucket] = self.follower[here];
                } else {
                    self.follower[before as usize % ORDERS] = self.follower[here];
                }
                self.orders[here].shares = 0;
                self.live -= 1;
                self.free[self.live] = here as u8;
                return true;
            }
            before = place;
            place = self.follower[here];
        }
        false
    }

    /// The place of a symbol's inside, or the slot where it would go.
    #[inline(always)]
    fn look(&self, key: (u64, u64)) -> Result<usize, usize> {
        let mut slot = slot_of(key);
        loop {
            let place = self.slot[slot] as usize;
            if place == 0 {
                return Err(slot);
            }
            if self.keys[(place - 1) % INSIDES] == key {
                return Ok(place - 1);
            }
            slot = (slot + 1) % SLOTS;
        }
    }

    pub fn code(&self) -> u8 {
        self.code
    }

    pub fn live(&self) -> usize {
        self.live
    }

    pub fn live_orders(&self) -> impl Iterator<Item = &Order> {
        self.orders.iter().filter(|order| order.shares != 0)
    }

    pub fn held_insides(&self) -> &[Inside] {
        &self.insides[..self.held]
    }

    pub fn order(&self, id: &[u8; 14]) -> Result<Order, Refusal> {
        let value = id_value(id).ok_or(Refusal(12))?;
        match self.find(value) {
            Some(place) => Ok(self.orders[place]),
            None => Err(Refusal(13)),
        }
    }

    pub fn inside(&self, symbol: &[u8; 14]) -> Result<Inside, Refusal> {
        if !symbol_good(symbol) {
            return Err(Refusal(12));
        }
        match self.look(symbol_key(symbol)) {
            Ok(place) => Ok(self.insides[place]),
            Err(_) => Err(Refusal(13)),
        }
    }

    pub fn best(&self, symbol: &[u8; 14], side: u8) -> Result<Best, Refusal> {
        if !symbol_good(symbol) || !side_good(side) {
            return Err(Refusal(12));
        }
        let key = symbol_key(symbol);
        let mut best: Option<Best> = None;
        for order in &self.orders[..self.used] {
            if order.shares == 0 || order.side != side || symbol_key(&order.symbol) != key {
                continue;
            }
            best = Some(match best {
                Some(best) if best.price == order.price => Best {
                    price: best.price,
                    shares: best.shares + order.shares as u64,
                    orders: best.orders + 1,
                },
                Some(best) if (best.price > order.price) == (side == b'B') => best,
                _ => Best {
                    price: order.price,
                    shares: order.shares as u64,
                    orders: 1,
                },
            });
        }
        best.ok_or(Refusal(13))
    }
}

impl Default for Book {
    fn default() -> Self {
        Self::new()
    }
}

/// A trade changes nothing, yet its fields have rules.
fn trade(payload: &[u8]) -> u8 {
    let Some(p) = payload.first_chunk::<47>() else {
        return 2;
    };
    let good =
        p[4] == b'B' && be32(p, 5) != 0 && symbol_good(&text(p, 9)) && price_good(be64(p, 23));
    if good {
        0
    } else {
        2
    }
}
