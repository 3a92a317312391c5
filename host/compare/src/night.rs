//! The messages of a night: mostly a market that makes sense, with as many faults as its manners ask for.

use crate::random::Random;

/// How a night behaves.
#[derive(Clone, Debug)]
pub struct Manners {
    /// Live orders that the night tends to; above 256 the table fills.
    pub orders: usize,
    /// Symbols in use; above 64 the insides fill.
    pub symbols: usize,
    /// Thousandths of messages made to fault, and of messages with bytes behind their fields.
    pub faulty: u64,
    pub trailing: u64,
    /// Thousandths of messages that no session applies: Security, spins, Imbalance, unlisted types.
    pub other: u64,
    /// Whether quantities and prices go to their ends.
    pub extreme: bool,
}

impl Manners {
    /// A night as the venue would send it.
    pub fn plain() -> Manners {
        Manners {
            orders: 180,
            symbols: 40,
            faulty: 0,
            trailing: 0,
            other: 0,
            extreme: false,
        }
    }

    pub fn any(random: &mut Random) -> Manners {
        Manners {
            orders: random.pick(&[3, 20, 120, 250, 256, 300]),
            symbols: random.pick(&[1, 2, 12, 63, 64, 65, 100]),
            faulty: random.pick(&[0, 2, 5, 20, 100, 400]),
            trailing: random.pick(&[0, 50, 300]),
            other: random.pick(&[0, 0, 0, 30, 300]),
            extreme: random.chance(300),
        }
    }
}

#[derive(Clone, Copy)]
struct Resting {
    id: [u8; 14],
    shares: u32,
}

pub struct Night {
    manners: Manners,
    symbols: Vec<[u8; 14]>,
    live: Vec<Resting>,
    /// Ids of orders that left: they may come back.
    gone: [u8; 14],
    ids: u64,
}

const DIGITS: &[u8; 36] = b"0123456789ABCDEFGHIJKLMNOPQRSTUVWXYZ";
const LISTED: [u8; 12] = [9, 11, 12, 20, 21, 22, 23, 24, 25, 26, 27, 28];

impl Night {
    pub fn new(manners: Manners, random: &mut Random) -> Night {
        let symbols = (0..manners.symbols)
            .map(|index| symbol(index as u64, manners.extreme, random))
            .collect();
        Night {
            manners,
            symbols,
            live: Vec::new(),
            gone: *b"7A400CY528L9SN",
            ids: random.below(1 << 20),
        }
    }

    /// The next message, in place of what `out` held.
    pub fn message(&mut self, random: &mut Random, out: &mut Vec<u8>) {
        out.clear();
        if random.chance(self.manners.other) {
            self.other(random, out);
        } else {
            self.business(random, out);
        }
        if random.chance(self.manners.trailing) && out.len() < 128 {
            let room = 128 - out.len() as u64;
            let more = if random.chance(200) {
                room
            } else {
                random.between(1, room.min(9))
            };
            for _ in 0..more {
                out.push(random.byte());
            }
        }
        let size = out.len() as u16;
        out[..2].copy_from_slice(&size.to_be_bytes());
    }

    fn business(&mut self, random: &mut Random, out: &mut Vec<u8>) {
        // A night that tends to 256 fills its table first and faults only then: a full table, no fault before.
        let filling = self.manners.orders == 256 && self.live.len() < 256;
        let faulty = random.chance(self.manners.faulty) && !filling;
        let add = match self.live.len() < self.manners.orders {
            true if filling => 200,
            true => 46,
            false => 20,
        };
        match random.weighed(&[add, 14, 18, 12, 5, 16, 4, 1]) {
            1..=4 if self.live.is_empty() && !faulty => self.add(false, random, out),
            0 if self.manners.orders == 256 && self.live.len() == 256 && !faulty => {
                self.update(false, random, out)
            }
            0 => self.add(faulty, random, out),
            1 => self.update(faulty, random, out),
            2 => self.delete(faulty, random, out),
            3 => self.execution(24, faulty, random, out),
            4 => self.execution(25, faulty, random, out),
            5 => self.top(faulty, random, out),
            6 => self.trade(faulty, random, out),
            _ => trading_session(faulty, random, out),
        }
    }

    fn add(&mut self, faulty: bool, random: &mut Random, out: &mut Vec<u8>) {
        let again = faulty && random.chance(400) && !self.live.is_empty();
        let mut id = if again {
            self.live[random.below(self.live.len() as u64) as usize].id
        } else if random.chance(20) {
            self.gone
        } else {
            self.fresh(random)
        };
        if again {
            // The last two characters tell no order from another.
            id[12] = random.byte();
        }
        let shares = self.quantity(random);
        begin(21, random, out);
        out.extend_from_slice(&id);
        out.push(random.pick(b"BS"));
        out.extend_from_slice(&shares.to_be_bytes());
        out.extend_from_slice(&self.symbol(random));
        out.extend_from_slice(&self.price(random).to_be_bytes());
        out.extend_from_slice(&random.pick(&[*b"ABCD", *b"OTCX", *b"MOON", [0, 255, 1, 32]]));
        out.push(random.pick(b"YN"));
        out.extend_from_slice(&(random.number() as u16).to_be_bytes());
        if faulty && !again {
            self.spoil(random, out, &[4, 15, 18, 19, 23, 36, 37, 49]);
        } else if !again
            && self.live.len() < 256
            && self.live.iter().all(|o| o.id[..12] != id[..12])
        {
            self.live.push(Resting { id, shares });
        }
    }

    fn update(&mut self, faulty: bool, random: &mut Random, out: &mut Vec<u8>) {
        let place = self.place(random);
        let shares = self.quantity(random);
        begin(22, random, out);
        out.extend_from_slice(&self.named(place, faulty, random));
        out.extend_from_slice(&shares.to_be_bytes());
        out.extend_from_slice(&self.price(random).to_be_bytes());
        out.extend_from_slice(&(random.number() as u16).to_be_bytes());
        if faulty {
            self.spoil(random, out, &[4, 15, 18, 22]);
        } else if let Some(order) = place.and_then(|place| self.live.get_mut(place)) {
            order.shares = shares;
        }
    }

    fn delete(&mut self, faulty: bool, random: &mut Random, out: &mut Vec<u8>) {
        let place = self.place(random);
        begin(23, random, out);
        out.extend_from_slice(&self.named(place, faulty, random));
        if faulty {
            self.spoil(random, out, &[4, 9, 15]);
        } else if let Some(place) = place {
            self.gone = self.live.swap_remove(place).id;
        }
    }

    fn execution(&mut self, kind: u8, faulty: bool, random: &mut Random, out: &mut Vec<u8>) {
        let place = self.place(random);
        let shares = place.map_or(100, |place| self.live[place].shares);
        let mut executed = if random.chance(300) {
            shares
        } else {
            random.between(1, shares as u64) as u32
        };
        let mut remaining = shares - executed;
        let wrong = if faulty { random.below(4) } else { 9 };
        match wrong {
            0 => {
                let more = random.pick(&[1, 1, 2, 200]);
                executed = shares.saturating_add(more);
            }
            1 => remaining = remaining.wrapping_add(random.pick(&[1, u32::MAX, 256])),
            _ => {}
        }
        begin(kind, random, out);
        out.extend_from_slice(&self.named(place, wrong == 2, random));
        out.extend_from_slice(&executed.to_be_bytes());
        out.extend_from_slice(&remaining.to_be_bytes());
        out.extend_from_slice(&random.number().to_be_bytes());
        if kind == 25 {
            out.extend_from_slice(&self.price(random).to_be_bytes());
        }
        if wrong == 3 {
            let places: &[usize] = if kind == 25 {
                &[4, 15, 18, 34]
            } else {
                &[4, 15, 18]
            };
            self.spoil(random, out, places);
        }
        let Some(place) = place.filter(|_| !faulty) else {
            return;
        };
        if remaining == 0 {
            self.gone = self.live.swap_remove(place).id;
        } else {
            self.live[place].shares = remaining;
        }
    }

    fn top(&mut self, faulty: bool, random: &mut Random, out: &mut Vec<u8>) {
        begin(26, random, out);
        out.extend_from_slice(&self.symbol(random));
        for _ in 0..2 {
            let price = if random.chance(100) {
                0
            } else {
                self.price(random)
            };
            out.extend_from_slice(&price.to_be_bytes());
            out.extend_from_slice(&(random.number() as u32).to_be_bytes());
        }
        out.push(random.pick(b"YN"));
        if faulty {
            self.spoil(random, out, &[4, 17, 18, 30, 42]);
        }
    }

    fn trade(&mut self, faulty: bool, random: &mut Random, out: &mut Vec<u8>) {
        begin(27, random, out);
        out.push(b'B');
        out.extend_from_slice(&self.quantity(random).to_be_bytes());
        out.extend_from_slice(&self.symbol(random));
        out.extend_from_slice(&self.price(random).to_be_bytes());
        out.extend_from_slice(&random.number().to_be_bytes());
        out.extend_from_slice(&random.number().to_be_bytes());
        if faulty {
            self.spoil(random, out, &[4, 5, 9, 22, 23]);
        }
    }

    /// A message that changes no table.
    fn other(&mut self, random: &mut Random, out: &mut Vec<u8>) {
        let kind = match random.below(6) {
            0 => 9,
            1 => 11,
            2 => 12,
            3 => 28,
            _ => unlisted(random),
        };
        let payload = match kind {
            9 => 33,
            11 => 13,
            12 => 17,
            28 => random.pick(&[0, 52, 1]),
            _ => random.pick(&[0, 0, 4, 17, 125]),
        };
        out.extend_from_slice(&[0, 0, kind]);
        for _ in 0..payload {
            out.push(random.byte());
        }
    }

    /// Breaks a field's rule at one of the payload's places, by a value at the edge of what is allowed.
    fn spoil(&self, random: &mut Random, out: &mut [u8], places: &[usize]) {
        let at = 3 + random.pick(places);
        let byte = random.pick(&[
            0, 0x1f, 0x20, b'/', b':', b'@', b'[', b'a', 0x7e, 0x7f, 0x80, 0xff, b'b', b's',
        ]);
        // A number breaks its rule by all zeros or its first bit.
        let wide = matches!(
            (out[2], at - 3),
            (21, 19 | 37) | (22 | 24 | 25, 18) | (22, 22) | (25, 34) | (26, 18 | 30) | (27, 5 | 23)
        );
        if wide && random.chance(500) {
            let width = if matches!((out[2], at - 3), (21, 19) | (22 | 24 | 25, 18) | (27, 5)) {
                4
            } else {
                8
            };
            out[at..at + width].fill(0);
        } else if wide {
            out[at] |= 0x80;
        } else {
            out[at] = byte;
        }
    }

    fn place(&self, random: &mut Random) -> Option<usize> {
        if self.live.is_empty() {
            None
        } else {
            Some(random.below(self.live.len() as u64) as usize)
        }
    }

    /// The id of an order: live, unless a fault is asked for or none is.
    fn named(&mut self, place: Option<usize>, faulty: bool, random: &mut Random) -> [u8; 14] {
        match place {
            Some(place) if !(faulty && random.chance(500)) => {
                let mut id = self.live[place].id;
                if random.chance(100) {
                    id[13] = random.byte();
                }
                id
            }
            _ if random.chance(500) => self.gone,
            _ => self.fresh(random),
        }
    }

    fn fresh(&mut self, random: &mut Random) -> [u8; 14] {
        self.ids += 1;
        let mut left = if self.manners.extreme && random.chance(300) {
            random.below(1 << 32) << 30
        } else {
            self.ids
        };
        let mut id = *b"7A4000000000SN";
        if self.manners.extreme && random.chance(100) {
            id = *b"ZZZZZZZZZZZZ00";
        }
        for place in (4..12).rev() {
            id[place] = DIGITS[(left % 36) as usize];
            left /= 36;
        }
        id
    }

    fn symbol(&self, random: &mut Random) -> [u8; 14] {
        random.pick(&self.symbols)
    }

    fn quantity(&self, random: &mut Random) -> u32 {
        if self.manners.extreme && random.chance(300) {
            random.pick(&[1, 2, u32::MAX, u32::MAX - 1, 1 << 31])
        } else {
            100 * random.between(1, 20) as u32
        }
    }

    fn price(&self, random: &mut Random) -> u64 {
        if self.manners.extreme && random.chance(300) {
            random.pick(&[1, 2, i64::MAX as u64, i64::MAX as u64 - 1, 1 << 32])
        } else {
            10_000 * random.between(120, 140)
        }
    }
}

/// A message's header, its size still open, and its time.
fn begin(kind: u8, random: &mut Random, out: &mut Vec<u8>) {
    out.extend_from_slice(&[0, 0, kind]);
    out.extend_from_slice(&(random.number() as u32).to_be_bytes());
}

fn trading_session(faulty: bool, random: &mut Random, out: &mut Vec<u8>) {
    begin(20, random, out);
    out.extend_from_slice(&(random.number() as u32).to_be_bytes());
    out.push(if faulty {
        random.pick(&[0, 2, 4, 7, 255, b'1'])
    } else {
        random.pick(&[1, 5, 6])
    });
}

/// A type that the table has not.
pub fn unlisted(random: &mut Random) -> u8 {
    loop {
        let any = random.byte();
        let kind = random.pick(&[0, 8, 10, 13, 19, 29, b'J', b'r', 255, any]);
        if !LISTED.contains(&kind) {
            return kind;
        }
    }
}

fn symbol(index: u64, extreme: bool, random: &mut Random) -> [u8; 14] {
    let mut symbol = *b"              ";
    let mut left = index;
    let mut place = 4;
    symbol[..4].copy_from_slice(b"OTCA");
    while left > 0 {
        symbol[place] = DIGITS[10 + (left % 26) as usize];
        left /= 26;
        place += 1;
    }
    if extreme {
        // Symbols that differ in their last character alone, or run through the printable range.
        symbol[13] = random.between(0x20, 0x7e) as u8;
        symbol[0] = random.between(0x21, 0x7e) as u8;
    }
    symbol
}
