//! What comes in over two lines and from retransmission: packets in order, late, early, twice, damaged.
//!
//! The feed looks at the twin's session to aim: at the window's edge, at a number that waits, at a gap.

use crate::capture::Capture;
use crate::night::{unlisted, Manners, Night};
use crate::pair::{Call, Opening};
use crate::random::Random;
use jangsebit::Rule;
use twin::packet::{Messages, HEADER, LARGEST};
use twin::Session;

const TOP: u64 = u32::MAX as u64;
const WINDOW: u64 = 256;

/// What a packet is made to be, with its weight in each kind of feed.
#[derive(Clone, Copy, Debug, PartialEq, Eq)]
enum Aim {
    InOrder,
    Overlap,
    Old,
    Ahead,
    Edge,
    Crowd,
    Heartbeat,
    Conflict,
    Damage,
    Raw,
    Overflow,
    Fill,
}

const AIMS: [Aim; 12] = [
    Aim::InOrder,
    Aim::Overlap,
    Aim::Old,
    Aim::Ahead,
    Aim::Edge,
    Aim::Crowd,
    Aim::Heartbeat,
    Aim::Conflict,
    Aim::Damage,
    Aim::Raw,
    Aim::Overflow,
    Aim::Fill,
];

const CALM: [u64; 12] = [900, 20, 20, 0, 0, 0, 30, 0, 0, 0, 0, 0];
const LOSSY: [u64; 12] = [420, 120, 60, 300, 20, 5, 30, 5, 0, 0, 1, 0];
const ROUGH: [u64; 12] = [300, 80, 40, 200, 60, 10, 50, 80, 200, 30, 10, 0];
/// For sessions in which messages wait in front: the window is filled, and copies of what waits come back.
const SPLIT: [u64; 12] = [400, 100, 40, 100, 40, 10, 50, 70, 60, 10, 4, 20];

pub struct Feed {
    random: Random,
    night: Night,
    weights: [u64; 12],
    /// Most messages in a packet of the common kind.
    most: u64,
    opening: u64,
    bytes: Vec<u8>,
    /// Where the message of each number from the opening on stands, and its size.
    places: Vec<(usize, usize)>,
    /// How many of the coming messages are made as small as they can be.
    tiny: u64,
}

/// A capture that follows from its seed, and how a session on it opens.
pub fn capture(seed: u64, packets: usize) -> (Opening, Capture) {
    let mut random = Random::new(seed);
    let manners = Manners::any(&mut random);
    let weights = random.pick(&[CALM, LOSSY, LOSSY, ROUGH, ROUGH, ROUGH]);
    let opening = opening(&mut random);
    let most = random.pick(&[1, 4, 12, 40]);
    let mut feed = Feed::new(random, manners, weights, most, opening.number);
    (opening, feed.capture(packets))
}

/// A feed for sessions that keep and apply, from a number on.
pub(crate) fn split(random: &mut Random, opening: u32) -> Feed {
    let manners = Manners::any(random);
    let most = random.pick(&[1, 4, 12, 40]);
    Feed::new(Random::new(random.number()), manners, SPLIT, most, opening)
}

pub(crate) fn opening(random: &mut Random) -> Opening {
    let number = match random.below(10) {
        0 => 0,
        1 => 1,
        2 => u32::MAX,
        3 => u32::MAX - random.below(600) as u32,
        4 => u32::MAX - random.below(6_000) as u32,
        5 => random.number() as u32,
        _ => random.below(5_000) as u32,
    };
    let rule = random.pick(&[Rule::Default, Rule::Strict]);
    Opening { number, rule }
}

impl Feed {
    fn new(
        mut random: Random,
        manners: Manners,
        weights: [u64; 12],
        most: u64,
        opening: u32,
    ) -> Feed {
        let night = Night::new(manners, &mut random);
        Feed {
            random,
            night,
            weights,
            most,
            opening: opening as u64,
            bytes: Vec::new(),
            places: Vec::new(),
            tiny: 0,
        }
    }

    fn capture(&mut self, packets: usize) -> Capture {
        let mut capture = Capture::new();
        // What a packet is aimed at does not depend on the rule.
        let mut session = Box::new(Session::open(self.opening as u32));
        for _ in 0..packets {
            capture.push(&self.packet(&mut session, Call::Take));
        }
        capture
    }

    /// The next packet, which the session takes or keeps.
    pub(crate) fn packet(&mut self, session: &mut Session, call: Call) -> Vec<u8> {
        let mut packet = Vec::new();
        let aim = AIMS[self.random.weighed(&self.weights)];
        self.make(aim, session, &mut packet);
        let before = session.next();
        let answer = match call {
            Call::Take => session.take(&packet),
            Call::Keep => session.keep(&packet),
        };
        if answer.is_ok() && matches!(aim, Aim::Damage | Aim::Raw | Aim::Conflict) {
            self.learn(&packet, before);
        }
        packet
    }

    fn make(&mut self, aim: Aim, session: &Session, out: &mut Vec<u8>) {
        // Where packets are taken, nothing waits at next and the two are one.
        let (next, lowest) = (session.next(), session.lowest());
        match aim {
            Aim::InOrder => self.common(lowest, out),
            Aim::Overlap => {
                let back = self.random.below(12);
                self.common(lowest.saturating_sub(back), out);
            }
            Aim::Old => {
                let back = self.random.pick(&[1, 2, 5, 30, 300, 70_000]);
                self.common(next.saturating_sub(back), out);
            }
            Aim::Ahead => {
                let ahead = if self.random.chance(700) {
                    self.random.between(1, 20)
                } else {
                    self.random.between(1, 260)
                };
                self.common(lowest + ahead, out);
            }
            Aim::Edge => {
                let last = next + self.random.pick(&[254, 255, 255, 256, 256, 257]);
                let count = self.random.between(1, 4);
                self.pack((last + 1).saturating_sub(count), count, out);
            }
            Aim::Crowd => {
                self.tiny = 520;
                let first = lowest + self.random.below(3);
                let count = self.random.pick(&[200, 254, 255]);
                self.pack(first, count, out);
            }
            Aim::Heartbeat => self.heartbeat(session, out),
            Aim::Conflict => self.conflict(session, out),
            Aim::Damage => self.damage(session, out),
            Aim::Raw => self.raw(next, out),
            Aim::Overflow => {
                let count = self.random.between(2, 5);
                let first = TOP + 1 - self.random.between(1, count);
                self.pack(first, count, out);
                // Packed to fit; one more makes the last number too large.
                let more = count - out[7] as u64;
                for _ in 0..more {
                    out.extend_from_slice(&[0, 3, 28]);
                    out[7] += 1;
                }
                fix_size(out);
            }
            Aim::Fill => {
                self.tiny = 256;
                self.pack(lowest, (next + WINDOW - lowest).clamp(1, 255), out);
            }
        }
    }

    /// A packet of the common kind, from a number on.
    fn common(&mut self, first: u64, out: &mut Vec<u8>) {
        let count = self.random.between(1, self.most);
        self.pack(first, count, out);
    }

    /// A good packet with at most so many messages; a heartbeat if there are no such numbers.
    fn pack(&mut self, first: u64, count: u64, out: &mut Vec<u8>) {
        let first = first.min(TOP + 1);
        start(first as u32, out);
        let milli = self.random.number() as u32;
        out[8..12].copy_from_slice(&milli.to_be_bytes());
        for number in first..(first + count).min(TOP + 1) {
            let (at, size) = self.place(number);
            if out.len() + size > LARGEST {
                break;
            }
            out.extend_from_slice(&self.bytes[at..at + size]);
            out[7] += 1;
        }
        if out[7] == 0 {
            out[2..6].copy_from_slice(&(TOP as u32).to_be_bytes());
            out[6] = 1;
        }
        fix_size(out);
    }

    /// Where the message of a number stands; made if it has not been yet.
    fn place(&mut self, number: u64) -> (usize, usize) {
        // No session opened here applies what is below the opening or far ahead: any message will do.
        let known = self.places.len() as u64;
        let index = match number.checked_sub(self.opening) {
            Some(ahead) if ahead < known + 4 * WINDOW => ahead as usize,
            _ => 0,
        };
        let mut message = Vec::new();
        while self.places.len() <= index {
            if self.tiny > 0 {
                self.tiny -= 1;
                let kind = if self.random.chance(500) {
                    28
                } else {
                    unlisted(&mut self.random)
                };
                message.clear();
                message.extend_from_slice(&[0, 3, kind]);
            } else {
                self.night.message(&mut self.random, &mut message);
            }
            self.places.push((self.bytes.len(), message.len()));
            self.bytes.extend_from_slice(&message);
        }
        self.places[index]
    }

    /// Takes over what an altered packet carried: it is what waits now under these numbers.
    fn learn(&mut self, packet: &[u8], before: u64) {
        let first = u32::from_be_bytes([packet[2], packet[3], packet[4], packet[5]]) as u64;
        for (number, message) in (first..).zip(Messages::in_packet(packet)) {
            if number >= before {
                self.place(number);
                let index = (number - self.opening) as usize;
                self.places[index] = (self.bytes.len(), message.len());
                self.bytes.extend_from_slice(message);
            }
        }
    }

    fn heartbeat(&mut self, session: &Session, out: &mut Vec<u8>) {
        let number = match self.random.below(8) {
            0 => 0,
            1 => session.next().saturating_sub(1),
            2 => session.end(),
            3 => session.end() + 1,
            4 => session.end() + self.random.below(400),
            // Seldom: every gap is open to the window's end from then on.
            5 if self.random.chance(50) => TOP,
            _ => session.next(),
        };
        start(number.min(TOP) as u32, out);
        out[6] = 1;
        fix_size(out);
    }

    /// A copy of a waiting number that differs from what waits.
    fn conflict(&mut self, session: &Session, out: &mut Vec<u8>) {
        let next = session.next();
        let in_front = session.waits(next) && self.random.chance(500);
        let from = if in_front {
            0
        } else {
            self.random.between(1, 30)
        };
        let waiting = (from..WINDOW).map(|ahead| next + ahead);
        let Some(number) = waiting.clone().find(|number| session.waits(*number)) else {
            return self.common(next + 1, out);
        };
        let first = number.saturating_sub(self.random.below(3)).max(next);
        let count = number - first + 1 + self.random.below(2);
        self.pack(first, count, out);
        let at = message_at(out, (number - first) as usize);
        let size = u16::from_be_bytes([out[at], out[at + 1]]) as usize;
        if self.random.chance(200) && size < 128 && out.len() < LARGEST {
            out.insert(at + size, self.random.byte());
            out[at..at + 2].copy_from_slice(&(size as u16 + 1).to_be_bytes());
            fix_size(out);
        } else if self.random.chance(900) {
            let place = if size > 3 {
                at + self.random.between(3, size as u64 - 1) as usize
            } else {
                at + 2
            };
            out[place] ^= 1 << self.random.below(8);
        }
    }

    fn damage(&mut self, session: &Session, out: &mut Vec<u8>) {
        let aim = self.random.pick(&[
            Aim::InOrder,
            Aim::InOrder,
            Aim::Overlap,
            Aim::Ahead,
            Aim::Edge,
            Aim::Heartbeat,
        ]);
        self.make(aim, session, out);
        let messages = out[7] as u64;
        let some = self.random.below(messages.max(1)) as usize;
        match self.random.below(12) {
            0 => out[self.random.below(2) as usize] ^= 1 << self.random.below(8),
            1 => out[6] ^= 1 << self.random.below(8),
            2 => {
                out[7] =
                    self.random
                        .pick(&[0, 255, out[7].wrapping_add(1), out[7].wrapping_sub(1), 1])
            }
            3 => {
                let cut = self.random.between(1, 40).min(out.len() as u64) as usize;
                out.truncate(out.len() - cut);
                if self.random.chance(700) {
                    fix_size(out);
                }
            }
            4 => {
                for _ in 0..self.random.between(1, 5) {
                    out.push(self.random.byte());
                }
                if self.random.chance(800) {
                    fix_size(out);
                }
            }
            5 if messages > 0 => {
                let at = message_at(out, some);
                let size = u16::from_be_bytes([out[at], out[at + 1]]);
                let wrong = self.random.pick(&[
                    0,
                    1,
                    2,
                    3,
                    4,
                    127,
                    128,
                    129,
                    256,
                    65_535,
                    size + 1,
                    size - 1,
                    size + 256,
                ]);
                out[at..at + 2].copy_from_slice(&wrong.to_be_bytes());
            }
            6 if messages > 0 => {
                let at = message_at(out, some) + 2;
                out[at] = if self.random.chance(700) {
                    self.random
                        .pick(&[9, 11, 12, 20, 21, 22, 23, 24, 25, 26, 27, 28])
                } else {
                    unlisted(&mut self.random)
                };
            }
            7 => {
                let any = self.random.number();
                let number = self.random.pick(&[
                    0,
                    TOP,
                    TOP - 1,
                    session.next().wrapping_sub(1),
                    session.next() + 255,
                    session.next() + 256,
                    any,
                ]);
                out[2..6].copy_from_slice(&(number as u32).to_be_bytes());
            }
            8 => {
                let length = self.random.pick(&[1_471, 1_472, 1_473, 1_474, 1_500]);
                while out.len() < length {
                    out.push(self.random.byte());
                }
                fix_size(out);
            }
            9 if messages > 0 => {
                // One byte out of a message, all sizes set right again: too short if its type is listed.
                let at = message_at(out, some);
                let size = u16::from_be_bytes([out[at], out[at + 1]]);
                out[at..at + 2].copy_from_slice(&(size - 1).to_be_bytes());
                out.remove(at + size as usize - 1);
                fix_size(out);
            }
            10 if messages > 0 => {
                // A message lengthened to the edge of what is allowed, or beyond it.
                let at = message_at(out, some);
                let size = u16::from_be_bytes([out[at], out[at + 1]]) as usize;
                let longer = self.random.pick(&[127, 128, 129, 130]).max(size);
                let more = vec![self.random.byte(); longer - size];
                out.splice(at + size..at + size, more);
                out[at..at + 2].copy_from_slice(&(longer as u16).to_be_bytes());
                fix_size(out);
            }
            _ => {
                for _ in 0..self.random.between(1, 3) {
                    let at = self.random.below(out.len() as u64) as usize;
                    out[at] = self.random.byte();
                }
            }
        }
    }

    /// Bytes of any length, with or without a header that makes some sense.
    fn raw(&mut self, next: u64, out: &mut Vec<u8>) {
        out.clear();
        let any = self.random.below(1_600);
        let length = self
            .random
            .pick(&[0, 1, 11, 12, 12, 13, 15, 30, 1_472, 1_473, any, any]);
        for _ in 0..length {
            out.push(self.random.byte());
        }
        if self.random.chance(5) {
            out.resize(65_535, 7);
        }
        if out.len() >= HEADER && self.random.chance(800) {
            fix_size(out);
            out[2..6].copy_from_slice(&(next as u32).to_be_bytes());
            out[6] = self.random.below(2) as u8;
            out[7] = self.random.pick(&[0, 0, 1, 1, 2, 5]);
        }
    }
}

/// An empty header with a number.
fn start(number: u32, out: &mut Vec<u8>) {
    out.clear();
    out.resize(HEADER, 0);
    out[2..6].copy_from_slice(&number.to_be_bytes());
}

fn fix_size(out: &mut [u8]) {
    let size = out.len() as u16;
    if out.len() >= 2 {
        out[..2].copy_from_slice(&size.to_be_bytes());
    }
}

/// Where a message of a good packet begins.
fn message_at(packet: &[u8], index: usize) -> usize {
    HEADER
        + Messages::in_packet(packet)
            .take(index)
            .map(<[u8]>::len)
            .sum::<usize>()
}

/// Damage that no session takes: a cut, a reserved bit, a message past the packet.
fn spoil(packet: &mut Vec<u8>, random: &mut Random) {
    match random.below(3) {
        0 => packet.truncate(packet.len() - 1),
        1 => packet[6] |= 0x10,
        _ => packet[HEADER] = 0xff,
    }
}

/// Rates of a pair of lines, in thousandths.
pub struct Lines {
    /// Most messages in a packet.
    pub most: u64,
    /// Thousandths of packets behind which a heartbeat comes.
    pub heartbeats: u64,
    pub loss: u64,
    pub swapped: u64,
    pub damaged: u64,
    pub second: bool,
}

/// So many packets as two lines would bring them: each packet on each line unless lost, some late; what
/// both lines lost comes by retransmission a little later.
pub fn lines(seed: u64, opening: u32, packets: usize, lines: &Lines, manners: Manners) -> Capture {
    let mut random = Random::new(seed);
    let night = Random::new(random.number());
    let mut feed = Feed::new(night, manners, CALM, lines.most, opening);
    let mut arrivals: Vec<(u64, Vec<u8>)> = Vec::new();
    let mut number = opening as u64;
    let mut turn = 0;
    while arrivals.len() < packets + 64 {
        let mut packet = Vec::new();
        feed.common(number, &mut packet);
        number += packet[7] as u64;
        let mut arrived = false;
        for line in 0..1 + lines.second as u64 {
            if random.chance(lines.loss) {
                continue;
            }
            let late = if random.chance(lines.swapped) {
                random.between(1, 12)
            } else {
                0
            };
            let mut copy = packet.clone();
            if random.chance(lines.damaged) {
                spoil(&mut copy, &mut random);
            } else {
                arrived = true;
            }
            arrivals.push((turn + 3 * late + line, copy));
        }
        if !arrived {
            arrivals.push((turn + random.between(9, 60), packet));
        }
        if random.chance(lines.heartbeats) {
            let mut beat = Vec::new();
            start(number as u32, &mut beat);
            beat[6] = 1;
            fix_size(&mut beat);
            for line in 0..1 + lines.second as u64 {
                arrivals.push((turn + line, beat.clone()));
            }
        }
        turn += 3;
    }
    arrivals.sort_by_key(|(when, _)| *when);
    arrivals
        .iter()
        .take(packets)
        .map(|(_, packet)| &packet[..])
        .collect()
}
