//! How the packets of a capture are handed in: one a call, in bursts, or mixed and with questions in between; taken,
//! or kept and applied in portions.

use crate::capture::Capture;
use crate::pair::{id_of, Call, Difference, Opening, Pair};
use crate::random::Random;
use crate::steps::COUNTS;
use jangsebit::{Question, Session};

#[derive(Clone, Copy, Debug)]
pub enum Way {
    Single,
    /// So many packets to a burst.
    Bursts(usize),
    /// Calls, bursts of any size and questions, as they follow from a seed.
    Mixed(u64),
    /// The same by a loop that keeps most packets, and applies in portions.
    Split(u64),
}

/// What a run came to, beside that nothing differed.
#[derive(Clone, Copy, Debug, Default)]
pub struct Tally {
    pub packets: u64,
    /// Questions that were answered, and requests that were written.
    pub known: u64,
    pub requests: u64,
}

impl Tally {
    pub fn and(self, other: Tally) -> Tally {
        Tally {
            packets: self.packets + other.packets,
            known: self.known + other.known,
            requests: self.requests + other.requests,
        }
    }
}

/// Runs both sessions over a capture, and compares what they hold at its end.
pub fn run(opening: Opening, capture: &Capture, way: Way) -> Result<Tally, Difference> {
    let mut pair = Pair::open(opening);
    let mut tally = Tally {
        packets: capture.len() as u64,
        ..Tally::default()
    };
    match way {
        Way::Single => {
            for packet in capture.packets() {
                pair.take(packet)?;
            }
        }
        Way::Bursts(each) => {
            let mut from = 0;
            while from < capture.len() {
                from = burst(&mut pair, Call::Take, capture, from, each)?;
            }
        }
        Way::Mixed(seed) => mixed(&mut pair, capture, &mut Random::new(seed), &mut tally)?,
        Way::Split(seed) => split(&mut pair, capture, &mut Random::new(seed), &mut tally)?,
    }
    pair.tables()?;
    pair.gaps()?;
    tally.requests += pair.requests(Session::REQUESTS)?.unwrap_or(0) as u64;
    Ok(tally)
}

/// One burst from a packet on, of all bytes there are; the answer is where the next begins.
fn burst(
    pair: &mut Pair,
    call: Call,
    capture: &Capture,
    from: usize,
    each: usize,
) -> Result<usize, Difference> {
    let behind = capture.len().min(from.saturating_add(each));
    let packets = (from..behind).map(|index| capture.packet(index));
    // Where no more than all are asked for, ask for some that are not there.
    let told = if behind == capture.len() {
        behind - from + 2
    } else {
        each
    };
    pair.burst(call, capture.part(from..capture.len()), packets, told)?;
    Ok(behind)
}

/// The same over bytes that end within the next packet.
fn cut_burst(
    pair: &mut Pair,
    call: Call,
    capture: &Capture,
    from: usize,
    random: &mut Random,
) -> Result<usize, Difference> {
    let behind = capture.len().min(from + random.below(5) as usize);
    let packets = (from..behind).map(|index| capture.packet(index));
    let rest = capture.part(from..capture.len());
    let whole = capture.part(from..behind).len();
    let more = match behind == capture.len() {
        true => 0,
        false => random.below(2 + capture.packet(behind).len() as u64) as usize,
    };
    pair.burst(call, &rest[..whole + more], packets, behind - from + 7)?;
    Ok(behind)
}

fn mixed(
    pair: &mut Pair,
    capture: &Capture,
    random: &mut Random,
    tally: &mut Tally,
) -> Result<(), Difference> {
    let mut from = 0;
    while from < capture.len() {
        match random.below(40) {
            0 => {
                let behind = capture.len().min(from + random.between(1, 9) as usize);
                pair.burst_too_short(capture.part(from..behind), behind - from)?;
            }
            1..=3 => {
                pair.take_watched(capture.packet(from))?;
                from += 1;
            }
            4..=23 => {
                pair.take(capture.packet(from))?;
                from += 1;
            }
            24..=26 => from = cut_burst(pair, Call::Take, capture, from, random)?,
            _ => {
                let each = random.pick(&[0, 1, 2, 3, 5, 8, 13, 40]);
                from = burst(pair, Call::Take, capture, from, each)?;
            }
        }
        for _ in 0..random.pick(&[0, 0, 1, 3]) {
            ask(pair, capture, random, tally)?;
        }
    }
    Ok(())
}

fn split(
    pair: &mut Pair,
    capture: &Capture,
    random: &mut Random,
    tally: &mut Tally,
) -> Result<(), Difference> {
    let mut from = 0;
    while from < capture.len() {
        let each = random.pick(&[0, 1, 2, 3, 5, 8]);
        match random.below(40) {
            0 | 1 => {
                pair.take_watched(capture.packet(from))?;
                from += 1;
            }
            2 => from = burst(pair, Call::Take, capture, from, each)?,
            3 | 4 => from = cut_burst(pair, Call::Keep, capture, from, random)?,
            5..=19 => from = burst(pair, Call::Keep, capture, from, each)?,
            _ => {
                pair.keep(capture.packet(from))?;
                from += 1;
            }
        }
        if random.chance(200) {
            pair.apply(random.pick(&COUNTS))?;
        }
        // A loop that applies too late loses what the window has no place for.
        while pair.lowest()? - pair.twin().next() > 60 {
            pair.apply(random.pick(&COUNTS))?;
        }
        for _ in 0..random.pick(&[0, 0, 1, 3]) {
            ask(pair, capture, random, tally)?;
        }
    }
    pair.apply(u64::MAX).map(drop)
}

fn ask(
    pair: &Pair,
    capture: &Capture,
    random: &mut Random,
    tally: &mut Tally,
) -> Result<(), Difference> {
    match random.below(9) {
        0 => pair.numbers()?,
        1 => pair.gaps()?,
        2 => {
            let length = random.pick(&[Session::REQUESTS, 0, 11, 12, 24, 61, 600]);
            tally.requests += pair.requests(length)?.unwrap_or(0) as u64;
        }
        3 => tally.known += pair.order(&text(pair, capture, random))? as u64,
        4 => tally.known += pair.inside(&text(pair, capture, random))? as u64,
        5 | 6 => {
            let side = side(random);
            tally.known += pair.best(&text(pair, capture, random), side)? as u64;
        }
        7 => {
            let count = random.pick(&[0, 1, 2, 16, 33]);
            let asked: Vec<Question> = (0..count)
                .map(|_| Question::new(text(pair, capture, random), side(random)))
                .collect();
            pair.quotes(&asked)?;
        }
        _ if random.chance(50) => pair.tables()?,
        _ => {}
    }
    Ok(())
}

/// Mostly a side.
fn side(random: &mut Random) -> u8 {
    random.pick(b"BSBSBSBSBSBSBSbs\0A")
}

/// An id or a symbol that the sessions know, or one from a packet; some changed in a byte.
fn text(pair: &Pair, capture: &Capture, random: &mut Random) -> [u8; 14] {
    let book = pair.twin().book();
    let place = random.below(256) as usize;
    let order = book.live_orders().nth(place % book.live().max(1));
    let insides = book.held_insides();
    let mut text = match (random.below(4), order) {
        (0, Some(order)) => id_of(order.id),
        (1, Some(order)) => order.symbol,
        (2, _) if !insides.is_empty() => insides[place % insides.len()].symbol,
        _ => from_packet(capture, random),
    };
    if random.chance(100) {
        text[random.below(14) as usize] = random.byte();
    }
    text
}

fn from_packet(capture: &Capture, random: &mut Random) -> [u8; 14] {
    let packet = capture.packet(random.below(capture.len() as u64) as usize);
    if packet.len() < 40 {
        return *b"OTCA          ";
    }
    // Behind the headers and the time an order's id or an inside's symbol stands, further on an Add's symbol.
    let at = random.pick(&[19, 19, 38]).min(packet.len() - 14);
    let mut text = [0; 14];
    text.copy_from_slice(&packet[at..at + 14]);
    text
}
