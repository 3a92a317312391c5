//! A packet: its header, read and written, and where its messages lie.

use super::fields::{be16, be32};
use super::message::{HEAD, LEAST, LONGEST};
use super::Refusal;

pub const HEADER: usize = 12;
pub const LARGEST: usize = 1_472;
const HEARTBEAT: u8 = 1;

#[derive(Clone, Copy, Debug, PartialEq, Eq)]
pub struct Header {
    pub size: u16,
    pub number: u32,
    pub flag: u8,
    pub messages: u8,
    pub milli: u32,
}

impl Header {
    pub fn heartbeat(&self) -> bool {
        self.flag & HEARTBEAT != 0
    }

    /// Tests 4 to 6.
    #[inline(always)]
    fn judged(&self) -> Result<(), Refusal> {
        if self.flag & !HEARTBEAT != 0 {
            return Err(Refusal(4));
        }
        if self.heartbeat() {
            if self.messages != 0 || self.size as usize != HEADER {
                return Err(Refusal(5));
            }
        } else if self.messages == 0 {
            return Err(Refusal(6));
        }
        Ok(())
    }
}

/// Reads the header of the packet that `packet` is, whole.
#[inline(always)]
pub fn read_header(packet: &[u8]) -> Result<Header, Refusal> {
    let Some(head) = packet.first_chunk::<HEADER>() else {
        return Err(Refusal(1));
    };
    if packet.len() > LARGEST {
        return Err(Refusal(2));
    }
    let header = Header {
        size: be16(head, 0),
        number: be32(head, 2),
        flag: head[6],
        messages: head[7],
        milli: be32(head, 8),
    };
    if header.size as usize != packet.len() {
        return Err(Refusal(3));
    }
    header.judged()?;
    Ok(header)
}

/// Writes a header into the first bytes of a buffer, and says how many bytes that took.
pub fn write_header(header: &Header, buffer: &mut [u8]) -> Result<usize, Refusal> {
    let size = header.size as usize;
    if !(HEADER..=LARGEST).contains(&size) || header.judged().is_err() {
        return Err(Refusal(14));
    }
    let head = buffer.first_chunk_mut::<HEADER>().ok_or(Refusal(11))?;
    head[..2].copy_from_slice(&header.size.to_be_bytes());
    head[2..6].copy_from_slice(&header.number.to_be_bytes());
    head[6] = header.flag;
    head[7] = header.messages;
    head[8..].copy_from_slice(&header.milli.to_be_bytes());
    Ok(HEADER)
}

/// Test 7: that the messages fill the packet, each of a size its type allows.
#[inline(always)]
pub fn messages_good(packet: &[u8], messages: u8) -> Result<(), Refusal> {
    let mut left = &packet[HEADER..];
    for _ in 0..messages {
        let Some(head) = left.first_chunk::<HEAD>() else {
            return Err(Refusal(7));
        };
        let size = be16(head, 0) as usize;
        let least = LEAST[head[2] as usize] as usize;
        if size < least || size > LONGEST || size > left.len() {
            return Err(Refusal(7));
        }
        left = &left[size..];
    }
    if left.is_empty() {
        Ok(())
    } else {
        Err(Refusal(7))
    }
}

/// A refusal, and the byte of the packet that it rests on.
pub type Refused = (Refusal, usize);

/// Tests 1 to 7, and where each message starts with how many bytes it has.
pub fn walk(packet: &[u8]) -> Result<Vec<(usize, usize)>, Refused> {
    let header = read_header(packet).map_err(|refusal| {
        let at = match refusal.0 {
            4 => 6,
            5 if packet.len() != HEADER => 0,
            5 | 6 => 7,
            _ => 0,
        };
        (refusal, at)
    })?;
    let (mut places, mut at) = (Vec::new(), HEADER);
    for _ in 0..header.messages {
        let size = match packet.get(at..at + HEAD) {
            Some(head) => be16(head, 0) as usize,
            None => return Err((Refusal(7), at)),
        };
        let least = LEAST[packet[at + 2] as usize] as usize;
        if size < least || size > LONGEST || at + size > packet.len() {
            return Err((Refusal(7), at));
        }
        places.push((at, size));
        at += size;
    }
    if at == packet.len() {
        Ok(places)
    } else {
        Err((Refusal(7), at))
    }
}

/// Tests 1 to 8.
pub fn judge(packet: &[u8]) -> Result<(), Refused> {
    let messages = walk(packet)?.len() as u64;
    let first = be32(packet, 2) as u64;
    if messages > 0 && first + messages - 1 > u32::MAX as u64 {
        return Err((Refusal(8), 2));
    }
    Ok(())
}

/// The messages of a packet that passed test 7, one after the other.
pub struct Messages<'a> {
    left: &'a [u8],
}

impl<'a> Messages<'a> {
    #[inline(always)]
    pub fn in_packet(packet: &'a [u8]) -> Self {
        Messages {
            left: &packet[HEADER..],
        }
    }
}

impl<'a> Iterator for Messages<'a> {
    type Item = &'a [u8];

    #[inline(always)]
    fn next(&mut self) -> Option<&'a [u8]> {
        if self.left.len() < HEAD {
            return None;
        }
        let size = be16(self.left, 0) as usize;
        let (message, left) = self.left.split_at_checked(size)?;
        self.left = left;
        Some(message)
    }
}
