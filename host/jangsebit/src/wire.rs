//! Headers, packets and ids, without a session.

use crate::refusal::{refused, Refusal};
use crate::sys;

/// A packet's header.
///
/// ```
/// use jangsebit::{Header, Refusal};
///
/// let heartbeat = [0, 12, 0, 0, 0, 7, 1, 0, 0, 0, 0, 9];
/// let header = Header::read(&heartbeat)?;
/// assert_eq!((header.number, header.messages, header.milli), (7, 0, 9));
/// let mut written = [0; 12];
/// assert_eq!(header.write(&mut written)?, 12);
/// assert_eq!(written, heartbeat);
/// assert_eq!(Header::read(&heartbeat[..11]), Err(Refusal::TooShort));
/// # Ok::<(), Refusal>(())
/// ```
#[derive(Clone, Copy, Debug, PartialEq, Eq)]
pub struct Header {
    /// The packet's bytes, header and messages.
    pub size: u16,
    /// The number of the first message.
    pub number: u32,
    /// Bit 0 says that the packet is a heartbeat.
    pub flag: u8,
    /// How many messages follow.
    pub messages: u8,
    /// The packet's milliseconds, which nothing checks.
    pub milli: u32,
}

impl Header {
    /// The bytes of a header.
    pub const SIZE: usize = 12;

    /// The header of a packet; `packet` is the whole of it.
    ///
    /// # Errors
    ///
    /// Refusals 1 to 6.
    pub fn read(packet: &[u8]) -> Result<Header, Refusal> {
        let (refusal, [size, number, flag, messages, milli]) = sys::header(packet);
        refused(refusal)?;
        Ok(Header {
            size: size as u16,
            number: number as u32,
            flag: flag as u8,
            messages: messages as u8,
            milli: milli as u32,
        })
    }

    /// Writes the header into a buffer's first 12 bytes, and answers how many these are. Other bytes stay.
    ///
    /// # Errors
    ///
    /// [`Refusal::BadField`], then [`Refusal::BufferTooShort`]; nothing is then written.
    pub fn write(&self, buffer: &mut [u8]) -> Result<usize, Refusal> {
        let Header {
            size,
            number,
            flag,
            messages,
            milli,
        } = *self;
        refused(sys::write_header(
            size, number, flag, messages, milli, buffer,
        ))?;
        Ok(Self::SIZE)
    }

    /// Whether the packet is a heartbeat.
    pub fn heartbeat(&self) -> bool {
        self.flag & 1 != 0
    }
}

/// Why a packet is refused, and the byte that the refusal rests on.
#[derive(Clone, Copy, Debug, PartialEq, Eq)]
pub struct Refused {
    /// The first test that applies.
    pub refusal: Refusal,
    /// The offset in the packet that it rests on.
    pub offset: usize,
}

fn refused_at(refusal: u64, offset: u64) -> Result<(), Refused> {
    refused(refusal).map_err(|refusal| Refused {
        refusal,
        offset: offset as usize,
    })
}

/// Judges a packet by all that needs no session.
///
/// # Errors
///
/// Refusals 1 to 8, the first that applies.
///
/// ```
/// use jangsebit::{judge, Refusal};
///
/// let reserved = [0, 12, 0, 0, 0, 7, 3, 0, 0, 0, 0, 9];
/// let refused = judge(&reserved).unwrap_err();
/// assert_eq!((refused.refusal, refused.offset), (Refusal::ReservedFlag, 6));
/// ```
pub fn judge(packet: &[u8]) -> Result<(), Refused> {
    let (refusal, offset) = sys::judge(packet);
    refused_at(refusal, offset)
}

/// The most messages that a header can count.
const MOST: usize = 255;

/// The messages of a packet, each a part of it.
#[derive(Clone)]
pub struct Messages<'a> {
    packet: &'a [u8],
    places: [u64; 2 * MOST],
    at: usize,
    count: usize,
}

/// Walks a packet without a session: its messages one after the other, each a part of the packet.
///
/// # Errors
///
/// Refusals 1 to 7, the first that applies.
///
/// ```
/// use jangsebit::{walk, Refusal};
///
/// let packet = [0, 19, 0, 0, 0, 1, 0, 2, 0, 0, 0, 0, 0, 3, 28, 0, 4, 28, 9];
/// let messages: Vec<&[u8]> = walk(&packet)?.collect();
/// assert_eq!(messages, [&packet[12..15], &packet[15..19]]);
/// let cut = walk(&packet[..18]).map(|_| ()).unwrap_err();
/// assert_eq!((cut.refusal, cut.offset), (Refusal::SizeDiffers, 0));
/// # Ok::<(), jangsebit::Refused>(())
/// ```
pub fn walk(packet: &[u8]) -> Result<Messages<'_>, Refused> {
    let mut places = [0; 2 * MOST];
    let (refusal, [offset, count]) = sys::walk(packet, &mut places);
    refused_at(refusal, offset)?;
    Ok(Messages {
        packet,
        places,
        at: 0,
        count: count as usize,
    })
}

impl<'a> Iterator for Messages<'a> {
    type Item = &'a [u8];

    fn next(&mut self) -> Option<&'a [u8]> {
        if self.at == self.count {
            return None;
        }
        let (start, size) = (self.places[2 * self.at], self.places[2 * self.at + 1]);
        self.at += 1;
        Some(&self.packet[start as usize..][..size as usize])
    }

    fn size_hint(&self) -> (usize, Option<usize>) {
        let left = self.count - self.at;
        (left, Some(left))
    }
}

impl ExactSizeIterator for Messages<'_> {}

/// The value of an order id: its first 12 characters in base 36.
///
/// # Errors
///
/// [`Refusal::BadQuestion`] where one of them is none of 0-9 and A-Z.
///
/// ```
/// assert_eq!(jangsebit::id_value(b"7A400CY528L9SN"), Ok(958_319_779_308_913_917));
/// assert_eq!(jangsebit::id_value(b"7a400CY528L9SN"), Err(jangsebit::Refusal::BadQuestion));
/// ```
pub fn id_value(id: &[u8; 14]) -> Result<u64, Refusal> {
    let (refusal, value) = sys::value(id);
    refused(refusal)?;
    Ok(value)
}
