//! Packets one behind the other, each behind its length of two bytes, as a burst hands them in.

use std::ops::Range;

#[derive(Clone, Default)]
pub struct Capture {
    bytes: Vec<u8>,
    /// Where each packet's length stands.
    starts: Vec<usize>,
}

impl Capture {
    pub fn new() -> Capture {
        Capture::default()
    }

    /// Adds a packet of at most 65,535 bytes.
    pub fn push(&mut self, packet: &[u8]) {
        let length = u16::try_from(packet.len()).expect("a packet's length takes two bytes");
        self.starts.push(self.bytes.len());
        self.bytes.extend_from_slice(&length.to_be_bytes());
        self.bytes.extend_from_slice(packet);
    }

    pub fn bytes(&self) -> &[u8] {
        &self.bytes
    }

    pub fn len(&self) -> usize {
        self.starts.len()
    }

    pub fn is_empty(&self) -> bool {
        self.starts.is_empty()
    }

    pub fn packet(&self, index: usize) -> &[u8] {
        let behind = self
            .starts
            .get(index + 1)
            .copied()
            .unwrap_or(self.bytes.len());
        &self.bytes[self.starts[index] + 2..behind]
    }

    /// The bytes of some packets, with their lengths.
    pub fn part(&self, packets: Range<usize>) -> &[u8] {
        let at = |index: usize| self.starts.get(index).copied().unwrap_or(self.bytes.len());
        &self.bytes[at(packets.start)..at(packets.end)]
    }

    pub fn packets(&self) -> impl Iterator<Item = &[u8]> {
        (0..self.len()).map(|index| self.packet(index))
    }
}

impl<'a> FromIterator<&'a [u8]> for Capture {
    fn from_iter<I: IntoIterator<Item = &'a [u8]>>(packets: I) -> Capture {
        let mut capture = Capture::new();
        for packet in packets {
            capture.push(packet);
        }
        capture
    }
}
