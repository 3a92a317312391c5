//! The exports of the proved library, a safe function over each, and the memory that they are lent.
//!
//! All unsafe code stands here. A slice goes over as its address and its length, a reference as its address.
//! The library asks of a session's memory that an opening and the calls behind it have made it: [`Memory`] comes
//! from [`open`] alone, and no field of it is written anywhere else.
#![allow(unsafe_code)]

use crate::answers::{Answer, Question, Quote};
use crate::session::{Numbers, Rule};
use crate::tables::Order;
use std::mem::MaybeUninit;

/// How many orders can be live.
pub const ORDERS: usize = 256;
/// The numbers beside them: next, end, counts, code, faults, rule, look-ups, insides.
const ROOM: usize = 2_308;
/// A longest message for each number that can wait.
const WINDOW: usize = 32_768;

type Orders = [Order; ORDERS];
type Room = [u64; ROOM];
type Window = [u8; WINDOW];

/// A session: what each call is lent.
#[repr(C)]
#[derive(Clone, PartialEq, Eq)]
pub struct Memory {
    orders: Orders,
    room: Room,
    window: Window,
}

// The library's own sizes and alignments.
const _: () = {
    assert!(size_of::<Order>() == 40 && align_of::<Order>() == 8);
    assert!(size_of::<Orders>() == 10_240);
    assert!(size_of::<Room>() == 18_464 && align_of::<Room>() == 8);
    assert!(size_of::<Window>() == 32_768 && align_of::<Window>() == 1);
    assert!(size_of::<Memory>() == 61_472 && align_of::<Memory>() == 8);
    assert!(
        size_of::<Answer>() == 4 * size_of::<u64>() && align_of::<Answer>() == align_of::<u64>()
    );
    assert!(size_of::<Quote>() == 4 * size_of::<u64>() && align_of::<Quote>() == align_of::<u64>());
    assert!(size_of::<Question>() == 15 && align_of::<Question>() == 1);
    assert!(
        size_of::<Numbers>() == 8 * size_of::<u64>() && align_of::<Numbers>() == align_of::<u64>()
    );
};

/// What the library answers where it was built for the memory and the limits of this crate.
pub const SIZES: [u64; 12] = {
    use crate::{Header, Message, Session};
    [
        size_of::<Orders>() as u64,
        align_of::<Orders>() as u64,
        size_of::<Room>() as u64,
        align_of::<Room>() as u64,
        size_of::<Window>() as u64,
        align_of::<Window>() as u64,
        ORDERS as u64,
        Session::INSIDES as u64,
        Session::WINDOW,
        Header::SIZE as u64,
        Session::LONGEST as u64,
        Message::LONGEST as u64,
    ]
};

extern "C" {
    fn jangsebit_version() -> u32;
    fn jangsebit_open(session: *mut Orders, room: *mut Room, window: *mut Window, number: u32);
    fn jangsebit_open_strict(
        session: *mut Orders,
        room: *mut Room,
        window: *mut Window,
        number: u32,
    );
    fn jangsebit_pass(
        room: *mut Room,
        window: *mut Window,
        packet: *const u8,
        packet_len: usize,
        told: *mut [u64; 2],
    );
    fn jangsebit_packets(
        session: *mut Orders,
        room: *mut Room,
        window: *mut Window,
        packets: *const u8,
        packets_len: usize,
        single: u64,
        count: u64,
        answers: *mut u64,
        answers_len: usize,
        told: *mut [u64; 3],
    );
    fn jangsebit_keep(
        room: *mut Room,
        window: *mut Window,
        packet: *const u8,
        packet_len: usize,
        told: *mut [u64; 1],
    ) -> u64;
    fn jangsebit_keep_packets(
        room: *mut Room,
        window: *mut Window,
        packets: *const u8,
        packets_len: usize,
        count: u64,
        answers: *mut u64,
        answers_len: usize,
        told: *mut [u64; 3],
    );
    fn jangsebit_apply(
        session: *mut Orders,
        room: *mut Room,
        window: *mut Window,
        count: u64,
    ) -> u64;
    fn jangsebit_lowest(room: *const Room, window: *const Window) -> u64;
    fn jangsebit_order(
        session: *const Orders,
        room: *const Room,
        id: *const [u8; 14],
        told: *mut [u64; 8],
    ) -> u64;
    fn jangsebit_quotes(
        session: *const Orders,
        room: *const Room,
        asked: *const u8,
        asked_len: usize,
        replies: *mut u64,
        replies_len: usize,
    ) -> u64;
    fn jangsebit_inside(room: *const Room, symbol: *const [u8; 14], told: *mut [u64; 6]) -> u64;
    fn jangsebit_numbers(room: *const Room, told: *mut [u64; 8]);
    fn jangsebit_rule(room: *const Room) -> u64;
    fn jangsebit_unlisted(room: *const Room) -> u64;
    fn jangsebit_requests(
        room: *const Room,
        window: *const Window,
        buf: *mut u8,
        buf_len: usize,
        told: *mut [u64; 1],
    ) -> u64;
    fn jangsebit_gap(room: *const Room, window: *const Window, from: u64, told: *mut [u64; 2]);

    fn jangsebit_sizes(told: *mut [u64; 12]);
    fn jangsebit_value(id: *const [u8; 14], told: *mut [u64; 1]) -> u64;
    fn jangsebit_header(packet: *const u8, packet_len: usize, told: *mut [u64; 5]) -> u64;
    fn jangsebit_write_header(
        size: u16,
        seq: u32,
        flag: u8,
        messages: u8,
        milli: u32,
        buf: *mut u8,
        buf_len: usize,
    ) -> u64;
    fn jangsebit_judge(packet: *const u8, packet_len: usize, told: *mut [u64; 1]) -> u64;
    fn jangsebit_walk(
        packet: *const u8,
        packet_len: usize,
        places: *mut u64,
        places_len: usize,
        told: *mut [u64; 2],
    ) -> u64;
    fn jangsebit_message(bytes: *const u8, bytes_len: usize, told: *mut [u64; 14]) -> u64;
    fn jangsebit_write_message(
        numbers: *const [u64; 14],
        buf: *mut u8,
        buf_len: usize,
        at: usize,
        told: *mut [u64; 1],
    ) -> u64;
}

// SAFETY, for every call below: an address and a length are those of one live slice or array, lent for the length of
// the call; what is lent to be written is lent to nothing else; and a session's memory is as the calls before left it.

pub fn version() -> u32 {
    // SAFETY: as above.
    unsafe { jangsebit_version() }
}

impl Memory {
    /// The records of all places; those of the live orders come first.
    pub fn orders(&self) -> &Orders {
        &self.orders
    }

    /// A session opened at a number, under a rule.
    pub fn opened(number: u32, rule: Rule) -> Box<Memory> {
        let mut memory = Box::new(Memory {
            orders: [Order::NONE; ORDERS],
            room: [0; ROOM],
            window: [0; WINDOW],
        });
        memory.open(number, rule);
        memory
    }

    /// Whatever stood in the memory is gone.
    pub fn open(&mut self, number: u32, rule: Rule) {
        let open = match rule {
            Rule::Default => jangsebit_open,
            Rule::Strict => jangsebit_open_strict,
        };
        // SAFETY: as above; an opening asks for the sizes alone.
        unsafe { open(&mut self.orders, &mut self.room, &mut self.window, number) }
    }

    /// A packet that does not carry next, while nothing waits there: told are 1 where it was kept, 2 and the refusal
    /// where it was refused; 0 where there may be something to apply, and then nothing was done.
    #[inline]
    pub fn pass(&mut self, packet: &[u8]) -> [u64; 2] {
        let mut told = [0; 2];
        // SAFETY: as above.
        unsafe {
            jangsebit_pass(
                &mut self.room,
                &mut self.window,
                packet.as_ptr(),
                packet.len(),
                &mut told,
            )
        }
        told
    }

    /// The one packet that the bytes are.
    #[inline]
    pub fn packet(&mut self, packet: &[u8]) -> Answer {
        let mut answer = [Answer::default()];
        self.packets(packet, true, 1, &mut answer);
        answer[0]
    }

    /// So many packets, each behind its length: the refusal of the call, how many were taken, and their bytes.
    #[inline]
    pub fn burst(&mut self, packets: &[u8], count: usize, answers: &mut [Answer]) -> [u64; 3] {
        self.packets(packets, false, count, answers)
    }

    #[inline]
    fn packets(
        &mut self,
        packets: &[u8],
        single: bool,
        count: usize,
        answers: &mut [Answer],
    ) -> [u64; 3] {
        let mut told = [0; 3];
        // SAFETY: as above; an answer is four numbers.
        unsafe {
            jangsebit_packets(
                &mut self.orders,
                &mut self.room,
                &mut self.window,
                packets.as_ptr(),
                packets.len(),
                single as u64,
                count as u64,
                answers.as_mut_ptr().cast(),
                4 * answers.len(),
                &mut told,
            )
        }
        told
    }

    /// The refusal, and how many of the packet's numbers wait that did not before.
    #[inline]
    pub fn keep(&mut self, packet: &[u8]) -> (u64, u64) {
        let mut told = [0; 1];
        // SAFETY: as above.
        let refusal = unsafe {
            jangsebit_keep(
                &mut self.room,
                &mut self.window,
                packet.as_ptr(),
                packet.len(),
                &mut told,
            )
        };
        (refusal, told[0])
    }

    /// So many packets, each behind its length, kept: the refusal of the call, how many were judged, and their bytes.
    #[inline]
    pub fn keep_burst(&mut self, packets: &[u8], count: usize, answers: &mut [Answer]) -> [u64; 3] {
        let mut told = [0; 3];
        // SAFETY: as above; an answer is four numbers.
        unsafe {
            jangsebit_keep_packets(
                &mut self.room,
                &mut self.window,
                packets.as_ptr(),
                packets.len(),
                count as u64,
                answers.as_mut_ptr().cast(),
                4 * answers.len(),
                &mut told,
            )
        }
        told
    }

    /// How many messages were applied, of so many at most.
    #[inline]
    pub fn apply(&mut self, count: u64) -> u64 {
        // SAFETY: as above.
        unsafe { jangsebit_apply(&mut self.orders, &mut self.room, &mut self.window, count) }
    }

    /// The lowest number from the opening on that no accepted packet has carried.
    #[inline]
    pub fn lowest(&self) -> u64 {
        // SAFETY: as above.
        unsafe { jangsebit_lowest(&self.room, &self.window) }
    }

    /// The refusal, and an order's id value, price, shares, firm, first and last eight bytes of its symbol, side and
    /// unsolicited.
    #[inline]
    pub fn order(&self, id: &[u8; 14]) -> (u64, [u64; 8]) {
        let mut told = [0; 8];
        // SAFETY: as above.
        let refusal = unsafe { jangsebit_order(&self.orders, &self.room, id, &mut told) };
        (refusal, told)
    }

    /// The refusal; a reply for each question.
    #[inline]
    pub fn quotes(&self, asked: &[Question], replies: &mut [Quote]) -> u64 {
        // SAFETY: as above; a question is 15 bytes, and a reply four numbers.
        unsafe {
            jangsebit_quotes(
                &self.orders,
                &self.room,
                asked.as_ptr().cast(),
                size_of_val(asked),
                replies.as_mut_ptr().cast(),
                4 * replies.len(),
            )
        }
    }

    /// The refusal, and an inside's ask, bid, time, ask volume, bid volume and unsolicited.
    #[inline]
    pub fn inside(&self, symbol: &[u8; 14]) -> (u64, [u64; 6]) {
        let mut told = [0; 6];
        // SAFETY: as above.
        let refusal = unsafe { jangsebit_inside(&self.room, symbol, &mut told) };
        (refusal, told)
    }

    /// next, end, live orders, insides held, code, the first fault's number, the count of faults, its reason.
    #[inline]
    pub fn numbers(&self) -> Numbers {
        let mut told = MaybeUninit::<Numbers>::uninit();
        // SAFETY: as above; all eight numbers are written, and they are the fields in their order.
        unsafe {
            jangsebit_numbers(&self.room, told.as_mut_ptr().cast());
            told.assume_init()
        }
    }

    /// 0 where the opening was the default one, 1 where it was strict.
    #[inline]
    pub fn rule(&self) -> u64 {
        // SAFETY: as above.
        unsafe { jangsebit_rule(&self.room) }
    }

    /// How many messages of unlisted types were counted apart.
    #[inline]
    pub fn unlisted(&self) -> u64 {
        // SAFETY: as above.
        unsafe { jangsebit_unlisted(&self.room) }
    }

    /// The refusal, and how many requests were written.
    #[inline]
    pub fn requests(&self, buffer: &mut [u8]) -> (u64, u64) {
        let mut told = [0; 1];
        // SAFETY: as above.
        let refusal = unsafe {
            jangsebit_requests(
                &self.room,
                &self.window,
                buffer.as_mut_ptr(),
                buffer.len(),
                &mut told,
            )
        };
        (refusal, told[0])
    }

    /// Start and count of the first run of missing numbers from a number on; a count of 0 where there is none.
    #[inline]
    pub fn gap(&self, from: u64) -> [u64; 2] {
        let mut told = [0; 2];
        // SAFETY: as above.
        unsafe { jangsebit_gap(&self.room, &self.window, from, &mut told) }
        told
    }
}

/// Bytes and alignment of the orders, the room and the window; live orders, insides, numbers; a packet's bytes at least
/// and at most, a message's at most.
pub fn sizes() -> [u64; 12] {
    let mut told = [0; 12];
    // SAFETY: as above.
    unsafe { jangsebit_sizes(&mut told) }
    told
}

/// The refusal, and the value of an order id.
#[inline]
pub fn value(id: &[u8; 14]) -> (u64, u64) {
    let mut told = [0; 1];
    // SAFETY: as above.
    let refusal = unsafe { jangsebit_value(id, &mut told) };
    (refusal, told[0])
}

/// The refusal, and a header's size, number, flag, count of messages and milliseconds.
#[inline]
pub fn header(packet: &[u8]) -> (u64, [u64; 5]) {
    let mut told = [0; 5];
    // SAFETY: as above.
    let refusal = unsafe { jangsebit_header(packet.as_ptr(), packet.len(), &mut told) };
    (refusal, told)
}

/// The refusal; a header into a buffer's first 12 bytes.
#[inline]
pub fn write_header(
    size: u16,
    number: u32,
    flag: u8,
    messages: u8,
    milli: u32,
    buffer: &mut [u8],
) -> u64 {
    // SAFETY: as above.
    unsafe {
        jangsebit_write_header(
            size,
            number,
            flag,
            messages,
            milli,
            buffer.as_mut_ptr(),
            buffer.len(),
        )
    }
}

/// The refusal, 1 to 8, and the offset that it rests on.
#[inline]
pub fn judge(packet: &[u8]) -> (u64, u64) {
    let mut told = [0; 1];
    // SAFETY: as above.
    let refusal = unsafe { jangsebit_judge(packet.as_ptr(), packet.len(), &mut told) };
    (refusal, told[0])
}

/// The refusal, the offset that it rests on, and how many messages there are; where each starts and its bytes, into
/// the list.
#[inline]
pub fn walk(packet: &[u8], places: &mut [u64]) -> (u64, [u64; 2]) {
    let mut told = [0; 2];
    // SAFETY: as above.
    let refusal = unsafe {
        jangsebit_walk(
            packet.as_ptr(),
            packet.len(),
            places.as_mut_ptr(),
            places.len(),
            &mut told,
        )
    };
    (refusal, told)
}

/// The refusal, and a message's type and fields.
#[inline]
pub fn message(bytes: &[u8]) -> (u64, [u64; 14]) {
    let mut told = [0; 14];
    // SAFETY: as above.
    let refusal = unsafe { jangsebit_message(bytes.as_ptr(), bytes.len(), &mut told) };
    (refusal, told)
}

/// The refusal, and how many bytes the message of such numbers took at a place.
#[inline]
pub fn write_message(numbers: &[u64; 14], buffer: &mut [u8], at: usize) -> (u64, u64) {
    let mut told = [0; 1];
    // SAFETY: as above.
    let refusal = unsafe {
        jangsebit_write_message(numbers, buffer.as_mut_ptr(), buffer.len(), at, &mut told)
    };
    (refusal, told[0])
}

#[cfg(test)]
mod tests {
    #[test]
    fn the_library_has_these_sizes() {
        assert_eq!(super::sizes(), super::SIZES);
    }
}
