//! A session: two lines and retransmissions merged by number, each message applied once, in order.

use super::book::{Best, Book, Faults, Inside, Order, UNLISTED};
use super::packet::{messages_good, read_header, Messages};
use super::Refusal;

pub const WINDOW: usize = 256;
const PLACE: usize = 128;

pub struct Session {
    /// The lowest number not applied.
    next: u64,
    end: u64,
    /// Whether a type that is not in the table is fault 1; else it is counted in `unlisted`.
    strict: bool,
    unlisted: u64,
    faults: Faults,
    book: Book,
    /// How many places of the window are taken.
    waiting: usize,
    /// The size of the message that waits at a place, 0 if the place is free.
    sizes: [u8; WINDOW],
    places: [[u8; PLACE]; WINDOW],
}

#[inline(always)]
fn place_of(number: u64) -> usize {
    number as usize % WINDOW
}

impl Session {
    pub fn open(number: u32) -> Session {
        Session::opened(number, false)
    }

    /// Opens under the strict rule.
    pub fn open_strict(number: u32) -> Session {
        Session::opened(number, true)
    }

    fn opened(number: u32, strict: bool) -> Session {
        Session {
            next: number as u64,
            end: number as u64,
            strict,
            unlisted: 0,
            faults: Faults::default(),
            book: Book::new(),
            waiting: 0,
            sizes: [0; WINDOW],
            places: [[0; PLACE]; WINDOW],
        }
    }

    /// Takes one packet and answers how many messages were applied, or the refusal: as keeping it and then applying
    /// to the end, but what the packet brings to `next` is applied straight from it.
    #[inline(always)]
    pub fn take(&mut self, packet: &[u8]) -> Result<u64, Refusal> {
        let (first, behind) = self.judge(packet)?;
        self.end = self.end.max(behind);
        let before = self.next;
        if first > self.next {
            self.store(packet, first);
        } else {
            self.run(packet, first);
        }
        if self.waiting != 0 {
            self.apply(u64::MAX);
        }
        Ok(self.next - before)
    }

    /// Judges one packet and keeps its messages waiting: how many of its numbers wait that did not before, or the
    /// refusal.
    #[inline(always)]
    pub fn keep(&mut self, packet: &[u8]) -> Result<u64, Refusal> {
        let (first, behind) = self.judge(packet)?;
        self.end = self.end.max(behind);
        let before = self.waiting;
        self.store(packet, first);
        Ok((self.waiting - before) as u64)
    }

    /// Applies what waits from `next` on, up to so many messages, and says how many.
    pub fn apply(&mut self, count: u64) -> u64 {
        let before = self.next;
        while self.next - before < count {
            let place = place_of(self.next);
            let size = self.sizes[place] as usize;
            if size == 0 {
                break;
            }
            let fault = self.book.apply(&self.places[place][..size]);
            self.free(self.next);
            self.step(fault);
        }
        self.next - before
    }

    /// Tests 1 to 10: the number of the first message and the number behind the last, for a heartbeat its own twice.
    #[inline(always)]
    fn judge(&self, packet: &[u8]) -> Result<(u64, u64), Refusal> {
        let header = read_header(packet)?;
        let first = header.number as u64;
        if header.heartbeat() {
            return Ok((first, first));
        }
        messages_good(packet, header.messages)?;
        let behind = first + header.messages as u64;
        if behind > 1 << 32 {
            return Err(Refusal(8));
        }
        if behind > self.next + WINDOW as u64 {
            return Err(Refusal(9));
        }
        if self.waiting != 0 && self.conflicts(packet, first) {
            return Err(Refusal(10));
        }
        Ok((first, behind))
    }

    /// Whether a message differs from the copy that waits under its number.
    fn conflicts(&self, packet: &[u8], first: u64) -> bool {
        (first..)
            .zip(Messages::in_packet(packet))
            .any(|(number, message)| {
                number >= self.next && self.waits(number) && self.copy(number) != message
            })
    }

    /// Lays a packet's messages into their places. Old numbers have none: theirs are those of numbers 256 above.
    fn store(&mut self, packet: &[u8], first: u64) {
        for (number, message) in (first..).zip(Messages::in_packet(packet)) {
            let place = place_of(number);
            if number >= self.next && self.sizes[place] == 0 {
                self.sizes[place] = message.len() as u8;
                self.places[place][..message.len()].copy_from_slice(message);
                self.waiting += 1;
            }
        }
    }

    /// Applies the messages of a packet that reaches down to `next`, straight from it; what waited under
    /// their numbers is the same, byte for byte, and leaves.
    #[inline(always)]
    fn run(&mut self, packet: &[u8], first: u64) {
        let old = (self.next - first) as usize;
        for message in Messages::in_packet(packet).skip(old) {
            if self.waiting != 0 {
                self.free(self.next);
            }
            let fault = self.book.apply(message);
            self.step(fault);
        }
    }

    fn free(&mut self, number: u64) {
        let size = &mut self.sizes[place_of(number)];
        self.waiting -= (*size != 0) as usize;
        *size = 0;
    }

    #[inline(always)]
    fn step(&mut self, fault: u8) {
        if fault != 0 {
            self.count(fault);
        }
        self.next += 1;
    }

    #[inline(always)]
    fn count(&mut self, fault: u8) {
        if fault == UNLISTED && !self.strict {
            self.unlisted += 1;
            return;
        }
        if self.faults.count == 0 {
            self.faults.number = self.next;
            self.faults.reason = fault;
        }
        self.faults.count += 1;
    }

    fn copy(&self, number: u64) -> &[u8] {
        let place = place_of(number);
        &self.places[place][..self.sizes[place] as usize]
    }

    /// Whether a number of the window, from `next` to 255 above it, has its message waiting.
    pub fn waits(&self, number: u64) -> bool {
        self.sizes[place_of(number)] != 0
    }

    /// How many messages wait.
    pub fn waiting(&self) -> usize {
        self.waiting
    }

    /// The lowest number not applied.
    pub fn next(&self) -> u64 {
        self.next
    }

    /// The lowest number from the opening on that no accepted packet carried: all below it are applied or wait.
    pub fn lowest(&self) -> u64 {
        let behind = self.next + WINDOW as u64;
        (self.next..behind)
            .find(|number| !self.waits(*number))
            .unwrap_or(behind)
    }

    pub fn end(&self) -> u64 {
        self.end
    }

    pub fn code(&self) -> u8 {
        self.book.code()
    }

    pub fn faults(&self) -> Faults {
        self.faults
    }

    /// Whether the book is doubtful: something faulted.
    pub fn doubtful(&self) -> bool {
        self.faults.count != 0
    }

    /// Whether the opening asked for the strict rule.
    pub fn strict(&self) -> bool {
        self.strict
    }

    /// How many messages of a type that is not in the table were applied and are no fault.
    pub fn unlisted(&self) -> u64 {
        self.unlisted
    }

    pub fn book(&self) -> &Book {
        &self.book
    }

    pub fn order(&self, id: &[u8; 14]) -> Result<Order, Refusal> {
        self.book.order(id)
    }

    pub fn inside(&self, symbol: &[u8; 14]) -> Result<Inside, Refusal> {
        self.book.inside(symbol)
    }

    pub fn best(&self, symbol: &[u8; 14], side: u8) -> Result<Best, Refusal> {
        self.book.best(symbol, side)
    }

    /// The missing numbers as runs, ascending: start and count.
    pub fn missing(&self) -> Vec<(u64, u64)> {
        let mut runs: Vec<(u64, u64)> = Vec::new();
        for number in self.next..self.end.min(self.next + WINDOW as u64) {
            if self.waits(number) {
                continue;
            }
            match runs.last_mut() {
                Some((start, count)) if *start + *count == number => *count += 1,
                _ => runs.push((number, 1)),
            }
        }
        runs
    }

    /// Writes a request for each run of missing numbers, and says how many there are.
    pub fn requests(&self, buffer: &mut [u8]) -> Result<usize, Refusal> {
        let runs = self.missing();
        let bytes = buffer.get_mut(..12 * runs.len()).ok_or(Refusal(11))?;
        for (request, (start, count)) in bytes.chunks_exact_mut(12).zip(&runs) {
            request[..3].copy_from_slice(&[0, 12, b'r']);
            request[3..7].copy_from_slice(&(*start as u32).to_be_bytes());
            request[7..11].copy_from_slice(&(*count as u32).to_be_bytes());
            request[11] = b'Y';
        }
        Ok(runs.len())
    }
}
