//! A session.

use crate::answers::{Answer, Applied, Burst, Kept, Question, Quote};
use crate::refusal::{named, refused, Fault, Refusal};
use crate::sys::{self, Memory};
use crate::tables::{Inside, Level, Order};
use std::fmt;
use std::iter::FusedIterator;

/// One channel of the feed: two lines and retransmissions merged by number, each message applied once and in order.
///
/// A session is 61,472 bytes in a box, and no call allocates behind its opening. It can be sent to another thread and
/// copied with all it holds. Two sessions are equal exactly if they hold the same: tables, waiting messages, numbers, rule.
///
/// ```
/// use jangsebit::{Refusal, Session};
///
/// let mut session = Session::open(10);
/// // A heartbeat at 12: numbers 10 and 11 have been sent, and were not seen here.
/// let heartbeat = [0, 12, 0, 0, 0, 12, 1, 0, 0, 0, 0, 0];
/// assert_eq!(session.take(&heartbeat)?.messages, 0);
/// assert_eq!(session.numbers().next, 10);
/// assert_eq!(session.numbers().end, 12);
/// // So they are asked for: from 10 on, two.
/// let mut requests = [0; 12];
/// assert_eq!(session.requests(&mut requests)?, 1);
/// assert_eq!(requests, [0, 12, b'r', 0, 0, 0, 10, 0, 0, 0, 2, b'Y']);
/// # Ok::<(), Refusal>(())
/// ```
#[derive(Clone, PartialEq, Eq)]
pub struct Session {
    memory: Box<Memory>,
}

const _: () = {
    const fn shared<T: Send + Sync>() {}
    shared::<Session>();
};

/// The exports that this crate was written for.
const VERSION: u32 = 3;

impl Session {
    /// How many orders can be live.
    pub const ORDERS: usize = sys::ORDERS;

    /// How many insides can be held.
    pub const INSIDES: usize = 64;

    /// How many numbers from next on can wait.
    pub const WINDOW: u64 = 256;

    /// The bytes of the longest packet.
    pub const LONGEST: usize = 1_472;

    /// The bytes of one request.
    pub const REQUEST: usize = 12;

    /// Bytes that hold all requests there can be: every second number of the window is missing.
    pub const REQUESTS: usize = Self::REQUEST * Self::WINDOW as usize / 2;

    /// A fresh session: `number` is the first that it waits for. Its rule is [`Rule::Default`]: a message of a type
    /// that is not listed is applied without effect and counted apart.
    ///
    /// # Panics
    ///
    /// Where the archive that was linked has other exports or sizes than this crate.
    pub fn open(number: u32) -> Session {
        Session::opened(number, Rule::Default)
    }

    /// The same under [`Rule::Strict`]: a message of a type that is not listed is a fault.
    ///
    /// # Panics
    ///
    /// As [`open`](Session::open).
    ///
    /// ```
    /// use jangsebit::{Fault, Refusal, Rule, Session};
    ///
    /// // A message of type 99, number 5.
    /// let packet = [0, 15, 0, 0, 0, 5, 0, 1, 0, 0, 0, 0, 0, 3, 99];
    /// let mut session = Session::open_strict(5);
    /// assert_eq!(session.rule(), Rule::Strict);
    /// session.take(&packet)?;
    /// assert_eq!(session.numbers().faults.first(), Some((5, Fault::UnlistedType)));
    /// assert!(session.doubtful() && session.unlisted() == 0);
    ///
    /// let mut session = Session::open(5);
    /// session.take(&packet)?;
    /// assert!(!session.doubtful() && session.unlisted() == 1);
    /// # Ok::<(), Refusal>(())
    /// ```
    pub fn open_strict(number: u32) -> Session {
        Session::opened(number, Rule::Strict)
    }

    fn opened(number: u32, rule: Rule) -> Session {
        assert_eq!(sys::version(), VERSION, "the version of the library");
        assert_eq!(sys::sizes(), sys::SIZES, "the sizes of the library");
        Session {
            memory: Memory::opened(number, rule),
        }
    }

    /// Opens the session again, in the memory that it has: all it held is gone, and its rule is [`Rule::Default`]. For
    /// the next night, and where the venue starts its numbers again.
    pub fn reopen(&mut self, number: u32) {
        self.memory.open(number, Rule::Default);
    }

    /// The same under [`Rule::Strict`].
    pub fn reopen_strict(&mut self, number: u32) {
        self.memory.open(number, Rule::Strict);
    }

    /// Takes one packet, from either line or from retransmission: [`keep`](Session::keep)s it and, unless that is
    /// refused, [`apply`](Session::apply)s all that waits from next on.
    ///
    /// A packet that does not carry next, while nothing waits there, is kept or refused without a look at the tables.
    ///
    /// # Errors
    ///
    /// Refusals 1 to 10; the session is then as it was, and nothing that waits is applied.
    ///
    /// ```
    /// # let mut session = jangsebit::Session::open(1_000);
    /// // An Imbalance, number 1,000.
    /// let packet = [0, 15, 0, 0, 3, 232, 0, 1, 0, 0, 0, 0, 0, 3, 28];
    /// match session.take(&packet) {
    ///     Ok(applied) => assert_eq!(applied.messages, 1),
    ///     Err(refusal) => eprintln!("refused {}: {refusal}", refusal.number()),
    /// }
    /// // The other line brings it too: it is old, and accepted.
    /// assert_eq!(session.take(&packet).unwrap().messages, 0);
    /// ```
    #[inline]
    pub fn take(&mut self, packet: &[u8]) -> Result<Applied, Refusal> {
        match self.memory.pass(packet) {
            [0, _] => self.memory.packet(packet).result(),
            [1, _] => Ok(Applied { messages: 0 }),
            [_, refusal] => Err(named(refusal)),
        }
    }

    /// Takes the first `count` packets of those that stand one behind the other, each behind its length as a big-endian
    /// number of 2 bytes, or all that there are if these are fewer. What is left of a packet at the end is not looked at.
    /// The session and the answers are those of taking them one by one, and a call for many costs less than a call for each.
    ///
    /// A packet that is refused has its refusal in its own answer, and those behind it are taken.
    ///
    /// # Errors
    ///
    /// [`Refusal::BufferTooShort`] where there are fewer answers than `count`; none is then taken.
    ///
    /// ```
    /// use jangsebit::{Answer, Refusal, Session};
    ///
    /// let first = [0, 15, 0, 0, 0, 1, 0, 1, 0, 0, 0, 0, 0, 3, 28];
    /// let heartbeat = [0, 12, 0, 0, 0, 2, 1, 0, 0, 0, 0, 0];
    /// let mut packets = Vec::new();
    /// for packet in [&first[..], &heartbeat[..]] {
    ///     packets.extend((packet.len() as u16).to_be_bytes());
    ///     packets.extend(packet);
    /// }
    /// let mut session = Session::open(1);
    /// let mut answers = [Answer::default(); 64];
    /// assert_eq!(session.burst(&packets, 65, &mut answers), Err(Refusal::BufferTooShort));
    /// let burst = session.burst(&packets, 64, &mut answers)?;
    /// assert_eq!((burst.packets, burst.bytes), (2, packets.len()));
    /// assert_eq!(answers[0].result()?.messages, 1);
    /// assert_eq!((answers[1].next(), answers[1].end()), (2, 2));
    /// # Ok::<(), Refusal>(())
    /// ```
    #[inline]
    pub fn burst(
        &mut self,
        packets: &[u8],
        count: usize,
        answers: &mut [Answer],
    ) -> Result<Burst, Refusal> {
        burst(self.memory.burst(packets, count, answers))
    }

    /// Judges one packet and keeps its messages waiting. It applies nothing: next and the tables stay.
    ///
    /// Up to 256 messages can wait, from next on; those that can be applied are those from next to below
    /// [`lowest`](Session::lowest).
    ///
    /// # Errors
    ///
    /// Refusals 1 to 10, as [`take`](Session::take) gives them; the session is then as it was.
    ///
    /// ```
    /// use jangsebit::{Refusal, Session};
    ///
    /// let mut session = Session::open(1);
    /// // Two Imbalances, numbers 1 and 2, from both lines.
    /// let packet = [0, 18, 0, 0, 0, 1, 0, 2, 0, 0, 0, 0, 0, 3, 28, 0, 3, 28];
    /// assert_eq!(session.keep(&packet)?.fresh, 2);
    /// assert_eq!(session.keep(&packet)?.fresh, 0);
    /// assert_eq!((session.numbers().next, session.numbers().end), (1, 3));
    /// // Another message under a number that waits.
    /// let other = [0, 15, 0, 0, 0, 1, 0, 1, 0, 0, 0, 0, 0, 3, 99];
    /// assert_eq!(session.keep(&other), Err(Refusal::Conflict));
    /// assert_eq!(session.apply(u64::MAX).messages, 2);
    /// # Ok::<(), Refusal>(())
    /// ```
    #[inline]
    pub fn keep(&mut self, packet: &[u8]) -> Result<Kept, Refusal> {
        let (refusal, fresh) = self.memory.keep(packet);
        refused(refusal)?;
        Ok(Kept { fresh })
    }

    /// Keeps many packets in one call, laid out and counted as for [`burst`](Session::burst), and applies nothing. Each
    /// answer is [`fresh`](Answer::fresh), and what [`keep`](Session::keep) would give.
    ///
    /// A packet that is refused has its refusal in its own answer, and those behind it are kept.
    ///
    /// # Errors
    ///
    /// [`Refusal::BufferTooShort`] where there are fewer answers than `count`; none is then kept.
    ///
    /// ```
    /// use jangsebit::{Answer, Refusal, Session};
    ///
    /// let first = [0, 15, 0, 0, 0, 1, 0, 1, 0, 0, 0, 0, 0, 3, 28];
    /// let third = [0, 15, 0, 0, 0, 3, 0, 1, 0, 0, 0, 0, 0, 3, 28];
    /// let mut packets = Vec::new();
    /// for packet in [&first, &third, &first] {
    ///     packets.extend((packet.len() as u16).to_be_bytes());
    ///     packets.extend(packet);
    /// }
    /// let mut session = Session::open(1);
    /// let mut answers = [Answer::default(); 8];
    /// let burst = session.keep_burst(&packets, 8, &mut answers)?;
    /// assert_eq!((burst.packets, burst.bytes), (3, packets.len()));
    /// assert_eq!(answers[1].fresh()?.fresh, 1);
    /// assert_eq!((answers[1].next(), answers[1].end()), (1, 4));
    /// assert_eq!(answers[2].fresh()?.fresh, 0);
    /// // Number 2 is missing, and 3 waits for it.
    /// assert_eq!(session.apply(u64::MAX).messages, 1);
    /// # Ok::<(), Refusal>(())
    /// ```
    #[inline]
    pub fn keep_burst(
        &mut self,
        packets: &[u8],
        count: usize,
        answers: &mut [Answer],
    ) -> Result<Burst, Refusal> {
        burst(self.memory.keep_burst(packets, count, answers))
    }

    /// Applies what waits from next on, in order, up to `count` messages. Any count will do: [`u64::MAX`] applies all
    /// that can be, 0 nothing.
    ///
    /// ```
    /// use jangsebit::{Refusal, Session};
    ///
    /// let mut session = Session::open(1);
    /// // Three Imbalances, numbers 1 to 3.
    /// session.keep(&[0, 21, 0, 0, 0, 1, 0, 3, 0, 0, 0, 0, 0, 3, 28, 0, 3, 28, 0, 3, 28])?;
    /// // Not more than two a tick.
    /// assert_eq!(session.apply(2).messages, 2);
    /// assert_eq!(session.numbers().next, 3);
    /// assert_eq!(session.apply(2).messages, 1);
    /// assert_eq!(session.apply(2).messages, 0);
    /// # Ok::<(), Refusal>(())
    /// ```
    #[inline]
    pub fn apply(&mut self, count: u64) -> Applied {
        Applied {
            messages: self.memory.apply(count),
        }
    }

    /// The lowest number from the opening on that no accepted packet has carried. Never below next: the messages from
    /// next to below it wait, and applying to the end brings next there.
    ///
    /// ```
    /// use jangsebit::{Refusal, Session};
    ///
    /// let mut session = Session::open(1);
    /// session.keep(&[0, 18, 0, 0, 0, 1, 0, 2, 0, 0, 0, 0, 0, 3, 28, 0, 3, 28])?;
    /// assert_eq!((session.numbers().next, session.lowest()), (1, 3));
    /// session.apply(1);
    /// assert_eq!((session.numbers().next, session.lowest()), (2, 3));
    /// # Ok::<(), Refusal>(())
    /// ```
    #[inline]
    pub fn lowest(&self) -> u64 {
        self.memory.lowest()
    }

    /// next, end, the counts of the tables, the session code and the record of faults.
    #[inline]
    pub fn numbers(&self) -> Numbers {
        self.memory.numbers()
    }

    /// Whether the book is doubtful: at least one message faulted since the opening.
    #[inline]
    pub fn doubtful(&self) -> bool {
        self.numbers().doubtful()
    }

    /// The rule for types that are not listed. It is the opening's, and stays until the next.
    #[inline]
    pub fn rule(&self) -> Rule {
        match self.memory.rule() {
            0 => Rule::Default,
            _ => Rule::Strict,
        }
    }

    /// How many messages of types that are not listed were applied since the opening, without effect and without a
    /// fault. Always 0 under [`Rule::Strict`]. A count that is not 0 says that the venue has types which this library
    /// does not know.
    ///
    /// ```
    /// use jangsebit::{Refusal, Session};
    ///
    /// let mut session = Session::open(1);
    /// // Three messages: an Imbalance, which is listed, and types 10 and 29, which are not.
    /// session.take(&[0, 21, 0, 0, 0, 1, 0, 3, 0, 0, 0, 0, 0, 3, 28, 0, 3, 10, 0, 3, 29])?;
    /// assert_eq!((session.numbers().next, session.unlisted()), (4, 2));
    /// assert!(!session.doubtful());
    /// # Ok::<(), Refusal>(())
    /// ```
    #[inline]
    pub fn unlisted(&self) -> u64 {
        self.memory.unlisted()
    }

    /// The best price of a symbol on a side, a [`Side`](crate::Side) or its byte.
    ///
    /// # Errors
    ///
    /// [`Refusal::BadQuestion`], then [`Refusal::NotFound`] where no such order is live.
    ///
    /// ```
    /// use jangsebit::{symbol, Refusal, Session, Side};
    ///
    /// // An Order Add, message 7: 300 shares of OTCM bid for at 1,250,000.
    /// let mut packet = vec![0, 67, 0, 0, 0, 7, 0, 1, 0, 0, 0, 0];
    /// packet.extend(b"\x00\x37\x15\x00\x00\x00\x017A400CY528L9SNB\x00\x00\x01\x2cOTCM          ");
    /// packet.extend(1_250_000u64.to_be_bytes());
    /// packet.extend(b"FIRMN\x00\x00");
    /// let mut session = Session::open(7);
    /// session.take(&packet)?;
    /// let otcm = symbol("OTCM").unwrap();
    /// let best = session.best(&otcm, Side::Bid)?;
    /// assert_eq!((best.price, best.shares, best.orders), (1_250_000, 300, 1));
    /// assert_eq!(session.best(&otcm, Side::Ask), Err(Refusal::NotFound));
    /// assert_eq!(session.order(b"7A400CY528L9SN")?.shares, 300);
    /// assert_eq!(session.orders()[0].firm, *b"FIRM");
    /// # Ok::<(), Refusal>(())
    /// ```
    #[inline]
    pub fn best(&self, symbol: &[u8; 14], side: impl Into<u8>) -> Result<Level, Refusal> {
        let mut reply = [Quote::default()];
        refused(
            self.memory
                .quotes(&[Question::new(*symbol, side)], &mut reply),
        )?;
        reply[0].level()
    }

    /// The best prices of many symbols and sides, a reply for each question. The answer is how many there are; replies
    /// behind them stay as they were.
    ///
    /// # Errors
    ///
    /// [`Refusal::BufferTooShort`] where there are fewer replies than questions; none is then written. What
    /// [`best`](Session::best) would refuse is refused in the reply.
    ///
    /// ```
    /// use jangsebit::{symbol, Question, Quote, Refusal, Session, Side};
    ///
    /// let session = Session::open(1);
    /// let otcm = symbol("OTCM").unwrap();
    /// let asked = [Question::new(otcm, Side::Bid), Question::new(otcm, b'b')];
    /// let mut replies = [Quote::default(); 2];
    /// assert_eq!(session.quotes(&asked, &mut replies)?, 2);
    /// assert_eq!(replies[0].level(), Err(Refusal::NotFound));
    /// assert_eq!(replies[1].level(), Err(Refusal::BadQuestion));
    /// # Ok::<(), Refusal>(())
    /// ```
    #[inline]
    pub fn quotes(&self, asked: &[Question], replies: &mut [Quote]) -> Result<usize, Refusal> {
        refused(self.memory.quotes(asked, replies))?;
        Ok(asked.len())
    }

    /// The live order of an id. The id's last two bytes tell no order from another.
    ///
    /// # Errors
    ///
    /// [`Refusal::BadQuestion`], then [`Refusal::NotFound`] where no such order is live.
    #[inline]
    pub fn order(&self, id: &[u8; 14]) -> Result<Order, Refusal> {
        let (refusal, told) = self.memory.order(id);
        refused(refusal)?;
        Ok(Order::from_told(told))
    }

    /// All live orders, where they lie; any message applied may change their places.
    pub fn orders(&self) -> &[Order] {
        &self.memory.orders()[..self.numbers().live]
    }

    /// The inside of a symbol.
    ///
    /// # Errors
    ///
    /// [`Refusal::BadQuestion`], then [`Refusal::NotFound`] where no Top of Book has come for the symbol.
    #[inline]
    pub fn inside(&self, symbol: &[u8; 14]) -> Result<Inside, Refusal> {
        let (refusal, told) = self.memory.inside(symbol);
        refused(refusal)?;
        Ok(Inside::from_told(*symbol, told))
    }

    /// Writes a request of [`REQUEST`](Session::REQUEST) bytes for each run of missing numbers, one behind the other, and
    /// answers how many. Bytes behind the last stay as they were.
    ///
    /// # Errors
    ///
    /// [`Refusal::BufferTooShort`] where not all fit; nothing is then written. [`REQUESTS`](Session::REQUESTS) bytes are
    /// always enough.
    #[inline]
    pub fn requests(&self, buffer: &mut [u8]) -> Result<usize, Refusal> {
        let (refusal, count) = self.memory.requests(buffer);
        refused(refusal)?;
        Ok(count as usize)
    }

    /// The runs of missing numbers, ascending: those from next and below both end and next + 256 that do not wait.
    ///
    /// ```
    /// use jangsebit::{Gap, Session};
    ///
    /// let mut session = Session::open(10);
    /// session.take(&[0, 15, 0, 0, 0, 12, 0, 1, 0, 0, 0, 0, 0, 3, 28]).unwrap();
    /// session.take(&[0, 12, 0, 0, 0, 14, 1, 0, 0, 0, 0, 0]).unwrap();
    /// let gaps: Vec<Gap> = session.gaps().collect();
    /// assert_eq!(gaps, [Gap { start: 10, count: 2 }, Gap { start: 13, count: 1 }]);
    /// ```
    pub fn gaps(&self) -> Gaps<'_> {
        Gaps {
            memory: &self.memory,
            from: 0,
        }
    }
}

/// What a burst of either kind told: its refusal, packets and bytes.
#[inline]
fn burst([refusal, packets, bytes]: [u64; 3]) -> Result<Burst, Refusal> {
    refused(refusal)?;
    Ok(Burst {
        packets: packets as usize,
        bytes: bytes as usize,
    })
}

impl fmt::Debug for Session {
    fn fmt(&self, f: &mut fmt::Formatter<'_>) -> fmt::Result {
        f.debug_struct("Session")
            .field("numbers", &self.numbers())
            .field("rule", &self.rule())
            .field("unlisted", &self.unlisted())
            .finish()
    }
}

/// What an opening makes of messages whose type is not listed. Under either rule their numbers are applied and the
/// tables stay.
#[derive(Clone, Copy, Debug, Default, PartialEq, Eq, Hash)]
pub enum Rule {
    /// They are no fault, and counted apart: see [`Session::unlisted`].
    #[default]
    Default,
    /// They are faults, [`Fault::UnlistedType`], and not in that count.
    Strict,
}

/// The numbers of a session, as the library writes them: none is moved on its way.
#[repr(C)]
#[derive(Clone, Copy, Debug, PartialEq, Eq)]
pub struct Numbers {
    /// The lowest number that is not applied: all below it are. May reach 4,294,967,296.
    pub next: u64,
    /// The largest end known: all numbers below it have been sent. Never below next.
    pub end: u64,
    /// How many orders are live.
    pub live: usize,
    /// How many insides are held.
    pub held: usize,
    /// The code of the last Trading Session; 0 before the first.
    pub code: u64,
    /// The record of faults.
    pub faults: Faults,
}

impl Numbers {
    /// Whether the book is doubtful: the count of faults is not 0.
    #[inline]
    pub fn doubtful(&self) -> bool {
        self.faults.count != 0
    }
}

/// The faults since the opening.
#[repr(C)]
#[derive(Clone, Copy, Debug, PartialEq, Eq)]
pub struct Faults {
    number: u64,
    /// How many messages faulted.
    pub count: u64,
    reason: u64,
}

impl Faults {
    /// The number and the reason of the first message that faulted, if one did.
    ///
    /// ```
    /// use jangsebit::{Fault, Session};
    ///
    /// let mut session = Session::open(5);
    /// assert_eq!(session.numbers().faults.first(), None);
    /// // A Trading Session whose code is 7, number 5: it counts, and changes nothing.
    /// session.take(&[0, 24, 0, 0, 0, 5, 0, 1, 0, 0, 0, 0, 0, 12, 20, 0, 0, 0, 0, 0, 0, 0, 0, 7]).unwrap();
    /// assert_eq!(session.numbers().faults.first(), Some((5, Fault::BrokenRule)));
    /// assert_eq!(session.numbers().next, 6);
    /// ```
    #[inline]
    pub fn first(&self) -> Option<(u64, Fault)> {
        match Fault::try_from(self.reason as u8) {
            Ok(fault) if self.count > 0 => Some((self.number, fault)),
            _ => None,
        }
    }
}

/// A run of missing numbers.
#[derive(Clone, Copy, Debug, PartialEq, Eq)]
pub struct Gap {
    /// The first number that is missing.
    pub start: u64,
    /// How many are, from there on.
    pub count: u64,
}

/// The runs of missing numbers of a session: see [`Session::gaps`].
#[derive(Clone)]
pub struct Gaps<'a> {
    memory: &'a Memory,
    from: u64,
}

impl Iterator for Gaps<'_> {
    type Item = Gap;

    fn next(&mut self) -> Option<Gap> {
        let [start, count] = self.memory.gap(self.from);
        if count == 0 {
            return None;
        }
        self.from = start + count;
        Some(Gap { start, count })
    }
}

impl FusedIterator for Gaps<'_> {}

impl fmt::Debug for Gaps<'_> {
    fn fmt(&self, f: &mut fmt::Formatter<'_>) -> fmt::Result {
        f.debug_list().entries(self.clone()).finish()
    }
}
