//! The library's session and the twin's, side by side: each call is made on both, and the answers must be equal.

use jangsebit::{Answer, Burst, Question, Quote, Refusal, Rule};
use std::fmt::Debug;

/// The answer to one packet, from either: how many messages it applied or, where it was kept alone, how many wait that
/// did not before.
#[derive(Clone, Copy, Debug, PartialEq, Eq)]
pub struct Row {
    pub answer: Result<u64, u8>,
    pub next: u64,
    pub end: u64,
}

impl Row {
    pub fn from_answer(answer: &Answer) -> Row {
        Row {
            answer: applied(answer.result()),
            next: answer.next(),
            end: answer.end(),
        }
    }

    /// The same of a burst that keeps.
    pub fn from_kept(answer: &Answer) -> Row {
        Row {
            answer: fresh(answer.fresh()),
            ..Row::from_answer(answer)
        }
    }

    /// The four numbers that a burst answers.
    pub fn numbers(&self) -> [u64; 4] {
        let count = self.answer.unwrap_or(0);
        let refusal = self.answer.err().unwrap_or(0);
        [count, refusal.into(), self.next, self.end]
    }
}

/// A call whose answers differ.
pub type Difference = String;

/// How sessions are opened: at which number, and under which rule.
#[derive(Clone, Copy, Debug, PartialEq, Eq)]
pub struct Opening {
    pub number: u32,
    pub rule: Rule,
}

impl Opening {
    pub fn twin(self) -> twin::Session {
        match self.rule {
            Rule::Default => twin::Session::open(self.number),
            Rule::Strict => twin::Session::open_strict(self.number),
        }
    }
}

/// What is done with a packet.
#[derive(Clone, Copy, Debug)]
pub enum Call {
    Take,
    Keep,
}

pub struct Pair {
    library: jangsebit::Session,
    twin: Box<twin::Session>,
    answers: Vec<Answer>,
}

/// The answer to a call that both gave.
fn agreed<T: PartialEq + Debug>(call: impl Debug, library: T, twin: T) -> Result<T, Difference> {
    if library == twin {
        return Ok(library);
    }
    Err(format!("{call:02x?}: library {library:?}, twin {twin:?}"))
}

fn equal<T: PartialEq + Debug>(call: impl Debug, library: T, twin: T) -> Result<(), Difference> {
    agreed(call, library, twin).map(drop)
}

/// That a refused call left the library's session as it was, byte for byte.
fn unchanged(before: &jangsebit::Session, after: &jangsebit::Session) -> Result<(), Difference> {
    if before == after {
        return Ok(());
    }
    Err("a refusal changed the library's session".into())
}

fn applied(answer: Result<jangsebit::Applied, Refusal>) -> Result<u64, u8> {
    answer
        .map(|applied| applied.messages)
        .map_err(Refusal::number)
}

fn fresh(answer: Result<jangsebit::Kept, Refusal>) -> Result<u64, u8> {
    answer.map(|kept| kept.fresh).map_err(Refusal::number)
}

fn order(order: &jangsebit::Order) -> twin::Order {
    twin::Order {
        id: order.id,
        price: order.price,
        shares: order.shares,
        firm: order.firm,
        symbol: order.symbol,
        side: order.side,
        unsolicited: order.unsolicited,
    }
}

fn inside(inside: jangsebit::Inside) -> twin::Inside {
    twin::Inside {
        ask: inside.ask,
        bid: inside.bid,
        time: inside.time,
        asked: inside.ask_volume,
        bidden: inside.bid_volume,
        symbol: inside.symbol,
        unsolicited: inside.unsolicited,
    }
}

fn best(level: jangsebit::Level) -> twin::Best {
    twin::Best {
        price: level.price,
        shares: level.shares,
        orders: level.orders,
    }
}

fn by_number<T>(answer: Result<T, Refusal>) -> Result<T, twin::Refusal> {
    answer.map_err(|refusal| twin::Refusal(refusal.number()))
}

/// An id that has a value.
pub fn id_of(mut value: u64) -> [u8; 14] {
    let mut id = *b"000000000000..";
    for digit in id[..12].iter_mut().rev() {
        *digit = b"0123456789ABCDEFGHIJKLMNOPQRSTUVWXYZ"[(value % 36) as usize];
        value /= 36;
    }
    id
}

impl Pair {
    pub fn open(opening: Opening) -> Pair {
        let library = match opening.rule {
            Rule::Default => jangsebit::Session::open(opening.number),
            Rule::Strict => jangsebit::Session::open_strict(opening.number),
        };
        Pair {
            library,
            twin: Box::new(opening.twin()),
            answers: Vec::new(),
        }
    }

    /// Opens both again; the library in the memory that it has.
    pub fn reopen(&mut self, opening: Opening) {
        match opening.rule {
            Rule::Default => self.library.reopen(opening.number),
            Rule::Strict => self.library.reopen_strict(opening.number),
        }
        *self.twin = opening.twin();
    }

    pub fn twin(&self) -> &twin::Session {
        &self.twin
    }

    fn row(&self, answer: Result<u64, u8>) -> Row {
        let numbers = self.library.numbers();
        Row {
            answer,
            next: numbers.next,
            end: numbers.end,
        }
    }

    fn library_burst(
        &mut self,
        call: Call,
        bytes: &[u8],
        told: usize,
        answers: &mut [Answer],
    ) -> Result<Burst, Refusal> {
        match call {
            Call::Take => self.library.burst(bytes, told, answers),
            Call::Keep => self.library.keep_burst(bytes, told, answers),
        }
    }

    fn twin_row(&mut self, call: Call, packet: &[u8]) -> Row {
        let answer = match call {
            Call::Take => self.twin.take(packet),
            Call::Keep => self.twin.keep(packet),
        };
        Row {
            answer: answer.map_err(|refusal| refusal.0),
            next: self.twin.next(),
            end: self.twin.end(),
        }
    }

    /// One packet in one call.
    pub fn take(&mut self, packet: &[u8]) -> Result<Row, Difference> {
        let answer = applied(self.library.take(packet));
        let row = self.row(answer);
        let expected = self.twin_row(Call::Take, packet);
        equal(("take", packet), row, expected)?;
        self.faults()?;
        Ok(row)
    }

    /// The same; a refusal must have left the library's session as it was, and otherwise it must hold, byte for byte,
    /// what keeping and then applying to the end give.
    pub fn take_watched(&mut self, packet: &[u8]) -> Result<Row, Difference> {
        let mut split = self.library.clone();
        let row = self.take(packet)?;
        if row.answer.is_err() {
            unchanged(&split, &self.library)?;
        }
        let kept = split.keep(packet);
        let answer = applied(kept.map(|_| split.apply(u64::MAX)));
        equal(("keep and apply", packet), answer, row.answer)?;
        if split == self.library {
            return Ok(row);
        }
        Err(format!(
            "{packet:02x?}: taken, the library's session differs from kept and applied"
        ))
    }

    /// One packet kept; a refusal must have left the library's session as it was.
    pub fn keep(&mut self, packet: &[u8]) -> Result<Row, Difference> {
        let before = self.library.clone();
        let answer = fresh(self.library.keep(packet));
        let row = self.row(answer);
        let expected = self.twin_row(Call::Keep, packet);
        equal(("keep", packet), row, expected)?;
        self.faults()?;
        if row.answer.is_err() {
            unchanged(&before, &self.library)?;
        }
        Ok(row)
    }

    /// Applies up to so many messages; where none is, the library's session must be as it was.
    pub fn apply(&mut self, count: u64) -> Result<u64, Difference> {
        let before = self.library.clone();
        let answer = self.library.apply(count).messages;
        let applied = agreed(("apply", count), answer, self.twin.apply(count))?;
        equal("next", self.library.numbers().next, self.twin.next())?;
        self.faults()?;
        if applied == 0 {
            unchanged(&before, &self.library)?;
        }
        Ok(applied)
    }

    /// The lowest number that no accepted packet has carried.
    pub fn lowest(&self) -> Result<u64, Difference> {
        agreed("lowest", self.library.lowest(), self.twin.lowest())
    }

    /// Packets in one call, `bytes` as a burst has them from the first of `packets` on, with a list for a few answers
    /// more. The call is told how many to take or to keep.
    pub fn burst<'a>(
        &mut self,
        call: Call,
        bytes: &[u8],
        packets: impl ExactSizeIterator<Item = &'a [u8]>,
        told: usize,
    ) -> Result<(), Difference> {
        let count = packets.len();
        let mut answers = std::mem::take(&mut self.answers);
        answers.clear();
        answers.resize(told + 3, Answer::default());
        let burst = self.library_burst(call, bytes, told, &mut answers);
        let mut taken = 0;
        for (packet, answer) in packets.zip(&answers) {
            let expected = self.twin_row(call, packet);
            taken += 2 + packet.len();
            let row = match call {
                Call::Take => Row::from_answer(answer),
                Call::Keep => Row::from_kept(answer),
            };
            equal((call, packet), row, expected)?;
        }
        let expected = Burst {
            packets: count,
            bytes: taken,
        };
        equal("burst", burst, Ok(expected))?;
        let stay = answers[count..].iter().all(|a| *a == Answer::default());
        equal("answers behind the last", stay, true)?;
        self.answers = answers;
        self.faults()
    }

    /// The same; the library's session must hold, byte for byte, what a call for each packet gives.
    pub fn burst_watched<'a>(
        &mut self,
        call: Call,
        bytes: &[u8],
        packets: impl ExactSizeIterator<Item = &'a [u8]> + Clone,
        told: usize,
    ) -> Result<(), Difference> {
        let mut single = self.library.clone();
        self.burst(call, bytes, packets.clone(), told)?;
        for packet in packets {
            match call {
                Call::Take => drop(single.take(packet)),
                Call::Keep => drop(single.keep(packet)),
            }
        }
        if single == self.library {
            return Ok(());
        }
        Err(format!(
            "{call:?}: a burst's session differs from that of single calls"
        ))
    }

    /// Packets in one call whose answers do not fit: neither session takes or keeps one.
    pub fn burst_too_short(&mut self, bytes: &[u8], count: usize) -> Result<(), Difference> {
        let before = self.library.clone();
        let mut answers = vec![Answer::default(); count - 1];
        for call in [Call::Take, Call::Keep] {
            let burst = self.library_burst(call, bytes, count, &mut answers);
            equal("short burst", burst, Err(Refusal::BufferTooShort))?;
            let stay = answers.iter().all(|answer| *answer == Answer::default());
            equal("its answers", stay, true)?;
            unchanged(&before, &self.library)?;
        }
        Ok(())
    }

    /// The faults, the rule for types that are not in the table, and the count of those that are no fault.
    fn faults(&self) -> Result<(), Difference> {
        let (found, expected) = (self.library.numbers().faults, self.twin.faults());
        let first = found.first();
        let first = first.map(|(number, fault)| (number, fault.number()));
        let due = (expected.count > 0).then_some((expected.number, expected.reason));
        equal("faults", found.count, expected.count)?;
        equal("first fault", first, due)?;
        equal("doubtful", self.library.doubtful(), self.twin.doubtful())?;
        let strict = self.library.rule() == Rule::Strict;
        equal("strict", strict, self.twin.strict())?;
        equal("unlisted", self.library.unlisted(), self.twin.unlisted())
    }

    /// next, end, the lowest number not carried, the tables' counts, the code, the faults and what is counted apart.
    pub fn numbers(&self) -> Result<(), Difference> {
        let numbers = self.library.numbers();
        equal("next", numbers.next, self.twin.next())?;
        equal("end", numbers.end, self.twin.end())?;
        self.lowest()?;
        equal("live", numbers.live, self.twin.book().live())?;
        equal("held", numbers.held, self.twin.book().held_insides().len())?;
        equal("code", numbers.code, self.twin.code().into())?;
        self.faults()
    }

    /// All fields of both tables. The order of their places does not count.
    pub fn tables(&self) -> Result<(), Difference> {
        self.numbers()?;
        let mut found: Vec<_> = self.library.orders().iter().map(order).collect();
        let mut expected: Vec<_> = self.twin.book().live_orders().copied().collect();
        found.sort_by_key(|order| order.id);
        expected.sort_by_key(|order| order.id);
        equal("orders", found, expected)?;
        for order in self.twin.book().live_orders() {
            self.order(&id_of(order.id))?;
        }
        // As many are held by both: those of the twin are all there are.
        for inside in self.twin.book().held_insides() {
            self.inside(&inside.symbol)?;
        }
        Ok(())
    }

    pub fn order(&self, id: &[u8; 14]) -> Result<bool, Difference> {
        let found = by_number(self.library.order(id)).map(|found| order(&found));
        Ok(agreed(("order", id), found, self.twin.order(id))?.is_ok())
    }

    pub fn inside(&self, symbol: &[u8; 14]) -> Result<bool, Difference> {
        let found = by_number(self.library.inside(symbol)).map(inside);
        Ok(agreed(("inside", symbol), found, self.twin.inside(symbol))?.is_ok())
    }

    pub fn best(&self, symbol: &[u8; 14], side: u8) -> Result<bool, Difference> {
        let found = by_number(self.library.best(symbol, side)).map(best);
        Ok(agreed(("best", symbol, side), found, self.twin.best(symbol, side))?.is_ok())
    }

    /// Many best prices in one call, and one reply too few for them.
    pub fn quotes(&self, asked: &[Question]) -> Result<(), Difference> {
        let mut replies = vec![Quote::default(); asked.len() + 1];
        equal(
            "quotes",
            self.library.quotes(asked, &mut replies),
            Ok(asked.len()),
        )?;
        for (question, reply) in asked.iter().zip(&replies) {
            let expected = self.twin.best(&question.symbol, question.side);
            equal(question, by_number(reply.level()).map(best), expected)?;
        }
        equal("the reply behind", replies[asked.len()], Quote::default())?;
        if let Some(fewer) = asked.len().checked_sub(1) {
            let mut replies = vec![Quote::default(); fewer];
            let answer = self.library.quotes(asked, &mut replies);
            equal("short quotes", answer, Err(Refusal::BufferTooShort))?;
            let stay = replies.iter().all(|reply| *reply == Quote::default());
            equal("its replies", stay, true)?;
        }
        Ok(())
    }

    /// The requests into a buffer of some length, with all its bytes; how many, if they fit.
    pub fn requests(&self, length: usize) -> Result<Option<usize>, Difference> {
        let (mut found, mut expected) = (vec![0xaa; length], vec![0xaa; length]);
        let answer = by_number(self.library.requests(&mut found));
        let count = agreed(
            ("requests", length),
            answer,
            self.twin.requests(&mut expected),
        )?;
        equal("requests' bytes", found, expected)?;
        Ok(count.ok())
    }

    pub fn gaps(&self) -> Result<(), Difference> {
        let found: Vec<_> = self
            .library
            .gaps()
            .map(|gap| (gap.start, gap.count))
            .collect();
        equal("gaps", found, self.twin.missing())
    }
}
