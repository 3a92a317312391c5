//! Document 01's worked examples through the crate, and what a host relies on beside them.

use jangsebit::{
    id_value, symbol, Answer, Fault, Gap, Level, Message, Refusal, Rule, Session, Side,
};

const ID: [u8; 14] = *b"7A400CY528L9SN";

fn message(kind: u8, payload: &[&[u8]]) -> Vec<u8> {
    let payload = payload.concat();
    let mut out = (3 + payload.len() as u16).to_be_bytes().to_vec();
    out.push(kind);
    out.extend(payload);
    out
}

fn packet(number: u32, messages: &[Vec<u8>]) -> Vec<u8> {
    let body = messages.concat();
    let mut out = (12 + body.len() as u16).to_be_bytes().to_vec();
    out.extend(number.to_be_bytes());
    out.extend([0, messages.len() as u8, 0, 0, 0, 9]);
    out.extend(body);
    out
}

fn heartbeat(number: u32) -> Vec<u8> {
    let mut out = packet(number, &[]);
    out[6] = 1;
    out
}

fn add(id: [u8; 14], side: u8, shares: u32, price: u64) -> Vec<u8> {
    let symbol = symbol("OTCM").unwrap();
    let (shares, price) = (shares.to_be_bytes(), price.to_be_bytes());
    message(
        21,
        &[
            &[0; 4],
            &id,
            &[side],
            &shares,
            &symbol,
            &price,
            b"FIRM",
            b"N",
            &[0; 2],
        ],
    )
}

fn execution(executed: u32, remaining: u32) -> Vec<u8> {
    let (executed, remaining) = (executed.to_be_bytes(), remaining.to_be_bytes());
    message(24, &[&[0; 4], &ID, &executed, &remaining, &[0; 8]])
}

fn imbalance() -> Vec<u8> {
    message(28, &[])
}

fn opened(number: u32, packets: &[Vec<u8>]) -> Session {
    let mut session = Session::open(number);
    for packet in packets {
        session.take(packet).unwrap();
    }
    session
}

fn taken(session: &mut Session, packet: &[u8]) -> Result<u64, Refusal> {
    session.take(packet).map(|applied| applied.messages)
}

#[test]
fn ids() {
    assert_eq!(id_value(&ID), Ok(958_319_779_308_913_917));
    assert_eq!(id_value(b"000000000010ZZ"), Ok(36));
    assert_eq!(id_value(b"ZZZZZZZZZZZZ00"), Ok(4_738_381_338_321_616_895));
    assert_eq!(id_value(b"00000000000a00"), Err(Refusal::BadQuestion));
    assert_eq!(id_value(b"00000000000100"), id_value(b"000000000001aa"));
}

#[test]
fn an_add_one_byte_short_and_one_byte_long() {
    let mut short = add(ID, b'B', 300, 1_250_000);
    short.truncate(54);
    short[1] = 54;
    let mut long = add(ID, b'B', 300, 1_250_000);
    long.push(0xee);
    long[1] = 56;
    let mut session = Session::open(1);
    assert_eq!(
        taken(&mut session, &packet(1, &[short])),
        Err(Refusal::BadMessage)
    );
    assert_eq!(taken(&mut session, &packet(1, &[long])), Ok(1));
}

#[test]
fn the_edge_of_the_window() {
    let mut session = Session::open(1_000);
    let before = session.clone();
    let behind = packet(1_256, &[imbalance()]);
    assert_eq!(taken(&mut session, &behind), Err(Refusal::BeyondWindow));
    assert_eq!(session, before);
    assert_eq!(taken(&mut session, &packet(1_255, &[imbalance()])), Ok(0));
    assert_ne!(session, before);
    let numbers = session.numbers();
    assert_eq!((numbers.next, numbers.end), (1_000, 1_256));
    let gap = Gap {
        start: 1_000,
        count: 255,
    };
    assert_eq!(session.gaps().collect::<Vec<_>>(), [gap]);
}

#[test]
fn executions() {
    let first = packet(1, &[add(ID, b'B', 300, 1_250_000)]);
    let behind = |message| opened(1, &[first.clone(), packet(2, &[message])]);
    let shares = |session: &Session| session.order(&ID).map(|order| order.shares);
    let over = behind(execution(500, 0));
    assert_eq!(
        over.numbers().faults.first(),
        Some((2, Fault::ExecutedTooMany))
    );
    assert_eq!(shares(&over), Ok(300));
    let whole = behind(execution(300, 0));
    assert_eq!(whole.numbers().faults.first(), None);
    assert_eq!(shares(&whole), Err(Refusal::NotFound));
    assert!(whole.orders().is_empty());
    let wrong = behind(execution(100, 199));
    assert_eq!(
        wrong.numbers().faults.first(),
        Some((2, Fault::WrongRemaining))
    );
    assert_eq!(shares(&wrong), Ok(300));
    assert_eq!(shares(&behind(execution(100, 200))), Ok(200));
}

#[test]
fn a_request() {
    let session = opened(10, &[packet(12, &[imbalance(), imbalance()])]);
    let mut buffer = [0xaa; 14];
    let short = session.requests(&mut buffer[..11]);
    assert_eq!(short, Err(Refusal::BufferTooShort));
    assert_eq!(buffer, [0xaa; 14]);
    assert_eq!(session.requests(&mut buffer), Ok(1));
    assert_eq!(
        buffer[..12],
        [0, 0x0c, 0x72, 0, 0, 0, 0x0a, 0, 0, 0, 2, 0x59]
    );
    assert_eq!(buffer[12..], [0xaa; 2]);
    assert_eq!(Session::open(3).requests(&mut []), Ok(0));
}

/// Every second number of the window waits: there are no more requests than that.
#[test]
fn the_most_requests() {
    let mut session = Session::open(0);
    for number in (1..256).step_by(2) {
        assert_eq!(taken(&mut session, &packet(number, &[imbalance()])), Ok(0));
    }
    let mut buffer = [0; Session::REQUESTS];
    assert_eq!(session.requests(&mut buffer), Ok(128));
    assert_eq!(session.gaps().count(), 128);
    assert!(session.requests(&mut buffer[1..]).is_err());
}

#[test]
fn the_last_number() {
    let mut session = Session::open(u32::MAX);
    let two = packet(u32::MAX, &[imbalance(), imbalance()]);
    assert_eq!(taken(&mut session, &two), Err(Refusal::NumberTooLarge));
    assert_eq!(
        taken(&mut session, &packet(u32::MAX, &[imbalance()])),
        Ok(1)
    );
    assert_eq!(session.numbers().next, 1 << 32);
}

#[test]
fn the_best_price() {
    let adds = [
        add(*b"000000000001..", b'B', 300, 1_250_000),
        add(*b"000000000002..", b'B', 200, 1_250_000),
        add(*b"000000000003..", b'B', 900, 1_240_000),
    ];
    let session = opened(1, &[packet(1, &adds)]);
    let level = Level {
        price: 1_250_000,
        shares: 500,
        orders: 2,
    };
    let otcm = symbol("OTCM").unwrap();
    assert_eq!(session.best(&otcm, Side::Bid), Ok(level));
    assert_eq!(session.best(&otcm, Side::Ask), Err(Refusal::NotFound));
    assert_eq!(session.best(&otcm, b'b'), Err(Refusal::BadQuestion));
    assert_eq!(session.best(&[b' '; 14], b'B'), Err(Refusal::BadQuestion));
    assert_eq!(session.inside(&otcm), Err(Refusal::NotFound));
}

#[test]
fn the_capture() {
    let mut session = Session::open_strict(10);
    let first = packet(10, &[add(ID, b'B', 300, 1_250_000)]);
    let mut lines = Vec::new();
    for packet in [first, heartbeat(12)] {
        let applied = taken(&mut session, &packet).unwrap();
        let numbers = session.numbers();
        lines.push((numbers.next, numbers.end, applied));
    }
    assert_eq!(lines, [(11, 11, 1), (11, 12, 0)]);
    let gap = Gap {
        start: 11,
        count: 1,
    };
    assert_eq!(session.gaps().collect::<Vec<_>>(), [gap]);
}

/// Types that are not listed, and 28, which is, under both rules.
#[test]
fn unlisted_types() {
    let kinds = [0, 10, 28, 29, 255];
    let messages: Vec<_> = kinds.iter().map(|kind| message(*kind, &[])).collect();
    let first = packet(1, &[add(ID, b'B', 300, 1_250_000)]);
    let many = packet(2, &messages);
    let fault = packet(7, &[execution(500, 0), message(99, &[])]);

    let mut session = opened(1, &[first.clone(), many.clone()]);
    assert_eq!((session.rule(), session.unlisted()), (Rule::Default, 4));
    assert_eq!(session.numbers().faults.first(), None);
    assert!(!session.doubtful() && !session.numbers().doubtful());
    assert_eq!(session.numbers().next, 7);
    assert_eq!(session.order(&ID).map(|order| order.shares), Ok(300));
    assert_eq!(taken(&mut session, &fault), Ok(2));
    let faults = session.numbers().faults;
    assert_eq!(faults.first(), Some((7, Fault::ExecutedTooMany)));
    assert_eq!((faults.count, session.unlisted()), (1, 5));
    assert!(session.doubtful() && session.numbers().doubtful());

    let mut strict = Session::open_strict(1);
    assert_eq!((strict.rule(), strict.unlisted()), (Rule::Strict, 0));
    for packet in [&first, &many, &fault] {
        taken(&mut strict, packet).unwrap();
    }
    let faults = strict.numbers().faults;
    assert_eq!(faults.first(), Some((2, Fault::UnlistedType)));
    assert_eq!((faults.count, strict.unlisted()), (6, 0));
    assert!(strict.doubtful());
    assert_eq!(strict.rule(), Rule::Strict);
    assert_eq!(strict.orders(), session.orders());

    // The rule is the last opening's.
    assert_ne!(Session::open(1), Session::open_strict(1));
    strict.reopen(1);
    assert_eq!(strict, Session::open(1));
    session.reopen_strict(1);
    assert_eq!(session, Session::open_strict(1));
    assert!(!session.doubtful());

    let mut buffer = [0; 128];
    for kind in kinds {
        let other = Message::read(&message(kind, &[])).unwrap();
        assert_eq!(other, Message::Other(kind));
        assert_eq!(other.write(&mut buffer, 0), Err(Refusal::BadField));
    }
}

/// A window full of messages that wait, applied in portions.
#[test]
fn kept_and_applied() {
    let mut session = Session::open(1_000);
    let many = packet(1_000, &vec![imbalance(); 255]);
    let one = packet(1_255, &[imbalance()]);
    let behind = packet(1_256, &[add(ID, b'B', 300, 1_250_000)]);
    let kept = |session: &mut Session, packet| session.keep(packet).map(|kept| kept.fresh);
    assert_eq!(kept(&mut session, &many), Ok(255));
    assert_eq!(kept(&mut session, &one), Ok(1));
    let full = session.clone();
    assert_eq!(kept(&mut session, &behind), Err(Refusal::BeyondWindow));
    assert_eq!(taken(&mut session, &behind), Err(Refusal::BeyondWindow));
    let other = packet(1_000, &[message(99, &[])]);
    assert_eq!(kept(&mut session, &other), Err(Refusal::Conflict));
    assert_eq!(session.apply(0).messages, 0);
    assert_eq!(session, full);
    let numbers = session.numbers();
    assert_eq!((numbers.next, numbers.end), (1_000, 1_256));
    assert_eq!(session.lowest(), 1_256);
    assert_eq!(session.apply(1).messages, 1);
    assert_eq!(kept(&mut session, &other), Ok(0));
    assert_eq!(kept(&mut session, &behind), Ok(1));
    assert_eq!(session.apply(100).messages, 100);
    assert_eq!((session.numbers().next, session.lowest()), (1_101, 1_257));
    assert_eq!(session.order(&ID), Err(Refusal::NotFound));
    // A heartbeat that is taken brings along all that waits.
    assert_eq!(taken(&mut session, &heartbeat(0)), Ok(156));
    assert_eq!(session.apply(u64::MAX).messages, 0);
    assert_eq!(session.order(&ID).map(|order| order.shares), Ok(300));
}

#[test]
fn a_burst_that_keeps() {
    let mut packets = Vec::new();
    for packet in [
        packet(2, &[imbalance(), imbalance()]),
        packet(258, &[imbalance()]),
        packet(1, &[imbalance(), imbalance()]),
    ] {
        packets.extend((packet.len() as u16).to_be_bytes());
        packets.extend(packet);
    }
    let mut session = Session::open(1);
    let opened = session.clone();
    let mut answers = [Answer::default(); 4];
    for count in [5, 1 << 62, usize::MAX] {
        let short = session.keep_burst(&packets, count, &mut answers);
        assert_eq!(short, Err(Refusal::BufferTooShort));
    }
    let none = session.keep_burst(&packets, 0, &mut answers).unwrap();
    assert_eq!((none.packets, none.bytes), (0, 0));
    assert_eq!((session.clone(), answers), (opened, Default::default()));
    let burst = session.keep_burst(&packets, 4, &mut answers).unwrap();
    assert_eq!((burst.packets, burst.bytes), (3, packets.len()));
    let fresh = |answer: &Answer| answer.fresh().map(|kept| kept.fresh);
    assert_eq!(fresh(&answers[0]), Ok(2));
    assert_eq!(fresh(&answers[1]), Err(Refusal::BeyondWindow));
    assert_eq!(fresh(&answers[2]), Ok(1));
    assert_eq!((answers[2].next(), answers[2].end()), (1, 4));
    assert_eq!(answers[3], Answer::default());
    assert_eq!(
        format!("{:?}", answers[0]),
        "Answer { counted: Ok(2), next: 1, end: 4 }"
    );
    assert_eq!(session.apply(2).messages, 2);
    assert_eq!((session.numbers().next, session.lowest()), (3, 4));
}

#[test]
fn a_top_of_book() {
    let otcm = symbol("OTCM").unwrap();
    let (ask, bid) = (1_260_000u64.to_be_bytes(), 1_250_000u64.to_be_bytes());
    let top = message(
        26,
        &[
            &[0, 0, 0, 7],
            &otcm,
            &ask,
            &[0, 0, 1, 0],
            &bid,
            &[0, 0, 2, 0],
            b"Y",
        ],
    );
    let session = opened(1, &[packet(1, &[top])]);
    let inside = session.inside(&otcm).unwrap();
    assert_eq!((inside.ask, inside.ask_volume), (1_260_000, 256));
    assert_eq!((inside.bid, inside.bid_volume), (1_250_000, 512));
    assert_eq!(
        (inside.time, inside.unsolicited, inside.symbol),
        (7, b'Y', otcm)
    );
    assert_eq!(session.numbers().held, 1);
    let text = format!("{inside:?}");
    assert!(text.contains("OTCM"), "{text}");
}

/// A session goes to another thread, and a copy of it lives on its own.
#[test]
fn sent_and_copied() {
    let mut session = opened(1, &[packet(1, &[add(ID, b'S', 5, 9)])]);
    let copy = session.clone();
    let sent = std::thread::spawn(move || {
        taken(&mut session, &packet(2, &[execution(5, 0)])).unwrap();
        session
    });
    let session = sent.join().unwrap();
    assert_eq!(session.numbers().live, 0);
    assert_eq!(copy.numbers().live, 1);
    assert_eq!(copy.order(&ID).map(|order| order.shares), Ok(5));
    let mut again = copy.clone();
    again.reopen(7);
    assert_eq!(again, Session::open(7));
    assert_eq!(format!("{:?}", Session::open(7)), format!("{again:?}"));
}

#[test]
fn numbers_and_names() {
    for number in 0..=255 {
        let refusal = Refusal::try_from(number).map(Refusal::number);
        assert_eq!(refusal.ok(), (1..=14).contains(&number).then_some(number));
        let fault = Fault::try_from(number).map(Fault::number);
        assert_eq!(fault.ok(), (1..=8).contains(&number).then_some(number));
    }
    assert_eq!(Refusal::ALL.len(), 14);
    assert_eq!(Fault::ALL.len(), 8);
    assert!(Refusal::ALL
        .iter()
        .all(|refusal| !refusal.to_string().is_empty()));
}
