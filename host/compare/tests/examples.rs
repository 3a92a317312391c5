//! Document 01's worked examples, and the edges of its rules, on the twin.

use compare::capture::Capture;
use twin::fields::id_value;
use twin::message::{self, At, Message};
use twin::packet::{read_header, write_header, Header};
use twin::{Refusal, Session};

const SYMBOL: [u8; 14] = *b"OTCM          ";
const ID: [u8; 14] = *b"7A400CY528L9SN";

fn packet(number: u32, messages: &[Vec<u8>]) -> Vec<u8> {
    let body = messages.concat();
    let mut out = ((12 + body.len()) as u16).to_be_bytes().to_vec();
    out.extend(number.to_be_bytes());
    out.extend([0, messages.len() as u8, 0, 0, 0, 9]);
    out.extend(body);
    out
}

fn heartbeat(number: u32) -> Vec<u8> {
    let mut out = packet(number, &[]);
    out[6] = 1;
    out
}

fn written(message: Message) -> Vec<u8> {
    let mut out = [0; 128];
    let size = message.write(&mut out, 0).unwrap();
    out[..size].to_vec()
}

fn add(id: [u8; 14], side: u8, quantity: u32, price: u64) -> Vec<u8> {
    written(Message::Add {
        time: 1,
        id,
        side,
        quantity,
        symbol: SYMBOL,
        price,
        firm: *b"ABCD",
        unsolicited: b'N',
        flags: 7,
    })
}

fn execution(executed: u32, remaining: u32) -> Vec<u8> {
    written(Message::Execution {
        time: 1,
        id: ID,
        executed,
        remaining,
        execution: 77,
        at: At::Published,
    })
}

fn opened(number: u32, packets: &[Vec<u8>]) -> Session {
    let mut session = Session::open(number);
    for packet in packets {
        session.take(packet).unwrap();
    }
    session
}

#[test]
fn ids() {
    assert_eq!(id_value(&ID), Some(958_319_779_308_913_917));
    assert_eq!(id_value(b"000000000010ZZ"), Some(36));
    assert_eq!(id_value(b"ZZZZZZZZZZZZ00"), Some(4_738_381_338_321_616_895));
    for place in 0..14 {
        let mut id = ID;
        id[place] = b'a';
        assert_eq!(id_value(&id).is_none(), place < 12, "{place}");
    }
}

#[test]
fn every_character_of_an_id() {
    let digit = |c: u8| match c {
        b'0'..=b'9' => Some(c - b'0'),
        b'A'..=b'Z' => Some(c - b'A' + 10),
        _ => None,
    };
    for place in 0..12 {
        for c in 0..=255u8 {
            let mut id = *b"000000000000..";
            id[place] = c;
            let value = digit(c).map(|d| d as u64 * 36u64.pow(11 - place as u32));
            assert_eq!(id_value(&id), value, "{c} at {place}");
        }
    }
}

#[test]
fn an_add_one_byte_short_and_one_byte_long() {
    let good = add(ID, b'B', 300, 1_250_000);
    assert_eq!(good.len(), 55);
    let mut short = good[..54].to_vec();
    short[1] = 54;
    assert_eq!(message::read(&short), Err(Refusal(7)));
    assert_eq!(Session::open(1).take(&packet(1, &[short])), Err(Refusal(7)));
    let mut long = good.clone();
    long.push(0xee);
    long[1] = 56;
    assert_eq!(message::read(&long), message::read(&good));
    assert_eq!(Session::open(1).take(&packet(1, &[long])), Ok(1));
}

#[test]
fn the_edge_of_the_window() {
    let mut session = Session::open(1_000);
    let one = [add(ID, b'B', 1, 1)];
    assert_eq!(session.take(&packet(1_256, &one)), Err(Refusal(9)));
    assert_eq!(session.end(), 1_000);
    assert_eq!(session.take(&packet(1_255, &one)), Ok(0));
    assert!(session.waits(1_255));
    assert_eq!((session.next(), session.end()), (1_000, 1_256));
}

#[test]
fn executions() {
    let rest = packet(1, &[add(ID, b'B', 300, 1_250_000)]);
    let run = |message| opened(1, &[rest.clone(), packet(2, &[message])]);
    let over = run(execution(500, 0));
    assert_eq!(over.faults().reason, 6);
    assert_eq!(over.faults().number, 2);
    assert_eq!(over.faults().count, 1);
    assert_eq!(over.order(&ID).unwrap().shares, 300);
    let whole = run(execution(300, 0));
    assert_eq!(whole.faults().count, 0);
    assert_eq!(whole.order(&ID), Err(Refusal(13)));
    let wrong = run(execution(100, 199));
    assert_eq!(wrong.faults().reason, 7);
    assert_eq!(wrong.order(&ID).unwrap().shares, 300);
    let part = run(execution(100, 200));
    assert_eq!(part.order(&ID).unwrap().shares, 200);
    assert_eq!(part.next(), 3);
}

#[test]
fn a_request() {
    let two = [execution(1, 1), execution(1, 1)];
    let session = opened(10, &[packet(12, &two)]);
    let mut buffer = [0xaa; 14];
    assert_eq!(session.requests(&mut buffer[..11]), Err(Refusal(11)));
    assert_eq!(buffer, [0xaa; 14]);
    assert_eq!(session.requests(&mut buffer), Ok(1));
    let request = [0, 0x0c, 0x72, 0, 0, 0, 0x0a, 0, 0, 0, 2, 0x59];
    assert_eq!(buffer[..12], request);
    assert_eq!(buffer[12..], [0xaa; 2]);
    assert_eq!(Session::open(3).requests(&mut []), Ok(0));
}

#[test]
fn the_last_number() {
    let one = execution(1, 1);
    let mut session = Session::open(u32::MAX);
    let two = packet(u32::MAX, &[one.clone(), one.clone()]);
    assert_eq!(session.take(&two), Err(Refusal(8)));
    assert_eq!(session.take(&packet(u32::MAX, &[one])), Ok(1));
    assert_eq!((session.next(), session.end()), (1 << 32, 1 << 32));
}

#[test]
fn the_best_price() {
    let session = opened(
        1,
        &[packet(
            1,
            &[
                add(*b"000000000001..", b'B', 300, 1_250_000),
                add(*b"000000000002..", b'B', 200, 1_250_000),
                add(*b"000000000003..", b'B', 900, 1_240_000),
            ],
        )],
    );
    let best = session.best(&SYMBOL, b'B').unwrap();
    assert_eq!((best.price, best.shares, best.orders), (1_250_000, 500, 2));
    assert_eq!(session.best(&SYMBOL, b'S'), Err(Refusal(13)));
    assert_eq!(session.best(&SYMBOL, b'b'), Err(Refusal(12)));
    assert_eq!(session.best(&[b' '; 14], b'B'), Err(Refusal(12)));
}

/// The capture of document 01: an Add at 10, then a heartbeat at 12.
#[test]
fn the_capture() {
    let first = packet(10, &[add(ID, b'B', 300, 1_250_000)]);
    let beat = heartbeat(12);
    let capture: Capture = [&first[..], &beat[..]].into_iter().collect();
    let mut session = Session::open_strict(10);
    let mut lines = Vec::new();
    for packet in capture.packets() {
        let applied = session.take(packet).unwrap();
        lines.push((session.next(), session.end(), applied));
    }
    assert_eq!(lines, [(11, 11, 1), (11, 12, 0)]);
    assert_eq!(session.missing(), [(11, 1)]);
}

#[test]
fn headers() {
    let good = packet(5, &[execution(1, 1)]);
    let header = read_header(&good).unwrap();
    assert_eq!((header.number, header.messages, header.milli), (5, 1, 9));
    assert_eq!(read_header(&good[..11]), Err(Refusal(1)));
    assert_eq!(read_header(&[0; 1_473]), Err(Refusal(2)));
    assert_eq!(read_header(&good[..40]), Err(Refusal(3)));
    let changed = |at: usize, to: u8| {
        let mut packet = good.clone();
        packet[at] = to;
        read_header(&packet)
    };
    assert_eq!(changed(6, 0x82), Err(Refusal(4)));
    assert_eq!(changed(6, 1), Err(Refusal(5)));
    assert_eq!(changed(7, 0), Err(Refusal(6)));
    let mut out = [0; 12];
    assert_eq!(write_header(&header, &mut out), Ok(12));
    assert_eq!(out, good[..12]);
    assert_eq!(write_header(&header, &mut out[..11]), Err(Refusal(11)));
    let wrong = Header { size: 11, ..header };
    assert_eq!(write_header(&wrong, &mut []), Err(Refusal(14)));
}

#[test]
fn a_waiting_copy_decides() {
    let first = add(ID, b'B', 300, 5);
    let mut other = first.clone();
    other[54] ^= 1;
    let mut session = opened(1, &[packet(2, std::slice::from_ref(&first))]);
    let both = packet(1, &[first.clone(), other.clone()]);
    assert_eq!(session.take(&both), Err(Refusal(10)));
    assert_eq!(
        session.take(&packet(2, std::slice::from_ref(&first))),
        Ok(0)
    );
    assert_eq!(
        session.take(&packet(1, std::slice::from_ref(&first))),
        Ok(2)
    );
    // Below `next` nothing is compared.
    assert_eq!(session.take(&packet(1, &[first, other])), Ok(0));
    assert_eq!(session.faults().reason, 3);
}

#[test]
fn heartbeats_use_up_no_number() {
    let mut session = opened(7, &[heartbeat(9), heartbeat(8)]);
    assert_eq!((session.next(), session.end()), (7, 9));
    assert_eq!(session.take(&packet(7, &[execution(1, 1)])), Ok(1));
    assert_eq!(session.next(), 8);
}

/// Types that are not in the table, and 28, which is, under both rules.
#[test]
fn unlisted_types() {
    let bare = |kind: u8| vec![0, 3, kind];
    let rest = add(ID, b'B', 300, 1_250_000);
    let kinds = [0, 10, 28, 29, 255].map(bare);
    let messages: Vec<_> = [rest].into_iter().chain(kinds).collect();
    let behind = packet(16, &[execution(500, 0), bare(13)]);

    let mut session = Session::open(10);
    assert!(!session.strict());
    assert_eq!(session.take(&packet(10, &messages)), Ok(6));
    assert_eq!((session.next(), session.unlisted()), (16, 4));
    assert_eq!((session.faults().count, session.doubtful()), (0, false));
    assert_eq!(session.order(&ID).unwrap().shares, 300);
    assert_eq!(session.take(&behind), Ok(2));
    let faults = session.faults();
    assert_eq!((faults.number, faults.reason, faults.count), (16, 6, 1));
    assert_eq!((session.unlisted(), session.doubtful()), (5, true));

    let mut session = Session::open_strict(10);
    assert!(session.strict());
    assert_eq!(session.take(&packet(10, &messages)), Ok(6));
    assert_eq!(session.order(&ID).unwrap().shares, 300);
    assert_eq!(session.take(&behind), Ok(2));
    let faults = session.faults();
    assert_eq!((faults.number, faults.reason, faults.count), (11, 1, 6));
    assert_eq!((session.unlisted(), session.doubtful()), (0, true));

    for kind in [0, 10, 28, 29, 255] {
        assert_eq!(message::read(&bare(kind)), Ok(Message::Other(kind)));
        let refused = Message::Other(kind).write(&mut [0; 128], 0);
        assert_eq!(refused, Err(Refusal(14)));
    }
}

#[test]
fn every_written_type_reads_back() {
    let top = Message::Top {
        time: 1,
        symbol: SYMBOL,
        ask: 0,
        asked: 2,
        bid: i64::MAX as u64,
        bidden: u32::MAX,
        unsolicited: b'Y',
    };
    let own = Message::Execution {
        time: 1,
        id: ID,
        executed: 1,
        remaining: 0,
        execution: u64::MAX,
        at: At::Own(1),
    };
    let trade = Message::Trade {
        time: 1,
        side: b'B',
        quantity: 1,
        symbol: SYMBOL,
        price: 1,
        execution: 2,
        reserved: *b"reserved",
    };
    for (message, size) in [(top, 46), (own, 45), (trade, 50)] {
        let bytes = written(message);
        assert_eq!(bytes.len(), size);
        assert_eq!(message::read(&bytes), Ok(message));
    }
    assert_eq!(Message::Other(28).write(&mut [0; 128], 0), Err(Refusal(14)));
    assert_eq!(top.write(&mut [0; 50], 5), Err(Refusal(11)));
    assert_eq!(top.write(&mut [0; 50], usize::MAX), Err(Refusal(11)));
}
