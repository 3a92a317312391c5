//! One header, one message, one id at a time: the library against the twin.

use compare::night::{Manners, Night};
use compare::random::Random;
use jangsebit::{id_value, Message, Terms};
use twin::fields;
use twin::message::{self, At};
use twin::packet::{self, read_header, write_header, Header};
use twin::Refusal;

const CASES: u64 = 1_000_000;
const SEED: u64 = 77;

fn seed() -> u64 {
    match std::env::var("JANGSEBIT_SEED") {
        Ok(text) => text.parse().expect("JANGSEBIT_SEED is a number"),
        Err(_) => SEED,
    }
}

#[test]
fn headers_read() {
    let mut random = Random::new(seed());
    let mut bytes = vec![0; 1_600];
    for case in 0..CASES {
        let length = match random.below(4) {
            0 => random.below(16),
            1 => random.pick(&[1_471, 1_472, 1_473, 1_600]),
            _ => random.between(12, 1_472),
        } as usize;
        for byte in &mut bytes[..12] {
            *byte = random.byte();
        }
        if random.chance(900) {
            bytes[..2].copy_from_slice(&(length as u16).to_be_bytes());
        }
        if random.chance(900) {
            bytes[6] = random.below(2) as u8;
        }
        if random.chance(500) {
            bytes[7] = random.pick(&[0, 1, 255]);
        }
        let packet = &bytes[..length];
        let found = jangsebit::Header::read(packet).map(|h| Header {
            size: h.size,
            number: h.number,
            flag: h.flag,
            messages: h.messages,
            milli: h.milli,
        });
        assert_eq!(
            found.map_err(numbered),
            read_header(packet),
            "seed {}, case {case}: {:02x?} of {length}",
            seed(),
            &bytes[..12]
        );
    }
}

#[test]
fn headers_written() {
    let mut random = Random::new(seed());
    for case in 0..CASES {
        let any = random.number() as u16;
        let header = Header {
            size: random.pick(&[0, 11, 12, 12, 13, 100, 1_472, 1_473, any]),
            number: random.number() as u32,
            flag: random.pick(&[0, 0, 1, 1, 2, 0x80, 0xff, 3]),
            messages: random.pick(&[0, 0, 1, 7, 255]),
            milli: random.number() as u32,
        };
        let length = random.pick(&[0, 11, 12, 13, 20]);
        let (mut proved, mut twin) = ([0xaa; 20], [0xaa; 20]);
        let expected = write_header(&header, &mut twin[..length]);
        let answer = jangsebit::Header {
            size: header.size,
            number: header.number,
            flag: header.flag,
            messages: header.messages,
            milli: header.milli,
        }
        .write(&mut proved[..length])
        .map_err(numbered);
        assert_eq!(
            (answer, proved),
            (expected, twin),
            "seed {}, case {case}: {header:?} into {length}",
            seed()
        );
    }
}

fn numbered(refusal: jangsebit::Refusal) -> Refusal {
    Refusal(refusal.number())
}

/// What became of a message that was read, and written back.
#[derive(Clone, Copy, Debug, PartialEq, Eq)]
enum Back {
    NotRead(Refusal),
    Read(message::Message, Result<usize, Refusal>),
}

fn library_back(bytes: &[u8], buffer: &mut [u8], at: usize) -> Back {
    match Message::read(bytes) {
        Err(refusal) => Back::NotRead(numbered(refusal)),
        Ok(message) => Back::Read(
            as_twin(message),
            message.write(buffer, at).map_err(numbered),
        ),
    }
}

fn twin_back(bytes: &[u8], buffer: &mut [u8], at: usize) -> Back {
    match message::read(bytes) {
        Err(refusal) => Back::NotRead(refusal),
        Ok(message) => Back::Read(message, message.write(buffer, at)),
    }
}

/// The same fields as the twin names them.
fn as_twin(message: Message) -> message::Message {
    use message::Message as Twin;
    match message {
        Message::Security {
            symbol,
            updated,
            action,
            class,
            security,
            flags,
            tier,
            reporting,
            status,
        } => Twin::Security {
            symbol,
            updated,
            action,
            class,
            security,
            flags,
            tier,
            reporting,
            status,
        },
        Message::SpinStart { spin, time, last } => Twin::SpinStart {
            kind: spin,
            time,
            last,
        },
        Message::SpinEnd {
            spin,
            count,
            time,
            last,
        } => Twin::SpinEnd {
            kind: spin,
            count,
            time,
            last,
        },
        Message::TradingSession { time, session } => Twin::TradingSession {
            time,
            code: session,
        },
        Message::Add {
            time,
            id,
            side,
            quantity,
            symbol,
            price,
            firm,
            unsolicited,
            flags,
        } => Twin::Add {
            time,
            id,
            side,
            quantity,
            symbol,
            price,
            firm,
            unsolicited,
            flags,
        },
        Message::Update {
            time,
            id,
            quantity,
            price,
            flags,
        } => Twin::Update {
            time,
            id,
            quantity,
            price,
            flags,
        },
        Message::Delete { time, id } => Twin::Delete { time, id },
        Message::Execution {
            time,
            id,
            executed,
            remaining,
            execution,
            terms,
        } => Twin::Execution {
            time,
            id,
            executed,
            remaining,
            execution,
            at: match terms {
                Terms::Published => At::Published,
                Terms::Own(price) => At::Own(price),
            },
        },
        Message::Top {
            time,
            symbol,
            ask,
            ask_volume,
            bid,
            bid_volume,
            unsolicited,
        } => Twin::Top {
            time,
            symbol,
            ask,
            asked: ask_volume,
            bid,
            bidden: bid_volume,
            unsolicited,
        },
        Message::Trade {
            time,
            side,
            quantity,
            symbol,
            price,
            execution,
            reserved,
        } => Twin::Trade {
            time,
            side,
            quantity,
            symbol,
            price,
            execution,
            reserved: reserved.to_be_bytes(),
        },
        Message::Other(kind) => Twin::Other(kind),
    }
}

#[test]
fn messages_read_and_written() {
    let mut random = Random::new(seed());
    let mut night = Night::new(Manners::any(&mut random), &mut random);
    let mut bytes = Vec::new();
    let mut counts = [0u64; 3];
    for case in 0..CASES {
        if case % 5_000 == 0 {
            let manners = Manners {
                other: 200,
                faulty: 300,
                ..Manners::any(&mut random)
            };
            night = Night::new(manners, &mut random);
        }
        night.message(&mut random, &mut bytes);
        damage(&mut bytes, &mut random);
        let length = random.pick(&[0, 54, 55, 56, 80, 80, 80, 80]);
        let at = random.pick(&[0, 0, 1, 3, 25, 44, 60, 80, 81, usize::MAX, usize::MAX - 40]);
        let (mut proved, mut twin) = ([0xaa; 80], [0xaa; 80]);
        let answer = library_back(&bytes, &mut proved[..length], at);
        let expected = twin_back(&bytes, &mut twin[..length], at);
        assert_eq!(
            (answer, proved),
            (expected, twin),
            "seed {}, case {case}: {bytes:02x?} at {at} of {length}",
            seed()
        );
        match answer {
            Back::NotRead(_) => counts[0] += 1,
            Back::Read(_, Err(_)) => counts[1] += 1,
            Back::Read(_, Ok(_)) => counts[2] += 1,
        }
    }
    println!("not read, not written, written: {counts:?}");
    assert!(counts.iter().all(|count| *count > 10_000));
}

fn damage(bytes: &mut Vec<u8>, random: &mut Random) {
    match random.below(12) {
        0 => {
            let kept = random.below(bytes.len() as u64 + 1) as usize;
            bytes.truncate(kept);
            if kept >= 2 {
                bytes[..2].copy_from_slice(&(kept as u16).to_be_bytes());
            }
        }
        1 => bytes[random.below(2) as usize] ^= 1 << random.below(8),
        2 => bytes[2] = random.pick(&[9, 11, 12, 20, 21, 22, 23, 24, 25, 26, 27, 28, 0, 99]),
        3 => {
            let at = random.below(bytes.len() as u64) as usize;
            bytes[at] = random.byte();
        }
        4 => {
            let length = random.pick(&[127, 128, 129, 200]);
            bytes.resize(length, 1);
            bytes[..2].copy_from_slice(&(length as u16).to_be_bytes());
        }
        _ => {}
    }
}

/// A message with fields of any kind, most of which break a rule: what is refused in writing.
#[test]
fn messages_written() {
    let mut random = Random::new(seed());
    let mut counts = [0u64; 2];
    for case in 0..CASES {
        let (time, price) = (
            random.number() as u32,
            random.pick(&[0, 1, 1 << 62, 1 << 63]),
        );
        let quantity = random.pick(&[0, 1, 7]);
        let id = *random.pick(&[b"0123456789ABCD", b"0123456789a000"]);
        let message = if random.chance(500) {
            Message::Update {
                time,
                id,
                quantity,
                price,
                flags: random.number() as u16,
            }
        } else {
            Message::Execution {
                time,
                id,
                executed: quantity,
                remaining: random.number() as u32,
                execution: random.number(),
                terms: random.pick(&[Terms::Published, Terms::Own(price)]),
            }
        };
        let (mut proved, mut twin) = ([0xaa; 50], [0xaa; 50]);
        let at = random.below(20) as usize;
        let answer = message.write(&mut proved, at).map_err(numbered);
        let expected = as_twin(message).write(&mut twin, at);
        assert_eq!(
            (answer, proved),
            (expected, twin),
            "seed {}, case {case}: {message:?} at {at}",
            seed()
        );
        counts[answer.is_ok() as usize] += 1;
    }
    assert!(counts.iter().all(|count| *count > 10_000));
}

/// A packet of messages, then damaged: which refusal, the byte it rests on, and where each message lies.
#[test]
fn packets_judged_and_walked() {
    let mut random = Random::new(seed());
    let mut night = Night::new(Manners::any(&mut random), &mut random);
    let mut message = Vec::new();
    let mut counts = [0u64; 9];
    for case in 0..CASES / 4 {
        let messages = random.pick(&[0, 0, 1, 1, 2, 3, 7, 20]);
        let heartbeat = messages == 0 && random.chance(700);
        let number = random.pick(&[1, 1_000, u32::MAX - 8, u32::MAX]);
        let mut packet = vec![0; 12];
        for _ in 0..messages {
            night.message(&mut random, &mut message);
            packet.extend_from_slice(&message);
        }
        let size = packet.len() as u16;
        packet[..2].copy_from_slice(&size.to_be_bytes());
        packet[2..6].copy_from_slice(&number.to_be_bytes());
        packet[6] = heartbeat as u8;
        packet[7] = messages as u8;
        damage_packet(&mut packet, &mut random);
        let library = jangsebit::judge(&packet).map_err(at_byte);
        let expected = packet::judge(&packet);
        let walked = jangsebit::walk(&packet).map(|walk| walk.collect::<Vec<_>>());
        let places = packet::walk(&packet);
        let parts = places
            .as_ref()
            .map(|places| places.iter().map(|(at, size)| &packet[*at..at + size]))
            .map(|parts| parts.collect::<Vec<_>>());
        assert_eq!(
            (library, walked.map_err(at_byte)),
            (expected, parts.map_err(|refused| *refused)),
            "seed {}, case {case}: {packet:02x?}",
            seed()
        );
        counts[expected.err().map_or(0, |(refusal, _)| refusal.0 as usize)] += 1;
    }
    println!("accepted, refused by 1 to 8: {counts:?}");
    assert!(counts.iter().all(|count| *count > 100));
}

fn at_byte(refused: jangsebit::Refused) -> packet::Refused {
    (numbered(refused.refusal), refused.offset)
}

fn damage_packet(packet: &mut Vec<u8>, random: &mut Random) {
    let stated = |packet: &mut Vec<u8>| {
        let size = packet.len() as u16;
        if size >= 2 {
            packet[..2].copy_from_slice(&size.to_be_bytes());
        }
    };
    match random.below(12) {
        0 => packet.truncate(random.below(packet.len() as u64 + 1) as usize),
        1 => {
            packet.truncate(random.between(2, packet.len() as u64) as usize);
            stated(packet);
        }
        2 => {
            packet.resize(random.between(1_400, 1_500) as usize, 0);
            stated(packet);
        }
        3 => packet[random.below(12) as usize] ^= 1 << random.below(8),
        4 => packet[7] = packet[7].wrapping_add(random.pick(&[1, 255])),
        5 => {
            let at = random.below(packet.len() as u64) as usize;
            packet[at] = random.byte();
        }
        6 => {
            packet.push(random.byte());
            stated(packet);
        }
        _ => {}
    }
}

/// The id's value of the library and of the twin.
fn ids_agree(id: &[u8; 14], case: u64) {
    assert_eq!(
        id_value(id).map_err(numbered),
        fields::id_value(id).ok_or(Refusal(12)),
        "seed {}, case {case}: {id:02x?}",
        seed()
    );
}

#[test]
fn ids() {
    let edges = [
        b'/', b'0', b'9', b':', b'@', b'A', b'Z', b'[', b'`', b'a', b'z', 0, 0x7f, 0x80, 0xff, b' ',
    ];
    let mut random = Random::new(seed());
    for case in 0..CASES {
        let mut id = [0; 14];
        for byte in &mut id {
            *byte = random.pick(b"0123456789ABCDEFGHIJKLMNOPQRSTUVWXYZ0Z");
        }
        if random.chance(500) {
            for _ in 0..random.between(1, 4) {
                id[random.below(14) as usize] = match random.below(4) {
                    0 => random.byte(),
                    _ => random.pick(&edges),
                };
            }
        }
        ids_agree(&id, case);
    }
}

/// Every two characters side by side, where one that is no digit could change how the next is read.
#[test]
fn ids_two_characters() {
    for place in 0..13 {
        for two in 0..=u16::MAX {
            let mut id = *b"7A400CY528L9SN";
            id[place..place + 2].copy_from_slice(&two.to_be_bytes());
            ids_agree(&id, (place as u64) << 16 | two as u64);
        }
    }
}
