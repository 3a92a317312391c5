//! Times the proved library against the twin, in one run, over the same captures and with equal answers.
//!
//! cargo run --release -p bench [PACKETS] [ROUNDS]

mod questions;
mod ticks;
mod timing;

use compare::capture::Capture;
use compare::feed::{self, Lines};
use compare::night::Manners;
use compare::pair::Row;
use jangsebit::{Answer, Session};
use std::hint::black_box;
use std::ops::Range;
use timing::{copy, percentile, tick, timed, Pieces};

pub const OPENING: u32 = 1_000;
pub const SEED: u64 = 20_000;
pub const CLEAN: Lines = Lines {
    most: 6,
    heartbeats: 0,
    loss: 0,
    swapped: 0,
    damaged: 0,
    second: false,
};
const BURSTS: [usize; 3] = [8, 64, usize::MAX];
/// The packets that are timed together.
const PIECE: usize = 512;

fn main() {
    let mut words = std::env::args().skip(1);
    let mut number = |otherwise| {
        words.next().map_or(otherwise, |word| {
            word.parse()
                .expect("a number of packets, a number of rounds")
        })
    };
    let packets = number(20_000);
    let rounds = number(31);
    println!("{packets} packets, the tenth part of {rounds} rounds from below, ns");
    println!(
        "one copy of an order table, 10,240 bytes: {:.0}; reading the clock: {:.0}",
        copy::<10_240>(rounds),
        tick()
    );
    let two = Lines {
        loss: 20,
        swapped: 20,
        second: true,
        ..CLEAN
    };
    let damaged = Lines { damaged: 50, ..two };
    let normal = Lines {
        most: 13,
        heartbeats: 100,
        loss: 10,
        swapped: 10,
        second: true,
        ..CLEAN
    };
    for (name, lines) in [
        ("clean: one line, in order", CLEAN),
        ("two lines, 2 % lost, 2 % late", two),
        (
            "damaged: two lines, 2 % lost, 2 % late, 5 % damaged",
            damaged,
        ),
        (
            "a normal night: two lines, 1 % lost, 1 % late, 7 messages a packet, heartbeats",
            normal,
        ),
    ] {
        let capture = feed::lines(SEED, OPENING, packets, &lines, Manners::plain());
        packets_of(name, &capture, rounds);
    }
    questions::measure(rounds);
    questions::keeping(rounds);
}

/// All packets of a capture: one a call, and in bursts.
fn packets_of(name: &str, capture: &Capture, rounds: usize) {
    let expected = twin_rows(capture);
    let applied: u64 = expected.iter().map(|row| row.answer.unwrap_or(0)).sum();
    let refused = expected.iter().filter(|row| row.answer.is_err()).count();
    println!();
    println!("{name}: {applied} messages applied, {refused} packets refused");
    println!("                     library      twin    ratio");
    // Every round has sessions of its own, at other places: where a session's pages lie moves its times.
    let mut kept = Kept::default();
    let count = capture.len() as f64;
    let (mut library, mut twin) = (Pieces::default(), Pieces::default());
    let (mut calls, mut twin_calls) = (Vec::new(), Vec::new());
    for _ in 0..rounds {
        let (proved, other) = kept.fresh();
        library_singles(proved, capture, &mut library);
        twin_singles(other, capture, &mut twin);
        let (proved, other) = kept.fresh();
        library_calls(proved, capture, &expected, &mut calls);
        twin_calls_of(other, capture, &expected, &mut twin_calls);
    }
    row(
        "a call, mean",
        library.typical() / count,
        twin.typical() / count,
    );
    for (name, part) in [("a call, median", 500), ("a call, 99 %", 990)] {
        row(
            name,
            percentile(&mut calls, part),
            percentile(&mut twin_calls, part),
        );
    }
    for each in BURSTS {
        let (mut library, mut twin) = (Pieces::default(), Pieces::default());
        for _ in 0..rounds {
            let (proved, other) = kept.fresh();
            library_bursts(proved, capture, each, &expected, &mut library);
            twin_bursts(other, capture, each, &expected, &mut twin);
        }
        let name = match each {
            usize::MAX => "all in one burst".to_string(),
            each => format!("bursts of {each}"),
        };
        row(&name, library.typical() / count, twin.typical() / count);
    }
    ticks::measure(capture, rounds);
}

/// The packets of each piece of a capture; a burst is not cut.
fn pieces(capture: &Capture, each: usize) -> impl Iterator<Item = (usize, Range<usize>)> {
    let (all, piece) = (capture.len(), PIECE.max(each));
    let starts = (0..all).step_by(piece.min(all));
    starts
        .map(move |from| from..all.min(from.saturating_add(piece)))
        .enumerate()
}

/// Sessions that stay where they are while others are opened.
#[derive(Default)]
pub struct Kept {
    library: Vec<Session>,
    twin: Vec<Box<twin::Session>>,
}

impl Kept {
    pub fn fresh(&mut self) -> (&mut Session, &mut twin::Session) {
        self.library.push(Session::open(OPENING));
        self.twin.push(Box::new(twin::Session::open(OPENING)));
        let newest = "one was just put there";
        (
            self.library.last_mut().expect(newest),
            self.twin.last_mut().expect(newest),
        )
    }
}

pub fn row(name: &str, library: f64, twin: f64) {
    println!(
        "  {name:16} {library:9.1} {twin:9.1}    {:5.2}",
        library / twin
    );
}

/// One packet a call, timed piece by piece.
fn library_singles(session: &mut Session, capture: &Capture, times: &mut Pieces) {
    for (piece, packets) in pieces(capture, 1) {
        let calls = || {
            for packet in packets {
                let _ = black_box(session.take(capture.packet(packet)));
            }
        };
        times.push(piece, timed(calls));
    }
}

fn twin_singles(session: &mut twin::Session, capture: &Capture, times: &mut Pieces) {
    for (piece, packets) in pieces(capture, 1) {
        let calls = || {
            for packet in packets {
                let _ = black_box(session.take(capture.packet(packet)));
            }
        };
        times.push(piece, timed(calls));
    }
}

/// One packet a call, each call timed.
fn library_calls(session: &mut Session, capture: &Capture, expected: &[Row], times: &mut Vec<f64>) {
    for (packet, row) in capture.packets().zip(expected) {
        let mut answer = None;
        times.push(timed(|| answer = Some(session.take(packet))));
        let answer = answer.map(|answer| answer.map(|a| a.messages).map_err(|r| r.number()));
        assert_eq!(answer, Some(row.answer));
    }
}

fn twin_calls_of(
    session: &mut twin::Session,
    capture: &Capture,
    expected: &[Row],
    times: &mut Vec<f64>,
) {
    for (packet, row) in capture.packets().zip(expected) {
        let mut answer = None;
        times.push(timed(|| answer = Some(session.take(packet))));
        assert_eq!(answer.map(|a| a.map_err(|r| r.0)), Some(row.answer));
    }
}

/// All packets in bursts of so many, with the answers of each.
fn library_bursts(
    session: &mut Session,
    capture: &Capture,
    each: usize,
    expected: &[Row],
    times: &mut Pieces,
) {
    let mut answers = vec![Answer::default(); capture.len()];
    for (piece, part) in pieces(capture, each) {
        let (mut packets, mut left) = (capture.part(part.clone()), &mut answers[part]);
        let bursts = || {
            while !left.is_empty() {
                let burst = session.burst(packets, each.min(left.len()), left);
                let burst = burst.expect("there is an answer for each packet");
                packets = &packets[burst.bytes..];
                left = &mut std::mem::take(&mut left)[burst.packets..];
            }
        };
        times.push(piece, timed(bursts));
    }
    assert!(answers
        .iter()
        .map(Row::from_answer)
        .eq(expected.iter().copied()));
}

/// The same answers from the twin, packet by packet over the same bytes.
fn twin_bursts(
    session: &mut twin::Session,
    capture: &Capture,
    each: usize,
    expected: &[Row],
    times: &mut Pieces,
) {
    let mut rows = vec![[0; 4]; capture.len()];
    for (piece, part) in pieces(capture, each) {
        let (mut packets, left) = (capture.part(part.clone()), &mut rows[part]);
        let taking = || {
            for row in left {
                let Some((packet, behind)) = first_packet(packets) else {
                    break;
                };
                packets = behind;
                let (applied, refusal) = match session.take(packet) {
                    Ok(applied) => (applied, 0),
                    Err(refusal) => (0, refusal.0 as u64),
                };
                *row = [applied, refusal, session.next(), session.end()];
            }
        };
        times.push(piece, timed(taking));
    }
    for (row, expected) in rows.iter().zip(expected) {
        assert_eq!(*row, expected.numbers());
    }
}

#[inline(always)]
pub fn first_packet(bytes: &[u8]) -> Option<(&[u8], &[u8])> {
    let (length, behind) = bytes.split_first_chunk::<2>()?;
    behind.split_at_checked(u16::from_be_bytes(*length) as usize)
}

fn twin_rows(capture: &Capture) -> Vec<Row> {
    let mut session = Box::new(twin::Session::open(OPENING));
    let rows = capture.packets().map(|packet| Row {
        answer: session.take(packet).map_err(|refusal| refusal.0),
        next: session.next(),
        end: session.end(),
    });
    rows.collect()
}
