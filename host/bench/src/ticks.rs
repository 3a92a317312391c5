//! A loop that keeps packets as they come and applies 64 messages a tick.

use crate::timing::{timed, Pieces};
use crate::{first_packet, row, Kept, OPENING};
use compare::capture::Capture;
use compare::pair::Row;
use jangsebit::{Answer, Session};
use std::hint::black_box;
use std::ops::Range;

/// The messages that a tick applies.
const TICK: u64 = 64;

/// The packets that are kept until a tick's messages can be applied, and the answer to each of them.
struct Ticks {
    parts: Vec<Range<usize>>,
    rows: Vec<Row>,
}

impl Ticks {
    fn of(capture: &Capture) -> Ticks {
        let mut session = Box::new(twin::Session::open(OPENING));
        let (mut parts, mut rows, mut from) = (Vec::new(), Vec::new(), 0);
        for (index, packet) in capture.packets().enumerate() {
            rows.push(Row {
                answer: session.keep(packet).map_err(|refusal| refusal.0),
                next: session.next(),
                end: session.end(),
            });
            if session.lowest() - session.next() >= TICK {
                assert_eq!(session.apply(TICK), TICK);
                parts.push(from..index + 1);
                from = index + 1;
            }
        }
        Ticks { parts, rows }
    }

    fn packets(&self) -> &[Row] {
        &self.rows[..self.parts.last().map_or(0, |part| part.end)]
    }

    fn fresh(&self) -> u64 {
        let fresh = self.packets().iter();
        fresh.map(|row| row.answer.unwrap_or(0)).sum()
    }
}

/// What the library and the twin took, tick by tick.
#[derive(Default)]
struct Times {
    library: Pieces,
    twin: Pieces,
}

impl Times {
    fn row(&mut self, name: &str, count: f64) {
        row(
            name,
            self.library.typical() / count,
            self.twin.typical() / count,
        );
    }
}

pub fn measure(capture: &Capture, rounds: usize) {
    let ticks = Ticks::of(capture);
    let (mut calls, mut bursts, mut applying) =
        (Times::default(), Times::default(), Times::default());
    let mut kept = Kept::default();
    for _ in 0..rounds {
        let (proved, other) = kept.fresh();
        library_calls(proved, capture, &ticks, &mut calls, &mut applying);
        twin_calls(other, capture, &ticks, &mut calls, &mut applying);
        let (proved, other) = kept.fresh();
        library_bursts(proved, capture, &ticks, &mut bursts);
        twin_bursts(other, capture, &ticks, &mut bursts);
    }
    let packets = ticks.packets().len() as f64;
    calls.row("keep, a call", packets);
    bursts.row("keep, in bursts", packets);
    applying.row("apply, a message", (ticks.parts.len() as u64 * TICK) as f64);
}

fn library_calls(
    session: &mut Session,
    capture: &Capture,
    ticks: &Ticks,
    calls: &mut Times,
    applying: &mut Times,
) {
    let mut fresh = 0;
    for (piece, part) in ticks.parts.iter().enumerate() {
        let keeping = || {
            for packet in part.clone() {
                fresh +=
                    black_box(session.keep(capture.packet(packet))).map_or(0, |kept| kept.fresh);
            }
        };
        calls.library.push(piece, timed(keeping));
        let mut applied = 0;
        let tick = || applied = session.apply(TICK).messages;
        applying.library.push(piece, timed(tick));
        assert_eq!(applied, TICK);
    }
    assert_eq!(fresh, ticks.fresh());
}

fn twin_calls(
    session: &mut twin::Session,
    capture: &Capture,
    ticks: &Ticks,
    calls: &mut Times,
    applying: &mut Times,
) {
    let mut fresh = 0;
    for (piece, part) in ticks.parts.iter().enumerate() {
        let keeping = || {
            for packet in part.clone() {
                fresh += black_box(session.keep(capture.packet(packet))).unwrap_or(0);
            }
        };
        calls.twin.push(piece, timed(keeping));
        let mut applied = 0;
        let tick = || applied = session.apply(TICK);
        applying.twin.push(piece, timed(tick));
        assert_eq!(applied, TICK);
    }
    assert_eq!(fresh, ticks.fresh());
}

/// The packets of a tick in one call, with the answers of each.
fn library_bursts(session: &mut Session, capture: &Capture, ticks: &Ticks, times: &mut Times) {
    let mut answers = vec![Answer::default(); ticks.packets().len()];
    for (piece, part) in ticks.parts.iter().enumerate() {
        let (packets, left) = (capture.part(part.clone()), &mut answers[part.clone()]);
        let keeping = || {
            let burst = session.keep_burst(packets, left.len(), left);
            burst.expect("there is an answer for each packet");
        };
        times.library.push(piece, timed(keeping));
        session.apply(TICK);
    }
    let rows = ticks.packets().iter().copied();
    assert!(answers.iter().map(Row::from_kept).eq(rows));
}

/// The same answers from the twin, packet by packet over the same bytes.
fn twin_bursts(session: &mut twin::Session, capture: &Capture, ticks: &Ticks, times: &mut Times) {
    let mut rows = vec![[0; 4]; ticks.packets().len()];
    for (piece, part) in ticks.parts.iter().enumerate() {
        let (mut packets, left) = (capture.part(part.clone()), &mut rows[part.clone()]);
        let keeping = || {
            for row in left {
                let Some((packet, behind)) = first_packet(packets) else {
                    break;
                };
                packets = behind;
                let (fresh, refusal) = match session.keep(packet) {
                    Ok(fresh) => (fresh, 0),
                    Err(refusal) => (0, refusal.0 as u64),
                };
                *row = [fresh, refusal, session.next(), session.end()];
            }
        };
        times.twin.push(piece, timed(keeping));
        session.apply(TICK);
    }
    for (row, expected) in rows.iter().zip(ticks.packets()) {
        assert_eq!(*row, expected.numbers());
    }
}
