//! A loop that keeps packets, applies what waits in portions, and takes packets too: its calls, one after the other.

use crate::capture::Capture;
use crate::feed::{self, Feed};
use crate::pair::{Call, Difference, Opening, Pair};
use crate::random::Random;
use jangsebit::Rule;
use std::fmt;
use twin::Session;

/// One call, with what it is lent.
#[derive(Clone)]
pub enum Step {
    Packet(Call, Vec<u8>),
    Burst(Call, Capture),
    Apply(u64),
    Open(Opening),
}

impl fmt::Debug for Step {
    fn fmt(&self, f: &mut fmt::Formatter<'_>) -> fmt::Result {
        match self {
            Step::Packet(call, packet) => write!(f, "{call:?} {packet:02x?}"),
            Step::Burst(call, packets) => {
                write!(f, "{call:?}, a burst of {}", packets.len())?;
                packets
                    .packets()
                    .try_for_each(|packet| write!(f, "\n    {packet:02x?}"))
            }
            Step::Apply(count) => write!(f, "Apply {count}"),
            Step::Open(opening) => write!(f, "{opening:?}"),
        }
    }
}

/// How often a loop makes each call: a packet taken, kept, several taken, several kept, applying, opening again.
type Habit = [u64; 6];

/// Some of everything; a loop that keeps and applies; one that applies so seldom that its window is full.
const HABITS: [Habit; 3] = [
    [20, 30, 10, 10, 29, 1],
    [1, 40, 0, 19, 39, 1],
    [2, 60, 1, 20, 8, 1],
];
pub(crate) const COUNTS: [u64; 10] = [0, 1, 1, 2, 5, 17, 64, 100, 256, u64::MAX];

/// So many calls that follow from a seed. Packets are aimed at what a session holds at their time.
pub fn steps(seed: u64, count: usize) -> Vec<Step> {
    let mut random = Random::new(seed);
    let habit = random.pick(&HABITS);
    let (opening, mut feed, mut session) = opened(&mut random);
    let mut steps = vec![Step::Open(opening)];
    for _ in 1..count {
        let step = match random.weighed(&habit) {
            0 => Step::Packet(Call::Take, feed.packet(&mut session, Call::Take)),
            1 => Step::Packet(Call::Keep, feed.packet(&mut session, Call::Keep)),
            which @ (2 | 3) => {
                let call = [Call::Take, Call::Keep][which - 2];
                let mut packets = Capture::new();
                for _ in 0..random.pick(&[0, 1, 2, 3, 5, 8, 20]) {
                    packets.push(&feed.packet(&mut session, call));
                }
                Step::Burst(call, packets)
            }
            4 => {
                let count = random.pick(&COUNTS);
                session.apply(count);
                Step::Apply(count)
            }
            _ => {
                let opening;
                (opening, feed, session) = opened(&mut random);
                Step::Open(opening)
            }
        };
        steps.push(step);
    }
    steps
}

fn opened(random: &mut Random) -> (Opening, Feed, Box<Session>) {
    let opening = feed::opening(random);
    let feed = feed::split(random, opening.number);
    (opening, feed, Box::new(opening.twin()))
}

/// Makes the calls on both sessions, and says how many packets they had. Behind each call all numbers and all that is
/// missing must be equal, now and then all of the tables.
pub fn run(steps: &[Step]) -> Result<u64, Difference> {
    let mut pair = Pair::open(Opening {
        number: 0,
        rule: Rule::Default,
    });
    let mut packets = 0;
    for (index, step) in steps.iter().enumerate() {
        match step {
            Step::Packet(Call::Take, packet) => {
                pair.take_watched(packet)?;
                packets += 1;
            }
            Step::Packet(Call::Keep, packet) => {
                pair.keep(packet)?;
                packets += 1;
            }
            Step::Burst(call, capture) => {
                let all = capture.len();
                let each = (0..all).map(|index| capture.packet(index));
                pair.burst_watched(*call, capture.bytes(), each, all + index % 2)?;
                packets += all as u64;
            }
            Step::Apply(count) => {
                pair.apply(*count)?;
            }
            Step::Open(opening) => pair.reopen(*opening),
        }
        pair.numbers()?;
        pair.gaps()?;
        pair.requests([jangsebit::Session::REQUESTS, 24][index % 2])?;
        if index % 16 == 0 {
            pair.tables()?;
        }
    }
    pair.tables()?;
    Ok(packets)
}
