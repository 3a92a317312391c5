//! The library and the twin over the same inputs: every answer and all that a session holds must be equal.
//!
//! JANGSEBIT_SEED starts another sequence of captures, JANGSEBIT_CAPTURES says how many a test makes.

use compare::capture::Capture;
use compare::feed;
use compare::night::Manners;
use compare::pair::{Opening, Pair};
use compare::steps::{self, steps, Step};
use compare::ways::{run, Tally, Way};
use jangsebit::Rule;

const PACKETS: usize = 500;
const CALLS: usize = 200;
const SEED: u64 = 0x0507_2026;

fn from_environment(name: &str, otherwise: u64) -> u64 {
    match std::env::var(name) {
        Ok(text) => text
            .parse()
            .unwrap_or_else(|_| panic!("{name} is a number")),
        Err(_) => otherwise,
    }
}

/// The fewest packets or calls that still differ: the shortest beginning, then one after the other left out.
fn shrunk<T: Clone>(all: &[T], differs: impl Fn(&[T]) -> bool) -> Vec<T> {
    let (mut low, mut high) = (0, all.len());
    while low < high {
        let middle = (low + high) / 2;
        if differs(&all[..middle]) {
            high = middle;
        } else {
            low = middle + 1;
        }
    }
    let mut small = all[..low].to_vec();
    if !differs(&small) {
        return all.to_vec();
    }
    for index in (0..small.len()).rev() {
        let mut fewer = small.clone();
        fewer.remove(index);
        if differs(&fewer) {
            small = fewer;
        }
    }
    small
}

/// Compares the two over a capture; where they differ, says so with the packets that it takes.
fn compare(seed: u64, opening: Opening, capture: &Capture, way: Way) -> Tally {
    let difference = match run(opening, capture, way) {
        Ok(tally) => return tally,
        Err(difference) => difference,
    };
    println!("seed {seed}, {way:?}, {opening:?}: {difference}");
    let packets: Vec<&[u8]> = capture.packets().collect();
    let capture_of = |packets: &[&[u8]]| packets.iter().copied().collect::<Capture>();
    let small = capture_of(&shrunk(&packets, |few| {
        run(opening, &capture_of(few), way).is_err()
    }));
    println!("shrunk from {} to {} packets:", capture.len(), small.len());
    for packet in small.packets() {
        println!("  {}", hex(packet));
    }
    if let Err(difference) = run(opening, &small, way) {
        println!("{difference}");
    }
    panic!("seed {seed}: library and twin differ");
}

/// Compares the two over calls; where they differ, says so with the calls that it takes.
fn compare_calls(seed: u64, all: &[Step]) -> u64 {
    let difference = match steps::run(all) {
        Ok(packets) => return packets,
        Err(difference) => difference,
    };
    println!("seed {seed}: {difference}");
    let small = shrunk(all, |few| steps::run(few).is_err());
    println!("shrunk from {} to {} calls:", all.len(), small.len());
    for step in &small {
        println!("  {step:?}");
    }
    if let Err(difference) = steps::run(&small) {
        println!("{difference}");
    }
    panic!("seed {seed}: library and twin differ");
}

fn hex(bytes: &[u8]) -> String {
    bytes.iter().map(|byte| format!("{byte:02x}")).collect()
}

/// One packet a call, and bursts of several sizes.
#[test]
fn captures() {
    let first = from_environment("JANGSEBIT_SEED", SEED) << 32;
    let captures = from_environment("JANGSEBIT_CAPTURES", 4_000);
    let mut all = Tally::default();
    for index in 0..captures {
        let seed = first.wrapping_add(index);
        let (opening, capture) = feed::capture(seed, PACKETS);
        let way = [
            Way::Single,
            Way::Bursts(usize::MAX),
            Way::Bursts(1),
            Way::Bursts(64),
            Way::Single,
            Way::Bursts(7),
        ][(index % 6) as usize];
        all = all.and(compare(seed, opening, &capture, way));
    }
    println!("{captures} captures, no difference: {all:?}");
}

/// Calls and bursts mixed, with questions in between.
#[test]
fn mixed() {
    let first = from_environment("JANGSEBIT_SEED", SEED) << 32 | 1 << 31;
    let captures = from_environment("JANGSEBIT_CAPTURES", 4_000) / 2;
    let mut all = Tally::default();
    for index in 0..captures {
        let seed = first.wrapping_add(index);
        let (opening, capture) = feed::capture(seed, PACKETS);
        all = all.and(compare(seed, opening, &capture, Way::Mixed(seed)));
    }
    println!("{captures} captures, no difference: {all:?}");
    assert!(captures < 100 || all.known > 10_000 && all.requests > 10_000);
}

/// Packets kept and taken, one a call and in bursts, what waits applied in portions, sessions opened again.
#[test]
fn kept_and_applied() {
    let first = from_environment("JANGSEBIT_SEED", SEED) << 32 | 1 << 30;
    let captures = from_environment("JANGSEBIT_CAPTURES", 4_000);
    let mut packets = 0;
    for index in 0..captures {
        let seed = first.wrapping_add(index);
        packets += compare_calls(seed, &steps(seed, CALLS));
    }
    println!("{captures} times {CALLS} calls, {packets} packets, no difference");
}

/// The packets of captures kept, and applied in portions, with questions in between.
#[test]
fn split() {
    let first = from_environment("JANGSEBIT_SEED", SEED) << 32 | 3 << 30;
    let captures = from_environment("JANGSEBIT_CAPTURES", 4_000) / 4;
    let mut all = Tally::default();
    for index in 0..captures {
        let seed = first.wrapping_add(index);
        let (opening, capture) = feed::capture(seed, PACKETS);
        all = all.and(compare(seed, opening, &capture, Way::Split(seed)));
    }
    println!("{captures} captures, no difference: {all:?}");
}

/// A session opened again is a fresh one, whatever it held.
#[test]
fn opened_again() {
    let mut pair = Pair::open(Opening {
        number: 0,
        rule: Rule::Strict,
    });
    for seed in 0..100 {
        let (opening, capture) = feed::capture(seed, 200);
        pair.reopen(opening);
        pair.tables().expect("both are empty");
        for packet in capture.packets() {
            pair.take(packet)
                .unwrap_or_else(|difference| panic!("seed {seed}: {difference}"));
        }
        pair.tables()
            .unwrap_or_else(|difference| panic!("seed {seed}: {difference}"));
    }
}

/// Two lines with loss, late packets, damage and retransmission, over a long night.
#[test]
fn long_nights() {
    let seed = from_environment("JANGSEBIT_SEED", SEED);
    let mut all = Tally::default();
    for night in 0..5 {
        let lines = feed::Lines {
            most: 6,
            heartbeats: seed % 200,
            loss: [0, 20, 100, 100, 300][night as usize],
            swapped: [0, 30, 100, 300, 100][night as usize],
            damaged: [0, 0, 10, 30, 10][night as usize],
            second: night > 0,
        };
        let opening = Opening {
            number: [1, 0, 77, 4_294_900_000, 4_000_000][night as usize],
            rule: [Rule::Default, Rule::Strict][night as usize % 2],
        };
        // New types come now and then, but in the first night.
        let manners = Manners {
            other: [0, 5, 5, 5, 5][night as usize],
            ..Manners::plain()
        };
        let seed_of_night = seed ^ night << 40;
        let capture = feed::lines(seed_of_night, opening.number, 20_000, &lines, manners);
        for way in [
            Way::Bursts(usize::MAX),
            Way::Bursts(64),
            Way::Single,
            Way::Mixed(seed),
            Way::Split(seed),
        ] {
            all = all.and(compare(night, opening, &capture, way));
        }
    }
    println!("long nights, no difference: {all:?}");
}
