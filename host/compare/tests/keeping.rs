//! Keeping and applying by fixed examples, on the library and the twin at once.

use compare::capture::Capture;
use compare::pair::{Call, Opening, Pair};
use jangsebit::Rule;

/// A message of a type and no more: an Imbalance, or one of a type that is not listed.
const IMBALANCE: u8 = 28;
const UNLISTED: u8 = 99;
const RULES: [Rule; 2] = [Rule::Default, Rule::Strict];

fn packet(number: u32, types: &[u8]) -> Vec<u8> {
    let size = 12 + 3 * types.len() as u16;
    let mut out = size.to_be_bytes().to_vec();
    out.extend(number.to_be_bytes());
    out.extend([0, types.len() as u8, 0, 0, 0, 9]);
    out.extend(types.iter().flat_map(|kind| [0, 3, *kind]));
    out
}

fn heartbeat(number: u32) -> Vec<u8> {
    let mut out = packet(number, &[]);
    out[6] = 1;
    out
}

fn add() -> Vec<u8> {
    let mut out = vec![0, 67, 0, 0, 0, 1, 0, 1, 0, 0, 0, 0];
    out.extend(b"\x00\x37\x15\x00\x00\x00\x017A400CY528L9SNB\x00\x00\x01\x2cOTCM          ");
    out.extend(1_250_000u64.to_be_bytes());
    out.extend(b"FIRMN\x00\x00");
    out
}

/// Both sessions, and that they agree on what each call leaves.
struct Both(Pair);

impl Both {
    fn open(number: u32, rule: Rule) -> Both {
        Both(Pair::open(Opening { number, rule }))
    }

    fn reopen(&mut self, number: u32, rule: Rule) {
        self.0.reopen(Opening { number, rule });
        self.agree();
    }

    fn keep(&mut self, packet: &[u8]) -> Result<u64, u8> {
        let row = self.0.keep(packet).unwrap();
        self.agree();
        row.answer
    }

    fn take(&mut self, packet: &[u8]) -> Result<u64, u8> {
        let row = self.0.take_watched(packet).unwrap();
        self.agree();
        row.answer
    }

    fn apply(&mut self, count: u64) -> u64 {
        let applied = self.0.apply(count).unwrap();
        self.agree();
        applied
    }

    fn agree(&self) {
        self.0.tables().unwrap();
        self.0.gaps().unwrap();
        self.0.requests(jangsebit::Session::REQUESTS).unwrap();
    }

    /// next, the lowest number not carried, and end.
    fn numbers(&self) -> (u64, u64, u64) {
        let twin = self.0.twin();
        (twin.next(), self.0.lowest().unwrap(), twin.end())
    }

    /// The first fault's number and reason and the count of faults, and how many messages were counted apart.
    fn counts(&self) -> (u64, u8, u64, u64) {
        let (faults, unlisted) = (self.0.twin().faults(), self.0.twin().unlisted());
        (faults.number, faults.reason, faults.count, unlisted)
    }
}

#[test]
fn a_full_window() {
    let mut both = Both::open(1_000, Rule::Default);
    let behind = packet(1_256, &[IMBALANCE]);
    assert_eq!(both.keep(&packet(1_000, &[IMBALANCE; 255])), Ok(255));
    assert_eq!(both.keep(&behind), Err(9));
    assert_eq!(both.keep(&packet(1_254, &[IMBALANCE; 2])), Ok(1));
    assert_eq!(both.0.twin().waiting(), 256);
    assert_eq!(both.numbers(), (1_000, 1_256, 1_256));
    assert_eq!(both.keep(&behind), Err(9));
    assert_eq!(both.take(&behind), Err(9));
    assert_eq!(both.numbers(), (1_000, 1_256, 1_256));
    assert_eq!(both.apply(0), 0);
    assert_eq!(both.apply(1), 1);
    assert_eq!(both.keep(&behind), Ok(1));
    assert_eq!(both.keep(&packet(1_257, &[IMBALANCE])), Err(9));
    assert_eq!(both.numbers(), (1_001, 1_257, 1_257));
    assert_eq!(both.apply(100), 100);
    assert_eq!(both.apply(u64::MAX), 156);
    assert_eq!(both.apply(u64::MAX), 0);
    assert_eq!(both.numbers(), (1_257, 1_257, 1_257));
}

#[test]
fn a_copy_that_differs_from_one_in_front() {
    for rule in RULES {
        let mut both = Both::open(10, rule);
        let other = packet(11, &[UNLISTED]);
        assert_eq!(both.keep(&packet(10, &[IMBALANCE; 3])), Ok(3));
        assert_eq!(both.keep(&other), Err(10));
        assert_eq!(both.take(&other), Err(10));
        // The last of three, behind one that waits too and one that is old.
        assert_eq!(
            both.take(&packet(9, &[UNLISTED, IMBALANCE, UNLISTED])),
            Err(10)
        );
        assert_eq!(both.numbers(), (10, 13, 13));
        assert_eq!(both.apply(2), 2);
        // Below next nothing is compared.
        assert_eq!(both.keep(&other), Ok(0));
        assert_eq!(both.keep(&packet(12, &[UNLISTED])), Err(10));
        assert_eq!(both.keep(&packet(12, &[IMBALANCE, UNLISTED])), Ok(1));
        assert_eq!(both.counts(), (0, 0, 0, 0));
        assert_eq!(both.apply(u64::MAX), 2);
        let counts = match rule {
            Rule::Default => (0, 0, 0, 1),
            Rule::Strict => (13, 1, 1, 0),
        };
        assert_eq!(both.counts(), counts);
    }
}

#[test]
fn what_waits_in_front_is_taken_along() {
    for taken in [
        heartbeat(3),
        heartbeat(15),
        packet(9, &[UNLISTED]),
        packet(10, &[IMBALANCE]),
        packet(11, &[IMBALANCE]),
        packet(14, &[IMBALANCE]),
    ] {
        let mut both = Both::open(10, Rule::Default);
        assert_eq!(both.keep(&packet(10, &[IMBALANCE; 2])), Ok(2));
        assert_eq!(both.keep(&heartbeat(15)), Ok(0));
        assert_eq!(both.numbers(), (10, 12, 15));
        assert_eq!(both.take(&taken), Ok(2), "{taken:02x?}");
        assert_eq!(both.numbers(), (12, 12, 15));
    }
    let mut both = Both::open(10, Rule::Strict);
    assert_eq!(both.keep(&packet(10, &[IMBALANCE; 2])), Ok(2));
    assert_eq!(both.keep(&packet(13, &[IMBALANCE; 2])), Ok(2));
    assert_eq!(both.take(&packet(12, &[IMBALANCE; 2])), Ok(5));
}

#[test]
fn a_refused_take_applies_nothing() {
    let mut cut = packet(12, &[IMBALANCE]);
    cut.truncate(14);
    let mut flagged = packet(12, &[IMBALANCE]);
    flagged[6] = 2;
    let mut short = packet(12, &[IMBALANCE]);
    short[13] = 2;
    let mut beating = packet(12, &[IMBALANCE]);
    beating[6] = 1;
    let mut both = Both::open(10, Rule::Strict);
    assert_eq!(both.keep(&packet(10, &[IMBALANCE; 2])), Ok(2));
    for (refused, number) in [
        (vec![0; 11], 1),
        (vec![0; 1_473], 2),
        (cut, 3),
        (flagged, 4),
        (beating, 5),
        (packet(12, &[]), 6),
        (short, 7),
        (packet(u32::MAX, &[IMBALANCE; 2]), 8),
        (packet(265, &[IMBALANCE; 2]), 9),
        (packet(11, &[UNLISTED]), 10),
    ] {
        assert_eq!(both.take(&refused), Err(number), "{refused:02x?}");
        assert_eq!(both.keep(&refused), Err(number), "{refused:02x?}");
        assert_eq!(both.numbers(), (10, 12, 12));
    }
    assert_eq!(both.apply(u64::MAX), 2);
}

#[test]
fn missing_numbers_while_messages_wait_in_front() {
    let mut both = Both::open(10, Rule::Strict);
    assert_eq!(both.keep(&packet(10, &[IMBALANCE; 2])), Ok(2));
    assert_eq!(both.keep(&packet(100, &[IMBALANCE])), Ok(1));
    assert_eq!(both.keep(&heartbeat(1_000)), Ok(0));
    for behind in [266, 267, 268] {
        let runs = [(12, 88), (101, behind - 101)];
        assert_eq!(both.0.twin().missing(), runs);
        both.apply(1);
    }
    assert_eq!(both.numbers(), (12, 12, 1_000));
}

/// A packet that starts at or below next moves the lowest number that was not carried, and leaves next.
#[test]
fn next_stays_until_messages_are_applied() {
    let mut both = Both::open(10, Rule::Default);
    assert_eq!(both.keep(&packet(12, &[IMBALANCE])), Ok(1));
    assert_eq!(both.numbers(), (10, 10, 13));
    assert_eq!(both.keep(&packet(9, &[IMBALANCE; 3])), Ok(2));
    assert_eq!(both.numbers(), (10, 13, 13));
    assert_eq!(both.apply(1), 1);
    assert_eq!(both.numbers(), (11, 13, 13));
}

#[test]
fn an_order_is_live_when_its_message_is_applied() {
    let id = b"7A400CY528L9SN";
    for rule in RULES {
        let mut both = Both::open(1, rule);
        assert_eq!(both.keep(&add()), Ok(1));
        assert_eq!(both.0.order(id), Ok(false));
        assert_eq!(both.keep(&packet(2, &[UNLISTED; 2])), Ok(2));
        assert_eq!(both.counts(), (0, 0, 0, 0));
        assert_eq!(both.apply(2), 2);
        assert_eq!(both.0.order(id), Ok(true));
        let counts = match rule {
            Rule::Default => (0, 0, 0, 1),
            Rule::Strict => (2, 1, 1, 0),
        };
        assert_eq!(both.counts(), counts);
    }
}

/// A message of each type there is: it counts where it is applied, as its rule has it.
#[test]
fn every_type_under_both_rules() {
    let listed = [9, 11, 12, 20, 21, 22, 23, 24, 25, 26, 27, 28];
    for rule in RULES {
        for kind in 0..=255 {
            let mut long = vec![0, 140, 0, 0, 0, 5, 0, 1, 0, 0, 0, 9, 0, 128, kind];
            long.resize(140, 0);
            let (mut both, mut taken) = (Both::open(5, rule), Both::open(5, rule));
            assert_eq!(both.keep(&long), Ok(1));
            assert_eq!(both.counts(), (0, 0, 0, 0));
            assert_eq!(both.apply(1), 1);
            assert_eq!(taken.take(&long), Ok(1));
            let counts = match (rule, kind) {
                (_, 20..=27) => (5, 2, 1, 0),
                (_, kind) if listed.contains(&kind) => (0, 0, 0, 0),
                (Rule::Default, _) => (0, 0, 0, 1),
                (Rule::Strict, _) => (5, 1, 1, 0),
            };
            assert_eq!(both.counts(), counts, "{kind}");
            assert_eq!(taken.counts(), counts, "{kind}");
            assert_eq!(both.numbers(), (6, 6, 6));
            assert_eq!(both.0.twin().doubtful(), counts.2 > 0);
        }
    }
}

/// Types that are not listed before, between and behind faults, and the opening behind them.
#[test]
fn unlisted_types_beside_faults() {
    let mut faulty = packet(12, &[]);
    faulty.extend([0, 12, 20, 0, 0, 0, 0, 0, 0, 0, 0, 7]);
    faulty[1] = 24;
    faulty[7] = 1;
    let mut again = faulty.clone();
    again[5] = 14;
    let mut both = Both::open(10, Rule::Default);
    for first in RULES {
        for second in RULES {
            both.reopen(10, first);
            assert_eq!(both.counts(), (0, 0, 0, 0));
            assert_eq!(both.take(&packet(10, &[0, 10])), Ok(2));
            assert_eq!(both.take(&faulty), Ok(1));
            assert_eq!(both.keep(&packet(13, &[29])), Ok(1));
            assert_eq!(both.take(&again), Ok(2));
            assert_eq!(both.take(&packet(15, &[IMBALANCE, 255])), Ok(2));
            let counts = match first {
                Rule::Default => (12, 2, 2, 4),
                Rule::Strict => (10, 1, 6, 0),
            };
            assert_eq!(both.counts(), counts);
            // Nothing of the first opening stays, its rule neither.
            both.reopen(20, second);
            assert_eq!(both.counts(), (0, 0, 0, 0));
            assert_eq!(both.take(&packet(20, &[UNLISTED; 3])), Ok(3));
            let counts = match second {
                Rule::Default => (0, 0, 0, 3),
                Rule::Strict => (20, 1, 3, 0),
            };
            assert_eq!(both.counts(), counts);
        }
    }
}

#[test]
fn the_last_numbers() {
    let mut both = Both::open(u32::MAX - 1, Rule::Default);
    let two = packet(u32::MAX - 1, &[IMBALANCE; 2]);
    assert_eq!(both.keep(&two), Ok(2));
    assert_eq!(both.numbers(), ((1 << 32) - 2, 1 << 32, 1 << 32));
    assert_eq!(both.keep(&packet(u32::MAX, &[IMBALANCE; 2])), Err(8));
    assert_eq!(both.apply(1), 1);
    assert_eq!(both.apply(u64::MAX), 1);
    assert_eq!(both.apply(u64::MAX), 0);
    assert_eq!(both.numbers(), (1 << 32, 1 << 32, 1 << 32));
    assert_eq!(both.keep(&two), Ok(0));
}

/// Nothing of a session that was opened again is applied, and nothing of it is compared.
#[test]
fn opened_again_while_messages_wait() {
    for [first, second] in [RULES, [Rule::Strict, Rule::Default]] {
        let mut both = Both::open(10, first);
        assert_eq!(both.keep(&packet(10, &[UNLISTED; 255])), Ok(255));
        both.reopen(12, second);
        assert_eq!(both.apply(u64::MAX), 0);
        assert_eq!(both.keep(&packet(12, &[IMBALANCE; 2])), Ok(2));
        assert_eq!(both.numbers(), (12, 14, 14));
    }
}

#[test]
fn a_burst_that_keeps() {
    let packets = [
        packet(10, &[IMBALANCE; 2]),
        packet(11, &[UNLISTED]),
        heartbeat(20),
        packet(13, &[IMBALANCE]),
        packet(12, &[IMBALANCE; 2]),
        packet(266, &[IMBALANCE]),
        vec![],
        packet(265, &[IMBALANCE]),
    ];
    let capture: Capture = packets.iter().map(|packet| &packet[..]).collect();
    let mut both = Both::open(10, Rule::Default);
    for (told, rule) in [0, 1, 3, 8, 9].into_iter().zip(RULES.into_iter().cycle()) {
        both.reopen(10, rule);
        let few = packets.iter().map(|packet| &packet[..]).take(told);
        both.0
            .burst(Call::Keep, capture.bytes(), few, told)
            .unwrap();
        both.agree();
    }
    assert_eq!(both.numbers(), (10, 14, 266));
    both.0.burst_too_short(capture.bytes(), 8).unwrap();
    assert_eq!(both.apply(u64::MAX), 4);
}
