//! That the generated captures reach every refusal, every fault, both full tables and both rules, and the generated
//! calls what comes up only where messages wait that could be applied.

use compare::feed;
use compare::pair::{Call, Opening};
use compare::steps::{steps, Step};
use jangsebit::Rule;
use twin::packet::read_header;
use twin::{Refusal, Session};

#[test]
fn every_case_comes_up() {
    let mut refusals = [0u64; 11];
    let mut faults = [0u64; 9];
    let (mut packets, mut applied, mut waited) = (0, 0, 0);
    let (mut full, mut insides, mut tops) = (0, 0, 0);
    for seed in 0..300 {
        let (opening, capture) = feed::capture(seed, 400);
        let mut session = Box::new(opening.twin());
        for packet in capture.packets() {
            packets += 1;
            match session.take(packet) {
                Ok(count) => {
                    applied += count;
                    waited += (count == 0) as u64;
                }
                Err(refusal) => refusals[refusal.0 as usize] += 1,
            }
        }
        faults[session.faults().reason as usize] += 1;
        full += (session.book().live_orders().count() == 256) as u64;
        insides += (session.book().held_insides().len() == 64) as u64;
        tops += (session.next() == 1 << 32) as u64;
    }
    println!("{packets} packets, {applied} applied, {waited} with none applied");
    println!("refusals 1 to 10: {:?}", &refusals[1..]);
    println!("first faults 0 to 8: {faults:?}");
    println!("orders full {full}, insides full {insides}, last number applied {tops}");
    assert!(refusals[1..].iter().all(|count| *count > 0));
    assert!(faults.iter().all(|count| *count > 0));
    assert!(full > 0 && insides > 0 && tops > 0);
}

/// What captures have of types that are not listed, each with how often.
#[derive(Debug, Default)]
struct Unlisted {
    /// Captures whose sessions open by default, and strict.
    openings: [u64; 2],
    /// Such messages applied under each rule.
    messages: [u64; 2],
    /// Under the strict rule: one is the first fault, another fault is.
    first: u64,
    other_first: u64,
    /// By default: counted before the first fault, and behind it; sessions that counted and are not doubtful.
    before: u64,
    behind: u64,
    clean: u64,
}

#[test]
fn unlisted_types_come_up_under_both_rules() {
    let mut met = Unlisted::default();
    for seed in 0..300 {
        let (opening, capture) = feed::capture(seed, 400);
        let [mut default, mut strict] =
            [Rule::Default, Rule::Strict].map(|rule| Box::new(Opening { rule, ..opening }.twin()));
        let chosen = (opening.rule == Rule::Strict) as usize;
        let mut behind = 0;
        for packet in capture.packets() {
            let (unlisted, faulted) = (default.unlisted(), default.doubtful());
            assert_eq!(default.take(packet), strict.take(packet));
            let more = default.unlisted() - unlisted;
            behind += faulted as u64 * more;
            met.before += (chosen == 0 && !faulted && default.doubtful() && unlisted > 0) as u64;
        }
        // The rules differ in where a message is counted, and in nothing else.
        let (counted, faults) = (default.unlisted(), default.faults());
        assert_eq!(strict.unlisted(), 0);
        assert_eq!(strict.faults().count, faults.count + counted);
        assert_ne!(faults.reason, 1);
        assert!(default.book().live_orders().eq(strict.book().live_orders()));
        assert_eq!(default.book().held_insides(), strict.book().held_insides());
        assert_eq!(default.code(), strict.code());
        met.openings[chosen] += 1;
        met.messages[chosen] += counted;
        if chosen == 1 {
            met.first += (strict.faults().reason == 1) as u64;
            met.other_first += (counted > 0 && strict.faults().reason > 1) as u64;
        } else {
            met.behind += behind;
            met.clean += (counted > 0 && !default.doubtful()) as u64;
        }
    }
    println!("{met:#?}");
    assert!(met.openings.iter().all(|count| *count > 100));
    assert!(met.messages.iter().all(|count| *count > 1_000));
    assert!(met.first > 10 && met.other_first > 10);
    assert!(met.before > 10 && met.behind > 1_000 && met.clean > 5);
}

/// What calls that keep and apply come upon, each with how often.
#[derive(Debug, Default)]
struct Met {
    /// The window holds 256 messages, and all can be applied.
    full: u64,
    /// Refused while a message waits at next: 9, 10, and 10 by a packet that lies below what was not carried.
    nine: u64,
    ten: u64,
    ten_in_front: u64,
    /// Taken while a message waits at next: a heartbeat, a packet that is all old, one that is refused.
    heartbeat: u64,
    old: u64,
    refused: u64,
    /// Kept: some numbers fresh and some that waited, none fresh.
    some_fresh: u64,
    none_fresh: u64,
    /// Applied: none by a count of 0 while one waits, all that the count allows, up to a gap with more behind it, the
    /// last number there is.
    nothing: u64,
    portion: u64,
    up_to_gap: u64,
    last_number: u64,
    /// end lies behind the window while a message waits at next.
    end_beyond: u64,
    /// Opened again while a message waits.
    again: u64,
    /// Opened again, from and to each rule; where the session had counted types that are not listed, or had one of them
    /// as its first fault.
    rules: [[u64; 2]; 2],
    counted: u64,
    faulted: u64,
}

impl Met {
    fn packet(&mut self, session: &mut Session, call: Call, packet: &[u8]) {
        let in_front = session.waits(session.next()) as u64;
        let (next, lowest, waiting) = (session.next(), session.lowest(), session.waiting());
        let header = read_header(packet);
        let behind = header.map_or(0, |h| h.number as u64 + h.messages as u64);
        let heartbeat = header.is_ok_and(|h| h.heartbeat());
        match call {
            Call::Take => match session.take(packet) {
                Err(_) => self.refused += in_front,
                Ok(_) if heartbeat => self.heartbeat += in_front,
                Ok(_) => self.old += in_front * (behind <= next) as u64,
            },
            Call::Keep => match session.keep(packet) {
                Err(Refusal(9)) => self.nine += in_front,
                Err(Refusal(10)) => {
                    self.ten += in_front;
                    self.ten_in_front += in_front * (behind <= lowest) as u64;
                }
                Err(_) => {}
                Ok(0) => self.none_fresh += (behind > next && !heartbeat) as u64,
                Ok(fresh) => {
                    let messages = header.map_or(0, |h| h.messages as u64);
                    self.some_fresh += (waiting > 0 && fresh < messages) as u64;
                }
            },
        }
        self.full += (session.lowest() == session.next() + 256) as u64;
        let beyond = session.end() > session.next() + 256;
        self.end_beyond += (session.waits(session.next()) && beyond) as u64;
    }

    fn apply(&mut self, session: &mut Session, count: u64) {
        let ready = session.lowest() - session.next();
        let applied = session.apply(count);
        self.nothing += (count == 0 && ready > 0) as u64;
        self.portion += (count > 0 && applied == count && count < ready) as u64;
        self.up_to_gap += (applied > 0 && applied == ready && session.waiting() > 0) as u64;
        self.last_number += (applied > 0 && session.next() == 1 << 32) as u64;
    }

    fn open(&mut self, session: &mut Session, opening: Opening) {
        self.again += (session.waiting() > 0) as u64;
        let strict = opening.rule == Rule::Strict;
        self.rules[session.strict() as usize][strict as usize] += 1;
        self.counted += (session.unlisted() > 0) as u64;
        self.faulted += (session.faults().reason == 1) as u64;
        *session = opening.twin();
    }
}

#[test]
fn every_case_of_keeping_and_applying_comes_up() {
    let mut met = Met::default();
    for seed in 0..300 {
        let mut session = Box::new(Session::open(0));
        for step in steps(seed, 200) {
            match step {
                Step::Packet(call, packet) => met.packet(&mut session, call, &packet),
                Step::Burst(call, packets) => packets
                    .packets()
                    .for_each(|packet| met.packet(&mut session, call, packet)),
                Step::Apply(count) => met.apply(&mut session, count),
                Step::Open(opening) => met.open(&mut session, opening),
            }
        }
    }
    println!("{met:#?}");
    let Met {
        full,
        nine,
        ten,
        ten_in_front,
        heartbeat,
        old,
        refused,
        some_fresh,
        none_fresh,
        nothing,
        portion,
        up_to_gap,
        last_number,
        end_beyond,
        again,
        rules,
        counted,
        faulted,
    } = met;
    let often = [full, nine, ten, ten_in_front, some_fresh, none_fresh];
    assert!(often.iter().all(|count| *count > 100), "{often:?}");
    let taken = [heartbeat, old, refused];
    assert!(taken.iter().all(|count| *count > 20), "{taken:?}");
    let applied = [nothing, portion, up_to_gap, last_number];
    assert!(applied.iter().all(|count| *count > 20), "{applied:?}");
    assert!(end_beyond > 20 && again > 20);
    assert!(rules.as_flattened().iter().all(|count| *count > 20));
    assert!(counted > 20 && faulted > 20);
}
