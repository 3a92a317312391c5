//! The questions, to sessions that hold the same.

use crate::timing::{timed, typical};
use crate::{row, CLEAN, OPENING, SEED};
use compare::feed;
use compare::night::Manners;
use compare::pair::id_of;
use jangsebit::{Question, Quote, Session};
use std::hint::black_box;

/// How often a question is put in a round.
const TIMES: usize = 1_000;

struct Both {
    library: Session,
    twin: Box<twin::Session>,
}

/// Sessions some way into a clean capture, at a time when so many orders are live.
fn behind(orders: usize) -> Both {
    let manners = Manners {
        orders,
        ..Manners::plain()
    };
    let capture = feed::lines(SEED, OPENING, 5_000, &CLEAN, manners);
    let mut both = Both {
        library: Session::open(OPENING),
        twin: Box::new(twin::Session::open(OPENING)),
    };
    for (index, packet) in capture.packets().enumerate() {
        if index > capture.len() / 2 && both.twin.book().live() == orders {
            break;
        }
        let answer = both.library.take(packet).map(|applied| applied.messages);
        let answer = answer.map_err(|refusal| refusal.number());
        assert_eq!(answer, both.twin.take(packet).map_err(|refusal| refusal.0));
    }
    both
}

pub fn measure(rounds: usize) {
    let both = behind(60);
    let (library, twin) = (&both.library, &*both.twin);
    let numbers = library.numbers();
    println!();
    println!(
        "questions: {} orders live, {} insides held",
        numbers.live, numbers.held
    );
    println!("                     library      twin    ratio");
    let asked: Vec<Question> = twin
        .book()
        .live_orders()
        .map(|order| Question::new(order.symbol, order.side))
        .collect();
    let ids: Vec<[u8; 14]> = library
        .orders()
        .iter()
        .map(|order| id_of(order.id))
        .collect();
    let insides = twin.book().held_insides();

    let (mut mine, mut other) = (asked.iter().cycle(), asked.iter().cycle());
    versus(
        "best",
        rounds,
        || {
            let question = next(&mut mine);
            let best = library.best(&question.symbol, question.side);
            best.map(|best| [best.price, best.shares, best.orders])
                .map_err(|r| r.number())
        },
        || {
            let question = next(&mut other);
            let best = twin.best(&question.symbol, question.side);
            best.map(|best| [best.price, best.shares, best.orders])
                .map_err(|r| r.0)
        },
    );
    let sixteen: Vec<Question> = asked.iter().copied().cycle().take(16).collect();
    versus(
        "16 quotes",
        rounds,
        || {
            let mut replies = [Quote::default(); 16];
            assert_eq!(library.quotes(black_box(&sixteen), &mut replies), Ok(16));
            replies.map(|reply| {
                let best = reply.level();
                best.map(|best| [best.price, best.shares, best.orders])
                    .map_err(|r| r.number())
            })
        },
        || {
            let sixteen = black_box(&sixteen);
            std::array::from_fn(|k| {
                let best = twin.best(&sixteen[k].symbol, sixteen[k].side);
                best.map(|best| [best.price, best.shares, best.orders])
                    .map_err(|r| r.0)
            })
        },
    );
    let (mut mine, mut other) = (ids.iter().cycle(), ids.iter().cycle());
    versus(
        "order",
        rounds,
        || {
            let order = library.order(next(&mut mine));
            order
                .map(|o| (o.id, o.price, o.shares, o.symbol))
                .map_err(|r| r.number())
        },
        || {
            let order = twin.order(next(&mut other));
            order
                .map(|o| (o.id, o.price, o.shares, o.symbol))
                .map_err(|r| r.0)
        },
    );
    let (mut mine, mut other) = (insides.iter().cycle(), insides.iter().cycle());
    versus(
        "inside",
        rounds,
        || {
            let inside = library.inside(&next(&mut mine).symbol);
            inside
                .map(|i| {
                    (
                        i.ask,
                        i.bid,
                        i.time,
                        i.ask_volume,
                        i.bid_volume,
                        i.unsolicited,
                    )
                })
                .map_err(|r| r.number())
        },
        || {
            let inside = twin.inside(&next(&mut other).symbol);
            inside
                .map(|i| (i.ask, i.bid, i.time, i.asked, i.bidden, i.unsolicited))
                .map_err(|r| r.0)
        },
    );
    let mut buffers = [[0; Session::REQUESTS]; 2];
    let [first, second] = &mut buffers;
    versus(
        "requests, none",
        rounds,
        || {
            library
                .requests(black_box(&mut first[..]))
                .map_err(|r| r.number())
        },
        || twin.requests(black_box(&mut second[..])).map_err(|r| r.0),
    );
    against(
        "numbers",
        rounds,
        || black_box(library).numbers(),
        |n| {
            let first = n
                .faults
                .first()
                .map(|(number, fault)| (number, fault.number()));
            (
                n.next,
                n.end,
                n.live,
                n.held,
                n.code as u8,
                n.faults.count,
                first,
            )
        },
        || {
            let t = black_box(twin);
            let (book, faults) = (t.book(), t.faults());
            let first = (faults.count > 0).then_some((faults.number, faults.reason));
            let held = book.held_insides().len();
            (
                t.next(),
                t.end(),
                book.live(),
                held,
                t.code(),
                faults.count,
                first,
            )
        },
    );
}

/// Packets ahead of next, which are judged and kept and apply nothing.
pub fn keeping(rounds: usize) {
    let capture = feed::lines(SEED, OPENING, 60, &CLEAN, Manners::plain());
    let ahead: Vec<&[u8]> = capture.packets().skip(1).collect();
    let mut library = Session::open(OPENING);
    let mut times = (Vec::new(), Vec::new());
    for _ in 0..rounds * 20 {
        library.reopen(OPENING);
        let mut twin = Box::new(twin::Session::open(OPENING));
        let mine = timed(|| {
            for packet in black_box(&ahead) {
                let _ = black_box(library.take(packet));
            }
        });
        let other = timed(|| {
            for packet in black_box(&ahead) {
                let _ = black_box(twin.take(packet));
            }
        });
        let numbers = library.numbers();
        assert_eq!((numbers.next, numbers.end), (twin.next(), twin.end()));
        times.0.push(mine / ahead.len() as f64);
        times.1.push(other / ahead.len() as f64);
    }
    row(
        "keeping alone",
        typical(&mut times.0),
        typical(&mut times.1),
    );
}

/// The next of a list that is gone round.
fn next<'a, T: 'a>(list: &mut impl Iterator<Item = &'a T>) -> &'a T {
    list.next().expect("the list is not empty")
}

/// The same question to both, many times a round and in turn; the answers must be equal.
fn versus<T: PartialEq + std::fmt::Debug>(
    name: &str,
    rounds: usize,
    library: impl FnMut() -> T,
    twin: impl FnMut() -> T,
) {
    against(name, rounds, library, |answer| answer, twin);
}

/// The same where the library's answer is of another shape than the twin's: bringing it into that is not timed.
fn against<A, T: PartialEq + std::fmt::Debug>(
    name: &str,
    rounds: usize,
    mut library: impl FnMut() -> A,
    shaped: impl Fn(A) -> T,
    mut twin: impl FnMut() -> T,
) {
    for _ in 0..100 {
        assert_eq!(shaped(library()), twin(), "{name}");
    }
    let mut times = (Vec::new(), Vec::new());
    for _ in 0..rounds {
        times.0.push(repeated(&mut library));
        times.1.push(repeated(&mut twin));
    }
    row(name, typical(&mut times.0), typical(&mut times.1));
}

fn repeated<T>(ask: &mut impl FnMut() -> T) -> f64 {
    let asking = || {
        for _ in 0..TIMES {
            black_box(ask());
        }
    };
    timed(asking) / TIMES as f64
}
