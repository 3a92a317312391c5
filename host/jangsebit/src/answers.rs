//! The answers that a call leaves in a host's lists, and the questions that it reads from one.

use crate::refusal::{refused, Refusal};
use crate::tables::Level;
use std::fmt;

/// What an accepted packet did, or a call to apply what waits.
#[derive(Clone, Copy, Debug, PartialEq, Eq)]
pub struct Applied {
    /// How many messages were applied: next rose by as much. 0 where the message at next has not come, and where none
    /// was asked for.
    pub messages: u64,
}

/// What an accepted packet did that was only kept.
#[derive(Clone, Copy, Debug, PartialEq, Eq)]
pub struct Kept {
    /// How many of its numbers wait now and did not before. 0 for a heartbeat, and where all are old or waited already.
    pub fresh: u64,
}

/// What a burst came to.
#[derive(Clone, Copy, Debug, PartialEq, Eq)]
pub struct Burst {
    /// How many packets were taken, or kept.
    pub packets: usize,
    /// How many bytes these are with their lengths: what was not looked at begins there.
    pub bytes: usize,
}

/// The answer to one packet of a burst.
///
/// A host lends a list of them, `vec![Answer::default(); packets]`, and may use it again for the next burst.
#[repr(transparent)]
#[derive(Clone, Copy, Default, PartialEq, Eq)]
pub struct Answer([u64; 4]);

impl Answer {
    /// Of a [`burst`](crate::Session::burst): what [`take`](crate::Session::take) would have answered to this packet.
    #[inline]
    pub fn result(&self) -> Result<Applied, Refusal> {
        self.counted().map(|messages| Applied { messages })
    }

    /// Of a [`keep_burst`](crate::Session::keep_burst): what [`keep`](crate::Session::keep) would have answered to this
    /// packet. Which of the two calls an answer is from, the host knows.
    #[inline]
    pub fn fresh(&self) -> Result<Kept, Refusal> {
        self.counted().map(|fresh| Kept { fresh })
    }

    #[inline]
    fn counted(&self) -> Result<u64, Refusal> {
        refused(self.0[1])?;
        Ok(self.0[0])
    }

    /// next behind this packet.
    #[inline]
    pub fn next(&self) -> u64 {
        self.0[2]
    }

    /// end behind this packet.
    #[inline]
    pub fn end(&self) -> u64 {
        self.0[3]
    }
}

impl fmt::Debug for Answer {
    fn fmt(&self, f: &mut fmt::Formatter<'_>) -> fmt::Result {
        f.debug_struct("Answer")
            .field("counted", &self.counted())
            .field("next", &self.next())
            .field("end", &self.end())
            .finish()
    }
}

/// A question for [`quotes`](crate::Session::quotes): the best price of which symbol, on which side?
#[repr(C)]
#[derive(Clone, Copy, Debug, PartialEq, Eq)]
pub struct Question {
    /// The symbol, spaces behind it.
    pub symbol: [u8; 14],
    /// `B` or `S`.
    pub side: u8,
}

impl Question {
    /// For a [`Side`](crate::Side), or the byte that the feed has for it.
    #[inline]
    pub fn new(symbol: [u8; 14], side: impl Into<u8>) -> Question {
        Question {
            symbol,
            side: side.into(),
        }
    }
}

/// The reply to one question of many.
#[repr(transparent)]
#[derive(Clone, Copy, Default, PartialEq, Eq)]
pub struct Quote([u64; 4]);

impl Quote {
    /// What [`best`](crate::Session::best) answers to this question.
    #[inline]
    pub fn level(&self) -> Result<Level, Refusal> {
        let [refusal, price, shares, orders] = self.0;
        refused(refusal)?;
        Ok(Level {
            price,
            shares,
            orders,
        })
    }
}

impl fmt::Debug for Quote {
    fn fmt(&self, f: &mut fmt::Formatter<'_>) -> fmt::Result {
        f.debug_tuple("Quote").field(&self.level()).finish()
    }
}
