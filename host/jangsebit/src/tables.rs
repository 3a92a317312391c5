//! What a session tells of its tables.

use std::fmt;

/// A side of the book.
#[derive(Clone, Copy, Debug, PartialEq, Eq, Hash)]
#[repr(u8)]
pub enum Side {
    /// Those who buy: the best bid is the highest.
    Bid = b'B',
    /// Those who sell: the best ask is the lowest.
    Ask = b'S',
}

impl From<Side> for u8 {
    fn from(side: Side) -> u8 {
        side as u8
    }
}

/// A symbol's 14 bytes from its text, spaces behind it; nothing where the text is longer.
///
/// ```
/// const OTCM: [u8; 14] = jangsebit::symbol("OTCM").unwrap();
/// assert_eq!(&OTCM, b"OTCM          ");
/// assert_eq!(jangsebit::symbol("A TEXT TOO LONG"), None);
/// ```
pub const fn symbol(text: &str) -> Option<[u8; 14]> {
    let text = text.as_bytes();
    if text.len() > 14 {
        return None;
    }
    let mut symbol = [b' '; 14];
    let mut k = 0;
    while k < text.len() {
        symbol[k] = text[k];
        k += 1;
    }
    Some(symbol)
}

/// A live order, as the library's table holds it.
#[repr(C)]
#[derive(Clone, Copy, PartialEq, Eq)]
pub struct Order {
    /// The value of its id.
    pub id: u64,
    /// In the feed's units.
    pub price: u64,
    /// At least 1.
    pub shares: u32,
    /// The firm's four bytes.
    pub firm: [u8; 4],
    /// The symbol, spaces behind it.
    pub symbol: [u8; 14],
    /// `B` or `S`.
    pub side: u8,
    /// `Y` or `N`.
    pub unsolicited: u8,
}

impl Order {
    /// What a place holds that is not used.
    pub(crate) const NONE: Order = Order {
        id: 0,
        price: 0,
        shares: 0,
        firm: [0; 4],
        symbol: [0; 14],
        side: 0,
        unsolicited: 0,
    };

    #[inline]
    pub(crate) fn from_told(told: [u64; 8]) -> Order {
        let [id, price, shares, firm, front, back, side, unsolicited] = told;
        // The two numbers of a symbol are its first and its last eight bytes: two of them stand in both.
        let mut symbol = [0; 14];
        symbol[..8].copy_from_slice(&front.to_be_bytes());
        symbol[6..].copy_from_slice(&back.to_be_bytes());
        Order {
            id,
            price,
            shares: shares as u32,
            firm: (firm as u32).to_be_bytes(),
            symbol,
            side: side as u8,
            unsolicited: unsolicited as u8,
        }
    }
}

impl fmt::Debug for Order {
    fn fmt(&self, f: &mut fmt::Formatter<'_>) -> fmt::Result {
        f.debug_struct("Order")
            .field("id", &self.id)
            .field("price", &self.price)
            .field("shares", &self.shares)
            .field("firm", &Text(&self.firm))
            .field("symbol", &Text(&self.symbol))
            .field("side", &Text(&[self.side]))
            .field("unsolicited", &Text(&[self.unsolicited]))
            .finish()
    }
}

/// The inside of a symbol: the fields of its last Top of Book.
#[derive(Clone, Copy, PartialEq, Eq)]
pub struct Inside {
    /// The symbol that was asked for.
    pub symbol: [u8; 14],
    /// The message's time, as it stood there.
    pub time: u32,
    /// The best ask; 0 where there is none.
    pub ask: u64,
    /// The shares at the ask.
    pub ask_volume: u32,
    /// The best bid; 0 where there is none.
    pub bid: u64,
    /// The shares at the bid.
    pub bid_volume: u32,
    /// `Y` or `N`.
    pub unsolicited: u8,
}

impl Inside {
    #[inline]
    pub(crate) fn from_told(symbol: [u8; 14], told: [u64; 6]) -> Inside {
        let [ask, bid, time, ask_volume, bid_volume, unsolicited] = told;
        Inside {
            symbol,
            time: time as u32,
            ask,
            ask_volume: ask_volume as u32,
            bid,
            bid_volume: bid_volume as u32,
            unsolicited: unsolicited as u8,
        }
    }
}

impl fmt::Debug for Inside {
    fn fmt(&self, f: &mut fmt::Formatter<'_>) -> fmt::Result {
        f.debug_struct("Inside")
            .field("symbol", &Text(&self.symbol))
            .field("time", &self.time)
            .field("ask", &self.ask)
            .field("ask_volume", &self.ask_volume)
            .field("bid", &self.bid)
            .field("bid_volume", &self.bid_volume)
            .field("unsolicited", &Text(&[self.unsolicited]))
            .finish()
    }
}

/// The best price of a symbol's side, and what is there.
#[derive(Clone, Copy, Debug, PartialEq, Eq)]
pub struct Level {
    /// The highest bid, or the lowest ask.
    pub price: u64,
    /// The sum of shares of all orders at that price.
    pub shares: u64,
    /// How many orders these are.
    pub orders: u64,
}

/// Bytes of a text field, printed as characters.
struct Text<'a>(&'a [u8]);

impl fmt::Debug for Text<'_> {
    fn fmt(&self, f: &mut fmt::Formatter<'_>) -> fmt::Result {
        write!(f, "\"{}\"", self.0.escape_ascii())
    }
}
