//! Refusals and faults, by name and by number.

use std::error::Error;
use std::fmt;

/// A number that stands for no refusal, or for no fault.
#[derive(Clone, Copy, Debug, PartialEq, Eq)]
pub struct UnknownNumber(pub u8);

impl fmt::Display for UnknownNumber {
    fn fmt(&self, f: &mut fmt::Formatter<'_>) -> fmt::Result {
        write!(f, "no meaning is known for number {}", self.0)
    }
}

impl Error for UnknownNumber {}

macro_rules! numbered {
    ($(#[$about:meta])* $kind:ident { $($(#[$doc:meta])* $name:ident = $number:literal, $words:literal;)* }) => {
        $(#[$about])*
        #[derive(Clone, Copy, Debug, PartialEq, Eq, PartialOrd, Ord, Hash)]
        #[non_exhaustive]
        #[repr(u8)]
        pub enum $kind {
            $($(#[$doc])* $name = $number,)*
        }

        impl $kind {
            /// All of them, by rising number.
            pub const ALL: &'static [$kind] = &[$($kind::$name),*];

            /// The number that stands for it.
            pub const fn number(self) -> u8 {
                self as u8
            }
        }

        impl TryFrom<u8> for $kind {
            type Error = UnknownNumber;

            #[inline]
            fn try_from(number: u8) -> Result<$kind, UnknownNumber> {
                match number {
                    $($number => Ok($kind::$name),)*
                    _ => Err(UnknownNumber(number)),
                }
            }
        }

        impl fmt::Display for $kind {
            fn fmt(&self, f: &mut fmt::Formatter<'_>) -> fmt::Result {
                f.write_str(match self {
                    $($kind::$name => $words,)*
                })
            }
        }

        impl Error for $kind {}
    };
}

numbered! {
    /// Why a call did nothing. What a refused call was lent is as it stood before.
    ///
    /// 1 to 10 come from packets, and of several that hold the lowest is given; 11 to 14 from questions, reading and
    /// writing. Their numbers are not those of [`Fault`]s.
    ///
    /// ```
    /// use jangsebit::Refusal;
    ///
    /// assert_eq!(Refusal::BeyondWindow.number(), 9);
    /// assert_eq!(Refusal::try_from(9), Ok(Refusal::BeyondWindow));
    /// assert!(Refusal::try_from(0).is_err());
    /// assert_eq!(Refusal::BeyondWindow.to_string(), "the packet reaches past the waiting window");
    /// ```
    Refusal {
        /// A packet of fewer than 12 bytes.
        TooShort = 1, "the packet is shorter than a header";
        /// A packet of more than 1,472 bytes.
        TooLong = 2, "the packet is longer than 1,472 bytes";
        /// The header's size is not that of the packet.
        SizeDiffers = 3, "the stated size is not the packet's";
        /// A bit of the flag is set that has no meaning.
        ReservedFlag = 4, "a reserved bit of the flag is set";
        /// A heartbeat that says it has messages, or that is longer than a header.
        BadHeartbeat = 5, "a heartbeat with messages or more than a header";
        /// No heartbeat, and no message either.
        NoMessages = 6, "no heartbeat and no messages";
        /// A message of a size that is not allowed, or messages that do not fill the packet; in reading one message, bytes
        /// that are not one.
        BadMessage = 7, "a message of a wrong size, or messages that do not fill the packet";
        /// The last message's number takes more than 32 bits.
        NumberTooLarge = 8, "the last number takes more than 32 bits";
        /// The last message's number is 256 or more above next.
        BeyondWindow = 9, "the packet reaches past the waiting window";
        /// A message differs from the copy that waits under its number.
        Conflict = 10, "a message differs from its waiting copy";
        /// What was lent for the answer is too short for it.
        BufferTooShort = 11, "what was lent for the answer is too short";
        /// An id, symbol or side that breaks its rule.
        BadQuestion = 12, "an id, symbol or side breaks its rule";
        /// No such order is live, or no such inside is held.
        NotFound = 13, "there is none";
        /// A field of a message or header breaks its rule, or a message is of a type that is not written.
        BadField = 14, "a field breaks its rule, or the type is not written";
    }
}

numbered! {
    /// Why a message was counted and changed nothing. Of several that hold the lowest is given.
    ///
    /// ```
    /// use jangsebit::Fault;
    ///
    /// assert_eq!(Fault::AlreadyLive.number(), 3);
    /// assert_eq!(Fault::try_from(3), Ok(Fault::AlreadyLive));
    /// assert!(Fault::try_from(9).is_err());
    /// ```
    Fault {
        /// A type that is not listed, in a session that was opened under the strict rule.
        UnlistedType = 1, "the message's type is not listed";
        /// A field that breaks its rule.
        BrokenRule = 2, "a field breaks its rule";
        /// An Add for an order that is live.
        AlreadyLive = 3, "the order to add is live already";
        /// An Add while 256 orders are live.
        OrdersFull = 4, "the order table is full";
        /// An Update, Delete or execution for an order that is not live.
        NoSuchOrder = 5, "the order named is not live";
        /// More executed than the order has shares.
        ExecutedTooMany = 6, "more is executed than the order has";
        /// The shares that the message says remain are not those that do.
        WrongRemaining = 7, "the stated rest is not what remains";
        /// A Top of Book for a new symbol while 64 are held.
        InsidesFull = 8, "the inside table is full";
    }
}

/// A refusal as the library tells it: 0 where there is none.
#[inline]
pub(crate) fn refused(number: u64) -> Result<(), Refusal> {
    if number == 0 {
        return Ok(());
    }
    Err(named(number))
}

/// The refusal of a number that the library told. Each one that it can tell has its name.
#[cold]
pub(crate) fn named(number: u64) -> Refusal {
    let known = u8::try_from(number).map(Refusal::try_from);
    known
        .ok()
        .and_then(Result::ok)
        .expect("the library's refusals are known by number")
}
