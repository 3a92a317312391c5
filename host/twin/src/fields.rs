//! Fields and their rules, eight characters at a time where there are many.

/// Eight times the same byte.
const fn each(byte: u8) -> u64 {
    u64::from_ne_bytes([byte; 8])
}

const TOPS: u64 = each(0x80);

/// The top bit of each byte that is at least `least`; every byte of `text` is below 0x80.
const fn at_least(text: u64, least: u8) -> u64 {
    (text + each(0x80 - least)) & TOPS
}

/// Big-endian numbers at a place. With an array of known length and a fixed place no bound is tested.
#[inline(always)]
pub fn be16(bytes: &[u8], at: usize) -> u16 {
    u16::from_be_bytes([bytes[at], bytes[at + 1]])
}

#[inline(always)]
pub fn be32(bytes: &[u8], at: usize) -> u32 {
    u32::from_be_bytes(text(bytes, at))
}

#[inline(always)]
pub fn be64(bytes: &[u8], at: usize) -> u64 {
    u64::from_be_bytes(text(bytes, at))
}

/// `N` bytes at a place.
#[inline(always)]
pub fn text<const N: usize>(bytes: &[u8], at: usize) -> [u8; N] {
    let mut out = [0; N];
    out.copy_from_slice(&bytes[at..at + N]);
    out
}

/// The digits of eight characters, one a byte, or nothing if a character is none of 0-9 and A-Z.
#[inline(always)]
fn digits(text: u64) -> Option<u64> {
    if text & TOPS != 0 {
        return None;
    }
    let zero = at_least(text, b'0');
    let behind_nine = at_least(text, b'9' + 1);
    let letter = at_least(text, b'A');
    let behind_letters = at_least(text, b'Z' + 1);
    if zero != TOPS || behind_nine != letter || behind_letters != 0 {
        return None;
    }
    Some(text - each(b'0') - (letter >> 7) * 7)
}

/// The number that eight digits make in base 36; the first digit is the lowest byte.
#[inline(always)]
fn base36(digits: u64) -> u64 {
    const PAIRS: u64 = 0x00ff_00ff_00ff_00ff;
    const FOURS: u64 = 0x0000_ffff_0000_ffff;
    let pairs = (digits & PAIRS) * 36 + (digits >> 8 & PAIRS);
    let fours = (pairs & FOURS) * 1_296 + (pairs >> 16 & FOURS);
    (fours & 0xffff_ffff) * 1_679_616 + (fours >> 32)
}

/// An order id's value, or nothing if one of the first twelve characters is no digit.
#[inline(always)]
pub fn id_value(id: &[u8; 14]) -> Option<u64> {
    let front = digits(u64::from_le_bytes(text(id, 0)))?;
    let back = (u32::from_le_bytes(text(id, 8)) as u64) << 32 | (each(b'0') >> 32);
    let back = digits(back)?;
    Some(base36(front) * 1_679_616 + base36(back))
}

/// A symbol as two numbers that overlap in two characters: enough to tell two symbols apart.
#[inline(always)]
pub fn symbol_key(symbol: &[u8; 14]) -> (u64, u64) {
    (
        u64::from_le_bytes(text(symbol, 0)),
        u64::from_le_bytes(text(symbol, 6)),
    )
}

#[inline(always)]
pub fn symbol_good(symbol: &[u8; 14]) -> bool {
    let (front, back) = symbol_key(symbol);
    (front | back) & TOPS == 0
        && at_least(front, 0x20) & at_least(back, 0x20) == TOPS
        && at_least(front, 0x7f) | at_least(back, 0x7f) == 0
        && symbol[0] != b' '
}

#[inline(always)]
pub fn side_good(side: u8) -> bool {
    side == b'B' || side == b'S'
}

/// A price of 1 up.
#[inline(always)]
pub fn price_good(price: u64) -> bool {
    price.wrapping_sub(1) < i64::MAX as u64
}

/// An inside's price: 0 says that there is none.
#[inline(always)]
pub fn quote_good(price: u64) -> bool {
    price <= i64::MAX as u64
}

#[inline(always)]
pub fn unsolicited_good(mark: u8) -> bool {
    mark == b'Y' || mark == b'N'
}

#[inline(always)]
pub fn session_good(code: u8) -> bool {
    matches!(code, 1 | 5 | 6)
}
