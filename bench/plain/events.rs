//! The lines of a log after its head.

use crate::frame::Side;
use crate::head::{Version, plain_number};

/// The most bytes of one line.
pub const MOST: usize = 1024;

/// The number of digits that are decoded together.
const TOGETHER: usize = 32;

/// The event of a line.
#[derive(Clone, Copy)]
pub enum Event {
    /// A side sent this number of bytes.
    Received(Side, usize),
    End(Side),
    Timer,
    Stop,
}

/// A line after the head.
#[derive(Clone, Copy)]
pub enum Line {
    /// A comment or an empty line.
    Quiet,
    /// An event of the session of this number.
    Of(u16, Event),
}

/// Parses a line, and writes a side's bytes to the front of the buffer. Returns `None` for a line of another form.
pub fn read_line(version: Version, sessions: u16, line: &[u8], bytes: &mut [u8; MOST]) -> Option<Line> {
    if line.is_empty() || line.starts_with(b"#") {
        return Some(Line::Quiet);
    }
    if version == Version::Single {
        return Some(Line::Of(1, read_event(line, bytes)?));
    }
    let space = line.iter().position(|byte| *byte == b' ')?;
    let session = plain_number(&line[..space]).filter(|number| (1..=sessions).contains(number))?;
    Some(Line::Of(session, read_event(&line[space + 1..], bytes)?))
}

fn read_event(line: &[u8], bytes: &mut [u8; MOST]) -> Option<Event> {
    if let Some(digits) = line.strip_prefix(b"bot ") {
        return Some(Event::Received(Side::Bot, read_digits(digits, bytes)?));
    }
    if let Some(digits) = line.strip_prefix(b"server ") {
        return Some(Event::Received(Side::Server, read_digits(digits, bytes)?));
    }
    match line {
        b"end bot" => Some(Event::End(Side::Bot)),
        b"end server" => Some(Event::End(Side::Server)),
        b"timer" => Some(Event::Timer),
        b"stop" => Some(Event::Stop),
        _ => None,
    }
}

/// Decodes hexadecimal digits, and returns the number of bytes. Returns `None` if there are none, too many or an odd
/// number of digits, or if there is another character.
fn read_digits(digits: &[u8], bytes: &mut [u8; MOST]) -> Option<usize> {
    if digits.is_empty() || digits.len() > 2 * MOST || digits.len() % 2 == 1 {
        return None;
    }
    let bytes = &mut bytes[..digits.len() / 2];
    let mut all = [0; TOGETHER];
    for (block, decoded) in digits.as_chunks().0.iter().zip(bytes.as_chunks_mut().0) {
        read_block(block, decoded, &mut all);
    }
    match (digits.last_chunk(), bytes.last_chunk_mut()) {
        (Some(block), Some(decoded)) => read_block(block, decoded, &mut all),
        _ => read_few(digits, bytes, &mut all[0]),
    }
    let is_right = all.iter().all(|value| *value < 16);
    is_right.then_some(bytes.len())
}

/// Decodes a block of digits, and adds the bits of their values to `all`. The loops have no branch, so that the
/// compiler decodes the digits in parallel.
#[inline(always)]
fn read_block(digits: &[u8; TOGETHER], bytes: &mut [u8; TOGETHER / 2], all: &mut [u8; TOGETHER]) {
    let mut values = [0; TOGETHER];
    for (value, digit) in values.iter_mut().zip(digits) {
        *value = digit_value(*digit);
    }
    for (bits, value) in all.iter_mut().zip(values) {
        *bits |= value;
    }
    for (byte, pair) in bytes.iter_mut().zip(values.as_chunks().0) {
        // The product has the value of both digits above its low eight bits.
        *byte = (u16::from_le_bytes(*pair).wrapping_mul(0x1001) >> 8) as u8;
    }
}

/// Decodes digits one by one, if they are fewer than a block.
fn read_few(digits: &[u8], bytes: &mut [u8], all: &mut u8) {
    for (byte, pair) in bytes.iter_mut().zip(digits.as_chunks().0) {
        let [high, low] = pair.map(digit_value);
        *all |= high | low;
        *byte = high << 4 | low;
    }
}

/// Returns the value of a hexadecimal digit of either case, and 16 or more for any other byte.
#[inline]
fn digit_value(digit: u8) -> u8 {
    // Maps `0` to `9` to 0 to 9, and every other byte to 16 or more.
    let decimal = digit.wrapping_sub(b'0' + 10).max(6).wrapping_add(10);
    // Maps `A` to `F` and `a` to `f` to 10 to 15, and every other byte to 16 or more.
    let letter = (digit & 0xDF).wrapping_sub(b'A').saturating_add(10);
    decimal.min(letter)
}
