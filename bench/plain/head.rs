//! The lines of a log before its events.

use crate::fault::LogFault;
use crate::lines::Lines;
use crate::report::Report;
use crate::words::{Level, Limits, MAX_WORDS, Operand, Slot, Word};
use std::io::{Read, Write};

/// The most sessions of a match.
const MAX_SESSIONS: u16 = 256;

/// The version of a log: that of one session, or that of a match.
#[derive(Clone, Copy, PartialEq, Eq)]
pub enum Version {
    Single,
    Match,
}

/// The contents of a log's head.
pub struct Preamble {
    pub version: Version,
    pub limits: Limits,
    pub sessions: u16,
}

impl Preamble {
    /// Reads the head of a log.
    pub fn read<R: Read, W: Write>(lines: &mut Lines<R>, report: &mut Report<W>) -> Result<Preamble, LogFault> {
        let version = next(lines, report, version_of)?;
        let (mut limits, sessions, words) = next(lines, report, |line| match version {
            Version::Single => single_config(line),
            Version::Match => match_config(line),
        })?;
        for _ in 0..words {
            let word = next(lines, report, |line| word_of(line).filter(|word| word.is_accepted(&limits.words)))?;
            limits.words.push(word);
        }
        Ok(Preamble { version, limits, sessions })
    }
}

/// Reads the next line, and parses it.
fn next<T, R: Read, W: Write>(
    lines: &mut Lines<R>,
    report: &mut Report<W>,
    parse: impl FnOnce(&[u8]) -> Option<T>,
) -> Result<T, LogFault> {
    let number = lines.count() + 1;
    let is_read = lines.read(report)?;
    let parsed = if is_read { parse(lines.line()) } else { None };
    parsed.ok_or(LogFault::BadLine(number))
}

fn version_of(line: &[u8]) -> Option<Version> {
    match line {
        b"daide-log 1" => Some(Version::Single),
        b"daide-log 2" => Some(Version::Match),
        _ => None,
    }
}

/// Parses `config L B D`.
fn single_config(line: &[u8]) -> Option<(Limits, u16, u16)> {
    let [level, body, depth] = parts(line.strip_prefix(b"config ")?)?;
    let limits = Limits::checked(plain_number(level)?, plain_number(body)?, plain_number(depth)?)?;
    Some((limits, 1, 0))
}

/// Parses `config L B D S W`.
fn match_config(line: &[u8]) -> Option<(Limits, u16, u16)> {
    let [level, body, depth, sessions, words] = parts(line.strip_prefix(b"config ")?)?;
    let limits = Limits::checked(plain_number(level)?, plain_number(body)?, plain_number(depth)?)?;
    let sessions = plain_number(sessions).filter(|number| (1..=MAX_SESSIONS).contains(number))?;
    let words = plain_number(words).filter(|number| *number <= MAX_WORDS)?;
    Some((limits, sessions, words))
}

/// Parses `word NAME CODE SLOT LEVEL OPERAND`.
fn word_of(line: &[u8]) -> Option<Word> {
    let [name, code, slot, level, operand] = parts(line.strip_prefix(b"word ")?)?;
    Some(Word {
        name: name.try_into().ok()?,
        code: code_of(code)?,
        slot: Slot::by_name(slot)?,
        level: Level::of(plain_number(level)?)?,
        operand: Operand::by_name(operand)?,
    })
}

/// Parses a token of four hexadecimal digits.
fn code_of(digits: &[u8]) -> Option<u16> {
    let is_right = digits.len() == 4 && digits.iter().all(u8::is_ascii_hexdigit);
    let digits = std::str::from_utf8(digits).ok().filter(|_| is_right)?;
    u16::from_str_radix(digits, 16).ok()
}

/// Parses a number of 16 bits without a sign and without leading zeros.
pub fn plain_number(digits: &[u8]) -> Option<u16> {
    let is_plain = digits.iter().all(u8::is_ascii_digit) && (digits.len() == 1 || !digits.starts_with(b"0"));
    std::str::from_utf8(digits).ok().filter(|_| is_plain)?.parse().ok()
}

/// Splits a line at its spaces, into exactly this number of parts.
fn parts<const N: usize>(line: &[u8]) -> Option<[&[u8]; N]> {
    let mut parts = line.split(|byte| *byte == b' ');
    let mut found = [&line[..0]; N];
    for part in &mut found {
        *part = parts.next()?;
    }
    parts.next().is_none().then_some(found)
}
