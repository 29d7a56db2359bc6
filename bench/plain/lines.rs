//! The lines of a log, one at a time.

use crate::fault::LogFault;
use crate::report::Report;
use std::io::{BufRead, BufReader, Read, Write};

/// The most lines of a log.
const MOST_LINES: u32 = 1_000_000;

/// The shortest length that is too long for a line.
const TOO_LONG: usize = 2101;

/// A reader of lines.
pub struct Lines<R> {
    reader: BufReader<R>,
    /// The length of the last line, if it is whole in the buffer of the reader.
    held: Option<usize>,
    /// The last line, if it isn't.
    copied: Vec<u8>,
    count: u32,
}

impl<R: Read> Lines<R> {
    pub fn new(reader: R) -> Lines<R> {
        Lines { reader: BufReader::new(reader), held: None, copied: Vec::with_capacity(TOO_LONG), count: 0 }
    }

    /// Returns the number of the last line, counted from 1.
    pub fn count(&self) -> u32 {
        self.count
    }

    /// Returns the last line, without its end.
    pub fn line(&self) -> &[u8] {
        match self.held {
            Some(end) => without_cr(&self.reader.buffer()[..end]),
            None => &self.copied,
        }
    }

    /// Reads the next line, and returns whether there is one.
    pub fn read<W: Write>(&mut self, report: &mut Report<W>) -> Result<bool, LogFault> {
        if let Some(end) = self.held {
            self.reader.consume(end + 1);
        }
        self.held = if self.count < MOST_LINES { line_end(front(self.reader.buffer(), TOO_LONG)) } else { None };
        if self.held.is_none() {
            return self.copy(report);
        }
        self.count += 1;
        Ok(true)
    }

    /// Reads a line that is not whole in the buffer. Writes the page of the report before each read of the input.
    fn copy<W: Write>(&mut self, report: &mut Report<W>) -> Result<bool, LogFault> {
        self.copied.clear();
        loop {
            if self.reader.buffer().is_empty() {
                report.flush()?;
                if self.reader.fill_buf().map_err(|_| LogFault::Read)?.is_empty() {
                    self.count += u32::from(!self.copied.is_empty());
                    return Ok(!self.copied.is_empty());
                }
            }
            if self.count == MOST_LINES {
                return Err(LogFault::TooManyLines);
            }
            if self.copy_held() {
                self.count += 1;
                return Ok(true);
            }
            if self.copied.len() == TOO_LONG {
                return Err(LogFault::LineTooLong(self.count + 1));
            }
        }
    }

    /// Moves bytes of the buffer to the line, up to a line feed or until the line is too long. Returns whether the line
    /// ended, and drops its end.
    fn copy_held(&mut self) -> bool {
        let front = front(self.reader.buffer(), TOO_LONG - self.copied.len());
        let end = line_end(front);
        let count = end.unwrap_or(front.len());
        self.copied.extend_from_slice(&front[..count]);
        self.reader.consume(count + usize::from(end.is_some()));
        if end.is_some() {
            self.copied.pop_if(|byte| *byte == b'\r');
        }
        end.is_some()
    }
}

/// Returns at most this number of bytes from the front.
fn front(bytes: &[u8], most: usize) -> &[u8] {
    &bytes[..bytes.len().min(most)]
}

/// Returns a line without the carriage return at its end.
fn without_cr(line: &[u8]) -> &[u8] {
    line.strip_suffix(b"\r").unwrap_or(line)
}

/// Returns the index of the first line feed.
fn line_end(bytes: &[u8]) -> Option<usize> {
    let mut passed = passed_blocks::<32>(bytes);
    passed += passed_blocks::<8>(&bytes[passed..]);
    bytes[passed..].iter().position(is_line_feed).map(|place| passed + place)
}

/// Returns the number of bytes in the blocks before the first one with a line feed. Compares the bytes of a block
/// without a branch, so that the compiler does so in parallel.
fn passed_blocks<const N: usize>(bytes: &[u8]) -> usize {
    let (blocks, _) = bytes.as_chunks::<N>();
    let has_end = |block: &[u8; N]| block.iter().fold(false, |found, byte| found | is_line_feed(byte));
    N * blocks.iter().position(has_end).unwrap_or(blocks.len())
}

fn is_line_feed(byte: &u8) -> bool {
    *byte == b'\n'
}
