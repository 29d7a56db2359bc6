//! The lines that a run writes on standard error.

use crate::network::World;
use std::alloc::Global;
use std::io::{ErrorKind, Write};
use std::{io, mem};

/// The lines of a run. Now and then one is refused.
#[derive(Drop)]
pub struct Lines<'n> {
    world: &'n World,
    line: Vec<u8>,
    is_whole: bool,
    /// Whether the last line was refused.
    is_lost: bool,
    /// The line before the last one, and whether it was refused.
    earlier: (Vec<u8>, bool),
    /// The number of lines, with those that were refused.
    pub count: u64,
}

/// How the line of a session begins.
const BEGINS: &[u8] = b"daide-gate: session ";

/// Returns what follows the digits and points of a text.
fn after_number(text: &[u8]) -> &[u8] {
    let mut rest = text;
    while let [b'0'..=b'9' | b'.', others @ ..] = rest {
        rest = others;
    }
    rest
}

impl<'n> Lines<'n> {
    /// Creates them.
    pub fn new(alloc: Global, world: &'n World) -> Lines<'n> {
        Lines {
            world,
            line: Vec::new(alloc),
            is_whole: true,
            is_lost: false,
            earlier: (Vec::new(alloc), false),
            count: 0,
        }
    }

    /// Begins a line. Returns whether it is refused.
    fn begins(&mut self) -> bool {
        mem::swap(&mut self.earlier.0, &mut self.line);
        self.earlier.1 = self.is_lost;
        self.line.clear();
        self.is_whole = false;
        self.count = self.count.saturating_add(1);
        self.is_lost = match self.world.state.try_borrow_mut() {
            Ok(mut state) => state.random.one_in(40),
            Err(_) => false,
        };
        self.is_lost
    }

    /// Returns whether the last line is that of a session that ended by this cause, or was refused.
    pub fn has_end_by(&self, cause: &str) -> bool {
        if self.is_lost {
            return true;
        }
        let Some(rest) = self.line.as_slice().strip_prefix(BEGINS) else {
            return false;
        };
        let Some(rest) = after_number(rest).strip_prefix(b" ended") else {
            return false;
        };
        // A session has no time if the clock could not be read.
        let rest = match rest.strip_prefix(b" after ") {
            Some(time) => after_number(time).strip_prefix(b" s").unwrap_or(&[]),
            None => rest,
        };
        match rest.strip_prefix(b": ") {
            Some(rest) => rest.starts_with(cause.as_bytes()),
            None => false,
        }
    }

    /// Returns whether the last line begins with this text, or was refused.
    pub fn has(&self, text: &str) -> bool {
        self.is_lost || self.line.as_slice().starts_with(text.as_bytes())
    }

    /// Returns whether the line before the last one begins with this text, or was refused.
    pub fn had(&self, text: &str) -> bool {
        let (line, is_lost) = &self.earlier;
        *is_lost || line.as_slice().starts_with(text.as_bytes())
    }
}

impl Write for Lines<'_> {
    fn write(&mut self, bytes: &[u8]) -> io::Result<usize> {
        if self.is_whole && self.begins() {
            self.is_whole = true;
            return Err(ErrorKind::WouldBlock.into());
        }
        self.line.extend_from_slice(bytes)?;
        self.is_whole = bytes.ends_with(b"\n");
        Ok(bytes.len())
    }

    fn flush(&mut self) -> io::Result<()> {
        Ok(())
    }
}
