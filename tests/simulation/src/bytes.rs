//! A queue of bytes.

use std::alloc::Global;

/// The most bytes before the first one that are kept.
const MOST_BEHIND: usize = 65_536;

/// A queue of bytes.
#[derive(Drop)]
pub struct Bytes {
    bytes: Vec<u8>,
    from: usize,
}

impl Bytes {
    /// Creates an empty queue.
    pub fn new(alloc: Global) -> Bytes {
        Bytes {
            bytes: Vec::new(alloc),
            from: 0,
        }
    }

    /// Returns the bytes.
    pub fn as_slice(&self) -> &[u8] {
        self.bytes.get(self.from..).unwrap_or(&[])
    }

    /// Returns their number.
    pub fn len(&self) -> usize {
        self.bytes.len().saturating_sub(self.from)
    }

    /// Returns whether there are none.
    pub fn is_empty(&self) -> bool {
        self.bytes.len() <= self.from
    }

    /// Removes all.
    pub fn clear(&mut self) {
        self.bytes.clear();
        self.from = 0;
    }

    /// Appends bytes. Returns false if memory is refused.
    pub fn push(&mut self, bytes: &[u8]) -> bool {
        self.bytes.extend_from_slice(bytes).is_ok()
    }

    /// Removes the first `count`, or all if there are fewer.
    pub fn skip(&mut self, count: usize) {
        let from = self.from.saturating_add(count).min(self.bytes.len());
        self.from = from;
        if from == self.bytes.len() {
            self.clear();
        } else if from > MOST_BEHIND {
            self.bytes.drain(..from);
            self.from = 0;
        }
    }

    /// Keeps the first `count`, or all if there are fewer.
    pub fn truncate(&mut self, count: usize) {
        let end = self.from.saturating_add(count);
        self.bytes.truncate(end);
    }

    /// Moves the first bytes to a buffer, as many as fit, but at most this many. Returns their number.
    pub fn take(&mut self, buffer: &mut [u8], most: usize) -> usize {
        let bytes = self.as_slice();
        let count = bytes.len().min(buffer.len()).min(most);
        buffer[..count].copy_from_slice(&bytes[..count]);
        self.skip(count);
        count
    }

    /// Moves all bytes of another queue to the end of this one, or the first `most`. Returns their number.
    pub fn append(&mut self, other: &mut Bytes, most: usize) -> usize {
        let bytes = other.as_slice();
        let count = bytes.len().min(most);
        self.push(&bytes[..count]);
        other.skip(count);
        count
    }

    /// Returns whether these are the first bytes.
    pub fn begins_with(&self, bytes: &[u8]) -> bool {
        self.as_slice().starts_with(bytes)
    }
}
