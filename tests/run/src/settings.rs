//! The text of a settings file: its greatest length, and texts that can't be read.

use daide_test_support::rows::{holds, same};
use daide_tools::settings_file::{SettingsFileFault, read_text};
use linked_list_allocator::LocalHeap;
use std::alloc::Global;
use std::io;
use std::io::{ErrorKind, Read};
use std::test::Fail;

/// A reader that fails with this kind of error.
#[derive(Drop)]
struct Fails(ErrorKind);

impl Read for Fails {
    fn read(&mut self, _buffer: &mut [u8]) -> io::Result<usize> {
        Err(io::Error::from(self.0))
    }
}

/// A reader that returns one byte at a time, and is interrupted before each.
#[derive(Drop)]
struct Halting {
    bytes: &'static [u8],
    is_next: bool,
}

impl Read for Halting {
    fn read(&mut self, buffer: &mut [u8]) -> io::Result<usize> {
        self.is_next = !self.is_next;
        if self.is_next {
            return Err(ErrorKind::Interrupted.into());
        }
        let count = self.bytes.len().min(buffer.len()).min(1);
        buffer[..count].copy_from_slice(&self.bytes[..count]);
        self.bytes = &self.bytes[count..];
        Ok(count)
    }
}

/// Returns why a settings text is refused, if it is.
fn refusal(alloc: Global, input: &mut impl Read) -> Option<SettingsFileFault<'static>> {
    read_text(alloc, "a file", input).err()
}

/// A text that is refused for this reason.
fn unreadable(kind: ErrorKind) -> Option<SettingsFileFault<'static>> {
    Some(SettingsFileFault::Unreadable("a file", kind))
}

/// Returns why a settings text is refused if a read fails with this kind of error.
fn refusal_at(alloc: Global, kind: ErrorKind) -> Option<SettingsFileFault<'static>> {
    refusal(alloc, &mut Fails(kind))
}

#[test]
fn settings_have_a_longest_text(rt: HostRuntime) -> Result<(), Fail> {
    let mut text = vec![in rt.alloc(); b'#'; 65_536]?;
    same(&refusal(rt.alloc(), &mut text.as_slice()), &None, &65_536)?;
    text.push(b'#')?;
    same(
        &refusal(rt.alloc(), &mut text.as_slice()),
        &unreadable(ErrorKind::FileTooLarge),
        &65_537,
    )
}

#[test]
fn settings_that_cannot_be_read(rt: HostRuntime) -> Result<(), Fail> {
    let mut not_text = b"listen = '\xff'".as_slice();
    let not_utf8 = unreadable(ErrorKind::InvalidData);
    same(&refusal(rt.alloc(), &mut not_text), &not_utf8, &"no text")?;
    for kind in [
        ErrorKind::Other,
        ErrorKind::WouldBlock,
        ErrorKind::ConnectionReset,
    ] {
        same(&refusal_at(rt.alloc(), kind), &unreadable(kind), &kind)?;
    }
    let memory = refusal_at(rt.alloc(), ErrorKind::OutOfMemory);
    same(&memory, &Some(SettingsFileFault::Memory), &"want of memory")
}

/// Returns why a settings text is refused if it is allocated on a heap of this size.
fn refusal_within(alloc: Global, size: usize) -> Result<Option<SettingsFileFault<'static>>, Fail> {
    let heap = LocalHeap::new(alloc, size)?;
    Ok(read_text(&heap, "a file", &mut b"listen = ".as_slice()).err())
}

/// A refused allocation for a settings text is reported as such.
#[test]
fn want_of_memory_for_settings_is_told(rt: HostRuntime) -> Result<(), Fail> {
    let memory = Some(SettingsFileFault::Memory);
    same(&refusal_within(rt.alloc(), 0)?, &memory, &0)?;
    same(&refusal_within(rt.alloc(), 4096)?, &None, &4096)
}

#[test]
fn settings_that_come_in_parts(rt: HostRuntime) -> Result<(), Fail> {
    let mut parts = Halting {
        bytes: b"listen = ",
        is_next: false,
    };
    let text = read_text(rt.alloc(), "a file", &mut parts)?;
    holds(text.as_str() == "listen = ", text.as_str())
}
