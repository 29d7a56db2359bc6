//! Messages as text, written as frames. The codes of the expected bytes are those of docs/PROTOCOL.md.

use daide_test_support::fakes::{FailsAtRead, FailsAtWrite};
use daide_test_support::rows::{holds, same};
use daide_test_support::words::two_words;
use daide_text::{TextFault, write_frames};
use linked_list_allocator::LocalHeap;
use std::alloc::{Allocator, Global};
use std::io::{ErrorKind, Read, Write};
use std::test::Fail;

/// Lines of text, with XYZ as #4a40 and QQQ as #4a41 | the output | the text of the fault, if there is one.
type Row = (&'static str, &'static str, &'static str);

#[rattlefmt::skip]
const ROWS: &[Row] = &[
    // lines and their line ends
    ("", "", ""),
    ("GOF", "02 00 00 02 48 03\n", ""),
    ("GOF\n", "02 00 00 02 48 03\n", ""),
    ("GOF\r\n", "02 00 00 02 48 03\n", ""),
    ("GOF\r", "02 00 00 02 48 03\n", ""),
    ("GOF\n\nYES", "02 00 00 02 48 03\n02 00 00 00\n02 00 00 02 48 1C\n", ""),
    (" \t\r\n", "02 00 00 00\n", ""),
    // items, and blanks between them
    ("GOF (", "02 00 00 04 48 03 40 00\n", ""),
    ("\tGOF(  GOF)\n", "02 00 00 08 48 03 40 00 48 03 40 01\n", ""),
    ("BRA KET", "02 00 00 04 40 00 40 01\n", ""),
    ("8191 -8192 -1 0 007 -0", "02 00 00 0C 1F FF 20 00 3F FF 00 00 00 07 00 00\n", ""),
    ("#4a12 #4A1f #fFfF #4803", "02 00 00 08 4A 12 4A 1F FF FF 48 03\n", ""),
    ("NME('a ~')('')", "02 00 00 10 48 0C 40 00 4B 61 4B 20 4B 7E 40 01 40 00 40 01\n", ""),
    ("'a''('GOF", "02 00 00 06 4B 61 4B 28 48 03\n", ""),
    ("XYZ ( ENG ) QQQ", "02 00 00 0A 4A 40 40 00 41 01 40 01 4A 41\n", ""),
    // words that are not items, at various columns
    ("gof", "", "line 1: not a message: 1"),
    ("GOF\n GOF gof", "02 00 00 02 48 03\n", "line 2: not a message: 6"),
    ("GOFX", "", "line 1: not a message: 1"),
    ("GOF 1a", "", "line 1: not a message: 5"),
    ("(GO", "", "line 1: not a message: 2"),
    ("8192", "", "line 1: not a message: 1"),
    ("1 -8193", "", "line 1: not a message: 3"),
    ("99999999999999999999", "", "line 1: not a message: 1"),
    ("-", "", "line 1: not a message: 1"),
    ("+1", "", "line 1: not a message: 1"),
    ("#4a1", "", "line 1: not a message: 1"),
    ("#4a123", "", "line 1: not a message: 1"),
    ("#4g12", "", "line 1: not a message: 1"),
    ("GOF 'abc", "", "line 1: not a message: 5"),
    ("GOF'", "", "line 1: not a message: 4"),
    ("'a\tb'", "", "line 1: not a message: 1"),
    ("'\u{e9}'", "", "line 1: not a message: 1"),
    ("GOF\rGOF", "", "line 1: not a message: 1"),
    ("ABC", "", "line 1: not a message: 1"),
];

/// Writes the frames of a text, and returns the fault's text.
fn fault_of<R: Read, W: Write>(
    alloc: Global,
    reader: &mut R,
    writer: &mut W,
) -> Result<String, Fail> {
    match write_frames(alloc, &two_words(), reader, writer) {
        Ok(()) => Ok(String::new(alloc)),
        Err(fault) => Ok(fault.to_string(alloc)?),
    }
}

/// Checks the frames and the fault of a row.
fn assert_row(alloc: Global, row: &Row) -> Result<(), Fail> {
    let (text, frames, fault) = row;
    let mut input = text.as_bytes();
    let mut output = Vec::new(alloc);
    let found = fault_of(alloc, &mut input, &mut output)?;
    let is_so = output.as_slice() == frames.as_bytes();
    same(&(is_so, found.as_str()), &(true, *fault), row)
}

#[test]
fn text_is_written_as_frames(rt: HostRuntime) -> Result<(), Fail> {
    for row in ROWS {
        assert_row(rt.alloc(), row)?;
    }
    Ok(())
}

/// A byte | how often it is repeated as one line | the text of the fault.
const LONG: &[(u8, u64, &str)] = &[
    (b'(', 32_763, ""),
    (b'(', 32_764, "line 1: too long"),
    (b' ', 400_000, ""),
    (b' ', 400_001, "line 1: too long"),
];

/// Checks that a line of equal bytes has this fault.
fn assert_long(alloc: Global, byte: u8, count: u64, fault: &str) -> Result<(), Fail> {
    let mut input = std::io::repeat(byte).take(count);
    let mut output = Vec::new(alloc);
    let found = fault_of(alloc, &mut input, &mut output)?;
    let is_written = output.len() > 0;
    same(
        &(found.as_str(), is_written),
        &(fault, fault.is_empty()),
        &count,
    )
}

#[test]
fn lines_and_messages_have_bounds(rt: HostRuntime) -> Result<(), Fail> {
    for (byte, count, fault) in LONG {
        assert_long(rt.alloc(), *byte, *count, fault)?;
    }
    Ok(())
}

/// Two lines of text. Their frames follow.
const LINES: &[u8] = b"GOF\nYES\n";

const FRAMES: &[u8] = b"02 00 00 02 48 03\n02 00 00 02 48 1C\n";

/// Checks that after a failed read the frames of the lines before are written.
#[test]
fn failed_reads_come_after_the_frames_before(rt: HostRuntime) -> Result<(), Fail> {
    for reads in 0..9usize {
        let mut input = FailsAtRead {
            bytes: LINES,
            reads,
            kind: ErrorKind::Interrupted,
        };
        let mut output = Vec::new(rt.alloc());
        let found = write_frames(rt.alloc(), &two_words(), &mut input, &mut output);
        let frames = if reads < 4 {
            0
        } else if reads < 8 {
            18
        } else {
            36
        };
        let is_so = output.as_slice() == &FRAMES[..frames];
        same(&(found, is_so), &(Err(TextFault::Read), true), &reads)?;
    }
    Ok(())
}

/// Checks that a failed write is a fault, and that a prefix of the frames was accepted.
#[test]
fn failed_writes_are_faults(rt: HostRuntime) -> Result<(), Fail> {
    for writes in 0..12usize {
        let mut input = LINES;
        let mut output = FailsAtWrite {
            taken: Vec::new(rt.alloc()),
            writes,
        };
        let found = write_frames(rt.alloc(), &two_words(), &mut input, &mut output);
        let want = if writes < 10 {
            Err(TextFault::Write)
        } else {
            Ok(())
        };
        let is_front = FRAMES.starts_with(output.taken.as_slice());
        same(&(found, is_front), &(want, true), &writes)?;
    }
    Ok(())
}

/// Returns the result on a heap, and whether the output is a prefix of the frames.
fn outcome_on<A: Allocator + Copy>(alloc: Global, heap: A) -> (Result<(), TextFault>, bool) {
    let mut input = LINES;
    let mut output = Vec::new(alloc);
    let found = write_frames(heap, &two_words(), &mut input, &mut output);
    (found, FRAMES.starts_with(output.as_slice()))
}

/// Over heaps of growing size: a refused allocation is the only fault, and the output is a prefix of the frames.
#[test]
fn growths_are_refused_in_turn(rt: HostRuntime) -> Result<(), Fail> {
    let mut refused = false;
    let mut made = false;
    for sixteens in 1..24usize {
        let heap = LocalHeap::new(rt.alloc(), sixteens * 16)?;
        let (found, is_front) = outcome_on(rt.alloc(), &heap);
        match found {
            Ok(()) => made = true,
            Err(TextFault::Memory) => refused = true,
            Err(_) => return Err(Fail::new("a fault of memory, or none")),
        }
        same(&(is_front, heap.used()), &(true, 0), &sixteens)?;
    }
    holds(refused && made, "refused, and made")
}
