//! Runs and `show` if a read, a write or an allocation is refused.

use daide_commands::answer;
use daide_frame::side::Side;
use daide_gate::frame_view::{ShowFault, show};
use daide_grammar::level::Level;
use daide_test_support::fakes::{FailsAtRead, FailsAtWrite};
use daide_test_support::rows::{holds, same};
use linked_list_allocator::LocalHeap;
use std::alloc::Global;
use std::io;
use std::io::{ErrorKind, Read};
use std::test::Fail;

/// An endless input, which counts the bytes that it returned.
#[derive(Drop)]
struct HasNoEnd {
    given: u64,
}

impl Read for HasNoEnd {
    fn read(&mut self, buffer: &mut [u8]) -> io::Result<usize> {
        let count = buffer.len().min(1000);
        buffer[..count].fill(b'0');
        self.given = self.given.wrapping_add(count as u64);
        Ok(count)
    }
}

/// The result of `show`.
type Shown = Result<bool, ShowFault>;

/// A frame with an unclosed bracket.
const FRAME: &[u8] = b"0200000448034000";

/// The text shown for `FRAME`.
const SHOWN: &[u8] = b"DM 4\nGOF (\nPRN\nPRN ( GOF ( )\n";

/// Checks the result and the output of `show` for `FRAME`, with a reader that fails at a read.
fn check_reads(alloc: Global, reads: usize, want: Shown, written: &[u8]) -> Result<(), Fail> {
    let mut reader = FailsAtRead {
        bytes: FRAME,
        reads,
        kind: ErrorKind::Interrupted,
    };
    let mut output = Vec::new(alloc);
    let answer = show(alloc, Side::Bot, Level::L0, &mut reader, &mut output);
    same(&answer, &want, &reads)?;
    same(&output.as_slice(), &written, &reads)
}

#[test]
fn each_read_refused_in_turn(rt: HostRuntime) -> Result<(), Fail> {
    for reads in 0..7 {
        check_reads(rt.alloc(), reads, Err(ShowFault::Read), b"")?;
    }
    check_reads(rt.alloc(), 7, Ok(false), SHOWN)
}

/// Shows `FRAME` with a writer that fails at a write. Returns the result, and the bytes that the writer accepted.
fn taken_of(alloc: Global, writes: usize) -> (Shown, Vec<u8>) {
    let mut reader = FRAME;
    let mut writer = FailsAtWrite {
        taken: Vec::new(alloc),
        writes,
    };
    let answer = show(alloc, Side::Bot, Level::L0, &mut reader, &mut writer);
    (answer, writer.taken)
}

/// Checks that a failed write is returned, and that a prefix of the text was accepted before it.
fn check_writes(alloc: Global, writes: usize) -> Result<(), Fail> {
    let (answer, taken) = taken_of(alloc, writes);
    same(&answer, &Err(ShowFault::Write), &writes)?;
    holds(SHOWN.starts_with(taken.as_slice()), "the start")
}

#[test]
fn each_write_refused_in_turn(rt: HostRuntime) -> Result<(), Fail> {
    for writes in 0..8 {
        check_writes(rt.alloc(), writes)?;
    }
    let (answer, taken) = taken_of(rt.alloc(), 8);
    same(&answer, &Ok(false), &8)?;
    same(&taken.as_slice(), &SHOWN, &8)
}

/// Shows `FRAME` with its memory on a heap.
fn show_on(heap: &LocalHeap, output: &mut Vec<u8>) -> Shown {
    let mut reader = FRAME;
    show(heap, Side::Bot, Level::L0, &mut reader, output)
}

/// Returns whether a heap has enough memory for `show`. If not, checks that it returns `Memory` and writes nothing.
fn is_shown_on(alloc: Global, heap: &LocalHeap) -> Result<bool, Fail> {
    let mut output = Vec::new(alloc);
    match show_on(heap, &mut output) {
        Ok(is_relay) => {
            holds(!is_relay && output.as_slice() == SHOWN, "shown")?;
            Ok(true)
        }
        Err(fault) => {
            holds(fault == ShowFault::Memory && output.is_empty(), "refused")?;
            Ok(false)
        }
    }
}

/// The same on a heap of this size, which must be empty at the end.
fn is_shown_within(alloc: Global, size: usize) -> Result<bool, Fail> {
    let heap = LocalHeap::new(alloc, size)?;
    let is_shown = is_shown_on(alloc, &heap)?;
    holds(heap.used() == 0, "the heap")?;
    Ok(is_shown)
}

/// The heap allocates multiples of 16 bytes, so each allocation is the first that does not fit at some size. The cutter
/// allocates its 65,526 bytes at once, so the sizes between the two ranges refuse nothing new.
#[test]
fn growth_refused_in_turn(rt: HostRuntime) -> Result<(), Fail> {
    for unit in 0..32usize {
        same(&is_shown_within(rt.alloc(), 16 * unit)?, &false, &unit)?;
    }
    for unit in 4088..4150usize {
        is_shown_within(rt.alloc(), 16 * unit)?;
    }
    same(&is_shown_within(rt.alloc(), 16 * 4150)?, &true, &4150)
}

#[test]
fn want_of_memory_has_its_text(rt: HostRuntime) -> Result<(), Fail> {
    let text = ShowFault::Memory.to_string(rt.alloc())?;
    same(&text.as_str(), &"out of memory", &"memory")
}

#[test]
fn input_without_end_is_left(rt: HostRuntime) -> Result<(), Fail> {
    let mut reader = HasNoEnd { given: 0 };
    let mut output = Vec::new(rt.alloc());
    let answer = show(rt.alloc(), Side::Bot, Level::L0, &mut reader, &mut output);
    same(&answer, &Err(ShowFault::TooLong), &"no end")?;
    holds(
        output.is_empty() && reader.given == 200_001,
        "what was read",
    )
}

/// Checks that a failed read of this run is reported.
fn check_failed_read(rt: &HostRuntime, words: &[&str]) -> Result<(), Fail> {
    let mut reader = FailsAtRead {
        bytes: b"",
        reads: 0,
        kind: ErrorKind::Interrupted,
    };
    let mut output = Vec::new(rt.alloc());
    let mut errors = Vec::new(rt.alloc());
    let status = answer(rt, words, &mut reader, &mut output, &mut errors)?;
    holds(output.is_empty() && status == 1, "the status")?;
    let told = b"daide-gate: input could not be read\n".as_slice();
    same(&errors.as_slice(), &told, &words)
}

#[test]
fn failed_read_is_told(rt: HostRuntime) -> Result<(), Fail> {
    check_failed_read(&rt, &["daide-gate"])?;
    check_failed_read(&rt, &["daide-gate", "show", "--explain"])?;
    check_failed_read(&rt, &["daide-gate", "check"])?;
    check_failed_read(&rt, &["daide-gate", "check", "--explain", "-"])?;
    check_failed_read(&rt, &["daide-gate", "frame"])
}

/// Checks that a failed write of this run is reported.
fn check_failed_write(rt: &HostRuntime, words: &[&str]) -> Result<(), Fail> {
    let mut input = b"02000002480F".as_slice();
    let mut writer = FailsAtWrite {
        taken: Vec::new(rt.alloc()),
        writes: 2,
    };
    let mut errors = Vec::new(rt.alloc());
    let status = answer(rt, words, &mut input, &mut writer, &mut errors)?;
    let told = b"daide-gate: output could not be written\n".as_slice();
    holds(
        status == 1 && errors.as_slice() == told,
        "the line that tells it",
    )
}

#[test]
fn failed_write_is_told(rt: HostRuntime) -> Result<(), Fail> {
    check_failed_write(&rt, &["daide-gate"])?;
    check_failed_write(&rt, &["daide-gate", "--help"])?;
    check_failed_write(&rt, &["daide-gate", "show", "0", "2000002480F"])?;
    check_failed_write(&rt, &["daide-gate", "settings", "-"])?;
    check_failed_write(&rt, &["daide-gate", "frame", "OBS"])
}
