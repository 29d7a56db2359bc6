//! Logs of any length, and readers, writers and heaps that fail.

use daide_log::LogFault;
use daide_log::check::check_log;
use daide_protocol::Summary;
use daide_test_support::fakes::{FailsAtRead, FailsAtWrite};
use daide_test_support::rows::{holds, same};
use linked_list_allocator::LocalHeap;
use std::alloc::Global;
use std::io;
use std::io::{ErrorKind, Read, Write};
use std::test::Fail;

/// A log, each event line of which has one line in the report.
const LOG: &[u8] =
    b"daide-log 1\nconfig 60 1024 16\nbot 000000040001DA10\nserver 01000000\nbot 020000024803\nbot 0200000448034000\nserver 03000000\n";

/// The report of `LOG`, line by line.
const REPORT: &[&str] = &[
    "3 bot IM 4 relay\n",
    "4 server RM 0 relay\n",
    "5 bot DM 2 relay\n",
    "6 bot DM 4 prn\n",
    "7 server FM 0 relay\n",
    "relayed 4 prn 1 huh 0 faults 0\n",
];

const OPENING: &[u8] = b"daide-log 1\nconfig 60 1024 16\n";

const NOTHING: Summary = Summary {
    relayed: 0,
    prn: 0,
    huh: 0,
    faults: 0,
};

/// Returns the first `count` lines of the report.
fn first_lines(alloc: Global, count: usize) -> Result<String, Fail> {
    let mut text = String::new(alloc);
    for line in REPORT.iter().take(count) {
        text.push_str(line)?;
    }
    Ok(text)
}

/// Checks a log of the opening and a line of `count` `#`, with this line end, and returns the result.
fn comment_of(alloc: Global, count: usize, end: &[u8]) -> Result<Result<Summary, LogFault>, Fail> {
    let mut log = Vec::from_slice(alloc, OPENING)?;
    for _byte in 0..count {
        log.push(b'#')?;
    }
    log.extend_from_slice(end)?;
    let mut report = Vec::new(alloc);
    Ok(check_log(alloc, &mut log.as_slice(), &mut report))
}

/// The number of `#` | the end of their line | the result.
const LINES: &[(usize, &[u8], Result<Summary, LogFault>)] = &[
    (2100, b"\n", Ok(NOTHING)),
    (2100, b"", Ok(NOTHING)),
    (2099, b"\r\n", Ok(NOTHING)),
    (2101, b"\n", Err(LogFault::LineTooLong(3))),
    (2101, b"", Err(LogFault::LineTooLong(3))),
    (2100, b"\r\n", Err(LogFault::LineTooLong(3))),
];

#[test]
fn longest_line(rt: HostRuntime) -> Result<(), Fail> {
    for (count, end, answer) in LINES {
        same(&comment_of(rt.alloc(), *count, end)?, answer, count)?;
    }
    Ok(())
}

/// A reader of the opening of a log, followed by this number of lines `#`, which it generates.
#[derive(Drop)]
struct Comments<'a> {
    opening: &'a [u8],
    lines: usize,
}

impl Read for Comments<'_> {
    fn read(&mut self, buffer: &mut [u8]) -> io::Result<usize> {
        if !self.opening.is_empty() {
            return self.opening.read(buffer);
        }
        if self.lines == 0 {
            return Ok(0);
        }
        if let [first, second, ..] = buffer {
            self.lines -= 1;
            *first = b'#';
            *second = b'\n';
            return Ok(2);
        }
        Ok(0)
    }
}

/// The number of lines | the result.
const COUNTS: &[(usize, Result<Summary, LogFault>)] = &[
    (999_998, Ok(NOTHING)),
    (999_999, Err(LogFault::TooManyLines)),
];

/// Checks that a log of `lines` lines has this result, and is reported only if it has no fault.
fn assert_lines(alloc: Global, lines: usize, want: &Result<Summary, LogFault>) -> Result<(), Fail> {
    let mut log = Comments {
        opening: OPENING,
        lines,
    };
    let mut report = Vec::new(alloc);
    let answer = check_log(alloc, &mut log, &mut report);
    same(
        &(answer, report.is_empty()),
        &(*want, want.is_err()),
        &lines,
    )
}

#[test]
fn most_lines(rt: HostRuntime) -> Result<(), Fail> {
    for (lines, answer) in COUNTS {
        assert_lines(rt.alloc(), *lines, answer)?;
    }
    Ok(())
}

/// A reader of an endless log, byte by byte, which counts the bytes: an opening, then one line.
#[derive(Drop)]
struct Endless<'a> {
    opening: &'a [u8],
    given: u32,
}

impl Read for Endless<'_> {
    fn read(&mut self, buffer: &mut [u8]) -> io::Result<usize> {
        if !self.opening.is_empty() {
            return self.opening.read(buffer);
        }
        if let [first, ..] = buffer {
            self.given = self.given.wrapping_add(1);
            *first = b'0';
            return Ok(1);
        }
        Ok(0)
    }
}

/// The lines before the endless one | the number of that line.
const ENDLESS: &[(&[u8], u32)] = &[(b"", 1), (b"daide-log 1\n", 2), (OPENING, 3)];

/// Checks that an endless line is too long at its byte 2,101, and that nothing is reported.
fn assert_endless(alloc: Global, opening: &[u8], number: u32) -> Result<(), Fail> {
    let mut log = Endless { opening, given: 0 };
    let mut report = Vec::new(alloc);
    let answer = check_log(alloc, &mut log, &mut report);
    let told = (answer, report.is_empty(), log.given);
    let want = (Err(LogFault::LineTooLong(number)), true, 2101);
    same(&told, &want, &"the line, and its bytes")
}

#[test]
fn endless_line_is_left_at_its_byte_2101(rt: HostRuntime) -> Result<(), Fail> {
    for (opening, number) in ENDLESS {
        assert_endless(rt.alloc(), opening, *number)?;
    }
    Ok(())
}

/// Returns the number of lines in the report of the first `count` bytes of the log.
fn lines_for(count: usize) -> usize {
    let whole = LOG
        .iter()
        .take(count)
        .filter(|byte| **byte == b'\n')
        .count();
    whole.saturating_sub(2)
}

/// The number of reads that the log needs.
const ENOUGH_READS: usize = LOG.len() / 3 + 2;

/// Returns whether a report consists of its first `count` lines.
fn are_first_lines(report: &[u8], count: usize) -> bool {
    let mut left = report;
    for line in REPORT.iter().take(count) {
        match left.strip_prefix(line.as_bytes()) {
            Some(rest) => left = rest,
            None => return false,
        }
    }
    left.is_empty()
}

/// Checks that a failed read is returned, after the report of all lines before it.
fn assert_read(alloc: Global, reads: usize) -> Result<(), Fail> {
    let mut log = FailsAtRead {
        bytes: LOG,
        reads,
        kind: ErrorKind::Other,
    };
    let mut report = Vec::new(alloc);
    let answer = check_log(alloc, &mut log, &mut report);
    let is_enough = reads >= ENOUGH_READS;
    let lines = if is_enough {
        6
    } else {
        lines_for(reads.saturating_mul(3))
    };
    let told = (
        answer != Err(LogFault::Read),
        are_first_lines(report.as_slice(), lines),
    );
    same(&told, &(is_enough, true), &reads)
}

#[test]
fn each_read_refused_in_turn(rt: HostRuntime) -> Result<(), Fail> {
    for reads in 0..=ENOUGH_READS {
        assert_read(rt.alloc(), reads)?;
    }
    Ok(())
}

/// The number of writes that the report needs: 23 for the 89 bytes before the last read, and 8 for the 31 after it.
const ENOUGH_WRITES: usize = 23 + 8;

/// Checks that a failed write is returned, and that a prefix of the report is written.
fn assert_write(alloc: Global, writes: usize, whole: &[u8]) -> Result<(), Fail> {
    let mut log = LOG;
    let mut report = FailsAtWrite {
        taken: Vec::new(alloc),
        writes,
    };
    let answer = check_log(alloc, &mut log, &mut report);
    let is_enough = writes == ENOUGH_WRITES;
    let told = (
        answer != Err(LogFault::Write),
        whole.starts_with(report.taken.as_slice()),
        report.taken.len() == whole.len(),
    );
    same(&told, &(is_enough, true, is_enough), &writes)
}

#[test]
fn each_write_refused_in_turn(rt: HostRuntime) -> Result<(), Fail> {
    let whole = first_lines(rt.alloc(), 6)?;
    for writes in 0..=ENOUGH_WRITES {
        assert_write(rt.alloc(), writes, whole.as_bytes())?;
    }
    Ok(())
}

/// A writer that counts its writes and their bytes, and accepts each write whole.
#[derive(Drop)]
struct Counts {
    writes: u32,
    bytes: usize,
}

impl Write for Counts {
    fn write(&mut self, bytes: &[u8]) -> io::Result<usize> {
        self.writes = self.writes.wrapping_add(1);
        self.bytes = self.bytes.wrapping_add(bytes.len());
        Ok(bytes.len())
    }

    fn flush(&mut self) -> io::Result<()> {
        Ok(())
    }
}

/// Returns the number of writes, and of their bytes, for a log that is read at once.
fn writes_for(alloc: Global, log: &[u8]) -> (u32, usize) {
    let mut bytes = log;
    let mut report = Counts {
        writes: 0,
        bytes: 0,
    };
    let _answer = check_log(alloc, &mut bytes, &mut report);
    (report.writes, report.bytes)
}

/// Appends a line of 256 empty messages.
fn push_busy_line(log: &mut Vec<u8>) -> Result<(), Fail> {
    log.extend_from_slice(b"bot ")?;
    for _message in 0..256 {
        log.extend_from_slice(b"02000000")?;
    }
    Ok(log.push(b'\n')?)
}

/// Returns the log up to its first message, followed by two such lines.
fn busy_log(alloc: Global) -> Result<Vec<u8>, Fail> {
    let mut log = Vec::from_slice(alloc, &LOG[..67])?;
    push_busy_line(&mut log)?;
    push_busy_line(&mut log)?;
    Ok(log)
}

#[test]
fn report_goes_out_in_blocks(rt: HostRuntime) -> Result<(), Fail> {
    let busy = busy_log(rt.alloc())?;
    let of_busy = writes_for(rt.alloc(), busy.as_slice());
    // Writes occur before the read that finds the end, at the end, and if another line might not fit. The report of the
    // busy log has 37 bytes, 512 lines of 17, and 33.
    let told = (writes_for(rt.alloc(), LOG), of_busy);
    same(&told, &((2, 120), (3, 8774)), &"at the end, and no room")
}

/// Appends a line of `count` empty messages from the server of a match's last session, or a comment if there are none.
fn push_messages(log: &mut Vec<u8>, count: usize) -> Result<(), Fail> {
    if count == 0 {
        return Ok(log.extend_from_slice(b"#\n")?);
    }
    log.extend_from_slice(b"256 server ")?;
    for _message in 0..count {
        log.extend_from_slice(b"02000000")?;
    }
    Ok(log.push(b'\n')?)
}

/// Returns the log of a match whose last session is open at line 4. Line 5 has `count` messages, and lines 10 and 11
/// have 256 each.
fn match_log(alloc: Global, count: usize) -> Result<Vec<u8>, Fail> {
    let opening =
        b"daide-log 2\nconfig 60 512 16 256 0\n256 bot 000000040001DA10\n256 server 01000000\n";
    let mut log = Vec::from_slice(alloc, opening)?;
    push_messages(&mut log, count)?;
    log.extend_from_slice(b"#\n#\n#\n#\n")?;
    push_messages(&mut log, 256)?;
    push_messages(&mut log, 256)?;
    Ok(log)
}

/// Lines of a report have 24 bytes below line 10 of the log, and 25 from there on. So with 0 to 24 of the shorter ones,
/// each possible free space before a longer one occurs once.
#[test]
fn line_finds_room_whatever_is_left(rt: HostRuntime) -> Result<(), Fail> {
    for count in 0..25usize {
        let log = match_log(rt.alloc(), count)?;
        // the IM and the RM, the messages, and the last line
        let bytes = 21 + 24 + 24 * count + 512 * 25 + 33;
        let (_, written) = writes_for(rt.alloc(), log.as_slice());
        same(&written, &bytes, &count)?;
    }
    Ok(())
}

/// A log that needs memory for a session with two bodies of 512 bytes, and has a bad line after the event.
const SMALL: &[u8] = b"daide-log 1\nconfig 60 512 16\ntimer\nbad\n";

/// The same for a match with a word and two sessions.
const SMALL_MATCH: &[u8] =
    b"daide-log 2\nconfig 60 512 16 2 1\nword XYZ 4A40 press 20 power\n2 timer\nbad\n";

/// Checks a log with its memory on a heap, and returns its fault and its report.
fn checked_on(alloc: Global, heap: &LocalHeap, log: &[u8]) -> (Option<LogFault>, Vec<u8>) {
    let mut rest = log;
    let mut report = Vec::new(alloc);
    let answer = check_log(heap, &mut rest, &mut report);
    (answer.err(), report)
}

/// The same on a heap of this size, which must be empty at the end.
fn checked_within(alloc: Global, bytes: usize, log: &[u8]) -> Result<(LogFault, Vec<u8>), Fail> {
    let heap = LocalHeap::new(alloc, bytes)?;
    let (fault, report) = checked_on(alloc, &heap, log);
    match fault {
        Some(fault) if heap.used() == 0 => Ok((fault, report)),
        _ => Err(Fail::new("a fault, and the heap")),
    }
}

/// Returns whether a log is refused for lack of memory on a heap of this size, with an empty report. Otherwise checks
/// that it has this fault, after this report.
fn is_refused_within(
    alloc: Global,
    bytes: usize,
    log: &[u8],
    want: LogFault,
    report_before: &[u8],
) -> Result<bool, Fail> {
    let (fault, report) = checked_within(alloc, bytes, log)?;
    let is_refused = fault == LogFault::Memory;
    let expected = if is_refused { b"" } else { report_before };
    if (is_refused || fault == want) && report.as_slice() == expected {
        Ok(is_refused)
    } else {
        Err(Fail::new("the fault, and the report"))
    }
}

/// Checks that on heaps of growing size a log is refused for lack of memory up to some size, and not above it.
fn assert_growths(
    alloc: Global,
    log: &[u8],
    fault: LogFault,
    report_before: &[u8],
) -> Result<(), Fail> {
    let mut refused = 0;
    for unit in 0..=64usize {
        if is_refused_within(alloc, 256 * unit, log, fault, report_before)? {
            same(&refused, &unit, &"refused again")?;
            refused = unit + 1;
        }
    }
    // the sessions alone need less memory than their bodies
    holds(4 < refused && refused < 64, "how often")
}

#[test]
fn growth_refused_in_turn(rt: HostRuntime) -> Result<(), Fail> {
    let fault = LogFault::BadLine(4);
    assert_growths(rt.alloc(), SMALL, fault, b"3 bot fault 01\n")?;
    let fault = LogFault::BadLine(5);
    assert_growths(rt.alloc(), SMALL_MATCH, fault, b"4 2 bot fault 01\n")
}

/// A log | its fault if there is no memory.
#[rattlefmt::skip]
const WITHOUT_MEMORY: &[(&[u8], LogFault)] = &[
    (b"daide-log 2\n", LogFault::BadLine(2)),
    (b"daide-log 2\nconfig 60 512 16 2 1\n", LogFault::BadLine(3)),
    (b"daide-log 2\nconfig 60 512 16 2 1\nword GOF 4A40 press 20 power\n", LogFault::BadLine(3)),
    (b"daide-log 2\nconfig 60 512 16 2 1\nword XYZ 4A40 press 20 power", LogFault::Memory),
    (b"daide-log 2\nconfig 60 512 16 2 0\n", LogFault::Memory),
    (SMALL_MATCH, LogFault::Memory),
    (b"", LogFault::BadLine(1)),
    (b"daide-log 1\n", LogFault::BadLine(2)),
    // only lines after the head may be empty or comments
    (b"\ndaide-log 1\n", LogFault::BadLine(1)),
    (b"# 1\ndaide-log 1\n", LogFault::BadLine(1)),
    (b"daide-log 1\n\nconfig 60 512 16\n", LogFault::BadLine(2)),
    (b"daide-log 1\n#\nconfig 60 512 16\n", LogFault::BadLine(2)),
    (b"daide-log 2\n# 2\nconfig 60 512 16 2 0\n", LogFault::BadLine(2)),
    (b"daide-log 2\nconfig 60 512 16 2 1\n\n", LogFault::BadLine(3)),
    (b"daide-log 1\nconfig 61 512 16\n", LogFault::BadLine(2)),
    (b"daide-log 1\nconfig 60 512 16", LogFault::Memory),
    (SMALL, LogFault::Memory),
];

#[test]
fn memory_is_wanted_behind_the_head_alone(rt: HostRuntime) -> Result<(), Fail> {
    for (log, want) in WITHOUT_MEMORY {
        let (fault, report) = checked_within(rt.alloc(), 0, log)?;
        same(&(fault, report.len()), &(*want, 0), log)?;
    }
    Ok(())
}
