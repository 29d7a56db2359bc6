//! Records with times, over ports in memory. The times are those of `date -u`.

use crate::records::{finished, record_over};
use crate::relays::{NEVER, QUIET};
use daide_frame::side::Side;
use daide_gate::{
    Comment, Connect, Moment, Notice, Orders, Ports, Pull, RecordEnd, Recording, SessionEnd,
    SessionStatus, System, Words, check_log,
};
use daide_io::ready_queue::ReadyQueue;
use daide_protocol::account::Account;
use daide_test_support::memory_ports::{MemoryPorts, Script, ScriptedRead};
use daide_test_support::rows::{holds, same};
use std::alloc::{Allocator, Global};
use std::test::Fail;

/// The head of a record with these limits.
const HEAD: &[u8] = b"daide-log 2\nconfig 60 1024 16 1 0\n";

/// Moments, in milliseconds, and their comments.
const MOMENTS: [(u64, &str); 6] = [
    (0, "# 1970-01-01T00:00:00.000Z\n"),
    (951_782_400_000, "# 2000-02-29T00:00:00.000Z\n"),
    (1_795_665_662_045, "# 2026-11-26T04:01:02.045Z\n"),
    (4_107_542_399_999, "# 2100-02-28T23:59:59.999Z\n"),
    (4_107_542_400_000, "# 2100-03-01T00:00:00.000Z\n"),
    (253_402_300_799_999, "# 9999-12-31T23:59:59.999Z\n"),
];

/// Returns the moment that many milliseconds after 1970.
fn moment(millisecond: u64) -> Result<Moment, Fail> {
    match Moment::from_millisecond(millisecond) {
        Some(moment) => Ok(moment),
        None => Err(Fail::new("no moment")),
    }
}

#[test]
fn moments_are_written(rt: HostRuntime) -> Result<(), Fail> {
    for (millisecond, text) in &MOMENTS {
        let mut record = record_over(rt.alloc(), Vec::new(rt.alloc()), Words::new())?;
        record.comment(Comment::Timed(moment(*millisecond)?.utc()));
        let (written, ending) = record.finish();
        same(&ending, &RecordEnd::Whole, &"the record")?;
        match written.as_slice().strip_prefix(HEAD) {
            Some(comment) => holds(comment == text.as_bytes(), text)?,
            None => return Err(Fail::new("no head")),
        }
    }
    holds(
        Moment::from_millisecond(253_402_300_800_000).is_none(),
        "the year 10000",
    )
}

/// A system that only begins turns.
#[derive(Drop)]
struct Turns;

impl System<MemoryPorts<'static>> for Turns {
    ghost transition = { λ _ _ _. Unit {0} };

    fn poll<A: Allocator>(&mut self, _may_block: bool, _ready: &mut ReadyQueue<A>) -> Orders {
        Orders::NONE
    }

    fn show(&mut self, _ports: &MemoryPorts<'static>, _status: SessionStatus) {}

    fn accept(&mut self, _place: usize) -> bool {
        false
    }

    fn connected(&mut self, _place: usize) -> Connect<MemoryPorts<'static>> {
        Connect::Pending
    }

    fn begin_turn(&mut self, _place: usize, _account: &Account, ports: &mut MemoryPorts<'static>) {
        ports.begin_turn();
    }

    fn rest(&mut self, _place: usize, _ports: &MemoryPorts<'static>) -> bool {
        true
    }

    fn retire(&mut self, _place: usize, _ports: MemoryPorts<'static>, _end: SessionEnd) {}

    fn log(&mut self, _notice: Notice) {}
}

/// A bot that sends its IM.
const OPENS_ALONE: Script<'static> = Script {
    pulls: &[ScriptedRead::Bytes(&[0, 0, 0, 4, 0, 1, 0xDA, 0x10])],
    puts: &[],
};

/// When the record begins.
const BEGAN: u64 = 1_795_665_662_345;

/// How many milliseconds after that each byte is pulled: at first less than 10, and in the end the clock was set back by
/// 10, by 9 more, and by 1 more.
const AFTER: [u64; 8] = [9, 10, 19, 20, 10, 1, 0, 0];

/// The record. Of the address nothing breaks its line.
const RECORD: &str =
    "daide-log 2\nconfig 60 1024 16 1 0\n# session 3, bot at 127.0.0.1:50000??, 2026-11-26T04:01:02.345Z\n1 bot 00\n# 2026-11-26T04:01:02.355Z\n1 bot 00\n1 bot 00\n# 2026-11-26T04:01:02.365Z\n1 bot 04\n# 2026-11-26T04:01:02.355Z\n1 bot 00\n1 bot 01\n# 2026-11-26T04:01:02.345Z\n1 bot DA\n1 bot 10\n";

/// Its report, under the numbers of its lines.
const REPORT: &str = "15 1 bot IM 4 relay\nrelayed 1 prn 0 huh 0 faults 0\n";

/// Returns the record of a bot's IM, whose bytes are pulled one by one.
fn timed(alloc: Global) -> Result<Vec<u8>, Fail> {
    let began = moment(BEGAN)?;
    let mut record = record_over(alloc, Vec::new(alloc), Words::new())?;
    record.comment(Comment::Begun(3, "127.0.0.1:50000\n\u{7f}", began.utc()));
    let ports = MemoryPorts::new(alloc, OPENS_ALONE, QUIET, NEVER);
    let mut ports = Recording::new(ports, Some(record), Some(began));
    let mut buffer = [0; 1];
    for after in AFTER {
        let now = moment(BEGAN.saturating_add(after))?;
        ports.begin_turn(0, &Account::new(), &mut Turns, Some(now));
        same(
            &ports.pull(Side::Bot, &mut buffer),
            &Pull::Got(1),
            &"a byte",
        )?;
    }
    let now = moment(BEGAN.saturating_add(1000))?;
    ports.begin_turn(0, &Account::new(), &mut Turns, Some(now));
    same(&ports.pull(Side::Bot, &mut buffer), &Pull::Idle, &"no byte")?;
    let (text, ending) = finished(ports)?;
    same(&ending, &RecordEnd::Whole, &"the record")?;
    Ok(text)
}

#[test]
fn times_are_comments(rt: HostRuntime) -> Result<(), Fail> {
    let alloc = rt.alloc();
    let text = timed(alloc)?;
    holds(text.as_slice() == RECORD.as_bytes(), "the record")?;
    let mut report = Vec::new(alloc);
    holds(
        check_log(alloc, &mut text.as_slice(), &mut report).is_ok(),
        "a log",
    )?;
    holds(report.as_slice() == REPORT.as_bytes(), "the report")
}

/// An address of 70 bytes, and the comment with its first 64.
const LONG_ADDRESS: &str = "0123456789012345678901234567890123456789012345678901234567890123456789";

const LONG_BEGUN: &str =
    "# session 7, bot at 0123456789012345678901234567890123456789012345678901234567890123, 1970-01-01T00:00:00.000Z\n";

/// Of an address the first 64 bytes are written.
#[test]
fn long_address_is_cut(rt: HostRuntime) -> Result<(), Fail> {
    let mut record = record_over(rt.alloc(), Vec::new(rt.alloc()), Words::new())?;
    record.comment(Comment::Begun(7, LONG_ADDRESS, moment(0)?.utc()));
    let (written, ending) = record.finish();
    same(&ending, &RecordEnd::Whole, &"the record")?;
    match written.as_slice().strip_prefix(HEAD) {
        Some(comment) => holds(comment == LONG_BEGUN.as_bytes(), LONG_BEGUN),
        None => Err(Fail::new("no head")),
    }
}
