//! The fakes of `daide_test_support`: streams that fail, and ports in memory. Each does what its script says.

use crate::relays::{NEVER, QUIET};
use daide_frame::side::Side::{Bot, Server};
use daide_gate::{Ports, Pull, Put};
use daide_io::ports::ClockEvent::{self, ImTimeIsOver, NoEvent, StopIsRequested};
use daide_test_support::fakes::{FailsAtRead, FailsAtWrite};
use daide_test_support::memory_ports::{Acceptance, Call, MemoryPorts, Script, ScriptedRead};
use daide_test_support::rows::{holds, same};
use daide_test_support::words::counted;
use linked_list_allocator::LocalHeap;
use std::alloc::{Allocator, Global};
use std::io::{ErrorKind, Read, Write};
use std::test::Fail;

/// Checks a read: its bytes, or the kind of its error.
fn assert_read(
    reader: &mut FailsAtRead<'_>,
    want: Result<&'static [u8], ErrorKind>,
) -> Result<(), Fail> {
    let mut buffer = [0u8; 5];
    let found = match reader.read(&mut buffer) {
        Ok(count) => Ok(&buffer[..count]),
        Err(error) => Err(error.kind()),
    };
    same(&found, &want, &"a read")
}

/// A read that fails, also an interrupted one, takes no byte and comes again.
#[test]
fn reader_fails_at_its_read_and_at_each_later_one(_rt: HostRuntime) -> Result<(), Fail> {
    for kind in [
        ErrorKind::Interrupted,
        ErrorKind::WouldBlock,
        ErrorKind::OutOfMemory,
    ] {
        let mut reader = FailsAtRead {
            bytes: b"abcdefgh",
            reads: 2,
            kind,
        };
        assert_read(&mut reader, Ok(b"abc"))?;
        assert_read(&mut reader, Ok(b"def"))?;
        assert_read(&mut reader, Err(kind))?;
        assert_read(&mut reader, Err(kind))?;
        same(&reader.bytes, &b"gh".as_slice(), &kind)?;
        reader.reads = 2;
        assert_read(&mut reader, Ok(b"gh"))?;
        assert_read(&mut reader, Ok(b""))?;
        assert_read(&mut reader, Err(kind))?;
    }
    Ok(())
}

#[test]
fn writer_fails_at_its_write_and_at_each_later_one(rt: HostRuntime) -> Result<(), Fail> {
    let mut writer = FailsAtWrite {
        taken: Vec::new(rt.alloc()),
        writes: 2,
    };
    same(&writer.write(b"abcdef").ok(), &Some(4), &"the first")?;
    same(&writer.write(b"gh").ok(), &Some(2), &"the second")?;
    same(&writer.write(b"ij").ok(), &None, &"the third")?;
    same(&writer.write(b"kl").ok(), &None, &"the fourth")?;
    same(
        &writer.taken.as_slice(),
        &b"abcdgh".as_slice(),
        &"what it took",
    )
}

/// Ports: the queries before a stop, if there is one, and those before the IM timer expires | what the clock reports.
type ClockRow = (Option<u64>, u64, &'static [ClockEvent]);

/// A stop is reported once, and before the timer if both come at once. The timer is reported at each query from then on.
#[rattlefmt::skip]
const CLOCKS: &[ClockRow] = &[
    (None, 0, &[ImTimeIsOver, ImTimeIsOver]),
    (None, 2, &[NoEvent, NoEvent, ImTimeIsOver, ImTimeIsOver]),
    (Some(0), NEVER, &[StopIsRequested, NoEvent, NoEvent]),
    (Some(2), NEVER, &[NoEvent, NoEvent, StopIsRequested, NoEvent]),
    (Some(0), 0, &[StopIsRequested, ImTimeIsOver, ImTimeIsOver]),
    (Some(1), 1, &[NoEvent, StopIsRequested, ImTimeIsOver]),
    (Some(0), 2, &[StopIsRequested, NoEvent, ImTimeIsOver]),
    (Some(2), 1, &[NoEvent, ImTimeIsOver, StopIsRequested, ImTimeIsOver]),
];

/// Checks that the clock reports these events, and that the ports record each.
fn assert_events(ports: &mut MemoryPorts<'_>, events: &[ClockEvent]) -> Result<(), Fail> {
    for event in events {
        same(&ports.clock(false), event, &events)?;
        let last = ports.calls().and_then(|calls| calls.last());
        holds(
            matches!(last, Some(Call::Clock(recorded)) if recorded == event),
            "the record of an event",
        )?;
    }
    Ok(())
}

#[test]
fn stop_is_seen_once_and_before_the_timer(rt: HostRuntime) -> Result<(), Fail> {
    for (stop, quiet, events) in CLOCKS {
        let mut ports = MemoryPorts::new(rt.alloc(), QUIET, QUIET, *quiet);
        if let Some(queries) = stop {
            ports.stop_after(*queries);
        }
        assert_events(&mut ports, events)?;
    }
    Ok(())
}

/// A stop that was seen can be requested again.
#[test]
fn stop_that_was_seen_can_come_again(rt: HostRuntime) -> Result<(), Fail> {
    let mut ports = MemoryPorts::new(rt.alloc(), QUIET, QUIET, NEVER);
    for _stop in 0..2 {
        ports.stop_after(1);
        assert_events(&mut ports, &[NoEvent, StopIsRequested, NoEvent, NoEvent])?;
    }
    Ok(())
}

/// A side that sends six bytes, two, and its end, and takes two bytes, then nine at most, and then fails once.
const SCRIPT: Script<'static> = Script {
    pulls: &[
        ScriptedRead::Bytes(b"abcdef"),
        ScriptedRead::Idle,
        ScriptedRead::Bytes(b"gh"),
        ScriptedRead::End,
    ],
    puts: &[
        Acceptance::Takes(2),
        Acceptance::Takes(9),
        Acceptance::Fails,
    ],
};

/// What six pulls into four bytes return of `SCRIPT`.
const PULLS: &[(Pull, &[u8])] = &[
    (Pull::Got(4), b"abcd"),
    (Pull::Got(2), b"ef"),
    (Pull::Idle, b""),
    (Pull::Got(2), b"gh"),
    (Pull::Ended, b""),
    (Pull::Ended, b""),
];

/// What four puts of five bytes return.
const PUTS: &[Put] = &[Put::Took(2), Put::Took(5), Put::Failed, Put::Took(5)];

/// Checks what ports return whose bot has `SCRIPT`, while the other side is quiet.
fn assert_script<A: Allocator + Copy>(ports: &mut MemoryPorts<'_, A>) -> Result<(), Fail> {
    for (pull, bytes) in PULLS {
        let mut buffer = [0u8; 4];
        same(&ports.pull(Server, &mut buffer), &Pull::Idle, bytes)?;
        same(&ports.pull(Bot, &mut buffer), pull, bytes)?;
        holds(buffer.starts_with(bytes), "the bytes of a pull")?;
    }
    for put in PUTS {
        same(&ports.put(Server, b"12345"), &Put::Took(5), put)?;
        same(&ports.put(Bot, b"12345"), put, put)?;
    }
    Ok(())
}

#[test]
fn ports_follow_the_script_of_each_side(rt: HostRuntime) -> Result<(), Fail> {
    let mut ports = MemoryPorts::new(rt.alloc(), SCRIPT, QUIET, NEVER);
    assert_script(&mut ports)?;
    let calls = ports.calls().map(|calls| calls.len());
    same(&calls, &Some(20), &"two calls for each of both lists")
}

/// Checks ports on a heap of this size. Returns whether all their calls are recorded.
fn are_recorded_on(alloc: Global, size: usize) -> Result<bool, Fail> {
    let heap = LocalHeap::new(alloc, size)?;
    let mut ports = MemoryPorts::new(&heap, SCRIPT, QUIET, NEVER);
    assert_script(&mut ports)?;
    match ports.calls() {
        Some(calls) => {
            same(&calls.len(), &20, &size)?;
            Ok(true)
        }
        None => Ok(false),
    }
}

/// Whichever growth is refused, the ports follow their scripts, and have the whole record or none.
#[test]
fn ports_without_memory_follow_their_script(rt: HostRuntime) -> Result<(), Fail> {
    same(&are_recorded_on(rt.alloc(), 64)?, &false, &"little memory")?;
    for hundreds in 1..64usize {
        are_recorded_on(rt.alloc(), hundreds.saturating_mul(100))?;
    }
    same(&are_recorded_on(rt.alloc(), 65_536)?, &true, &"much memory")
}

#[test]
fn counted_words_have_their_count(_rt: HostRuntime) -> Result<(), Fail> {
    same(&counted("62*4000"), &(62, "4000"), &"a count")?;
    same(&counted("4000"), &(1, "4000"), &"none")?;
    same(&counted("x*4000"), &(0, "4000"), &"no number")
}
