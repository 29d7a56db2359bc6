//! Records of sessions over ports in memory, without times: their text, their reports, and records whose writer fails.

use crate::relays::{NEVER, OPENS, QUIET};
use daide_frame::side::Side;
use daide_gate::{
    Config, Ports, Pull, Record, RecordEnd, Recording, RelayEnd, Session, Sink, Words, check_log,
    record, relay,
};
use daide_test_support::memory_ports::{Acceptance, MemoryPorts, Script, ScriptedRead};
use daide_test_support::rows::{holds, same};
use daide_test_support::words::two_words;
use std::alloc::Global;
use std::io;
use std::io::{ErrorKind, Write};
use std::test::Fail;

/// The limits of each session in these tests.
const LIMITS: Config = Config {
    top_level: 60,
    max_body: 1024,
    max_depth: 16,
};

/// A session: the scripts of both sides, the number of timer queries before the timer expires, its record, and its
/// report.
#[derive(Clone, Copy)]
struct Recorded {
    bot: Script<'static>,
    server: Script<'static>,
    quiet: u64,
    is_worded: bool,
    record: &'static str,
    report: &'static str,
}

/// An IM in two pieces, an RM, and a put to the bot that fails; an expired timer; a bot that ends at once; and a server
/// that does, with an operator's words.
const SESSIONS: [Recorded; 4] = [
    Recorded {
        bot: Script {
            pulls: &[ScriptedRead::Bytes(&[0, 0, 0, 4, 0, 1, 0xDA, 0x10])],
            puts: &[Acceptance::Fails],
        },
        server: OPENS,
        quiet: NEVER,
        is_worded: false,
        record: "daide-log 2\nconfig 60 1024 16 1 0\n1 bot 00000004\n1 bot 0001DA10\n1 server 01000000\n1 end bot\n",
        report: "4 1 bot IM 4 relay\n5 1 server RM 0 relay\n6 1 bot end\nrelayed 2 prn 0 huh 0 faults 0\n",
    },
    Recorded {
        bot: QUIET,
        server: QUIET,
        quiet: 2,
        is_worded: false,
        record: "daide-log 2\nconfig 60 1024 16 1 0\n1 timer\n",
        report: "3 1 bot fault 01\nrelayed 0 prn 0 huh 0 faults 1\n",
    },
    Recorded {
        bot: Script {
            pulls: &[ScriptedRead::End],
            puts: &[],
        },
        server: QUIET,
        quiet: NEVER,
        is_worded: false,
        record: "daide-log 2\nconfig 60 1024 16 1 0\n1 end bot\n",
        report: "3 1 bot end\nrelayed 0 prn 0 huh 0 faults 0\n",
    },
    Recorded {
        bot: QUIET,
        server: Script {
            pulls: &[ScriptedRead::End],
            puts: &[],
        },
        quiet: NEVER,
        is_worded: true,
        record: "daide-log 2\nconfig 60 1024 16 1 2\nword XYZ 4A40 press 20 power\nword QQQ 4A41 arrangement 30 arrangement\n1 end server\n",
        report: "5 1 server end\nrelayed 0 prn 0 huh 0 faults 0\n",
    },
];

/// Returns an operator's words, or none.
fn words_of(is_worded: bool) -> Words {
    if is_worded { two_words() } else { Words::new() }
}

/// Returns a record without a call, over a writer.
pub fn record_over<W: Sink + Drop>(
    alloc: Global,
    writer: W,
    words: Words,
) -> Result<Record<W>, Fail> {
    let page = Box::new(alloc, record::Page::new())?;
    Ok(Record::new(page, writer, LIMITS, words))
}

/// Returns the record of recorded ports and how it ended.
pub fn finished<P: Ports, W: Sink + Drop>(ports: Recording<P, W>) -> Result<(W, RecordEnd), Fail> {
    let (_, record) = ports.into_parts();
    match record {
        Some(record) => Ok(record.finish()),
        None => Err(Fail::new("no record")),
    }
}

/// Returns the record of a session, which is whole.
fn written(alloc: Global, row: &Recorded) -> Result<Vec<u8>, Fail> {
    let mut session = Session::with_words(alloc, LIMITS, words_of(row.is_worded))?;
    let ports = MemoryPorts::new(alloc, row.bot, row.server, row.quiet);
    let record = record_over(alloc, Vec::new(alloc), words_of(row.is_worded))?;
    let mut ports = Recording::new(ports, Some(record), None);
    same(
        &relay(&mut session, &mut ports, 9),
        &RelayEnd::Closed,
        &"the end",
    )?;
    let (text, ending) = finished(ports)?;
    same(&ending, &RecordEnd::Whole, &"the record")?;
    Ok(text)
}

#[test]
fn records_are_written_and_reported(rt: HostRuntime) -> Result<(), Fail> {
    let alloc = rt.alloc();
    for row in &SESSIONS {
        let text = written(alloc, row)?;
        holds(text.as_slice() == row.record.as_bytes(), row.record)?;
        let mut report = Vec::new(alloc);
        holds(
            check_log(alloc, &mut text.as_slice(), &mut report).is_ok(),
            "a log",
        )?;
        holds(report.as_slice() == row.report.as_bytes(), row.report)?;
    }
    Ok(())
}

/// Four pulls of 1,024 bytes, each of which has a line; the fourth line does not fit the page.
const LONG: Script<'static> = Script {
    pulls: &[ScriptedRead::Bytes(&[0xAB; 5000])],
    puts: &[],
};

/// A writer that fails at its first write, and counts the bytes that it accepts afterwards.
#[derive(Drop)]
struct FailsFirst {
    failed: bool,
    taken: usize,
}

impl Write for FailsFirst {
    fn write(&mut self, bytes: &[u8]) -> io::Result<usize> {
        if !self.failed {
            self.failed = true;
            return Err(io::Error::from(ErrorKind::Other));
        }
        self.taken = self.taken.wrapping_add(bytes.len());
        Ok(bytes.len())
    }

    fn flush(&mut self) -> io::Result<()> {
        Ok(())
    }
}

#[test]
fn writer_that_fails_changes_no_answer(rt: HostRuntime) -> Result<(), Fail> {
    let alloc = rt.alloc();
    let ports = MemoryPorts::new(alloc, LONG, QUIET, NEVER);
    let broken = FailsFirst {
        failed: false,
        taken: 0,
    };
    let record = record_over(alloc, broken, Words::new())?;
    let mut ports = Recording::new(ports, Some(record), None);
    let mut buffer = [0; 2000];
    for (pull, ending) in [
        (Pull::Got(1024), RecordEnd::Whole),
        (Pull::Got(1024), RecordEnd::Whole),
        (Pull::Got(1024), RecordEnd::Whole),
        (Pull::Got(1024), RecordEnd::Failed),
        (Pull::Got(904), RecordEnd::Failed),
        (Pull::Idle, RecordEnd::Failed),
    ] {
        same(&ports.pull(Side::Bot, &mut buffer), &pull, &"the answer")?;
        match ports.record() {
            Some(record) => same(&record.ending(), &ending, &"the record")?,
            None => return Err(Fail::new("no record")),
        }
    }
    let (broken, end) = finished(ports)?;
    same(&(broken.taken, end), &(0, RecordEnd::Failed), &"the end")
}

/// Ports without a record return what the inner ports return.
#[test]
fn ports_without_a_record_return_the_same(rt: HostRuntime) -> Result<(), Fail> {
    let alloc = rt.alloc();
    let mut inner = MemoryPorts::new(alloc, LONG, QUIET, NEVER);
    let ports = MemoryPorts::new(alloc, LONG, QUIET, NEVER);
    let mut ports: Recording<MemoryPorts, Vec<u8>> = Recording::new(ports, None, None);
    for _ in 0..7 {
        let (mut one, mut other) = ([0; 1000], [0; 1000]);
        let pull = inner.pull(Side::Bot, &mut one);
        same(&ports.pull(Side::Bot, &mut other), &pull, &"the answer")?;
        holds(one == other, "the bytes")?;
        same(&ports.clock(false), &inner.clock(false), &"the clock")?;
    }
    holds(ports.record().is_none(), "no record")
}
