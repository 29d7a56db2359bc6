//! Pulls, puts and discarded pieces, with a row for each result of a stream's calls: what they return, and the
//! readiness after them.

use crate::streams::Answer::{Fails, Gives, Takes};
use daide_buffered_io::buffered::Buffered;
use daide_buffered_io::calls::{pull_from, put_to};
use daide_buffered_io::dropping::Dropping;
use daide_buffered_io::pool::Pool;
use daide_buffered_io::readiness::Readiness;
use daide_io::duplex::Duplex;
use daide_io::ports::{Pull, Put};
use daide_test_support::rows::{holds, same};
use std::alloc::Global;
use std::io;
use std::io::ErrorKind;
use std::io::ErrorKind::{BrokenPipe, ConnectionReset, Interrupted, WouldBlock};
use std::test::Fail;

/// The result of one call of a stream.
#[derive(Clone, Copy)]
enum Answer {
    /// A read returns these bytes, as many as fit; none are the end.
    Gives(&'static [u8]),
    /// A write accepts this many bytes at most.
    Takes(usize),
    Fails(ErrorKind),
}

/// A stream whose calls have the results of a row, and would block after these.
#[derive(Drop)]
struct Scripted {
    answers: &'static [Answer],
    calls: usize,
    /// The greatest number of bytes in one write.
    handed: usize,
}

impl Scripted {
    fn new(answers: &'static [Answer]) -> Scripted {
        Scripted {
            answers,
            calls: 0,
            handed: 0,
        }
    }

    fn answer(&mut self) -> Answer {
        self.calls = self.calls.saturating_add(1);
        match self.answers.split_first() {
            Some((answer, rest)) => {
                self.answers = rest;
                *answer
            }
            None => Fails(WouldBlock),
        }
    }
}

impl Duplex for Scripted {
    ghost use Rattle.std.specs.Prelude.{None};

    ghost to_give = { λ _. None };

    ghost taken = { λ _. None };

    ghost calls = { λ _. None };

    fn read(&mut self, buffer: &mut [u8]) -> io::Result<usize> {
        match self.answer() {
            Gives(bytes) => {
                let count = bytes.len().min(buffer.len());
                buffer[..count].copy_from_slice(&bytes[..count]);
                Ok(count)
            }
            Takes(_) => Ok(0),
            Fails(kind) => Err(kind.into()),
        }
    }

    fn write(&mut self, bytes: &[u8]) -> io::Result<usize> {
        self.handed = self.handed.max(bytes.len());
        match self.answer() {
            Takes(count) => Ok(count.min(bytes.len())),
            Gives(_) => Ok(0),
            Fails(kind) => Err(kind.into()),
        }
    }

    fn end_writing(&mut self) {}
}

/// Both directions are ready, and a call that moves less than it could is the last.
const READY: Readiness = Readiness {
    may_read: true,
    may_write: true,
    reads_on: false,
};

/// The poller reported the end, a failure, or an urgent byte.
const READS_ON: Readiness = Readiness {
    may_read: true,
    may_write: true,
    reads_on: true,
};

/// Eight interruptions, the number of times that a call is tried.
const ALL_INTERRUPTED: &[Answer] = &[
    Fails(Interrupted),
    Fails(Interrupted),
    Fails(Interrupted),
    Fails(Interrupted),
    Fails(Interrupted),
    Fails(Interrupted),
    Fails(Interrupted),
    Fails(Interrupted),
    Gives(b"abc"),
];

/// A pull: the stream's results | the result of the pull | whether a read may then return something | the number of
/// reads.
type Pulling = (&'static [Answer], Pull, bool, usize);

/// Pulls into four bytes, from a stream that may be readable.
const PULLS: &[Pulling] = &[
    (&[Gives(b"ab")], Pull::Got(2), false, 1),
    (&[Gives(b"abcd")], Pull::Got(4), true, 1),
    (&[Gives(b"abcdef")], Pull::Got(4), true, 1),
    (&[Gives(b"")], Pull::Ended, true, 1),
    (&[Fails(WouldBlock)], Pull::Idle, false, 1),
    (&[Fails(ConnectionReset)], Pull::Ended, true, 1),
    (&[Fails(Interrupted), Gives(b"abc")], Pull::Got(3), false, 2),
    (&[Fails(Interrupted), Gives(b"")], Pull::Ended, true, 2),
    (
        &[Fails(Interrupted), Fails(WouldBlock)],
        Pull::Idle,
        false,
        2,
    ),
    (ALL_INTERRUPTED, Pull::Idle, true, 8),
];

#[test]
fn pulls_by_rows(rt: HostRuntime) -> Result<(), Fail> {
    for (row, (answers, told, may_still, reads)) in PULLS.iter().enumerate() {
        let mut stream = Scripted::new(answers);
        let mut buffer = [b'.'; 4];
        let mut readiness = READY;
        let pull = pull_from(&mut stream, &mut readiness, &mut buffer);
        same(&pull, told, &row)?;
        same(
            &(readiness.may_read, stream.calls),
            &(*may_still, *reads),
            &row,
        )?;
        let count = if let Pull::Got(count) = pull {
            count
        } else {
            0
        };
        holds(buffer[..count] == b"abcd"[..count], "what came, in order")?;
    }
    Ok(())
}

/// After the event of an end, a failure or an urgent byte a short read is not the last, because the event occurs only
/// once.
#[test]
fn short_read_goes_on_where_the_end_was_told(rt: HostRuntime) -> Result<(), Fail> {
    let mut stream = Scripted::new(&[Gives(b"ab"), Gives(b"")]);
    let mut readiness = READS_ON;
    let mut buffer = [0; 4];
    let pull = pull_from(&mut stream, &mut readiness, &mut buffer);
    same(
        &(pull, readiness),
        &(Pull::Got(2), READS_ON),
        &"the last bytes",
    )?;
    let pull = pull_from(&mut stream, &mut readiness, &mut buffer);
    same(&pull, &Pull::Ended, &"the end")
}

/// If the stream is known not to be readable, or there is no room, no call is made.
#[test]
fn pulls_that_ask_nothing(rt: HostRuntime) -> Result<(), Fail> {
    let mut stream = Scripted::new(&[Gives(b"ab")]);
    let mut readiness = Readiness::UNKNOWN;
    let mut buffer = [0; 4];
    let pull = pull_from(&mut stream, &mut readiness, &mut buffer);
    let told = (pull, readiness);
    same(
        &told,
        &(Pull::Idle, Readiness::UNKNOWN),
        &"nothing can be there",
    )?;
    readiness = READY;
    let pull = pull_from(&mut stream, &mut readiness, &mut []);
    same(&(pull, readiness), &(Pull::Idle, READY), &"no room")?;
    same(&stream.calls, &0, &"reads")
}

/// A put: the stream's results | the result of the put | whether a write may then accept something | the number of
/// writes.
type Putting = (&'static [Answer], Put, bool, usize);

/// Puts of 20,000 bytes, to a stream that may be writable.
const PUTS: &[Putting] = &[
    (&[Takes(3)], Put::Took(3), false, 1),
    (&[Takes(20_000)], Put::Took(16_384), true, 1),
    (&[Takes(0)], Put::Took(0), false, 1),
    (&[Fails(WouldBlock)], Put::Took(0), false, 1),
    (&[Fails(ConnectionReset)], Put::Failed, true, 1),
    (&[Fails(BrokenPipe)], Put::Failed, true, 1),
    (&[Fails(Interrupted), Takes(5)], Put::Took(5), false, 2),
    (
        &[Fails(Interrupted), Fails(WouldBlock)],
        Put::Took(0),
        false,
        2,
    ),
    (ALL_INTERRUPTED, Put::Took(0), true, 8),
];

#[test]
fn puts_by_rows(rt: HostRuntime) -> Result<(), Fail> {
    let bytes = [0; 20_000];
    for (row, (answers, told, may_still, writes)) in PUTS.iter().enumerate() {
        let mut stream = Scripted::new(answers);
        let mut readiness = READY;
        let put = put_to(&mut stream, &mut readiness, &bytes);
        same(&put, told, &row)?;
        same(
            &(readiness.may_write, stream.calls),
            &(*may_still, *writes),
            &row,
        )?;
        same(&stream.handed, &16_384, &row)?;
    }
    Ok(())
}

#[test]
fn put_that_asks_nothing(rt: HostRuntime) -> Result<(), Fail> {
    let mut stream = Scripted::new(&[Takes(2)]);
    let mut readiness = Readiness::UNKNOWN;
    let put = put_to(&mut stream, &mut readiness, b"ab");
    let told = (put, readiness);
    same(
        &told,
        &(Put::Took(0), Readiness::UNKNOWN),
        &"nothing can be taken",
    )?;
    same(&stream.calls, &0, &"writes")
}

/// A draining: its budget | the stream's results | the index of the last piece, counted from 0.
type Drops = (usize, &'static [Answer], usize);

/// More than one piece.
const MANY: &[u8] = &[7; 5_000];

/// A stream that would block is not at its end, nor is one that was interrupted. A piece has at most 4,096 bytes.
const DROPS: &[Drops] = &[
    (4_097, &[Gives(MANY), Gives(b"a")], 1),
    (9, &[Gives(b"abc"), Gives(b"")], 1),
    (3, &[Gives(b"abc"), Gives(b"d")], 0),
    (4, &[Gives(b"abc"), Gives(b"de"), Gives(b"f")], 1),
    (9, &[Fails(ConnectionReset)], 0),
    (3, ALL_INTERRUPTED, 1),
    (9, &[Fails(WouldBlock), Gives(b"")], 1),
];

/// Checks that this many pieces are discarded from a readable stream, and that only the last one is returned as the
/// last.
fn drops(alloc: Global, row: usize, drop: &Drops) -> Result<(), Fail> {
    let (most, answers, last) = *drop;
    let pool = Pool::new(alloc);
    let mut stream = Buffered::new(Scripted::new(answers));
    let mut dropping = Dropping::new(most);
    for piece in 0..=last {
        let mut readiness = READY;
        let is_last = dropping.drop_piece(&mut stream, &pool, &mut readiness);
        same(&is_last, &(piece == last), &row)?;
    }
    Ok(())
}

#[test]
fn drops_by_rows(rt: HostRuntime) -> Result<(), Fail> {
    for (row, drop) in DROPS.iter().enumerate() {
        drops(rt.alloc(), row, drop)?;
    }
    Ok(())
}
