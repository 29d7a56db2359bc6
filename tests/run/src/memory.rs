//! The socket ports of the program, driven over streams in memory, so that the bytes accepted by each side are known
//! exactly.
//!
//! Slow streams return and accept few bytes at once, are interrupted, and often have nothing. So frames are received
//! and sent in pieces. The other streams accept each write whole, and their writes are counted.

use crate::frames::{FM, IM, ITS_PRN, OBS, RM, UNCLOSED};
use crate::wires::{READY, StillPoller, first_bot, report_all, still_poller};
use daide_buffered_io::pool::Pool;
use daide_driver::relaying::{RelayEnd, relay};
use daide_io::duplex::Duplex;
use daide_protocol::config::Config;
use daide_session::session::Session;
use daide_sockets::ports::SocketPorts;
use daide_sockets::socket::Socket;
use daide_test_support::rows::same;
use std::alloc::{Allocator, Global};
use std::io;
use std::io::ErrorKind;
use std::test::Fail;

/// The most bytes that one read returns.
const MOST_GIVEN: usize = 5;

/// The most bytes that one write accepts.
const MOST_TAKEN: usize = 3;

/// The most turns of a conversation.
const MOST_TURNS: usize = 1000;

/// The limits of the session. Any would do.
const CONFIG: Config = Config {
    top_level: 60,
    max_body: 512,
    max_depth: 8,
};

/// The EM for a second initial message.
const EM_SECOND_IM: &[u8] = b"\x04\x00\x00\x02\x00\x06";

/// `OBS GOF`. Its answer, `HUH ( OBS ERR GOF )`, follows.
const OBS_GOF: &[u8] = b"\x02\x00\x00\x04\x48\x0f\x48\x03";

const ITS_HUH: &[u8] = b"\x02\x00\x00\x0c\x48\x06\x40\x00\x48\x0f\x49\x02\x48\x03\x40\x01";

/// A part of what one end sends: the number of bytes that it must have accepted first, and the bytes; no bytes are its
/// end.
type Part = (usize, &'static [u8]);

/// A stream in memory.
#[derive(Drop)]
struct Line {
    /// The parts that it sends, in order.
    says: &'static [Part],
    /// Whether it returns and accepts few bytes at once, and often has nothing.
    is_slow: bool,
    /// The index of the next part, and the number of its bytes that were returned.
    part: usize,
    given: usize,
    took: Vec<u8>,
    reads: usize,
    writes: usize,
}

/// Interrupts one call of three, and returns `WouldBlock` for another.
fn hold_up(call: usize) -> io::Result<()> {
    match call % 3 {
        0 => Err(ErrorKind::Interrupted.into()),
        1 => Err(ErrorKind::WouldBlock.into()),
        _ => Ok(()),
    }
}

impl Line {
    /// Creates a stream that sends these parts, and has accepted nothing yet.
    fn new(alloc: Global, says: &'static [Part], is_slow: bool) -> Line {
        Line {
            says,
            is_slow,
            part: 0,
            given: 0,
            took: Vec::new(alloc),
            reads: 0,
            writes: 0,
        }
    }

    /// Counts `count` more returned bytes of a part of `len` bytes. The end of the stream stays the end.
    fn go_on(&mut self, count: usize, len: usize) {
        self.given = self.given.saturating_add(count);
        if len > 0 && self.given >= len {
            self.part = self.part.saturating_add(1);
            self.given = 0;
        }
    }
}

impl Duplex for Line {
    ghost use Rattle.std.specs.Prelude.{None};

    ghost to_give = { λ _. None };

    ghost taken = { λ _. None };

    ghost calls = { λ _. None };

    fn read(&mut self, buffer: &mut [u8]) -> io::Result<usize> {
        let call = self.reads;
        self.reads = call.wrapping_add(1);
        if self.is_slow {
            hold_up(call)?;
        }
        let Some((after, bytes)) = self.says.get(self.part) else {
            return Err(ErrorKind::WouldBlock.into());
        };
        if self.took.len() < *after {
            return Err(ErrorKind::WouldBlock.into());
        }
        let left = &bytes[self.given.min(bytes.len())..];
        let count = left.len().min(buffer.len()).min(MOST_GIVEN);
        buffer[..count].copy_from_slice(&left[..count]);
        self.go_on(count, bytes.len());
        Ok(count)
    }

    fn write(&mut self, bytes: &[u8]) -> io::Result<usize> {
        let call = self.writes;
        self.writes = call.wrapping_add(1);
        let mut count = bytes.len();
        if self.is_slow {
            hold_up(call)?;
            count = count.min(MOST_TAKEN);
        }
        if self.took.extend_from_slice(&bytes[..count]).is_err() {
            return Err(ErrorKind::OutOfMemory.into());
        }
        Ok(count)
    }

    fn end_writing(&mut self) {}
}

/// The parts that the bot and the server send, and the frames that each of them gets.
struct Talk {
    is_slow: bool,
    bot: &'static [Part],
    server: &'static [Part],
    to_bot: &'static [&'static [u8]],
    to_server: &'static [&'static [u8]],
}

/// Makes turns until the session is closed, and returns whether it is. Before each turn all streams are ready.
fn relay_to_the_end<A: Allocator>(
    session: &mut Session<A>,
    ports: &mut SocketPorts<'_, Line>,
    poller: &mut StillPoller,
) -> bool {
    for _ in 0..MOST_TURNS {
        report_all(poller);
        ports.begin_turn(0, &mut poller.table);
        if relay(session, ports, 1) == RelayEnd::Closed {
            return true;
        }
    }
    false
}

/// Writes the write buffer.
fn write_out(socket: &mut Socket<'_, Line>) {
    for _ in 0..MOST_TURNS {
        socket.note_report(READY);
        socket.flush_at(None);
    }
}

/// Returns whether the stream accepted exactly these frames; a stream that is not slow must have accepted each in one
/// write.
fn has_taken(line: &Line, wanted: &[&[u8]]) -> bool {
    let mut left = line.took.as_slice();
    for bytes in wanted {
        let Some(rest) = left.strip_prefix(*bytes) else {
            return false;
        };
        left = rest;
    }
    left.is_empty() && (line.is_slow || line.writes == wanted.len())
}

/// Returns the ports of a session between the two ends of a conversation.
fn ports_of<'w>(alloc: Global, pool: &'w Pool, talk: &Talk) -> SocketPorts<'w, Line> {
    let bot = Line::new(alloc, talk.bot, talk.is_slow);
    let server = Line::new(alloc, talk.server, talk.is_slow);
    let sockets = (Socket::over(pool, bot, 0), Socket::over(pool, server, 1));
    SocketPorts::new(first_bot(), sockets, None, None, (None, None))
}

/// Returns whether the bot's end and the server's accepted exactly these frames, after the write buffers are written.
fn have_taken(ports: SocketPorts<'_, Line>, to_bot: &[&[u8]], to_server: &[&[u8]]) -> (bool, bool) {
    let (mut bot, mut server) = ports.into_sockets();
    write_out(&mut bot);
    write_out(&mut server);
    (
        has_taken(bot.connection(), to_bot),
        has_taken(server.connection(), to_server),
    )
}

/// Returns whether a session between the two ends of a conversation is closed, and whether both accepted exactly their
/// frames.
fn is_talked(
    session: &mut Session,
    ports: SocketPorts<'_, Line>,
    poller: &mut StillPoller,
    talk: &Talk,
) -> (bool, (bool, bool)) {
    let mut ports = ports;
    let is_closed = relay_to_the_end(session, &mut ports, poller);
    (is_closed, have_taken(ports, talk.to_bot, talk.to_server))
}

/// Checks a session between the two ends of a conversation until it is closed.
fn talks(rt: &HostRuntime, talk: &Talk) -> Result<(), Fail> {
    let pool = Pool::new(rt.alloc());
    let mut poller = still_poller(rt)?;
    let mut session = Session::new(rt.alloc(), CONFIG)?;
    let ports = ports_of(rt.alloc(), &pool, talk);
    let told = is_talked(&mut session, ports, &mut poller, talk);
    same(
        &told,
        &(true, (true, true)),
        &"closed, and what the bot and the server took",
    )
}

/// A message with an unclosed bracket is returned to the bot in a `PRN`, and the server gets no byte of it.
const UNCLOSED_BRACKET: Talk = Talk {
    is_slow: true,
    bot: &[(0, IM), (4, UNCLOSED), (4, OBS), (4, FM)],
    server: &[(8, RM)],
    to_bot: &[RM, ITS_PRN],
    to_server: &[IM, OBS, FM],
};

/// A second initial message is an error, reported to the bot. The server gets an FM.
const SECOND_IM: Talk = Talk {
    is_slow: true,
    bot: &[(0, IM), (4, IM)],
    server: &[(8, RM)],
    to_bot: &[RM, EM_SECOND_IM],
    to_server: &[IM, FM],
};

/// The server closes its connection without an FM. The bot gets an FM, and its earlier frames were forwarded.
const SERVER_GOES: Talk = Talk {
    is_slow: true,
    bot: &[(0, IM), (4, OBS)],
    server: &[(8, RM), (14, b"")],
    to_bot: &[RM, FM],
    to_server: &[IM, OBS],
};

/// Each answer of the gateway is sent in one write, as is each forwarded frame.
const ANSWERED: Talk = Talk {
    is_slow: false,
    bot: &[(0, IM), (4, UNCLOSED), (18, OBS_GOF), (34, FM)],
    server: &[(8, RM)],
    to_bot: &[RM, ITS_PRN, ITS_HUH],
    to_server: &[IM, FM],
};

#[test]
fn answers_go_out_in_one_write(rt: HostRuntime) -> Result<(), Fail> {
    talks(&rt, &ANSWERED)
}

#[test]
fn unclosed_bracket_over_streams_in_memory(rt: HostRuntime) -> Result<(), Fail> {
    talks(&rt, &UNCLOSED_BRACKET)
}

#[test]
fn second_im_over_streams_in_memory(rt: HostRuntime) -> Result<(), Fail> {
    talks(&rt, &SECOND_IM)
}

#[test]
fn server_goes_over_streams_in_memory(rt: HostRuntime) -> Result<(), Fail> {
    talks(&rt, &SERVER_GOES)
}
