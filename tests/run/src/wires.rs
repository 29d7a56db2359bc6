//! Sockets over streams in memory that accept what a row allows: the time of each write, and the readiness after each
//! call. A network in which nothing moves polls them.

use crate::doors::any_port;
use crate::wires::Step::{Idles, Puts, Turns};
use daide_buffered_io::pool::Pool;
use daide_buffered_io::readiness::Readiness;
use daide_frame::side::Side;
use daide_io::duplex::Duplex;
use daide_io::network::{ConnectReport, Network, SocketEvent};
use daide_io::ports::{Ports, Pull, Put};
use daide_settings::Host;
use daide_sockets::poller::Poller;
use daide_sockets::ports::SocketPorts;
use daide_sockets::present::Bot;
use daide_sockets::socket::Socket;
use daide_sockets::table::SocketTable;
use daide_test_support::rows::{holds, same};
use std::cell::Cell;
use std::io;
use std::io::ErrorKind;
use std::net::SocketAddr;
use std::rt::Clock;
use std::test::Fail;
use std::time::{Duration, Instant};

/// A stream in memory.
#[derive(Drop)]
pub struct Wire {
    /// The most bytes that each write accepts, in order. A write with 0, or after the last one, would block.
    takes: &'static [usize],
    /// The number of bytes that it still returns. With none left, a read would block.
    gives: usize,
    writes: usize,
    /// The number of bytes that it accepted.
    pub took: usize,
    /// Whether writes fail.
    fails: bool,
}

impl Wire {
    /// Creates a stream whose writes accept these numbers of bytes, and that returns `gives` bytes.
    pub fn new(takes: &'static [usize], gives: usize) -> Wire {
        Wire {
            takes,
            gives,
            writes: 0,
            took: 0,
            fails: false,
        }
    }
}

/// Returns `count`, or `WouldBlock` if it is 0.
pub fn some(count: usize) -> io::Result<usize> {
    if count == 0 {
        return Err(ErrorKind::WouldBlock.into());
    }
    Ok(count)
}

impl Duplex for Wire {
    ghost use Rattle.std.specs.Prelude.{None};

    ghost to_give = { λ _. None };

    ghost taken = { λ _. None };

    ghost calls = { λ _. None };

    fn read(&mut self, buffer: &mut [u8]) -> io::Result<usize> {
        let count = self.gives.min(buffer.len());
        self.gives = self.gives.saturating_sub(count);
        some(count)
    }

    fn write(&mut self, bytes: &[u8]) -> io::Result<usize> {
        if self.fails {
            return Err(ErrorKind::BrokenPipe.into());
        }
        let next = self.takes.get(self.writes).copied().unwrap_or(0);
        self.writes = self.writes.saturating_add(1);
        let count = next.min(bytes.len());
        self.took = self.took.saturating_add(count);
        some(count)
    }

    fn end_writing(&mut self) {}
}

/// Returns the first bot of a run.
pub fn first_bot() -> Bot {
    let address = any_port();
    Bot {
        number: 1,
        host: Host::of(address.ip()),
        address,
        since: None,
    }
}

/// The ports of a session over two such streams.
pub type WirePorts<'w> = SocketPorts<'w, Wire>;

/// Both directions may make progress.
pub const READY: Readiness = Readiness {
    may_read: true,
    may_write: true,
    reads_on: false,
};

/// The rows of a table for one place and two closing sockets: of the place, whose keys are 0 and 1, of two listeners, of eight
/// control connections, and of the closing sockets.
pub const ROWS: usize = 14;

/// Returns a stream whose writes fail.
pub fn broken() -> Wire {
    let mut wire = Wire::new(ALL, 0);
    wire.fails = true;
    wire
}

/// A call of a session's ports.
#[derive(Clone, Copy)]
enum Step {
    /// This number of bytes is put to a side.
    Puts(Side, usize),
    /// A side is pulled from, and has nothing.
    Idles(Side),
    /// This number of turns begins.
    Turns(usize),
}

/// The bytes that the bot's writes accept | those that the server's writes accept | the calls | the bytes that each
/// stream then accepted.
type Written = (
    &'static [usize],
    &'static [usize],
    &'static [Step],
    (usize, usize),
);

/// A stream that accepts every write whole; at most 16,384 bytes are written at once.
const ALL: &[usize] = &[59_999, 59_999, 59_999, 59_999];

/// A few bytes stay in the write buffer until their session has nothing else to do, the buffer is full, or 128 turns
/// began. Many bytes are written at once, together with the write buffer before them.
const WRITTEN: &[Written] = &[
    (ALL, ALL, &[Puts(Side::Server, 3)], (0, 0)),
    (ALL, ALL, &[Puts(Side::Server, 3), Idles(Side::Bot)], (0, 3)),
    (ALL, ALL, &[Puts(Side::Bot, 3), Idles(Side::Server)], (3, 0)),
    (
        ALL,
        ALL,
        &[Puts(Side::Server, 3), Idles(Side::Server)],
        (0, 0),
    ),
    // If a stream accepts nothing, its session may wait only for it. So the other side's write buffer is written.
    (
        &[],
        ALL,
        &[Puts(Side::Server, 3), Puts(Side::Bot, 17_000)],
        (0, 3),
    ),
    (
        ALL,
        &[],
        &[Puts(Side::Bot, 3), Puts(Side::Server, 17_000)],
        (3, 0),
    ),
    (
        ALL,
        ALL,
        &[Puts(Side::Server, 3), Puts(Side::Bot, 3)],
        (0, 0),
    ),
    (ALL, ALL, &[Puts(Side::Bot, 3), Puts(Side::Bot, 3)], (0, 0)),
    (ALL, ALL, &[Puts(Side::Server, 3), Turns(127)], (0, 0)),
    (ALL, ALL, &[Puts(Side::Server, 3), Turns(128)], (0, 3)),
    (ALL, ALL, &[Puts(Side::Bot, 3), Turns(128)], (3, 0)),
    (
        ALL,
        ALL,
        &[Turns(20), Puts(Side::Server, 3), Turns(127)],
        (0, 0),
    ),
    (
        ALL,
        ALL,
        &[Puts(Side::Server, 3), Puts(Side::Bot, 3), Turns(128)],
        (3, 3),
    ),
    (
        ALL,
        &[0, 59_999],
        &[Puts(Side::Server, 3), Turns(128), Turns(1)],
        (0, 3),
    ),
    // Turns are counted for each side, and from 0 again after a part of its write buffer was written.
    (
        ALL,
        ALL,
        &[
            Puts(Side::Server, 3),
            Turns(20),
            Puts(Side::Bot, 3),
            Turns(108),
        ],
        (0, 3),
    ),
    (
        ALL,
        ALL,
        &[
            Puts(Side::Server, 16_000),
            Turns(20),
            Puts(Side::Server, 500),
            Turns(127),
        ],
        (0, 16_000),
    ),
    (
        ALL,
        ALL,
        &[Puts(Side::Server, 10_000), Puts(Side::Server, 10_000)],
        (0, 10_000),
    ),
    (
        ALL,
        ALL,
        &[Puts(Side::Server, 3), Puts(Side::Server, 16_381)],
        (0, 0),
    ),
    // The free space is only after the last byte; removing bytes from the front adds none.
    (
        ALL,
        &[1_000, 59_999],
        &[
            Puts(Side::Server, 16_000),
            Idles(Side::Bot),
            Turns(1),
            Puts(Side::Server, 500),
        ],
        (0, 16_000),
    ),
    (ALL, ALL, &[Puts(Side::Server, 17_000)], (0, 16_384)),
    // Many bytes are sent in one write with the write buffer before them; fewer are kept together.
    (
        ALL,
        &[59_999],
        &[Puts(Side::Server, 3), Puts(Side::Server, 17_000)],
        (0, 16_384),
    ),
    (
        ALL,
        &[59_999],
        &[Puts(Side::Server, 3), Puts(Side::Server, 16_384)],
        (0, 16_384),
    ),
    (
        ALL,
        ALL,
        &[Puts(Side::Server, 3), Puts(Side::Server, 16_383)],
        (0, 3),
    ),
    (
        ALL,
        &[2],
        &[Puts(Side::Server, 3), Idles(Side::Bot)],
        (0, 2),
    ),
    // The rest that a stream did not accept fills the buffer to its end. Once the stream accepts it, more is written in
    // the same put.
    (
        ALL,
        &[1_000, 59_999, 59_999],
        &[
            Puts(Side::Server, 3),
            Puts(Side::Server, 17_000),
            Turns(1),
            Puts(Side::Server, 17_000),
        ],
        (0, 32_768),
    ),
];

const BYTES: &[u8] = &[7; 17_000];

/// Makes a call of the ports, and returns whether its result is right: no failure of a put, and an idle pull. Before
/// turns a poll reports both streams as ready.
fn does(ports: &mut WirePorts<'_>, poller: &mut StillPoller, step: Step) -> bool {
    match step {
        Puts(side, count) => ports.put(side, &BYTES[..count.min(BYTES.len())]) != Put::Failed,
        Idles(side) => ports.pull(side, &mut [0; 8]) == Pull::Idle,
        Turns(count) => {
            report_all(poller);
            for _ in 0..count {
                ports.begin_turn(0, &mut poller.table);
            }
            true
        }
    }
}

/// Makes the calls of a row, and returns whether all results are right.
fn does_all(ports: &mut WirePorts<'_>, poller: &mut StillPoller, steps: &[Step]) -> bool {
    let mut are_right = true;
    for step in steps.iter() {
        are_right &= does(ports, poller, *step);
    }
    are_right
}

/// Returns a socket over a stream whose writes accept these numbers of bytes, ready and with this key.
fn ready_socket<'w>(pool: &'w Pool, takes: &'static [usize], key: usize) -> Socket<'w, Wire> {
    let mut socket = Socket::over(pool, Wire::new(takes, 0), key);
    socket.note_report(READY);
    socket
}

/// Returns the bytes that the streams of a row accepted, if all results are right.
fn took_of(pool: &Pool, poller: &mut StillPoller, written: &Written) -> Option<(usize, usize)> {
    let (bot_takes, server_takes, steps, _) = *written;
    let bot = ready_socket(pool, bot_takes, 0);
    let server = ready_socket(pool, server_takes, 1);
    let mut ports = SocketPorts::new(first_bot(), (bot, server), None, None, (None, None));
    let are_right = does_all(&mut ports, poller, steps);
    let (bot, server) = ports.into_sockets();
    let took = (bot.connection().took, server.connection().took);
    if are_right { Some(took) } else { None }
}

/// Checks each row, with this poller.
fn are_written(pool: &Pool, poller: &mut StillPoller) -> Result<(), Fail> {
    for (row, written) in WRITTEN.iter().enumerate() {
        same(&took_of(pool, poller, written), &Some(written.3), &row)?;
    }
    Ok(())
}

#[test]
fn bytes_are_held_and_written_by_rows(rt: HostRuntime) -> Result<(), Fail> {
    are_written(&Pool::new(rt.alloc()), &mut still_poller(&rt)?)
}

/// A call of one socket: a put, a flush or a pull.
#[derive(Clone, Copy)]
enum Call {
    Put(usize),
    Flush,
    Pull,
}

/// The bytes that the stream's writes accept | the bytes that it returns | the calls | whether a read and a write may
/// then make progress, and the number of bytes pulled.
type Flagged = (
    &'static [usize],
    usize,
    &'static [Call],
    (bool, bool, usize),
);

/// A call that moved nothing, or less than it could, is the last of its kind until the poller reports an event. Pulls
/// return the read buffer without a call.
const FLAGGED: &[Flagged] = &[
    (&[], 0, &[Call::Pull], (false, true, 0)),
    (&[], 8, &[Call::Pull], (false, true, 4)),
    (&[], 8, &[Call::Pull, Call::Pull], (false, true, 8)),
    (&[], 17_000, &[Call::Pull], (true, true, 4)),
    (&[], 0, &[Call::Put(17_000)], (true, false, 0)),
    (&[99], 0, &[Call::Put(17_000)], (true, false, 0)),
    (&[17_000], 0, &[Call::Put(17_000)], (true, true, 0)),
    (&[], 0, &[Call::Put(3), Call::Flush], (true, false, 0)),
    (&[3], 0, &[Call::Put(3), Call::Flush], (true, true, 0)),
];

/// Makes a call of a socket, and returns the number of bytes pulled.
fn calls(socket: &mut Socket<'_, Wire>, call: Call) -> usize {
    match call {
        Call::Put(count) => {
            socket.put(None, &BYTES[..count.min(BYTES.len())]);
            0
        }
        Call::Flush => {
            socket.flush_at(None);
            0
        }
        Call::Pull => match socket.pull(&mut [0; 4]) {
            Pull::Got(count) => count,
            Pull::Idle | Pull::Ended => 0,
        },
    }
}

/// Returns the readiness after the calls of a row, and the number of bytes pulled.
fn known_of(pool: &Pool, flagged: &Flagged) -> (bool, bool, usize) {
    let (takes, gives, done, _) = *flagged;
    let mut socket = Socket::over(pool, Wire::new(takes, gives), 0);
    socket.note_report(READY);
    let mut pulled: usize = 0;
    for call in done.iter() {
        pulled = pulled.saturating_add(calls(&mut socket, *call));
    }
    let readiness = socket.readiness;
    (readiness.may_read, readiness.may_write, pulled)
}

#[test]
fn flags_by_rows(rt: HostRuntime) -> Result<(), Fail> {
    let pool = Pool::new(rt.alloc());
    for (row, flagged) in FLAGGED.iter().enumerate() {
        same(&known_of(&pool, flagged), &flagged.3, &row)?;
    }
    Ok(())
}

/// Puts, flushes and puts again. Returns the result of each put, and whether the write buffer may be written then.
fn puts_of(socket: &mut Socket<'_, Wire>) -> ((Put, bool), (Put, bool)) {
    let first = (socket.put(None, b"abc"), socket.stream.has_queued());
    socket.flush_at(None);
    let has_queued = socket.stream.has_queued();
    (first, (socket.put(None, b"d"), has_queued))
}

/// Returns a socket whose stream's writes fail.
fn failing(pool: &Pool) -> Socket<'_, Wire> {
    let mut socket = Socket::over(pool, broken(), 0);
    socket.note_report(READY);
    socket
}

/// The put after a failed write returns `Failed`, and the rest of the write buffer is not written again.
#[test]
fn failed_flush_is_told_by_the_next_put(rt: HostRuntime) -> Result<(), Fail> {
    let pool = Pool::new(rt.alloc());
    let told = puts_of(&mut failing(&pool));
    let wanted = ((Put::Took(3), true), (Put::Failed, false));
    holds(told == wanted, "held and may be written, then the failure")
}

/// Returns the results of a put of many bytes, which are written at once, and of a small put after it.
fn many_puts_of(socket: &mut Socket<'_, Wire>) -> (Put, Put) {
    (socket.put(None, BYTES), socket.put(None, b"d"))
}

/// Every put after a failure returns `Failed`.
#[test]
fn failure_is_told_again(rt: HostRuntime) -> Result<(), Fail> {
    let pool = Pool::new(rt.alloc());
    let told = many_puts_of(&mut failing(&pool));
    holds(told == (Put::Failed, Put::Failed), "the failure, twice")
}

/// A network that follows only its listener. Its clock advances at each reading, and its polls don't block.
#[derive(Drop)]
pub struct Still {
    clock: Steps,
    /// The keys of the sockets that the next poll reports as ready.
    pub ready: [bool; ROWS],
    /// The timeout of the last poll.
    pub timeout: Option<Duration>,
}

/// Returns the report of a socket that may be read and written.
pub fn ready_event(key: usize) -> SocketEvent {
    SocketEvent {
        key,
        is_readable: true,
        is_writable: true,
        is_read_closed: false,
        is_write_closed: false,
        is_error: false,
        is_priority: false,
    }
}

impl Network for Still {
    type Connection = Wire;

    ghost transition = { λ _ _ _. Unit {0} };

    fn now(&mut self) -> Option<Instant> {
        Instant::now(&self.clock).ok()
    }

    fn poll(&mut self, timeout: Option<Duration>, socket_events: &mut Vec<SocketEvent>) {
        socket_events.clear();
        self.timeout = timeout;
        for (key, is_ready) in self.ready.iter().enumerate() {
            if *is_ready {
                let _ = socket_events.push(ready_event(key));
            }
        }
        self.ready = [false; ROWS];
    }

    fn listen(&mut self, _key: usize) -> bool {
        true
    }

    fn check_descriptors(&mut self, _count: usize) -> io::Result<()> {
        Ok(())
    }

    fn accept(&mut self) -> io::Result<(Wire, SocketAddr)> {
        Err(ErrorKind::WouldBlock.into())
    }

    fn stop_listening(&mut self) {}

    fn listen_for_control(&mut self, _key: usize) -> Option<bool> {
        None
    }

    fn accept_control(&mut self) -> io::Result<Wire> {
        Err(ErrorKind::WouldBlock.into())
    }

    fn connect(&mut self, _address: SocketAddr) -> io::Result<Wire> {
        Err(ErrorKind::ConnectionRefused.into())
    }

    fn follow(&mut self, _connection: &mut Wire, _key: usize) -> bool {
        true
    }

    fn refollow(&mut self, _connection: &mut Wire, _key: usize) -> bool {
        true
    }

    fn connect_report(&mut self, _connection: &Wire) -> ConnectReport {
        ConnectReport {
            failure: Some(ErrorKind::ConnectionRefused),
            has_peer: false,
        }
    }

    fn local_address(&self, _connection: &Wire) -> Option<SocketAddr> {
        None
    }
}

/// The poller of such a network.
pub type StillPoller = Poller<Still>;

/// Returns the poller of a network in which nothing moves, with a table of its own.
pub fn still_poller(rt: &HostRuntime) -> Result<StillPoller, Fail> {
    let network = Still {
        clock: Steps(Cell::new(0)),
        ready: [false; ROWS],
        timeout: None,
    };
    let table = SocketTable::new(rt.alloc(), 1, 2)?;
    Ok(Poller::new(rt.alloc(), network, table)?)
}

/// Polls, and reports every socket as ready.
pub fn report_all(poller: &mut StillPoller) {
    poller.network.ready = [true; ROWS];
    poller.poll(true);
}

/// The milliseconds that pass between two reads of the clock.
pub const STEP: u64 = 400;

/// A clock that advances at each read.
#[derive(Drop)]
pub struct Steps(Cell<u64>);

impl Clock for Steps {
    fn monotonic(&self) -> io::Result<Duration> {
        let step = self.0.get();
        self.0.set(step.saturating_add(1));
        Ok(Duration::from_millis(step.saturating_mul(STEP)))
    }

    fn since_1970(&self) -> io::Result<Duration> {
        self.monotonic()
    }
}
