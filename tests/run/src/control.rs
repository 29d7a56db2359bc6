//! The control socket of a run, over a network in memory: which bytes are requests, what is answered, and which orders
//! a round begins with.

use crate::control::Given::{Bytes, End, Fails, Interrupted, Later};
use crate::wires::{ready_event, some};
use daide_buffered_io::pool::Pool;
use daide_frame::side::Side;
use daide_io::duplex::Duplex;
use daide_io::network::{ConnectReport, Network, SocketEvent};
use daide_io::ports::{ClockEvent, Ports, Pull};
use daide_io::ready_queue::ReadyQueue;
use daide_io::system::{Cause, Connect, Orders, SessionEnd, System};
use daide_protocol::account::Account;
use daide_settings::{Settings, read_settings};
use daide_sockets::ports::SocketPorts;
use daide_sockets::system::Sockets;
use daide_sockets::table::SocketTable;
use daide_test_support::rows::{holds, same};
use std::alloc::Global;
use std::cell::{Cell, RefCell};
use std::io;
use std::io::ErrorKind;
use std::net::SocketAddr;
use std::rt::Clock;
use std::test::Fail;
use std::time::{Duration, Instant};

/// What a read of a control connection gives.
#[derive(Clone, Copy)]
enum Given {
    /// These bytes, as many as fit. The others are lost.
    Bytes(&'static [u8]),
    /// Nothing yet.
    Later,
    /// An interruption.
    Interrupted,
    /// The end of the stream.
    End,
    /// A failure.
    Fails,
}

/// What the reads of a client's connection give, in order; after the last one nothing comes | the most bytes that each
/// write takes.
type Client = (&'static [Given], usize);

/// A connection in memory. The bytes that it takes are appended to those of the network.
struct Line<'n> {
    client: Client,
    at: usize,
    seen: &'n Seen,
}

/// What a network saw.
#[derive(Drop)]
struct Seen {
    /// The bytes that all control connections took.
    written: RefCell<Vec<u8>>,
    /// The number of connections that were dropped.
    closed: Cell<usize>,
    /// Whether the listener for bots was closed.
    is_shut: Cell<bool>,
}

impl Duplex for Line<'_> {
    ghost use Rattle.std.specs.Prelude.{None};

    ghost to_give = { λ _. None };

    ghost taken = { λ _. None };

    ghost calls = { λ _. None };

    fn read(&mut self, buffer: &mut [u8]) -> io::Result<usize> {
        let given = self.client.0.get(self.at).copied().unwrap_or(Later);
        self.at = self.at.saturating_add(1);
        match given {
            Bytes(bytes) => {
                let count = bytes.len().min(buffer.len());
                buffer[..count].copy_from_slice(&bytes[..count]);
                some(count)
            }
            Later => Err(ErrorKind::WouldBlock.into()),
            Interrupted => Err(ErrorKind::Interrupted.into()),
            End => Ok(0),
            Fails => Err(ErrorKind::ConnectionReset.into()),
        }
    }

    fn write(&mut self, bytes: &[u8]) -> io::Result<usize> {
        let count = self.client.1.min(bytes.len());
        let Ok(mut written) = self.seen.written.try_borrow_mut() else {
            return Err(ErrorKind::Other.into());
        };
        if written.extend_from_slice(&bytes[..count]).is_err() {
            return Err(ErrorKind::OutOfMemory.into());
        }
        some(count)
    }

    fn end_writing(&mut self) {}
}

impl Drop for Line<'_> {
    fn drop(self) {
        self.seen
            .closed
            .set(self.seen.closed.get().saturating_add(1));
        let Line {
            client: _,
            at: _,
            seen: _,
        } = self;
    }
}

/// A clock that stands still.
#[derive(Drop)]
struct At(u64);

impl Clock for At {
    fn monotonic(&self) -> io::Result<Duration> {
        Ok(Duration::from_millis(self.0))
    }

    fn since_1970(&self) -> io::Result<Duration> {
        self.monotonic()
    }
}

/// A network with so many clients at its control socket, which are these again and again, and some bots. The server
/// accepts each connect. Each poll reports
/// every row, and takes this number of milliseconds.
#[derive(Drop)]
struct Door<'n> {
    clients: &'static [Client],
    count: usize,
    next: usize,
    bots: usize,
    seen: &'n Seen,
    now: u64,
    step: u64,
}

/// The rows of the table of such a network.
const ROWS: usize = 16;

/// What a bot or the server sends, and takes.
const QUIET: Client = (&[], 9_999);

impl<'n> Door<'n> {
    /// Returns a connection that sends nothing.
    fn quiet(&self) -> Line<'n> {
        Line {
            client: QUIET,
            at: 0,
            seen: self.seen,
        }
    }
}

impl<'n> Network for Door<'n> {
    type Connection = Line<'n>;

    ghost transition = { λ _ _ _. Unit {0} };

    fn now(&mut self) -> Option<Instant> {
        Instant::now(&At(self.now)).ok()
    }

    fn poll(&mut self, _timeout: Option<Duration>, socket_events: &mut Vec<SocketEvent>) {
        self.now = self.now.saturating_add(self.step);
        socket_events.clear();
        for key in 0..ROWS {
            let _ = socket_events.push(ready_event(key));
        }
    }

    fn listen(&mut self, _key: usize) -> bool {
        true
    }

    fn check_descriptors(&mut self, _count: usize) -> io::Result<()> {
        Ok(())
    }

    fn accept(&mut self) -> io::Result<(Line<'n>, SocketAddr)> {
        if self.bots == 0 {
            return Err(ErrorKind::WouldBlock.into());
        }
        self.bots = self.bots.saturating_sub(1);
        Ok((self.quiet(), SocketAddr::from(([127, 0, 0, 1], 50_000))))
    }

    fn stop_listening(&mut self) {
        self.seen.is_shut.set(true);
    }

    fn listen_for_control(&mut self, _key: usize) -> Option<bool> {
        Some(true)
    }

    fn accept_control(&mut self) -> io::Result<Line<'n>> {
        if self.next >= self.count || self.clients.is_empty() {
            return Err(ErrorKind::WouldBlock.into());
        }
        let Some(client) = self.clients.get(self.next % self.clients.len()) else {
            return Err(ErrorKind::WouldBlock.into());
        };
        self.next = self.next.saturating_add(1);
        Ok(Line {
            client: *client,
            at: 0,
            seen: self.seen,
        })
    }

    fn connect(&mut self, _address: SocketAddr) -> io::Result<Line<'n>> {
        Ok(self.quiet())
    }

    fn follow(&mut self, _connection: &mut Line<'n>, _key: usize) -> bool {
        true
    }

    fn refollow(&mut self, _connection: &mut Line<'n>, _key: usize) -> bool {
        true
    }

    fn connect_report(&mut self, _connection: &Line<'n>) -> ConnectReport {
        ConnectReport {
            failure: None,
            has_peer: true,
        }
    }

    fn local_address(&self, _connection: &Line<'n>) -> Option<SocketAddr> {
        None
    }
}

/// The sockets of a run over such a network.
type DoorSockets<'w, 'n, 't> = Sockets<'w, Door<'n>, &'t mut Vec<u8>>;

/// Makes rounds without a session, and returns the orders of the last one.
fn orders_after(
    sockets: &mut DoorSockets<'_, '_, '_>,
    ready: &mut ReadyQueue,
    rounds: usize,
) -> Orders {
    let mut orders = Orders::NONE;
    for _round in 0..rounds {
        orders = sockets.poll(true, ready);
    }
    orders
}

/// The clients | the milliseconds of a poll | the rounds | the bytes that all of them took | whether a stop is ordered
/// then |
/// how many connections are closed then.
type Asked = (&'static [Client], u64, usize, &'static [u8], bool, usize);

/// The answer to anything that is no request.
const UNKNOWN: &[u8] = b"unknown request\n";

/// A status without a session.
const NOBODY: &[u8] = b"\
{\"open\":0,\"connecting\":0,\"served\":0,\"unreached\":0,\"bots_may_wait\":false,\"stopping\":false,\"seconds\":0,\
\"server\":{\"state\":\"untried\",\"seconds\":0,\"unreached\":0},\"sessions\":[\n\
],\"counts\":{\"declined\":0,\"dropped\":0,\"frames\":{\"faults\":0,\"relayed\":{\"bot\":0,\"server\":0},\
\"prn\":{\"bot\":0,\"server\":0},\"huh\":{\"bot\":0,\"server\":0}},\"ends\":{\"bot ended\":0,\"server ended\":0,\
\"bot lost\":0,\"server lost\":0,\"FM of bot\":0,\"FM of server\":0,\"EM of bot\":0,\"EM of server\":0,\
\"fault of bot\":0,\"fault of server\":0,\"no IM in time\":0,\"stopped by the operator\":0,\"bot silent\":0,\
\"server silent\":0,\"bot took nothing\":0,\"server took nothing\":0,\
\"too many refusals of bot\":0,\"too many refusals of server\":0,\"turns spent\":0,\"no server\":0}}}\n";

/// The answer to a stop that waits.
const STOPPING: &[u8] = b"stopping\n";

/// A client that requests a stop, and waits.
const STOPS: Client = (&[Bytes(b"stop\n")], 99);

/// 63 bytes without a line feed.
const LONG: &[u8] = b"status table status table status table status table status tabl";

/// A client that sends nothing.
const SILENT: Client = (&[], 99);

/// A connection is accepted in the first round after its row was reported, read in the next one, and answered in the
/// one
/// after that.
const ASKED: &[Asked] = &[
    (&[], 0, 5, b"", false, 0),
    (&[(&[Bytes(b"hello\n")], 99)], 0, 6, UNKNOWN, false, 1),
    (&[(&[Bytes(b"\n")], 99)], 0, 6, UNKNOWN, false, 1),
    (
        &[(&[Bytes(b"\xff\x00\x80\n")], 99)],
        0,
        6,
        UNKNOWN,
        false,
        1,
    ),
    (&[(&[Bytes(b"STOP\n")], 99)], 0, 6, UNKNOWN, false, 1),
    (&[(&[Bytes(b"stop \n")], 99)], 0, 6, UNKNOWN, false, 1),
    // 63 bytes may still be a request, 64 bytes without a line feed are none.
    (&[(&[Bytes(LONG)], 99)], 0, 6, b"", false, 0),
    (
        &[(&[Bytes(LONG), Bytes(b"x")], 99)],
        0,
        8,
        UNKNOWN,
        false,
        1,
    ),
    (
        &[(&[Bytes(LONG), Bytes(b"\n")], 99)],
        0,
        8,
        UNKNOWN,
        false,
        1,
    ),
    // The end, or a failure, without a line is no request.
    (&[(&[End], 99)], 0, 6, UNKNOWN, false, 1),
    (&[(&[Bytes(b"stop"), End], 99)], 0, 8, UNKNOWN, false, 1),
    (&[(&[Bytes(b"stop"), Fails], 99)], 0, 8, UNKNOWN, false, 1),
    // A stop that its client waits for is answered, and its connection stays open.
    (&[STOPS], 0, 6, STOPPING, true, 0),
    (&[STOPS], 500, 20, STOPPING, true, 0),
    (
        &[(&[Bytes(b"st"), Later, Bytes(b"op\n")], 99)],
        0,
        9,
        STOPPING,
        true,
        0,
    ),
    (&[(&[Bytes(b"stop now\n")], 99)], 0, 6, STOPPING, true, 0),
    (
        &[(&[Bytes(b"stop\n"), Later, End], 99)],
        0,
        9,
        STOPPING,
        true,
        1,
    ),
    // What follows the line is ignored.
    (
        &[(&[Bytes(b"stop\n"), Bytes(b"x")], 99)],
        0,
        9,
        STOPPING,
        true,
        0,
    ),
    // A stop whose client is gone is not carried out.
    (&[(&[Bytes(b"stop\n"), End], 99)], 0, 9, b"", false, 1),
    (&[(&[Bytes(b"stop now\n"), End], 99)], 0, 9, b"", false, 1),
    (&[(&[Bytes(b"stop\n"), Fails], 99)], 0, 9, b"", false, 1),
    (
        &[(&[Bytes(b"stop\n"), Bytes(b"x"), End], 99)],
        0,
        9,
        b"",
        false,
        1,
    ),
    (
        &[(&[Bytes(b"stop session 7\n"), End], 99)],
        0,
        9,
        b"",
        false,
        1,
    ),
    // No session is there.
    (
        &[(&[Bytes(b"stop session 7\n")], 99)],
        0,
        6,
        b"no session 7\n",
        false,
        1,
    ),
    (
        &[(&[Bytes(b"stop session 4294967295\n")], 5)],
        0,
        12,
        b"no session 4294967295\n",
        false,
        1,
    ),
    // Four stops wait. A fifth does not, but it is carried out, and other requests are answered.
    (
        &[STOPS, STOPS, STOPS, STOPS, STOPS, (&[Bytes(b"?\n")], 99)],
        0,
        12,
        b"stopping\nstopping\nstopping\nstopping\ntoo many wait\nunknown request\n",
        true,
        2,
    ),
    // Once a stop waits no longer, another one does.
    (
        &[
            (&[Bytes(b"stop\n"), Later, End], 99),
            STOPS,
            STOPS,
            STOPS,
            STOPS,
            STOPS,
        ],
        0,
        12,
        b"stopping\nstopping\nstopping\nstopping\nstopping\ntoo many wait\n",
        true,
        2,
    ),
    (
        &[(
            &[
                Interrupted,
                Interrupted,
                Interrupted,
                Interrupted,
                Interrupted,
                Interrupted,
                Interrupted,
                Interrupted,
                Bytes(b"stop\n"),
            ],
            99,
        )],
        0,
        8,
        STOPPING,
        true,
        0,
    ),
    // An answer is written in as many pieces as the client takes.
    (&[(&[Bytes(b"?\n")], 3)], 0, 12, UNKNOWN, false, 1),
    (&[(&[Bytes(b"?\n")], 0)], 0, 12, b"", false, 0),
    (
        &[(&[Bytes(b"status json\n")], 9_999)],
        0,
        6,
        NOBODY,
        false,
        1,
    ),
    // Seconds that are not over are not counted.
    (
        &[(&[Bytes(b"status json\n")], 9_999)],
        200,
        6,
        NOBODY,
        false,
        1,
    ),
    // Two seconds after it was accepted, a connection is closed.
    (&[SILENT], 500, 4, b"", false, 0),
    (&[SILENT], 500, 5, b"", false, 1),
    (&[(&[Bytes(b"?\n")], 0)], 500, 9, b"", false, 1),
    // Eight at once: a ninth waits until one is closed.
    (
        &[
            SILENT, SILENT, SILENT, SILENT, SILENT, SILENT, SILENT, SILENT, STOPS,
        ],
        0,
        20,
        b"",
        false,
        0,
    ),
    (
        &[
            SILENT, SILENT, SILENT, SILENT, SILENT, SILENT, SILENT, SILENT, STOPS,
        ],
        200,
        30,
        STOPPING,
        true,
        8,
    ),
];

/// Returns the settings of a run. Its addresses are not resolved.
fn plain_settings(alloc: Global) -> Result<Settings, Fail> {
    Ok(read_settings(alloc, "listen = 'a:1'\nserver = 'b:2'")?)
}

/// Creates what a network sees.
fn nothing_seen(alloc: Global) -> Seen {
    Seen {
        written: RefCell::new(Vec::new(alloc)),
        closed: Cell::new(0),
        is_shut: Cell::new(false),
    }
}

/// Returns a network with these clients and so many bots, whose polls take this time.
fn door_of<'n>(clients: &'static [Client], bots: usize, step: u64, seen: &'n Seen) -> Door<'n> {
    Door {
        clients,
        count: clients.len(),
        next: 0,
        bots,
        seen,
        now: 0,
        step,
    }
}

/// Returns the sockets of a run over a network, with this address of the server.
fn sockets_on<'w, 'n, 't>(
    alloc: Global,
    (door, server): (Door<'n>, &'w [SocketAddr]),
    pool: &'w Pool,
    settings: &'w Settings,
    told: &'t mut Vec<u8>,
) -> Result<DoorSockets<'w, 'n, 't>, Fail> {
    let table = SocketTable::new(alloc, 1, 2)?;
    let resources = (door, server, table, pool);
    match Sockets::new(alloc, resources, settings, Duration::from_secs(5), told) {
        Some(sockets) => Ok(sockets),
        None => Err(Fail::new("no sockets")),
    }
}

/// Returns whether the control connections took these bytes.
fn took(seen: &Seen, bytes: &[u8]) -> bool {
    match seen.written.try_borrow() {
        Ok(written) => written.as_slice() == bytes,
        Err(_) => false,
    }
}

/// Returns whether the rounds of a row end as it says, as long as its sockets are there.
fn is_as_asked(rt: &HostRuntime, settings: &Settings, asked: &Asked) -> Result<bool, Fail> {
    let (clients, step, rounds, written, stops, closed) = *asked;
    let seen = nothing_seen(rt.alloc());
    let pool = Pool::new(rt.alloc());
    let mut told = Vec::new(rt.alloc());
    let resources = (door_of(clients, 0, step, &seen), [].as_slice());
    let mut sockets = sockets_on(rt.alloc(), resources, &pool, settings, &mut told)?;
    let mut ready = ReadyQueue::new(rt.alloc(), 1)?;
    let orders = orders_after(&mut sockets, &mut ready, rounds);
    Ok(
        orders.stops_accepting == stops
            && seen.is_shut.get() == stops
            && seen.closed.get() == closed
            && took(&seen, written),
    )
}

#[test]
fn requests_by_rows(rt: HostRuntime) -> Result<(), Fail> {
    let settings = plain_settings(rt.alloc())?;
    for (row, asked) in ASKED.iter().enumerate() {
        same(&is_as_asked(&rt, &settings, asked)?, &true, &row)?;
    }
    Ok(())
}

/// Returns the ports of the first bot, once it is connected to the server.
fn first_ports<'w, 'n>(
    sockets: &mut DoorSockets<'w, 'n, '_>,
    ready: &mut ReadyQueue,
) -> Result<SocketPorts<'w, Line<'n>>, Fail> {
    for _round in 0..9 {
        sockets.poll(true, ready);
        let _came = sockets.accept(0);
        if let Connect::Ready(ports) = sockets.connected(0) {
            return Ok(ports);
        }
    }
    Err(Fail::new("no ports"))
}

/// What a turn of ports finds: whether a poll woke their place before it, the event of the clock, and the result of a pull of
/// each side.
type Found = (bool, ClockEvent, Pull, Pull);

/// Makes a turn of ports, and returns what it finds.
fn turn_of<'w, 'n>(
    sockets: &mut DoorSockets<'w, 'n, '_>,
    ready: &mut ReadyQueue,
    ports: &mut SocketPorts<'w, Line<'n>>,
) -> Found {
    let is_woken = ready.next(true) == Some(0);
    sockets.begin_turn(0, &Account::new(), ports);
    let event = ports.clock(false);
    let bot = ports.pull(Side::Bot, &mut [0; 8]);
    (is_woken, event, bot, ports.pull(Side::Server, &mut [0; 8]))
}

/// A client that requests a stop at once.
const STOPS_NOW: &[Client] = &[(
    &[Later, Later, Later, Later, Later, Bytes(b"stop now\n")],
    99,
)];

/// After `stop now` the place of a session is woken, and in its next turn the clock returns that a stop is requested. It is
/// not woken again, and has no event after that.
#[test]
fn session_ends_at_stop_now(rt: HostRuntime) -> Result<(), Fail> {
    let settings = plain_settings(rt.alloc())?;
    let seen = nothing_seen(rt.alloc());
    let pool = Pool::new(rt.alloc());
    let mut told = Vec::new(rt.alloc());
    let server = [SocketAddr::from(([127, 0, 0, 1], 16_714))];
    let resources = (door_of(STOPS_NOW, 1, 0, &seen), server.as_slice());
    let mut sockets = sockets_on(rt.alloc(), resources, &pool, &settings, &mut told)?;
    let mut ready = ReadyQueue::new(rt.alloc(), 1)?;
    let mut ports = first_ports(&mut sockets, &mut ready)?;
    let idle = (ClockEvent::NoEvent, Pull::Idle, Pull::Idle);
    let before = turn_of(&mut sockets, &mut ready, &mut ports);
    holds((before.1, before.2, before.3) == idle, "nothing comes")?;
    let orders = orders_after(&mut sockets, &mut ready, 9);
    holds(orders.stops_accepting, "the stop is ordered")?;
    let stopped = turn_of(&mut sockets, &mut ready, &mut ports);
    let requested = (true, ClockEvent::StopIsRequested, Pull::Idle, Pull::Idle);
    same(&stopped, &requested, &"requested once")?;
    let again = turn_of(&mut sockets, &mut ready, &mut ports);
    same(&again, &(false, idle.0, idle.1, idle.2), &"not woken again")
}

/// A client that requests the stop of the first session, once that is there.
const ENDS_FIRST: Client = (
    &[
        Later,
        Later,
        Later,
        Later,
        Later,
        Later,
        Later,
        Bytes(b"stop session 1\n"),
    ],
    99,
);

/// Clients that request the stop of another session, five times that of the first one, and last the stop of the run.
const STOPS_SESSION: &[Client] = &[
    (&[Bytes(b"stop session 2\n")], 99),
    ENDS_FIRST,
    ENDS_FIRST,
    ENDS_FIRST,
    ENDS_FIRST,
    ENDS_FIRST,
    (
        &[
            Later,
            Later,
            Later,
            Later,
            Later,
            Later,
            Later,
            Later,
            Later,
            Later,
            Later,
            Later,
            Later,
            Later,
            Later,
            Later,
            Bytes(b"stop\n"),
        ],
        99,
    ),
];

/// What they take.
const SESSION_STOPPED: &[u8] = b"\
no session 2\nstopping\nstopping\nstopping\nstopping\ntoo many wait\ntoo many wait\n";

/// A stop of a session stops no run, and its client waits until the session is retired. Once four wait, a fifth stop of a
/// session is not carried out, and one of the run is.
#[test]
fn stop_of_a_session_waits_for_its_end(rt: HostRuntime) -> Result<(), Fail> {
    let settings = plain_settings(rt.alloc())?;
    let seen = nothing_seen(rt.alloc());
    let pool = Pool::new(rt.alloc());
    let mut told = Vec::new(rt.alloc());
    let server = [SocketAddr::from(([127, 0, 0, 1], 16_714))];
    let resources = (door_of(STOPS_SESSION, 1, 50, &seen), server.as_slice());
    let mut sockets = sockets_on(rt.alloc(), resources, &pool, &settings, &mut told)?;
    let mut ready = ReadyQueue::new(rt.alloc(), 1)?;
    let ports = first_ports(&mut sockets, &mut ready)?;
    let orders = orders_after(&mut sockets, &mut ready, 14);
    same(&orders, &Orders::NONE, &"no stop of the run")?;
    let last = orders_after(&mut sockets, &mut ready, 14);
    holds(last.stops_accepting, "the stop of the run")?;
    holds(took(&seen, SESSION_STOPPED), "the answers")?;
    same(&seen.closed.get(), &3, &"those that do not wait")?;
    let end = SessionEnd {
        cause: Cause::TurnsSpent,
        fault_field: None,
        account: Account::new(),
    };
    sockets.retire(0, ports, end);
    let _orders = orders_after(&mut sockets, &mut ready, 3);
    same(&seen.closed.get(), &7, &"those that waited")
}

/// Clients that request nothing: one that is silent, one whose line is too long, one with other bytes, one that ends
/// its
/// line too early, one that fails, and one that takes no answer.
const HOSTILE: &[Client] = &[
    SILENT,
    (&[Bytes(LONG), Bytes(LONG)], 99),
    (&[Bytes(b"\x00\xff\xfe\n")], 99),
    (&[Bytes(b"stop"), End], 99),
    (&[Fails], 99),
    (&[Bytes(b"?\n")], 0),
];

/// The number of hostile clients.
const MANY: usize = 60;

/// Hostile clients delay no session: the first bot has its ports as early as without them, and a turn of its session
/// finds
/// what it would find. All of them are closed in the end, and no stop is ordered.
#[test]
fn hostile_clients_delay_no_session(rt: HostRuntime) -> Result<(), Fail> {
    let settings = plain_settings(rt.alloc())?;
    let seen = nothing_seen(rt.alloc());
    let pool = Pool::new(rt.alloc());
    let mut told = Vec::new(rt.alloc());
    let server = [SocketAddr::from(([127, 0, 0, 1], 16_714))];
    let mut door = door_of(HOSTILE, 1, 250, &seen);
    door.count = MANY;
    let mut sockets = sockets_on(
        rt.alloc(),
        (door, server.as_slice()),
        &pool,
        &settings,
        &mut told,
    )?;
    let mut ready = ReadyQueue::new(rt.alloc(), 1)?;
    let mut ports = first_ports(&mut sockets, &mut ready)?;
    let turn = turn_of(&mut sockets, &mut ready, &mut ports);
    holds(
        (turn.2, turn.3) == (Pull::Idle, Pull::Idle),
        "nothing comes",
    )?;
    let orders = orders_after(&mut sockets, &mut ready, 400);
    same(&orders, &Orders::NONE, &"no order")?;
    same(&seen.closed.get(), &MANY, &"each client is closed")
}
