//! When a peer that accepts nothing is given up, for sockets over streams in memory.

use crate::wires::{STEP, StillPoller, Wire, first_bot, still_poller};
use daide_buffered_io::pool::Pool;
use daide_frame::side::Side;
use daide_io::ports::{Ports, Put};
use daide_sockets::ports::SocketPorts;
use daide_sockets::socket::Socket;
use daide_test_support::rows::same;
use std::test::Fail;
use std::time::{Duration, Instant};

/// The timeout of a peer that accepts nothing, in seconds.
const STALL_SECONDS: u64 = 60;

/// Puts three bytes to the bot in each of three turns, a step of the clock apart. Its stream accepts none, so the bytes
/// stay in the write buffer. Returns the moment at which the timeout of the first put is over, and the deadline after
/// each put.
fn deadlines_of(poller: &mut StillPoller, pool: &Pool) -> (Option<Instant>, [Option<Instant>; 3]) {
    let stall = Duration::from_secs(STALL_SECONDS);
    let sockets = (
        Socket::over(pool, Wire::new(&[], 0), 0),
        Socket::over(pool, Wire::new(&[], 0), 1),
    );
    let now = poller.table.now();
    let mut ports = SocketPorts::new(first_bot(), sockets, now, None, (None, Some(stall)));
    let mut first = None;
    let mut deadlines = [None; 3];
    for (turn, deadline) in deadlines.iter_mut().enumerate() {
        poller.poll(true);
        if turn == 0 {
            first = poller.table.after(stall);
        }
        ports.begin_turn(0, &mut poller.table);
        ports.put(Side::Bot, b"abc");
        *deadline = ports.due();
    }
    (first, deadlines)
}

/// The timeout runs from the first byte that waits. Further bytes that are only held don't restart it.
#[test]
fn held_bytes_restart_no_stall(rt: HostRuntime) -> Result<(), Fail> {
    let mut poller = still_poller(&rt)?;
    let (first, deadlines) = deadlines_of(&mut poller, &Pool::new(rt.alloc()));
    same(&first.is_some(), &true, &"the clock is read")?;
    same(&deadlines, &[first; 3], &"after each put")
}

/// The milliseconds of a stall timeout that is over in the third turn after it began, if the turns are a step of the clock
/// apart.
const SHORT: u64 = STEP * 5 / 2;

/// The bytes that the bot's writes accept | the turn in which it is given up, if it is | the bytes that it then took.
type Slow = (&'static [usize], Option<usize>, usize);

/// Three bytes are put to the bot in turn 0, and nothing reports that its socket is writable. So it is written to once its
/// stall timeout is over. The timeout starts again if it takes a byte, and is over once it took all three.
const SLOW: &[Slow] = &[
    (&[], Some(3), 0),
    (&[1], Some(6), 1),
    (&[2], Some(6), 2),
    (&[1, 1], Some(9), 2),
    (&[1, 2], None, 3),
    (&[3], None, 3),
];

/// Returns the turn in which puts to the bot of a row begin to fail, of twelve, and the bytes that it took.
fn slow_of(
    poller: &mut StillPoller,
    pool: &Pool,
    takes: &'static [usize],
) -> (Option<usize>, usize) {
    let sockets = (
        Socket::over(pool, Wire::new(takes, 0), 0),
        Socket::over(pool, Wire::new(&[], 0), 1),
    );
    let (now, stall) = (poller.table.now(), Duration::from_millis(SHORT));
    let mut ports = SocketPorts::new(first_bot(), sockets, now, None, (None, Some(stall)));
    let mut given_up = None;
    for turn in 0..12_usize {
        poller.poll(true);
        ports.begin_turn(0, &mut poller.table);
        let bytes: &[u8] = if turn == 0 { b"abc" } else { b"" };
        if ports.put(Side::Bot, bytes) == Put::Failed && given_up.is_none() {
            given_up = Some(turn);
        }
    }
    let (bot, _server) = ports.into_sockets();
    (given_up, bot.connection().took)
}

/// A peer that takes bytes is not given up, whatever the system reports of its socket.
#[test]
fn slow_peers_are_kept_by_rows(rt: HostRuntime) -> Result<(), Fail> {
    let pool = Pool::new(rt.alloc());
    for (row, slow) in SLOW.iter().enumerate() {
        let mut poller = still_poller(&rt)?;
        let (takes, given_up, took) = *slow;
        same(&slow_of(&mut poller, &pool, takes), &(given_up, took), &row)?;
    }
    Ok(())
}
