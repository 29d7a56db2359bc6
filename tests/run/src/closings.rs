//! Closing sockets, over streams in memory: their write buffers are written first, then they wait for the peer's end.
//!
//! The list owns its sockets, so the tests see only their rows of the table.

use crate::wires::{READY, ROWS, StillPoller, Wire, broken, still_poller};
use daide_buffered_io::pool::Pool;
use daide_sockets::lingering_close::Closings;
use daide_sockets::socket::Socket;
use daide_test_support::rows::{holds, same};
use std::test::Fail;
use std::time::Duration;

/// A step of a closing socket: whether it has a deadline then, whether it may go on at once, and whether it is closed.
type Closes = (bool, bool, bool);

/// The bytes that its writes accept: the first at once, and one in each later step.
const TAKES: &[usize] = &[0, 0, 0, 0, 0, 2, 1];

/// Three bytes are in the write buffer. They are written first; then the peer's end has one second.
const CLOSES: &[Closes] = &[
    (false, false, false),
    (false, false, false),
    (false, false, false),
    (false, false, false),
    (false, false, false),
    (true, true, false),
    (true, false, false),
    (true, false, false),
    (false, false, true),
];

/// Advances the closing sockets, with the socket of this row ready.
fn goes_on(poller: &mut StillPoller, closings: &mut Closings<'_, Wire>, key: usize) -> Closes {
    poller.network.ready[key % ROWS] = true;
    poller.poll(true);
    closings.advance(&mut poller.table);
    poller.table.disarm();
    closings.arm(&mut poller.table);
    let (goes_on, due) = poller.table.armed();
    (due.is_some(), goes_on, closings.is_empty())
}

/// Returns the index of the first step with another result, if there is one.
fn wrong_step(
    poller: &mut StillPoller,
    closings: &mut Closings<'_, Wire>,
    key: usize,
    steps: &[Closes],
) -> Option<usize> {
    for (row, closes) in steps.iter().enumerate() {
        if goes_on(poller, closings, key) != *closes {
            return Some(row);
        }
    }
    None
}

/// The keys of the first and of the second closing socket.
const KEYS: (usize, usize) = (12, 13);

/// Returns a socket with three bytes in its write buffer.
fn holding(pool: &Pool, wire: Wire) -> Socket<'_, Wire> {
    let mut socket = Socket::over(pool, wire, 0);
    socket.note_report(READY);
    socket.put(None, b"abc");
    socket
}

/// Closes one socket, step by step.
fn closes_one(rt: &HostRuntime, pool: &Pool) -> Result<(), Fail> {
    let mut poller = still_poller(rt)?;
    let mut closings = Closings::new(rt.alloc(), None)?;
    closings.begin(&mut poller, holding(pool, Wire::new(TAKES, 0)));
    let wrong = wrong_step(&mut poller, &mut closings, KEYS.0, CLOSES);
    same(&wrong, &None, &"a step")
}

/// A closing socket writes its write buffer, and then gives its peer's end one second. It has no deadline before that.
#[test]
fn closing_socket_writes_what_it_holds(rt: HostRuntime) -> Result<(), Fail> {
    closes_one(&rt, &Pool::new(rt.alloc()))
}

/// The bytes that writes of the first of two sockets accept: all, after the second is closed.
const LATE: &[usize] = &[0, 0, 0, 0, 0, 3];

/// Returns whether only the second of two sockets is closed after four steps, and whether the first has a deadline a
/// step later.
fn closes_second(
    poller: &mut StillPoller,
    closings: &mut Closings<'_, Wire>,
    (first, second): (usize, usize),
) -> (bool, bool) {
    for _ in 0..4 {
        poller.network.ready[first % ROWS] = true;
        goes_on(poller, closings, second);
    }
    let (may_go_on, due) = poller.table.armed();
    let is_alone = !may_go_on && !closings.is_empty();
    let is_waited_for = due.is_none();
    (
        is_alone && is_waited_for,
        goes_on(poller, closings, first).0,
    )
}

/// Closes two sockets, the second of which has writes that fail.
fn closes_two(rt: &HostRuntime, pool: &Pool) -> Result<(), Fail> {
    let mut poller = still_poller(rt)?;
    let mut closings = Closings::new(rt.alloc(), None)?;
    closings.begin(&mut poller, holding(pool, Wire::new(LATE, 0)));
    closings.begin(&mut poller, holding(pool, broken()));
    let told = closes_second(&mut poller, &mut closings, KEYS);
    holds(told == (true, true), "the second, then the first")
}

/// Two sockets close. The second one's writes fail, and it is closed at its peer's end. The first goes on.
#[test]
fn one_closes_before_another(rt: HostRuntime) -> Result<(), Fail> {
    closes_two(&rt, &Pool::new(rt.alloc()))
}

/// Three bytes are in the write buffer, and the peer accepts none for a second. A step takes 0.4 seconds. The third step
/// gives up writing, and the peer's end has one second from then on. But two seconds after the closing began, at the fifth
/// step, the socket is closed in any case.
const STALLS: &[Closes] = &[
    (true, false, false),
    (true, false, false),
    (true, true, false),
    (true, false, false),
    (false, false, true),
];

/// Closes a socket whose peer accepts nothing, step by step.
fn closes_stalled(rt: &HostRuntime, pool: &Pool) -> Result<(), Fail> {
    let mut poller = still_poller(rt)?;
    let mut closings = Closings::new(rt.alloc(), Some(Duration::from_secs(1)))?;
    closings.begin(&mut poller, holding(pool, Wire::new(&[], 0)));
    let wrong = wrong_step(&mut poller, &mut closings, KEYS.0, STALLS);
    same(&wrong, &None, &"a step")
}

/// A socket whose peer accepts nothing is given up after its timeout, and closed.
#[test]
fn stalled_socket_is_closed(rt: HostRuntime) -> Result<(), Fail> {
    closes_stalled(&rt, &Pool::new(rt.alloc()))
}
