//! When the IM timer of a session is reported, for sockets over streams in memory.

use crate::wires::{Wire, WirePorts, first_bot, still_poller};
use daide_buffered_io::pool::Pool;
use daide_io::ports::{ClockEvent, Ports};
use daide_sockets::ports::SocketPorts;
use daide_sockets::socket::Socket;
use daide_sockets::table::SocketTable;
use daide_test_support::rows::same;
use std::test::Fail;

/// The results of two queries of the clock.
type Events = (ClockEvent, ClockEvent);

/// Begins a turn, and returns the results of two queries of the clock in it.
fn events_in_turn(ports: &mut WirePorts<'_>, table: &mut SocketTable) -> Events {
    ports.begin_turn(0, table);
    (ports.clock(false), ports.clock(false))
}

/// Returns the results of queries of the clock before and in two turns, where the deadline is past.
fn told_of(pool: &Pool, table: &mut SocketTable) -> (ClockEvent, Events, Events) {
    let now = table.now();
    let sockets = (
        Socket::over(pool, Wire::new(&[], 0), 0),
        Socket::over(pool, Wire::new(&[], 0), 1),
    );
    let mut ports = SocketPorts::new(first_bot(), sockets, now, now, (None, None));
    let before = ports.clock(false);
    let first = events_in_turn(&mut ports, table);
    (before, first, events_in_turn(&mut ports, table))
}

/// An expired IM timer is returned in one turn, however often it is queried there, and not before a turn begins.
#[test]
fn moment_is_told_once(rt: HostRuntime) -> Result<(), Fail> {
    let mut poller = still_poller(&rt)?;
    let told = told_of(&Pool::new(rt.alloc()), &mut poller.table);
    same(
        &told,
        &(
            ClockEvent::NoEvent,
            (ClockEvent::ImTimeIsOver, ClockEvent::ImTimeIsOver),
            (ClockEvent::NoEvent, ClockEvent::NoEvent),
        ),
        &"told in one turn, and told no more",
    )
}
