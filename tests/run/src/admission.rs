//! Accepted bots and connects to the server, in cases that only a test inside the program can produce: a failed accept,
//! a pending connect, and small writes.

use crate::doors::any_port;
use daide_buffered_io::pool::Pool;
use daide_gate::settings::{Settings, read_settings};
use daide_gate::system::{Connect, System};
use daide_io::network::{ConnectStatus, Network};
use daide_io::ready_queue::ReadyQueue;
use daide_sockets::admission::Acceptor;
use daide_sockets::connection::Connection;
use daide_sockets::os_network::{NetworkError, OsNetwork};
use daide_sockets::poller::{EVENTS, Poller};
use daide_sockets::ports::SocketPorts;
use daide_sockets::system::Sockets;
use daide_sockets::table::SocketTable;
use daide_test_support::rows::{holds, same};
use std::alloc::Global;
use std::io::ErrorKind;
use std::net::{SocketAddr, TcpListener, TcpStream};
use std::test::Fail;
use std::time::Duration;

/// The sockets of a run at the machine's own network.
type HostSockets<'w, 't> = Sockets<'w, OsNetwork<'w, HostRuntime>, &'t mut Vec<u8>>;

/// Returns the machine's own network, with this listener.
fn network_of(
    rt: &HostRuntime,
    listener: daide_sockets::TcpListener,
) -> Result<OsNetwork<'_, HostRuntime>, NetworkError> {
    OsNetwork::new(rt.alloc(), rt, listener, EVENTS)
}

/// Checks that after a failed accept no accept is tried for 100 milliseconds, and that the bot is then accepted and no
/// deadline is left.
fn check_acceptor<'w>(
    poller: &mut Poller<OsNetwork<'w, HostRuntime>>,
    acceptor: &mut Acceptor,
) -> Result<(), Fail> {
    poller.poll(true);
    acceptor
        .listener
        .pause(poller.table.after(Duration::ZERO), ErrorKind::Other);
    holds(acceptor.accept(poller).is_none(), "none is made")?;
    acceptor.arm(&mut poller.table);
    let end = poller.table.after(Duration::from_millis(100));
    same(&poller.table.armed(), &(false, end), &"a pause of 100 ms")?;
    poller.poll(true);
    holds(acceptor.accept(poller).is_some(), "the bot that came")?;
    poller.table.disarm();
    acceptor.arm(&mut poller.table);
    same(&poller.table.armed(), &(false, None), &"the pause is over")
}

/// The same for a listener.
fn check_listener(rt: &HostRuntime, listener: daide_sockets::TcpListener) -> Result<(), Fail> {
    let Ok(network) = network_of(rt, listener) else {
        return Err(Fail::new("no network"));
    };
    let mut poller = Poller::new(rt.alloc(), network, SocketTable::new(rt.alloc(), 1, 1)?)?;
    match Acceptor::new(&mut poller) {
        Some(mut acceptor) => check_acceptor(&mut poller, &mut acceptor),
        None => Err(Fail::new("no row")),
    }
}

/// After a failed accept, such as for lack of descriptors, none is tried for a while, and then the bot is accepted.
#[test]
fn failed_accept_is_made_again(rt: HostRuntime) -> Result<(), Fail> {
    let listener = daide_sockets::TcpListener::bind(&rt, any_port())?;
    let _bot = TcpStream::connect(&rt, listener.local_addr()?)?;
    check_listener(&rt, listener)
}

/// The number of connections that fill the queue of a listener.
const MORE_THAN_WAIT: usize = 160;

/// Connects to an address until its queue is full, and closes the connections.
fn fill_queue(rt: &HostRuntime, address: SocketAddr) -> Result<(), Fail> {
    let mut queue = Vec::new(rt.alloc());
    for _ in 0..MORE_THAN_WAIT {
        queue.push(daide_sockets::TcpStream::connect(rt, address)?)?;
    }
    Ok(())
}

/// Returns a listener whose queue is full of connections that were closed by their peers.
fn full_listener(rt: &HostRuntime) -> Result<daide_sockets::TcpListener, Fail> {
    let listener = TcpListener::bind(rt, any_port())?;
    fill_queue(rt, listener.local_addr()?)?;
    listener.set_nonblocking(true)?;
    Ok(daide_sockets::TcpListener::from_std(listener))
}

/// The most waits until a bot is connected to the server.
const MOST_WAITS: usize = 1_000;

/// Returns the ports of the first bot, once it is connected to the server.
fn first_ports<'w>(
    alloc: Global,
    system: &mut HostSockets<'w, '_>,
) -> Option<SocketPorts<'w, Connection>> {
    let mut ready = ReadyQueue::new(alloc, 1).ok()?;
    let mut came = false;
    for _ in 0..MOST_WAITS {
        system.poll(true, &mut ready);
        came = came || system.accept(0);
        if came {
            if let Connect::Ready(ports) = system.connected(0) {
                return Some(ports);
            }
        }
    }
    None
}

/// The server's addresses, and the time in which a bot has to reach one of them.
type Servers<'w> = (&'w [SocketAddr], Duration);

/// Returns a run's sockets with this listener and this server.
fn sockets_of<'w, 't>(
    rt: &'w HostRuntime,
    pool: &'w Pool,
    (listener, (servers, time)): (daide_sockets::TcpListener, Servers<'w>),
    settings: &'w Settings,
    told: &'t mut Vec<u8>,
) -> Option<HostSockets<'w, 't>> {
    let network = network_of(rt, listener).ok()?;
    let table = SocketTable::new(rt.alloc(), 1, 2).ok()?;
    let resources = (network, servers, table, pool);
    Sockets::new(rt.alloc(), resources, settings, time, told)
}

/// Returns a listener with a bot in its queue, and the bot.
fn door_with_bot(
    rt: &HostRuntime,
) -> Result<(daide_sockets::TcpListener, daide_sockets::TcpStream), Fail> {
    let listener = daide_sockets::TcpListener::bind(rt, any_port())?;
    let bot = daide_sockets::TcpStream::connect(rt, listener.local_addr()?)?;
    Ok((listener, bot))
}

/// Returns the settings of a run. Its addresses are not resolved.
fn plain_settings(alloc: Global) -> Result<Settings, Fail> {
    Ok(read_settings(alloc, "listen = 'a:1'\nserver = 'b:2'")?)
}

/// Returns whether a connection sends small writes without delay.
fn is_undelayed(connection: &Connection) -> bool {
    match connection {
        Connection::Tcp(stream) => matches!(stream.nodelay(), Ok(true)),
        Connection::Control(_) => false,
    }
}

/// Returns whether both sockets of a session send small writes without delay.
fn are_undelayed(ports: SocketPorts<'_, Connection>) -> bool {
    let (bot, server) = ports.into_sockets();
    is_undelayed(bot.connection()) && is_undelayed(server.connection())
}

/// The same for the first bot.
fn are_first_undelayed(alloc: Global, system: &mut HostSockets<'_, '_>) -> bool {
    match first_ports(alloc, system) {
        Some(ports) => are_undelayed(ports),
        None => false,
    }
}

/// The same for the first bot at a listener of its own, with this server.
fn sends_at_once(rt: &HostRuntime, pool: &Pool, servers: Servers<'_>) -> Result<bool, Fail> {
    let settings = plain_settings(rt.alloc())?;
    let (listener, _bot) = door_with_bot(rt)?;
    let mut told = Vec::new(rt.alloc());
    match sockets_of(rt, pool, (listener, servers), &settings, &mut told) {
        Some(mut system) => Ok(are_first_undelayed(rt.alloc(), &mut system)),
        None => Ok(false),
    }
}

/// The system does not delay a short frame until the frame before it was acknowledged. The server is at the second of
/// two addresses, and its connect uses the row of the connect to the first.
#[test]
fn small_writes_are_not_delayed(rt: HostRuntime) -> Result<(), Fail> {
    let nobody = TcpListener::bind(&rt, any_port())?.local_addr()?;
    let server = TcpListener::bind(&rt, any_port())?;
    let pool = Pool::new(rt.alloc());
    let servers = [nobody, server.local_addr()?];
    let at_once = sends_at_once(&rt, &pool, (&servers, Duration::from_secs(5)))?;
    holds(at_once, "the bot's and the server's")
}

/// An address that does not answer takes half of the time of a connect to two, and the server is reached at the other one.
#[test]
fn silent_address_leaves_time_for_the_next(rt: HostRuntime) -> Result<(), Fail> {
    let silent = full_listener(&rt)?;
    let server = TcpListener::bind(&rt, any_port())?;
    let servers = [silent.local_addr()?, server.local_addr()?];
    let pool = Pool::new(rt.alloc());
    let is_reached = sends_at_once(&rt, &pool, (&servers, Duration::from_secs(1)))?;
    holds(is_reached, "the second address")
}

/// Returns whether the connect of the first bot fails.
fn is_first_unreached(alloc: Global, system: &mut HostSockets<'_, '_>) -> Result<bool, Fail> {
    let mut ready = ReadyQueue::new(alloc, 1)?;
    let mut came = false;
    for _ in 0..MOST_WAITS {
        system.poll(true, &mut ready);
        came = came || system.accept(0);
        if came && matches!(system.connected(0), Connect::Failed) {
            return Ok(true);
        }
    }
    Ok(false)
}

/// Checks the lines of a run whose server is at these addresses, where nobody listens.
fn logs_last(rt: &HostRuntime, pool: &Pool, servers: &[SocketAddr]) -> Result<(), Fail> {
    let settings = plain_settings(rt.alloc())?;
    let (listener, _bot) = door_with_bot(rt)?;
    let mut told = Vec::new(rt.alloc());
    let resources = (listener, (servers, Duration::from_secs(5)));
    let Some(mut system) = sockets_of(rt, pool, resources, &settings, &mut told) else {
        return Err(Fail::new("no sockets"));
    };
    holds(
        is_first_unreached(rt.alloc(), &mut system)?,
        "the bot is unreached",
    )?;
    drop(system);
    let [.., last] = servers else {
        return Err(Fail::new("no address"));
    };
    let want = format!(in rt.alloc();
        "daide-gate: server {last} cannot be reached: connection refused\n"
    )?;
    same(&told.as_slice(), &want.as_bytes(), &"lines")
}

/// The line of a server that is away has the address that was tried last, and why the connect to it failed.
#[test]
fn last_address_of_a_server_is_named(rt: HostRuntime) -> Result<(), Fail> {
    let first = TcpListener::bind(&rt, any_port())?;
    let second = TcpListener::bind(&rt, any_port())?;
    let servers = [first.local_addr()?, second.local_addr()?];
    drop(first);
    drop(second);
    let pool = Pool::new(rt.alloc());
    logs_last(&rt, &pool, &servers)?;
    logs_last(&rt, &pool, &servers[..1])
}

/// Returns the state of a connect that has just begun.
fn status_of(
    network: &mut OsNetwork<'_, HostRuntime>,
    address: SocketAddr,
) -> Result<ConnectStatus, Fail> {
    let connection = network.connect(address)?;
    Ok(network.connect_report(&connection).status())
}

/// A pending connect is no connection, whatever the poller reports of its socket.
#[test]
fn connect_under_way_is_no_connection(rt: HostRuntime) -> Result<(), Fail> {
    let server = full_listener(&rt)?;
    let address = server.local_addr()?;
    let Ok(mut network) = network_of(&rt, server) else {
        return Err(Fail::new("no network"));
    };
    let status = status_of(&mut network, address)?;
    holds(status == ConnectStatus::Pending, "it is under way")
}
