//! The network in memory, and its connections.

use crate::state::State;
use crate::wire::{Due, Place, Wire};
use daide_io::duplex::Duplex;
use daide_io::network::{ConnectReport, ConnectStatus, Network, SocketEvent};
use std::cell::RefCell;
use std::io;
use std::io::ErrorKind;
use std::net::SocketAddr;
use std::rt::Clock;
use std::time::{Duration, Instant};

/// The simulated network, which its connections share.
#[derive(Drop)]
pub struct World {
    pub state: RefCell<State>,
}

/// The network of one run.
#[derive(Drop)]
pub struct MemoryNetwork<'n> {
    pub world: &'n World,
}

/// A connection of the network.
pub struct MemoryConnection<'n> {
    world: &'n World,
    pub wire: usize,
}

/// The wire of an operator's client.
const OPERATORS: usize = usize::MAX;

/// A clock that stands still.
#[derive(Drop)]
struct At(u64);

impl Clock for At {
    fn monotonic(&self) -> io::Result<Duration> {
        Ok(Duration::from_millis(self.0))
    }

    fn since_1970(&self) -> io::Result<Duration> {
        self.monotonic()
    }
}

impl Drop for MemoryConnection<'_> {
    fn drop(self) {
        if let Ok(mut state) = self.world.state.try_borrow_mut() {
            closed(&mut state, self.wire);
        }
        let MemoryConnection { world: _, wire: _ } = self;
    }
}

/// The most bytes that are read of a wire while it closes.
const MOST_DROPPED: u64 = 1 << 20;

/// The most wires that close at once.
const MOST_CLOSING: usize = 256;

/// Returns what is wrong with closing a wire that lingers, at this reading of the clock.
fn wrong_end(wire: &Wire, reading: u64, stall: u64) -> Option<&'static str> {
    if wire.told_failure || wire.is_stalled(reading, stall) || wire.bound(stall) <= reading {
        return None;
    }
    if wire.has_queued() {
        return Some("a wire was dropped before its last byte");
    }
    let Some(shut_at) = wire.shut_at else {
        return Some("a wire was dropped before its writing was shut down");
    };
    let is_over = shut_at.saturating_add(1_000) <= reading;
    if is_over || wire.told_end || wire.dropped >= MOST_DROPPED {
        return None;
    }
    Some("a wire was dropped before its peer's end")
}

/// Notes that a wire was closed. Of an arriving bot, or within a session, that is right only once memory was refused,
/// which ends the run.
fn closed(state: &mut State, index: usize) {
    if index == OPERATORS {
        let reading = state.reading;
        let (is_whole, is_left) = state.operator.close(reading);
        state.tally.statuses = state.tally.statuses.saturating_add(u64::from(is_whole));
        // A run that waits for its last sockets answers nobody.
        if is_left && !state.is_ending {
            state.fail("a status is not whole", 0);
        }
        return;
    }
    let (reading, stall, refuses) = (state.reading, state.rules.stall, state.refuses);
    let Some(wire) = state.wire(index) else {
        return;
    };
    let place = wire.place;
    let is_bots = place == Place::Arriving && wire.is_bot() && wire.key.is_some();
    let wrong = match place {
        Place::Arriving if is_bots && !refuses => Some("a bot was dropped"),
        Place::Session if !refuses => Some("a wire was dropped in its session"),
        Place::Closing => wrong_end(wire, reading, stall),
        _ => None,
    };
    state.has_dropped = state.has_dropped || is_bots || place == Place::Session;
    // A further one closes the oldest of 256.
    if let (Some(what), true) = (wrong, state.closing <= MOST_CLOSING) {
        state.fail(what, index);
    }
    if place == Place::Closing {
        state.closing = state.closing.saturating_sub(1);
    }
    state.remove(index);
}

/// Returns whether a call of a wire is interrupted. Interruptions come in rows.
fn interrupts(state: &mut State, index: usize) -> bool {
    let (most, begins) = (state.style.interrupted, state.random.one_in(60));
    let goes_on = !state.random.one_in(8);
    let Some(wire) = state.wire(index) else {
        return false;
    };
    wire.reported_at = 0;
    let is_interrupted = wire.interrupted < most && (begins || wire.interrupted > 0 && goes_on);
    wire.interrupted = if is_interrupted {
        wire.interrupted.saturating_add(1)
    } else {
        0
    };
    is_interrupted
}

/// Returns this number of bytes, or that the call would have blocked if it is 0.
fn given_or_later(count: usize) -> io::Result<usize> {
    if count == 0 {
        return Err(ErrorKind::WouldBlock.into());
    }
    Ok(count)
}

/// Returns the bytes that a read gives.
fn read_from(state: &mut State, index: usize, buffer: &mut [u8]) -> io::Result<usize> {
    state.note_call();
    if index == OPERATORS {
        return given_or_later(state.operator.give(buffer));
    }
    state.tally.reads = state.tally.reads.saturating_add(1);
    if interrupts(state, index) {
        return Err(ErrorKind::Interrupted.into());
    }
    let Some(wire) = state.wire(index) else {
        return Err(ErrorKind::NotConnected.into());
    };
    if wire.is_reset {
        wire.told_end = true;
        return Err(ErrorKind::ConnectionReset.into());
    }
    if wire.inbound.is_empty() {
        if wire.is_ended && !buffer.is_empty() {
            wire.told_end = true;
            return Ok(0);
        }
        return Err(ErrorKind::WouldBlock.into());
    }
    let count = wire.give(buffer);
    if wire.place == Place::Closing {
        let more = u64::try_from(count).unwrap_or(0);
        wire.dropped = wire.dropped.saturating_add(more);
    } else {
        wire.delivered.push(buffer.get(..count).unwrap_or(&[]));
    }
    Ok(count)
}

/// Returns how many bytes a write takes.
fn write_to(state: &mut State, index: usize, bytes: &[u8]) -> io::Result<usize> {
    state.note_call();
    if index == OPERATORS {
        return given_or_later(state.operator.take(bytes));
    }
    state.tally.writes = state.tally.writes.saturating_add(1);
    let reading = state.reading;
    let is_interrupted = interrupts(state, index);
    let Some(wire) = state.wire(index) else {
        return Err(ErrorKind::NotConnected.into());
    };
    if is_interrupted {
        wire.refused_at = reading;
        return Err(ErrorKind::Interrupted.into());
    }
    if wire.is_reset {
        wire.told_failure = true;
        return Err(ErrorKind::BrokenPipe.into());
    }
    let count = wire.room().min(bytes.len());
    if count < bytes.len() {
        wire.is_full = true;
    }
    if count == 0 {
        wire.refused_at = reading;
        return Err(ErrorKind::WouldBlock.into());
    }
    let was_at_rest = wire.is_at_rest();
    let piece = bytes.get(..count).unwrap_or(&[]);
    let is_right = wire.expected.begins_with(piece) && wire.shut_at.is_none();
    wire.expected.skip(count);
    let more = u64::try_from(count).unwrap_or(0);
    wire.written = wire.written.saturating_add(more);
    wire.outbound = wire.outbound.saturating_add(count);
    wire.moved_at = reading;
    wire.was_stalled = false;
    let is_roused = was_at_rest && !wire.is_at_rest();
    if is_roused {
        state.rouse(index);
    }
    if !is_right {
        state.fail("other bytes were written than the machine's answers", index);
    }
    Ok(count)
}

/// Notes that writing was shut down.
fn shut_down(state: &mut State, index: usize) {
    state.note_call();
    let (reading, stall, polls) = (state.reading, state.rules.stall, state.polls);
    let Some(wire) = state.wire(index) else {
        return;
    };
    if wire.reported_at > 0 {
        wire.reported_at = polls;
    }
    let is_early = wire.has_queued() && !wire.told_failure && !wire.is_stalled(reading, stall);
    let is_new = wire.place != Place::Closing;
    if is_new {
        wire.closing_from = Some(reading);
    }
    wire.place = Place::Closing;
    wire.shut_at = Some(reading);
    if is_new {
        state.closing = state.closing.saturating_add(1);
    }
    if is_early {
        state.fail("writing was shut down before the last byte", index);
    }
}

impl Duplex for MemoryConnection<'_> {
    ghost use Rattle.std.specs.Prelude.{None};

    ghost to_give = { λ _. None };

    ghost taken = { λ _. None };

    ghost calls = { λ _. None };

    fn read(&mut self, buffer: &mut [u8]) -> io::Result<usize> {
        let read = match self.world.state.try_borrow_mut() {
            Ok(mut state) => read_from(&mut state, self.wire, buffer),
            Err(_) => Err(ErrorKind::Other.into()),
        };
        match read {
            Ok(count) => Ok(count.min(buffer.len())),
            Err(error) => Err(error),
        }
    }

    fn write(&mut self, bytes: &[u8]) -> io::Result<usize> {
        let written = match self.world.state.try_borrow_mut() {
            Ok(mut state) => write_to(&mut state, self.wire, bytes),
            Err(_) => Err(ErrorKind::Other.into()),
        };
        match written {
            Ok(count) => Ok(count.min(bytes.len())),
            Err(error) => Err(error),
        }
    }

    fn end_writing(&mut self) {
        if let Ok(mut state) = self.world.state.try_borrow_mut() {
            shut_down(&mut state, self.wire);
        }
    }
}

/// Returns the wire of an accept.
fn accepted(state: &mut State) -> io::Result<usize> {
    state.note_call();
    if state.random.one_in(60) {
        state.pause();
        return Err(ErrorKind::Other.into());
    }
    match state.accept() {
        Some(wire) => Ok(wire),
        None => Err(ErrorKind::WouldBlock.into()),
    }
}

/// Returns the wire of a connect that begins.
fn begun(state: &mut State) -> io::Result<usize> {
    state.note_call();
    if state.random.one_in(state.style.refused) {
        return Err(ErrorKind::ConnectionRefused.into());
    }
    match state.connect() {
        Some(wire) => Ok(wire),
        None => Err(ErrorKind::OutOfMemory.into()),
    }
}

/// Follows a wire under a key. Returns whether the system accepts that.
fn followed(state: &mut State, index: usize, key: usize) -> bool {
    if index == OPERATORS {
        state.operator.follow(key);
        return true;
    }
    if state.random.one_in(200) {
        let is_bot = match state.wire(index) {
            Some(wire) => wire.is_bot(),
            None => false,
        };
        if is_bot {
            state.pause();
            state.refused_bots = state.refused_bots.saturating_add(1);
        }
        return false;
    }
    let most = state
        .rules
        .max_sessions
        .saturating_mul(2)
        .saturating_add(257);
    if state.live > most {
        state.fail("more wires than rows", index);
    }
    moved(state, index, key)
}

/// Follows a wire under a key from now on. What is ready already is reported again.
fn moved(state: &mut State, index: usize, key: usize) -> bool {
    if let Some(wire) = state.wire(index) {
        wire.key = Some(key);
        wire.due = Due {
            read: wire.is_readable(),
            write: wire.room() > 0,
            end: wire.due.end || wire.stops_at > 0 || wire.is_ended || wire.is_reset,
        };
    }
    state.list(index);
    true
}

impl<'n> Network for MemoryNetwork<'n> {
    type Connection = MemoryConnection<'n>;

    ghost transition = { λ _ _ _. Unit {0} };

    fn now(&mut self) -> Option<Instant> {
        let mut state = self.world.state.try_borrow_mut().ok()?;
        if state.now > 100_000 && state.random.one_in(3_000) {
            return None;
        }
        Instant::now(&At(state.read_clock())).ok()
    }

    fn poll(&mut self, timeout: Option<Duration>, socket_events: &mut Vec<SocketEvent>) {
        if let Ok(mut state) = self.world.state.try_borrow_mut() {
            state.poll(timeout, socket_events);
        }
    }

    fn listen(&mut self, key: usize) -> bool {
        if let Ok(mut state) = self.world.state.try_borrow_mut() {
            state.listener = Some(key);
        }
        true
    }

    fn check_descriptors(&mut self, _count: usize) -> io::Result<()> {
        Ok(())
    }

    fn accept(&mut self) -> io::Result<(MemoryConnection<'n>, SocketAddr)> {
        let wire = match self.world.state.try_borrow_mut() {
            Ok(mut state) => accepted(&mut state)?,
            Err(_) => return Err(ErrorKind::Other.into()),
        };
        let world = self.world;
        let address = SocketAddr::from(([127, 0, 0, 1], 0));
        Ok((MemoryConnection { world, wire }, address))
    }

    fn stop_listening(&mut self) {
        if let Ok(mut state) = self.world.state.try_borrow_mut() {
            state.listener = None;
        }
    }

    fn listen_for_control(&mut self, key: usize) -> Option<bool> {
        let mut state = self.world.state.try_borrow_mut().ok()?;
        if state.operator.listen(key) {
            Some(true)
        } else {
            None
        }
    }

    fn accept_control(&mut self) -> io::Result<MemoryConnection<'n>> {
        let comes = match self.world.state.try_borrow_mut() {
            Ok(mut state) => {
                state.note_call();
                let reading = state.reading;
                state.operator.accept(reading)
            }
            Err(_) => false,
        };
        if !comes {
            return Err(ErrorKind::WouldBlock.into());
        }
        let (world, wire) = (self.world, OPERATORS);
        Ok(MemoryConnection { world, wire })
    }

    fn connect(&mut self, _address: SocketAddr) -> io::Result<MemoryConnection<'n>> {
        let wire = match self.world.state.try_borrow_mut() {
            Ok(mut state) => begun(&mut state)?,
            Err(_) => return Err(ErrorKind::Other.into()),
        };
        let world = self.world;
        Ok(MemoryConnection { world, wire })
    }

    fn follow(&mut self, connection: &mut MemoryConnection<'n>, key: usize) -> bool {
        match self.world.state.try_borrow_mut() {
            Ok(mut state) => followed(&mut state, connection.wire, key),
            Err(_) => false,
        }
    }

    fn refollow(&mut self, connection: &mut MemoryConnection<'n>, key: usize) -> bool {
        match self.world.state.try_borrow_mut() {
            Ok(mut state) => moved(&mut state, connection.wire, key),
            Err(_) => false,
        }
    }

    fn connect_report(&mut self, connection: &MemoryConnection<'n>) -> ConnectReport {
        let status = match self.world.state.try_borrow_mut() {
            Ok(mut state) => {
                state.note_call();
                match state.wire(connection.wire) {
                    Some(wire) => wire.status,
                    None => ConnectStatus::Failed,
                }
            }
            Err(_) => ConnectStatus::Failed,
        };
        ConnectReport {
            failure: match status {
                ConnectStatus::Failed => Some(ErrorKind::ConnectionRefused),
                ConnectStatus::Connected | ConnectStatus::Pending => None,
            },
            has_peer: status == ConnectStatus::Connected,
        }
    }

    fn local_address(&self, _connection: &MemoryConnection<'n>) -> Option<SocketAddr> {
        None
    }
}
