//! A connection of the simulated network, with its peer and what the gateway must write to it.

use crate::bytes::Bytes;
use crate::peer::{Act, Peer, Role};
use crate::random::Random;
use daide_io::network::{ConnectStatus, SocketEvent};
use std::alloc::Global;

/// The number of bytes from which a peer sends no more before some are read.
const MOST_INBOUND: usize = 200_000;

/// What the gateway does with a connection.
#[derive(Clone, Copy, PartialEq, Eq)]
pub enum Place {
    /// It belongs to a bot without a session yet.
    Arriving,
    /// It belongs to a session.
    Session,
    /// It closes.
    Closing,
}

/// What a poll has to report of a connection.
#[derive(Clone, Copy)]
pub struct Due {
    pub read: bool,
    pub write: bool,
    /// Whether an end, a failure or an urgent byte came.
    pub end: bool,
}

impl Due {
    /// Nothing.
    pub const NONE: Due = Due {
        read: false,
        write: false,
        end: false,
    };

    /// All.
    pub const ALL: Due = Due {
        read: true,
        write: true,
        end: true,
    };

    /// Returns whether there is something.
    pub fn is_some(self) -> bool {
        self.read || self.write || self.end
    }
}

/// What a difference prints of a connection.
#[derive(Clone, Copy)]
pub struct Snapshot {
    pub is_bot: bool,
    pub inbound: usize,
    pub delivered: usize,
    pub answered: u64,
    pub accepted: u64,
    pub written: u64,
    pub room: usize,
    pub moved_at: u64,
    pub heard_at: u64,
    pub has_ended: bool,
    pub told_failure: bool,
}

/// A connection.
#[derive(Drop)]
pub struct Wire {
    pub peer: Peer,
    /// The bytes of the peer that arrived.
    pub inbound: Bytes,
    /// The number of these at which a read stops, since an urgent byte follows; 0 if there is none.
    pub stops_at: usize,
    /// Whether the peer's end arrived.
    pub is_ended: bool,
    pub is_reset: bool,
    /// The bytes that the gateway wrote and the peer did not read, and how many it may have.
    pub outbound: usize,
    pub capacity: usize,
    /// Whether a write found no room since the peer read.
    pub is_full: bool,
    /// The state of its connect.
    pub status: ConnectStatus,
    /// The key under which it is followed.
    pub key: Option<usize>,
    /// What a poll has to report.
    pub due: Due,
    /// Whether it is in the network's list of wires with a report, of those to check, and of those with a timer.
    pub is_listed: bool,
    pub is_touched: bool,
    pub has_timer: bool,
    /// How often calls were interrupted one after the other.
    pub interrupted: u64,
    pub place: Place,
    /// The number of its session, 0 without one.
    pub number: u32,
    /// The reading at which its bot was accepted, or its connect began.
    pub began_at: u64,
    /// The bytes that the machine answers and that were not written, and the numbers of those that were expected, that
    /// the ports took and that were written.
    pub expected: Bytes,
    pub answered: u64,
    pub accepted: u64,
    pub written: u64,
    /// The bytes that were read from it and not pulled by its session.
    pub delivered: Bytes,
    /// The reading at which its session last pulled some.
    pub heard_at: u64,
    /// Whether a read told the end or a failure, and whether its session was told an end.
    pub told_end: bool,
    pub has_ended: bool,
    /// Whether a write failed.
    pub told_failure: bool,
    /// Whether the stall timeout was over when its session ended.
    pub was_stalled: bool,
    /// The reading at which it last took a byte, or began to wait for that.
    pub moved_at: u64,
    /// The reading at which a write last took none of its bytes.
    pub refused_at: u64,
    /// The reading at which its closing began.
    pub closing_from: Option<u64>,
    /// The time at which writing was shut down.
    pub shut_at: Option<u64>,
    /// The bytes that were read while it closes.
    pub dropped: u64,
    /// Whether its session's last turn looked for bytes of it, and found none.
    pub is_awaited: bool,
    /// The next time at which its IM timer or its silence is over.
    pub im_at: u64,
    pub silent_at: u64,
    /// The time from which it is overdue, and the poll and the reading at which that was seen first.
    pub overdue: (u64, u64, u64),
    /// The poll that reported first since a call was made that it may be read, or at which it began to close, if that was
    /// later; 0 for none.
    pub reported_at: u64,
}

impl Wire {
    /// Creates a connection to a peer.
    pub fn new(alloc: Global, peer: Peer, capacity: usize, now: u64) -> Wire {
        Wire {
            peer,
            inbound: Bytes::new(alloc),
            stops_at: 0,
            is_ended: false,
            is_reset: false,
            outbound: 0,
            capacity,
            is_full: false,
            status: ConnectStatus::Connected,
            key: None,
            due: Due::NONE,
            is_listed: false,
            is_touched: false,
            has_timer: false,
            interrupted: 0,
            place: Place::Arriving,
            number: 0,
            began_at: now,
            expected: Bytes::new(alloc),
            answered: 0,
            accepted: 0,
            written: 0,
            delivered: Bytes::new(alloc),
            heard_at: 0,
            told_end: false,
            has_ended: false,
            told_failure: false,
            was_stalled: false,
            moved_at: now,
            refused_at: 0,
            closing_from: None,
            shut_at: None,
            dropped: 0,
            is_awaited: false,
            im_at: u64::MAX,
            silent_at: u64::MAX,
            overdue: (0, 0, 0),
            reported_at: 0,
        }
    }

    /// Returns what a difference prints of it.
    pub fn snapshot(&self) -> Snapshot {
        Snapshot {
            is_bot: self.is_bot(),
            inbound: self.inbound.len(),
            delivered: self.delivered.len(),
            answered: self.answered,
            accepted: self.accepted,
            written: self.written,
            room: self.room(),
            moved_at: self.moved_at,
            heard_at: self.heard_at,
            has_ended: self.has_ended,
            told_failure: self.told_failure,
        }
    }

    /// Returns whether it is a bot's.
    pub fn is_bot(&self) -> bool {
        self.peer.role == Role::Bot
    }

    /// Returns whether a read would return something: bytes, the end or a failure.
    pub fn is_readable(&self) -> bool {
        self.status != ConnectStatus::Pending
            && (!self.inbound.is_empty() || self.is_ended || self.is_reset)
    }

    /// Returns how many bytes a write may accept.
    pub fn room(&self) -> usize {
        if self.status == ConnectStatus::Connected {
            self.capacity.saturating_sub(self.outbound)
        } else {
            0
        }
    }

    /// Returns whether a report is due.
    pub fn is_due(&self) -> bool {
        self.key.is_some() && self.due.is_some()
    }

    /// Returns whether its peer has nothing to do before something is written to it or read of it.
    pub fn is_at_rest(&self) -> bool {
        let reads_nothing = self.outbound == 0 || self.peer.has_stopped();
        let is_blocked = self.inbound.len() >= MOST_INBOUND;
        let sends_nothing = self.is_ended || is_blocked || self.peer.is_quiet();
        self.status != ConnectStatus::Pending && reads_nothing && sends_nothing
    }

    /// Returns how long its peer does nothing, in milliseconds.
    pub fn rests(&self, random: &mut Random) -> u64 {
        if self.is_at_rest() {
            self.peer.rests_long(random)
        } else {
            self.peer.rests(random)
        }
    }

    /// Returns whether something of it is to be written, or may be.
    pub fn has_queued(&self) -> bool {
        !self.expected.is_empty()
    }

    /// Returns whether its stall timeout may be over, and a write after that took no byte, or whether that was so when its
    /// session ended.
    pub fn is_stalled(&self, reading: u64, stall: u64) -> bool {
        let until = self.moved_at.saturating_add(stall);
        let is_late = until <= reading && until <= self.refused_at;
        self.was_stalled || stall > 0 && self.has_queued() && is_late
    }

    /// Returns the reading at which it is closed at the latest: the stall timeout and a second after its closing began. The
    /// greatest number if it doesn't close, or without a stall timeout.
    pub fn bound(&self, stall: u64) -> u64 {
        match self.closing_from {
            Some(from) if stall > 0 => from.saturating_add(stall).saturating_add(1_000),
            _ => u64::MAX,
        }
    }

    /// Takes what is due, as a report.
    pub fn report(&mut self, key: usize) -> SocketEvent {
        let due = self.due;
        self.due = Due::NONE;
        SocketEvent {
            key,
            is_readable: due.read || due.end,
            is_writable: due.write,
            is_read_closed: due.end && self.is_ended,
            is_write_closed: false,
            is_error: due.end && self.is_reset,
            is_priority: due.end,
        }
    }

    /// Moves the first bytes that arrived to a buffer, as many as a read does, and returns their number.
    pub fn give(&mut self, buffer: &mut [u8]) -> usize {
        let most = if self.stops_at > 0 {
            self.stops_at
        } else {
            usize::MAX
        };
        let count = self.inbound.take(buffer, most);
        self.stops_at = self.stops_at.saturating_sub(count);
        count
    }

    /// Resets the connection.
    pub fn reset(&mut self) {
        self.is_reset = true;
        self.inbound.clear();
        self.due = Due::ALL;
        self.peer.is_done = true;
        if self.status == ConnectStatus::Pending {
            self.status = ConnectStatus::Failed;
        }
    }

    /// Ends the connect, which is pending.
    fn connects(&mut self, fails: bool) {
        if fails {
            self.status = ConnectStatus::Failed;
            self.is_reset = true;
            self.due = Due::ALL;
        } else {
            self.status = ConnectStatus::Connected;
            self.due.write = true;
        }
    }

    /// Has the peer do what it does at its time. One of `refused` connects fails.
    pub fn wakes(&mut self, refused: u64, random: &mut Random) {
        if self.status == ConnectStatus::Pending {
            self.connects(random.one_in(refused));
        }
        if self.is_reset {
            return;
        }
        let count = self.peer.reads(self.outbound, random);
        self.outbound = self.outbound.saturating_sub(count);
        if count > 0 && self.is_full {
            self.is_full = false;
            self.due.write = true;
        }
        if !self.is_ended {
            self.sends(random);
        }
    }

    /// Has the peer send, and end.
    fn sends(&mut self, random: &mut Random) {
        if self.peer.outgoing.is_empty() && !self.peer.is_done {
            self.peer.says(random);
            if self.peer.acts(random) == Act::Resets {
                self.reset();
                return;
            }
        }
        if self.inbound.len() < MOST_INBOUND {
            self.arrives(random);
        }
        if self.peer.is_done && self.peer.outgoing.is_empty() {
            self.is_ended = true;
            self.due.read = true;
            self.due.end = true;
        }
    }

    /// Has bytes of the peer arrive, all or a few, and now and then an urgent one.
    fn arrives(&mut self, random: &mut Random) {
        let most = if random.one_in(4) {
            usize::try_from(random.between(1, 40)).unwrap_or(1)
        } else {
            usize::MAX
        };
        let count = self.inbound.append(&mut self.peer.outgoing, most);
        if count == 0 {
            return;
        }
        self.due.read = true;
        if self.stops_at == 0 && random.one_in(30) {
            self.stops_at = self.inbound.len().saturating_sub(1);
            self.due.end = self.stops_at > 0;
        }
    }
}
