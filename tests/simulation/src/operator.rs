//! The operator of a run, at its control socket: a client now and then, which requests the status or a stop.

use crate::random::Random;
use std::alloc::Global;

/// What a client requests.
#[derive(Clone, Copy, PartialEq, Eq)]
pub enum Request {
    Status,
    Stop,
    StopNow,
}

impl Request {
    /// Returns the line of the request.
    fn line(self) -> &'static [u8] {
        match self {
            Request::Status => b"status json\n",
            Request::Stop => b"stop\n",
            Request::StopNow => b"stop now\n",
        }
    }
}

/// A client whose connection was accepted.
#[derive(Drop)]
struct Client {
    request: Request,
    /// The key under which it is followed.
    key: Option<usize>,
    /// The reading from which its connection may be closed without an answer.
    closes_at: u64,
    /// The number of bytes of its request that were read.
    read: usize,
    /// Whether a report is due.
    is_due: bool,
    /// The bytes that were written to it.
    answer: Vec<u8>,
}

/// The operator. At most one client is there at a time.
#[derive(Drop)]
pub struct Operator {
    alloc: Global,
    random: Random,
    /// The key of the listener; `None` if the run has no control socket.
    listener: Option<usize>,
    /// The times at which the next client comes, and at which one requests a stop; the greatest number for never.
    calls_at: u64,
    stops_at: u64,
    stop: Request,
    /// What a client requests that was not accepted yet.
    waiting: Option<Request>,
    is_listener_due: bool,
    client: Option<Client>,
    /// Whether a stop was read, and whether one was carried out that ends the sessions.
    pub has_requested: bool,
    pub ends_sessions: bool,
}

/// The time that a client has for its request and the answer, in milliseconds.
const PATIENCE: u64 = 2_000;

/// How a whole answer to `status json` begins and ends.
const BEGINS: &[u8] = b"{\"open\":";
const ENDS: &[u8] = b"}}}\n";

impl Operator {
    /// Creates the operator of a run with this seed, which begins now. One run of four has a control socket, and one of
    /// two of these is stopped.
    pub fn new(alloc: Global, seed: u64, now: u64) -> Operator {
        let mut operator = Operator::none(alloc);
        operator.random = Random::new(seed);
        if seed % 4 != 0 {
            return operator;
        }
        operator.calls_at = now.saturating_add(operator.random.between(1, 2_000));
        if operator.random.one_in(2) {
            operator.stops_at = now.saturating_add(operator.random.between(1, 30_000));
        }
        if operator.random.one_in(2) {
            operator.stop = Request::StopNow;
        }
        operator
    }

    /// Creates the operator of a run without a control socket.
    pub fn none(alloc: Global) -> Operator {
        Operator {
            alloc,
            random: Random::new(0),
            listener: None,
            calls_at: u64::MAX,
            stops_at: u64::MAX,
            stop: Request::Stop,
            waiting: None,
            is_listener_due: false,
            client: None,
            has_requested: false,
            ends_sessions: false,
        }
    }

    /// Has the listener followed under a key. Returns false if the run has none.
    pub fn listen(&mut self, key: usize) -> bool {
        if self.calls_at == u64::MAX {
            return false;
        }
        self.listener = Some(key);
        true
    }

    /// Returns the time at which a client comes; the greatest number for never, and while one is there.
    pub fn next_time(&self) -> u64 {
        if self.listener.is_none() || self.waiting.is_some() || self.client.is_some() {
            return u64::MAX;
        }
        self.calls_at.min(self.stops_at)
    }

    /// Has a client come, if it is time. The client of a stop is the last one.
    pub fn call(&mut self, now: u64) {
        if self.next_time() > now {
            return;
        }
        if self.stops_at <= now {
            self.waiting = Some(self.stop);
            self.calls_at = u64::MAX;
            self.stops_at = u64::MAX;
        } else {
            self.waiting = Some(Request::Status);
            self.calls_at = now.saturating_add(self.random.between(1, 5_000));
        }
        self.is_listener_due = true;
    }

    /// Returns the keys of which a report is due: of the listener, and of the client. Nothing is due any more then.
    pub fn report(&mut self) -> (Option<usize>, Option<usize>) {
        let listener = if self.is_listener_due {
            self.listener
        } else {
            None
        };
        self.is_listener_due = false;
        let Some(client) = &mut self.client else {
            return (listener, None);
        };
        let key = if client.is_due { client.key } else { None };
        client.is_due = false;
        (listener, key)
    }

    /// Returns whether a report is due.
    pub fn is_due(&self) -> bool {
        let client = match &self.client {
            Some(client) => client.is_due && client.key.is_some(),
            None => false,
        };
        client || self.is_listener_due && self.listener.is_some()
    }

    /// Accepts a client at this reading of the clock. Returns whether one waited.
    pub fn accept(&mut self, reading: u64) -> bool {
        let Some(request) = self.waiting.take() else {
            return false;
        };
        self.client = Some(Client {
            request,
            key: None,
            closes_at: reading.saturating_add(PATIENCE),
            read: 0,
            is_due: true,
            answer: Vec::new(self.alloc),
        });
        true
    }

    /// Has the client followed under a key.
    pub fn follow(&mut self, key: usize) {
        if let Some(client) = &mut self.client {
            client.key = Some(key);
        }
    }

    /// Returns how many bytes of the request a read gives: all that are left, or fewer.
    pub fn give(&mut self, buffer: &mut [u8]) -> usize {
        let Some(client) = &mut self.client else {
            return 0;
        };
        let line = client.request.line();
        let left = line.get(client.read..).unwrap_or(&[]);
        let most = if self.random.one_in(4) {
            usize::try_from(self.random.between(1, 6)).unwrap_or(1)
        } else {
            left.len()
        };
        let count = most.min(left.len()).min(buffer.len());
        buffer[..count].copy_from_slice(&left[..count]);
        client.read = client.read.saturating_add(count);
        // What is left arrives later.
        client.is_due = client.read < line.len();
        if client.read == line.len() {
            self.has_requested = self.has_requested || client.request != Request::Status;
        }
        count
    }

    /// Notes that the run carries its stop out.
    pub fn heed(&mut self) {
        self.ends_sessions = self.stop == Request::StopNow;
    }

    /// Takes bytes of an answer. Returns how many.
    pub fn take(&mut self, bytes: &[u8]) -> usize {
        let Some(client) = &mut self.client else {
            return 0;
        };
        let most = if self.random.one_in(4) {
            usize::try_from(self.random.between(1, 200)).unwrap_or(1)
        } else {
            bytes.len()
        };
        let count = most.min(bytes.len());
        client.is_due = count < bytes.len();
        let _ = client.answer.extend_from_slice(bytes.get(..count).unwrap_or(&[]));
        count
    }

    /// Closes the client's connection at this reading of the clock. Returns whether it has a whole status, and whether it
    /// lacks one.
    pub fn close(&mut self, reading: u64) -> (bool, bool) {
        let Some(client) = self.client.take() else {
            return (false, false);
        };
        let answer = client.answer.as_slice();
        let is_whole = answer.starts_with(BEGINS) && answer.ends_with(ENDS);
        let is_owed = client.request == Request::Status && reading < client.closes_at;
        (is_whole, is_owed && !is_whole)
    }

    /// Returns what is left to do at a wait, if something is.
    pub fn left_to_do(&self) -> Option<&'static str> {
        if self.listener.is_none() {
            return None;
        }
        if self.waiting.is_some() && !self.is_listener_due {
            return Some("an operator waits whom nobody accepts");
        }
        let client = self.client.as_ref()?;
        if client.request == Request::Status && client.key.is_some() && !client.is_due {
            return Some("a status is not answered");
        }
        None
    }
}
