//! The simulated network: its wires, its clock, and what went wrong.

use crate::operator::Operator;
use crate::peer::{Peer, Role};
use crate::random::Random;
use crate::style::{Company, Style};
use crate::wire::{Due, Snapshot, Wire};
use daide_io::network::{ConnectStatus, SocketEvent};
use std::alloc::Global;
use std::collections::{BinaryHeap, VecDeque};
use std::time::Duration;

/// The time without an accept after one that failed, in milliseconds.
const PAUSE: u64 = 100;

/// The bots that come beside those that are served: some are dropped, since the system refuses to follow them.
const MORE_BOTS: u64 = 50;

/// The most polls in a row without a wait, an event or a call.
const MOST_QUIET: u64 = 400;

/// The most peers that act at one time, one after the other.
const MOST_WAKES: usize = 20_000;

/// The number of places that an entry of a list of times has for a wire.
const PLACES: u64 = 65_536;

/// The times of a run, in milliseconds, its number of sessions at once and in all, and the turns of a session.
#[derive(Clone, Copy)]
pub struct RunTimes {
    pub im: u64,
    pub idle: u64,
    pub stall: u64,
    pub max_sessions: usize,
    pub sessions: u32,
    pub turns: u64,
}

/// The first difference from what has to be.
#[derive(Clone, Copy)]
pub struct Fault {
    pub what: &'static str,
    pub poll: u64,
    pub wire: usize,
    pub number: u32,
    pub reading: u64,
    /// The wire, and the other one of its session.
    pub own: Option<Snapshot>,
    pub other: Option<Snapshot>,
}

/// What a run did.
#[derive(Clone, Copy)]
pub struct Tally {
    pub sessions: u64,
    pub reads: u64,
    pub writes: u64,
    pub stalls: u64,
    pub silences: u64,
    pub timers: u64,
    /// The sessions that an operator stopped, and the statuses that were answered.
    pub stopped: u64,
    pub statuses: u64,
    pub most_live: usize,
    /// The longest time, in milliseconds, from the end of a side's stall timeout until its session was told.
    pub latest_stall: u64,
}

impl Tally {
    /// Nothing.
    const NONE: Tally = Tally {
        sessions: 0,
        reads: 0,
        writes: 0,
        stalls: 0,
        silences: 0,
        timers: 0,
        stopped: 0,
        statuses: 0,
        most_live: 0,
        latest_stall: 0,
    };
}

/// Times with a wire each, of which the earliest is taken first. A time may be out of date; its wire decides.
#[derive(Drop)]
pub struct Agenda {
    entries: BinaryHeap<u64>,
}

impl Agenda {
    /// Creates an empty one.
    fn new(alloc: Global) -> Agenda {
        Agenda {
            entries: BinaryHeap::new(alloc),
        }
    }

    /// Adds a time with a wire, unless that is for never.
    pub fn add(&mut self, time: u64, wire: usize) {
        if time == u64::MAX {
            return;
        }
        let place = u64::try_from(wire).unwrap_or(0).min(PLACES - 1);
        // The greatest entry is the earliest time.
        let entry = time.saturating_mul(PLACES).saturating_add(place);
        let _ = self.entries.push(u64::MAX.saturating_sub(entry));
    }

    /// Returns the earliest time and its wire; `None` if there is none.
    pub fn first(&self) -> Option<(u64, usize)> {
        let entry = u64::MAX.saturating_sub(*self.entries.peek()?);
        let wire = usize::try_from(entry % PLACES).unwrap_or(0);
        Some((entry / PLACES, wire))
    }

    /// Removes the earliest time.
    pub fn skip(&mut self) {
        let _ = self.entries.pop();
    }
}

/// The network.
#[derive(Drop)]
pub struct State {
    pub alloc: Global,
    pub random: Random,
    pub rules: RunTimes,
    pub style: Style,
    /// The time, and the last reading of it, in milliseconds.
    pub now: u64,
    pub reading: u64,
    pub wires: Vec<Option<Wire>>,
    /// The places without a wire.
    free: Vec<usize>,
    /// The wires with a report, and those to which something was done since the last check.
    due: VecDeque<usize>,
    pub touched: Vec<usize>,
    /// The times at which peers act, and those of the sessions' timers.
    acts: Agenda,
    pub timers: Agenda,
    pub live: usize,
    pub closing: usize,
    /// The bots that wait to be accepted, those that did not come yet, and the time at which more come.
    pub backlog: u64,
    to_come: u64,
    more_at: u64,
    pub listener: Option<usize>,
    pub is_listener_due: bool,
    /// Whether the run's next wait is for a bot too, and the reading from which an accept is made.
    pub accepts: bool,
    pub resumes_at: u64,
    /// The wire that was accepted last.
    pub newest: Option<usize>,
    /// The number of bots that the system refused to follow.
    pub refused_bots: u64,
    /// The client at the control socket.
    pub operator: Operator,
    next_id: u64,
    pub polls: u64,
    pub limit: u64,
    /// The last poll at which the clock jumped, and the time after that.
    pub jumped_at: u64,
    jumped_to: u64,
    quiet: u64,
    has_called: bool,
    /// Whether memory is refused in this run, and whether a wire was closed within its session since.
    pub refuses: bool,
    pub has_dropped: bool,
    /// Whether the run waits for its last sockets, and looks at no connect any more.
    pub is_ending: bool,
    /// Whether the run has to end: each wire is reset.
    pub is_over: bool,
    pub fault: Option<Fault>,
    pub tally: Tally,
}

impl State {
    /// Creates a network without wires, that ends after so many polls.
    pub fn new(alloc: Global, seed: u64, rules: RunTimes, company: Company, limit: u64) -> State {
        let mut random = Random::new(seed);
        let style = Style::new(company, &mut random);
        State {
            alloc,
            random,
            rules,
            style,
            now: 1_000,
            reading: 1_000,
            wires: Vec::new(alloc),
            free: Vec::new(alloc),
            due: VecDeque::new(alloc),
            touched: Vec::new(alloc),
            acts: Agenda::new(alloc),
            timers: Agenda::new(alloc),
            live: 0,
            closing: 0,
            backlog: 0,
            to_come: u64::from(rules.sessions).saturating_add(MORE_BOTS),
            more_at: 0,
            listener: None,
            is_listener_due: false,
            accepts: true,
            resumes_at: 0,
            newest: None,
            refused_bots: 0,
            operator: Operator::none(alloc),
            next_id: 1,
            polls: 0,
            limit,
            jumped_at: 0,
            jumped_to: 0,
            quiet: 0,
            has_called: false,
            refuses: false,
            has_dropped: false,
            is_ending: false,
            is_over: false,
            fault: None,
            tally: Tally::NONE,
        }
    }

    /// Notes that something is not as it has to be, at a wire.
    pub fn fail(&mut self, what: &'static str, wire: usize) {
        if self.fault.is_some() || self.is_over {
            return;
        }
        let number = match self.wires.get(wire) {
            Some(Some(wire)) => wire.number,
            _ => 0,
        };
        self.fault = Some(Fault {
            what,
            poll: self.polls,
            wire,
            number,
            reading: self.reading,
            own: self.snapshot(wire),
            other: self.other_of(wire, number),
        });
        self.end();
    }

    /// Returns what a difference prints of a wire.
    fn snapshot(&self, index: usize) -> Option<Snapshot> {
        match self.wires.get(index) {
            Some(Some(wire)) => Some(wire.snapshot()),
            _ => None,
        }
    }

    /// Returns what a difference prints of the other wire of a session.
    fn other_of(&self, own: usize, number: u32) -> Option<Snapshot> {
        for index in 0..self.wires.len() {
            let is_other = match self.wires.get(index) {
                Some(Some(wire)) => index != own && number > 0 && wire.number == number,
                _ => false,
            };
            if is_other {
                return self.snapshot(index);
            }
        }
        None
    }

    /// Resets each wire, so that the run ends.
    pub fn end(&mut self) {
        self.is_over = true;
        for index in 0..self.wires.len() {
            if let Some(wire) = self.wire(index) {
                wire.reset();
            }
            self.list(index);
        }
    }

    /// Notes that a call was made.
    pub fn note_call(&mut self) {
        self.has_called = true;
    }

    /// Notes that a session was told of a side whose stall timeout ended at this time, unless the clock jumped since.
    pub fn note_stall(&mut self, ended_at: u64) {
        if self.jumped_to < ended_at {
            let late = self.reading.saturating_sub(ended_at);
            self.tally.latest_stall = self.tally.latest_stall.max(late);
        }
    }

    // ---- wires

    /// Adds a wire to a peer, and returns its index; `None` if memory is refused.
    fn add(&mut self, role: Role) -> Option<usize> {
        let (style, id) = (self.style, self.next_id);
        let peer = Peer::new(self.alloc, role, id, style, &mut self.random);
        self.next_id = id.saturating_add(1);
        let capacity = usize::try_from(self.random.between(1, style.capacity)).unwrap_or(1);
        let mut wire = Wire::new(self.alloc, peer, capacity, self.reading);
        wire.peer.wakes_at = self.now;
        if self.is_over {
            wire.reset();
        }
        self.live = self.live.saturating_add(1);
        self.tally.most_live = self.tally.most_live.max(self.live);
        self.keep(wire)
    }

    /// Gives a wire a place; `None` if memory is refused.
    fn keep(&mut self, wire: Wire) -> Option<usize> {
        let index = match self.free.pop() {
            Some(index) => index,
            None => {
                let index = self.wires.len();
                self.wires.push(None).ok()?;
                index
            }
        };
        *self.wires.get_mut(index)? = Some(wire);
        Some(index)
    }

    /// Removes a wire.
    pub fn remove(&mut self, index: usize) {
        self.live = self.live.saturating_sub(1);
        if let Some(place) = self.wires.get_mut(index) {
            *place = None;
            let _ = self.free.push(index);
        }
    }

    /// Returns a wire, to which something is done.
    pub fn wire(&mut self, index: usize) -> Option<&mut Wire> {
        match self.wires.get_mut(index) {
            Some(Some(wire)) => {
                if !wire.is_touched {
                    wire.is_touched = true;
                    let _ = self.touched.push(index);
                }
                Some(wire)
            }
            _ => None,
        }
    }

    /// Has a wire reported, if something of it is due.
    pub fn list(&mut self, index: usize) {
        if let Some(Some(wire)) = self.wires.get_mut(index) {
            if wire.is_due() && !wire.is_listed {
                wire.is_listed = true;
                let _ = self.due.push_back(index);
            }
        }
    }

    /// Has a peer that was at rest act soon, since something was written to it.
    pub fn rouse(&mut self, index: usize) {
        let rest = self.random.below(20);
        self.plan(index, self.now.saturating_add(rest));
    }

    /// Has the peer of a wire act at this time.
    fn plan(&mut self, index: usize, time: u64) {
        let time = self.style.on_beat(time);
        if let Some(wire) = self.wire(index) {
            wire.peer.wakes_at = time;
        }
        self.acts.add(time, index);
    }

    // ---- time

    /// Has more bots come, if it is time.
    fn call(&mut self) {
        if self.more_at > self.now || self.to_come == 0 {
            return;
        }
        let count = self.random.below(self.style.crowd.saturating_add(1));
        let count = count.min(self.to_come);
        self.to_come = self.to_come.saturating_sub(count);
        self.backlog = self.backlog.saturating_add(count);
        self.is_listener_due = self.is_listener_due || count > 0;
        let rest = if self.random.one_in(20) {
            self.random.between(100, 4_000)
        } else {
            self.random.between(1, self.style.crowd.saturating_mul(15))
        };
        self.more_at = self.now.saturating_add(rest);
    }

    /// Has the peer of a wire act, if this is its time.
    fn act(&mut self, index: usize, time: u64) {
        let refused = self.style.refused;
        let Some(Some(wire)) = self.wires.get_mut(index) else {
            return;
        };
        if wire.peer.wakes_at != time || wire.is_reset {
            return;
        }
        wire.wakes(refused, &mut self.random);
        let rest = wire.rests(&mut self.random);
        self.plan(index, self.now.saturating_add(rest));
        self.list(index);
    }

    /// Has each peer do what is due, and more bots come.
    fn wake(&mut self) {
        self.call();
        self.operator.call(self.now);
        for _ in 0..MOST_WAKES {
            match self.acts.first() {
                Some((time, index)) if time <= self.now => {
                    self.acts.skip();
                    self.act(index, time);
                }
                _ => return,
            }
        }
    }

    /// Returns whether a report is due.
    fn is_due(&self) -> bool {
        let has_caller = self.is_listener_due && self.listener.is_some();
        !self.due.is_empty() || has_caller || self.operator.is_due()
    }

    /// Returns the next time at which something happens; the greatest number for never.
    fn next_time(&self) -> u64 {
        let more_at = if self.to_come == 0 {
            u64::MAX
        } else {
            self.more_at
        };
        let next = more_at.min(self.operator.next_time());
        match self.acts.first() {
            Some((time, _)) => time.min(next),
            None => next,
        }
    }

    /// Lets time pass until something is due, at most until `until`.
    fn pass_until(&mut self, until: u64) {
        for _ in 0..20_000 {
            self.wake();
            if self.is_due() {
                return;
            }
            let next = self.next_time();
            if next == u64::MAX && until == u64::MAX {
                self.fail("a wait never ends", 0);
                return;
            }
            if next > until {
                self.now = self.now.max(until);
                return;
            }
            self.now = self.now.max(next);
        }
    }

    /// Lets time pass for a poll with this timeout.
    fn pass(&mut self, timeout: Option<Duration>) {
        if self.random.one_in(700) {
            let jump = self.random.between(100, 40_000);
            self.now = self.now.saturating_add(jump);
            self.jumped_at = self.polls;
            self.jumped_to = self.now;
        }
        let millis = match timeout {
            None => u64::MAX,
            Some(time) => millis_of(time),
        };
        if millis == 0 {
            self.now = self.now.saturating_add(self.random.below(2));
            self.wake();
            return;
        }
        self.pass_until(self.now.saturating_add(millis));
    }

    // ---- polls

    /// Polls: checks that nothing is left to do if it may wait, lets time pass, and reports. Now and then it fails, and
    /// reports nothing.
    pub fn poll(&mut self, timeout: Option<Duration>, socket_events: &mut Vec<SocketEvent>) {
        socket_events.clear();
        self.polls = self.polls.saturating_add(1);
        if self.polls == self.limit {
            self.end();
        }
        self.check(timeout);
        if self.random.one_in(300) {
            return;
        }
        self.pass(timeout);
        if self.is_over {
            self.is_listener_due = true;
        }
        self.report(socket_events);
        self.check_spin(timeout, socket_events.is_empty());
    }

    /// Checks that polls don't follow one another without a reason.
    fn check_spin(&mut self, timeout: Option<Duration>, is_silent: bool) {
        if timeout == Some(Duration::ZERO) && is_silent && !self.has_called {
            self.quiet = self.quiet.saturating_add(1);
        } else {
            self.quiet = 0;
        }
        self.has_called = false;
        if self.quiet > MOST_QUIET {
            self.fail("the run spins", 0);
        }
    }

    /// Reports what is due, or a part of it, and now and then what is not.
    fn report(&mut self, socket_events: &mut Vec<SocketEvent>) {
        if let Some(key) = self.listener {
            if self.is_listener_due {
                self.is_listener_due = false;
                let _ = socket_events.push(event(
                    key,
                    Due {
                        read: true,
                        ..Due::NONE
                    },
                ));
            }
        }
        self.report_operator(socket_events);
        let most = if self.random.one_in(self.style.scarce) {
            usize::try_from(self.random.between(1, 6)).unwrap_or(1)
        } else {
            socket_events.capacity()
        };
        for _ in 0..self.due.len() {
            if socket_events.len() >= most {
                return;
            }
            if let Some(index) = self.due.pop_front() {
                self.report_one(index, socket_events);
            }
        }
        if self.random.one_in(4) && socket_events.len() < most {
            self.report_spurious(socket_events);
        }
    }

    /// Reports what is due at the control socket.
    fn report_operator(&mut self, socket_events: &mut Vec<SocketEvent>) {
        let (listener, client) = self.operator.report();
        for key in [listener, client].into_iter().flatten() {
            let _ = socket_events.push(event(
                key,
                Due {
                    end: false,
                    ..Due::ALL
                },
            ));
        }
    }

    /// Reports what is due of a wire.
    fn report_one(&mut self, index: usize, socket_events: &mut Vec<SocketEvent>) {
        let polls = self.polls;
        let Some(wire) = self.wire(index) else {
            return;
        };
        let is_listed = wire.is_listed;
        wire.is_listed = false;
        let Some(key) = wire.key else {
            return;
        };
        if !is_listed || !wire.is_due() {
            return;
        }
        let report = wire.report(key);
        if report.is_readable && wire.reported_at == 0 {
            wire.reported_at = polls;
        }
        let _ = socket_events.push(report);
    }

    /// Reports of some wire what is not so.
    fn report_spurious(&mut self, socket_events: &mut Vec<SocketEvent>) {
        let count = u64::try_from(self.wires.len()).unwrap_or(0);
        let index = usize::try_from(self.random.below(count)).unwrap_or(0);
        if let Some(Some(wire)) = self.wires.get(index) {
            if let (Some(key), false) = (wire.key, wire.is_due()) {
                let _ = socket_events.push(event(
                    key,
                    Due {
                        end: false,
                        ..Due::ALL
                    },
                ));
            }
        }
    }

    /// Returns the reading of the clock.
    pub fn read_clock(&mut self) -> u64 {
        self.reading = self.now;
        self.reading
    }

    // ---- accepts and connects

    /// Accepts a bot; `None` if none waits.
    pub fn accept(&mut self) -> Option<usize> {
        if self.backlog == 0 && !self.is_over {
            return None;
        }
        self.backlog = self.backlog.saturating_sub(1);
        let index = self.add(Role::Bot)?;
        self.newest = Some(index);
        self.plan(index, self.now);
        Some(index)
    }

    /// Notes an accept that failed.
    pub fn pause(&mut self) {
        self.resumes_at = self.reading.saturating_add(PAUSE);
    }

    /// Begins a connect.
    pub fn connect(&mut self) -> Option<usize> {
        let index = self.add(Role::Server)?;
        let rest = match self.random.below(20) {
            0 => 1_000_000_000,
            1 => self.random.between(1_000, 8_000),
            _ => self.random.below(40),
        };
        if let Some(wire) = self.wire(index) {
            if !wire.is_reset {
                wire.status = ConnectStatus::Pending;
            }
        }
        self.plan(index, self.now.saturating_add(rest));
        Some(index)
    }
}

/// Returns a time in milliseconds, rounded up.
pub fn millis_of(time: Duration) -> u64 {
    let micros = u64::try_from(time.as_micros()).unwrap_or(u64::MAX);
    micros.saturating_add(999) / 1_000
}

/// Returns a report.
fn event(key: usize, due: Due) -> SocketEvent {
    SocketEvent {
        key,
        is_readable: due.read,
        is_writable: due.write,
        is_read_closed: false,
        is_write_closed: false,
        is_error: false,
        is_priority: due.end,
    }
}
