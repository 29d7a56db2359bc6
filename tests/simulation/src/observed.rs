//! The sockets of a run, and the ports of a session, with a machine of the library beside each session.

ghost use Rattle.std.specs.Prelude.{◌≡◌};
ghost use Rattle.daide_io.specs.Ports.{IsPullWithin};

use crate::lines::Lines;
use crate::network::{MemoryConnection, MemoryNetwork, World};
use crate::state::{RunTimes, State};
use crate::wire::Place;
use daide_frame::side::Side;
use daide_io::network::ConnectStatus;
use daide_io::ports::{ClockEvent, Ports, Pull, Put};
use daide_io::ready_queue::ReadyQueue;
use daide_io::system::{Cause, Connect, Notice, Orders, SessionEnd, SessionStatus, System};
use daide_protocol::account::Account;
use daide_protocol::config::Config;
use daide_protocol::ending::Ending;
use daide_session::session::Session;
use daide_settings::Settings;
use daide_sockets::ports::SocketPorts;
use daide_sockets::system::Sockets;
use std::alloc::{Allocator, Global};

/// The most frames that a machine has for one side.
const MOST_FRAMES: usize = 64;

/// The ports of a session, with a machine that is given the same events.
#[derive(Drop)]
pub struct ObservedPorts<'w, 'n> {
    ports: SocketPorts<'w, MemoryConnection<'n>>,
    world: &'n World,
    bot: usize,
    server: usize,
    machine: Session,
    /// The reading from which the IM timer is over, and whether it was told.
    im_at: u64,
    has_expired: bool,
    /// Whether it was told that the operator stops the session.
    is_stopped: bool,
    /// The turns that began while the machine was not over.
    turns: u64,
    /// The readings from which the bot and the server are silent.
    silent_at: (u64, u64),
    rules: RunTimes,
}

/// Notes a difference at a wire.
fn fail(world: &World, what: &'static str, wire: usize) {
    if let Ok(mut state) = world.state.try_borrow_mut() {
        state.fail(what, wire);
    }
}

/// Returns the last reading of the clock.
fn reading_of(world: &World) -> u64 {
    match world.state.try_borrow_mut() {
        Ok(state) => state.reading,
        Err(_) => 0,
    }
}

/// Returns whether an operator requested that sessions end.
fn ends_sessions(world: &World) -> bool {
    match world.state.try_borrow_mut() {
        Ok(state) => state.operator.ends_sessions,
        Err(_) => false,
    }
}

/// Returns whether a stop was read.
fn has_requested(world: &World) -> bool {
    match world.state.try_borrow_mut() {
        Ok(state) => state.operator.has_requested,
        Err(_) => false,
    }
}

/// Returns the number of bots that the system refused to follow.
fn refused_bots(world: &World) -> u64 {
    match world.state.try_borrow_mut() {
        Ok(state) => state.refused_bots,
        Err(_) => 0,
    }
}

/// Adds bytes that a wire has to take.
fn expect(state: &mut State, index: usize, bytes: &[u8]) {
    let reading = state.reading;
    if let Some(wire) = state.wire(index) {
        if wire.expected.is_empty() {
            wire.moved_at = reading;
        }
        wire.expected.push(bytes);
        let more = u64::try_from(bytes.len()).unwrap_or(0);
        wire.answered = wire.answered.saturating_add(more);
    }
}

/// Checks that a session was given the next bytes that were read from its wire.
fn deliver(state: &mut State, index: usize, bytes: &[u8]) {
    let reading = state.reading;
    let is_right = match state.wire(index) {
        Some(wire) => {
            wire.is_awaited = false;
            wire.heard_at = reading;
            let is_right = wire.delivered.begins_with(bytes);
            wire.delivered.skip(bytes.len());
            is_right
        }
        None => false,
    };
    if !is_right {
        state.fail("a session was given other bytes than came", index);
    }
}

/// Checks that an end that a pull told has a cause.
fn end_pull(state: &mut State, index: usize, is_silent: bool) {
    let (reading, stall) = (state.reading, state.rules.stall);
    let mut stall_end = None;
    let is_right = match state.wire(index) {
        Some(wire) => {
            wire.has_ended = true;
            let has_end = wire.told_end && wire.delivered.is_empty();
            if !has_end && wire.is_stalled(reading, stall) {
                stall_end = Some(wire.moved_at.saturating_add(stall));
            }
            has_end || stall_end.is_some()
        }
        None => false,
    };
    if let (Some(time), false) = (stall_end, is_silent) {
        state.note_stall(time);
    }
    if is_silent {
        state.tally.silences = state.tally.silences.saturating_add(1);
    } else if !is_right {
        state.fail("a pull told an end without a cause", index);
    }
}

/// Notes the bytes that ports took for a wire.
fn accept_bytes(state: &mut State, index: usize, count: usize) {
    if let Some(wire) = state.wire(index) {
        let more = u64::try_from(count).unwrap_or(0);
        wire.accepted = wire.accepted.saturating_add(more);
    }
}

/// Checks that a put that failed has a cause.
fn fail_put(state: &mut State, index: usize) {
    let (reading, stall) = (state.reading, state.rules.stall);
    let mut is_right = true;
    let mut has_stalled = false;
    let mut stall_end = reading;
    if let Some(wire) = state.wire(index) {
        is_right = wire.told_failure || wire.is_stalled(reading, stall);
        has_stalled = !wire.told_failure;
        stall_end = wire.moved_at.saturating_add(stall);
        wire.told_failure = true;
    }
    if has_stalled {
        state.note_stall(stall_end);
        state.tally.stalls = state.tally.stalls.saturating_add(1);
    }
    if !is_right {
        state.fail("a put failed without a cause", index);
    }
}

impl<'w, 'n> ObservedPorts<'w, 'n> {
    /// Returns the wire of a side.
    fn wire_of(&self, side: Side) -> usize {
        match side {
            Side::Bot => self.bot,
            Side::Server => self.server,
        }
    }

    /// Returns the reading from which a side is silent.
    fn silent_at(&self, side: Side) -> u64 {
        match side {
            Side::Bot => self.silent_at.0,
            Side::Server => self.silent_at.1,
        }
    }

    /// Notes that bytes came of a side.
    fn note_came(&mut self, side: Side) {
        if self.rules.idle > 0 {
            let at = reading_of(self.world).saturating_add(self.rules.idle);
            self.set_silent_at(side, at);
        }
    }

    /// Sets the reading from which a side is silent.
    fn set_silent_at(&mut self, side: Side, at: u64) {
        match side {
            Side::Bot => self.silent_at.0 = at,
            Side::Server => self.silent_at.1 = at,
        }
        self.note_timers();
    }

    /// Notes the timers of both wires.
    fn note_timers(&self) {
        let im_at = if self.has_expired {
            u64::MAX
        } else {
            self.im_at
        };
        if let Ok(mut state) = self.world.state.try_borrow_mut() {
            state.note_timer(self.bot, im_at, self.silent_at.0);
            state.note_timer(self.server, u64::MAX, self.silent_at.1);
        }
    }

    /// Has the wires take what the machine answers.
    fn answer(&mut self) {
        self.answer_to(Side::Bot);
        self.answer_to(Side::Server);
    }

    /// The same for one side.
    fn answer_to(&mut self, side: Side) {
        let index = self.wire_of(side);
        for _frame in 0..MOST_FRAMES {
            let front = self.machine.front(side);
            if front.is_empty() {
                return;
            }
            if let Ok(mut state) = self.world.state.try_borrow_mut() {
                expect(&mut state, index, front);
            }
            let count = front.len();
            self.machine.wrote(side, count);
        }
    }

    /// Gives the machine the bytes of a pull.
    fn hear(&mut self, side: Side, bytes: &[u8]) {
        let index = self.wire_of(side);
        if let Ok(mut state) = self.world.state.try_borrow_mut() {
            deliver(&mut state, index, bytes);
        }
        let count = self.machine.room(side).min(bytes.len());
        if count < bytes.len() {
            fail(self.world, "a session read more than its machine", index);
        }
        self.machine.feed(side, &bytes[..count]);
        self.note_came(side);
    }

    /// Checks a pull without bytes, and an end.
    fn hear_nothing(&mut self, side: Side, pull: Pull) {
        let index = self.wire_of(side);
        let reading = reading_of(self.world);
        let is_silent = self.silent_at(side) <= reading;
        let Ok(mut state) = self.world.state.try_borrow_mut() else {
            return;
        };
        if pull == Pull::Ended {
            end_pull(&mut state, index, is_silent);
            return;
        }
        if is_silent {
            state.fail("a silence was not told", index);
        }
        if let Some(wire) = state.wire(index) {
            wire.is_awaited = true;
        }
    }
}

impl Ports for ObservedPorts<'_, '_> {
    ghost transition = { λ _ _ _. Unit {0} };

    fn pull(&mut self, side: Side, buffer: &mut [u8]) -> Pull {
        let pull = self.ports.pull(side, buffer);
        match pull {
            Pull::Got(count) => self.hear(side, &buffer[..count]),
            Pull::Idle => {
                if !buffer.is_empty() {
                    self.hear_nothing(side, pull);
                }
            }
            Pull::Ended => {
                self.hear_nothing(side, pull);
                self.set_silent_at(side, u64::MAX);
                self.machine.ended(side);
            }
        }
        self.answer();
        pull
    }

    fn put(&mut self, side: Side, bytes: &[u8]) -> Put {
        let put = self.ports.put(side, bytes);
        let index = self.wire_of(side);
        if let Ok(mut state) = self.world.state.try_borrow_mut() {
            match put {
                Put::Took(count) => accept_bytes(&mut state, index, count),
                Put::Failed => fail_put(&mut state, index),
            }
        }
        if put == Put::Failed {
            self.machine.lost(side);
            self.answer();
        }
        put
    }

    fn clock(&mut self, is_spent: bool) -> ClockEvent {
        let event = self.ports.clock(is_spent);
        let is_stop_due = !self.is_stopped && ends_sessions(self.world);
        let is_late = self.machine.ending().is_none() && self.turns > self.rules.turns;
        if is_spent != is_late {
            fail(self.world, "the turns are not counted", self.bot);
        }
        if (is_spent || is_stop_due) != (event == ClockEvent::StopIsRequested) {
            fail(self.world, "a stop is not told once", self.bot);
        }
        // The timer expires once, also in the turn of a stop, which is reported in its place.
        let is_due = !self.has_expired && self.im_at <= reading_of(self.world);
        self.has_expired = self.has_expired || is_due;
        if is_stop_due {
            self.is_stopped = true;
            if let Ok(mut state) = self.world.state.try_borrow_mut() {
                state.tally.stopped = state.tally.stopped.saturating_add(1);
            }
        }
        if is_spent || is_stop_due {
            self.machine.stop();
            self.answer();
            return event;
        }
        let is_expired = event == ClockEvent::ImTimeIsOver;
        if is_expired != is_due {
            fail(self.world, "the IM timer is not on time", self.bot);
        }
        if is_expired {
            self.note_timers();
            self.machine.im_timeout();
            self.answer();
            if let Ok(mut state) = self.world.state.try_borrow_mut() {
                state.tally.timers = state.tally.timers.saturating_add(1);
            }
        }
        event
    }

}

/// The sockets of a run, observed.
#[derive(Drop)]
pub struct ObservedSockets<'w, 'n> {
    sockets: Sockets<'w, MemoryNetwork<'n>, Lines<'n>>,
    world: &'n World,
    alloc: Global,
    config: Config,
    /// The most sessions at once, and the number of bots in all.
    limits: (usize, u32),
    /// The number of bots accepted.
    came: u32,
    /// The number of sessions and of connects under way.
    held: usize,
    /// Whether no further bot is accepted, at an operator's request.
    has_stopped: bool,
    /// The number of retired sessions to which a stop was reported before.
    stopped_and_retired: u64,
    /// Whether the turns of the session that is retired next are spent.
    is_spent: bool,
    /// The bots in a row that did not reach the server, up to now.
    away: u64,
}

/// Notes the bot that was accepted last, with its session's number.
fn note_bot(state: &mut State, number: u32) {
    let Some(index) = state.newest else {
        return;
    };
    if let Some(wire) = state.wire(index) {
        wire.number = number;
    }
}

/// Joins two wires to a session. Returns the reading at which its bot was accepted.
fn join(state: &mut State, number: u32, bot: usize, server: usize) -> u64 {
    let reading = state.reading;
    let mut began_at = reading;
    let mut is_right = false;
    if let Some(wire) = state.wire(bot) {
        is_right = wire.is_bot() && wire.number == number && wire.place == Place::Arriving;
        wire.place = Place::Session;
        began_at = wire.began_at;
    }
    if !is_right {
        state.fail("a session has another bot", bot);
    }
    is_right = false;
    if let Some(wire) = state.wire(server) {
        is_right = !wire.is_bot() && wire.place == Place::Arriving;
        is_right = is_right && wire.status == ConnectStatus::Connected;
        wire.place = Place::Session;
        wire.number = number;
    }
    if !is_right {
        state.fail("a session has no server of its own", server);
    }
    state.tally.sessions = state.tally.sessions.saturating_add(1);
    began_at
}

/// Begins to close a wire. Checks that the ports took all that the machine answered, if they had to.
fn part(state: &mut State, index: usize) {
    let (reading, stall, polls) = (state.reading, state.rules.stall, state.polls);
    let mut is_right = true;
    if let Some(wire) = state.wire(index) {
        if wire.reported_at > 0 {
            wire.reported_at = polls;
        }
        wire.was_stalled = wire.is_stalled(reading, stall);
        let is_excused = wire.told_failure || wire.was_stalled;
        is_right = is_excused || wire.accepted == wire.answered;
        let left = wire.accepted.saturating_sub(wire.written);
        wire.expected.truncate(usize::try_from(left).unwrap_or(0));
        wire.place = Place::Closing;
        wire.closing_from = wire.closing_from.or(Some(reading));
        wire.moved_at = reading;
        wire.is_awaited = false;
    }
    state.closing = state.closing.saturating_add(1);
    if !is_right {
        state.fail("a session ended before its last byte was put", index);
    }
}

impl<'w, 'n> ObservedSockets<'w, 'n> {
    /// Observes sockets over this network, with these settings.
    pub fn new(
        alloc: Global,
        settings: &Settings,
        world: &'n World,
        sockets: Sockets<'w, MemoryNetwork<'n>, Lines<'n>>,
    ) -> ObservedSockets<'w, 'n> {
        ObservedSockets {
            sockets,
            world,
            alloc,
            config: settings.config,
            limits: (settings.max_sessions, settings.sessions),
            came: 0,
            held: 0,
            has_stopped: false,
            stopped_and_retired: 0,
            is_spent: false,
            away: 0,
        }
    }

    /// Checks before a wait that a stop that ends sessions was reported to each of them.
    fn check_stops(&self) {
        if !ends_sessions(self.world) {
            return;
        }
        if let Ok(mut state) = self.world.state.try_borrow_mut() {
            let stopped = state.tally.stopped.saturating_sub(self.stopped_and_retired);
            if u64::try_from(self.held) != Ok(stopped) {
                state.fail("a session sleeps through a stop", 0);
            }
        }
    }

    /// Checks that one more line was written since there were `before`, which tells this of a session, unless it was
    /// refused.
    fn check_line(&self, before: u64, number: u32, what: &str, wire: usize) {
        let lines = &self.sockets.errors;
        let text = format!(in self.alloc; "daide-gate: session {number} {what}");
        let is_right = match text {
            Ok(text) => lines.has(text.as_str()),
            Err(_) => true,
        };
        if !is_right || lines.count != before.saturating_add(1) {
            fail(self.world, "a line tells something else", wire);
        }
    }

    /// Checks that so many more lines were written since there were `before`, and if there is one, that the last one is
    /// right.
    fn check_lines(&self, before: u64, more: u64, is_right: bool, what: &'static str) {
        if self.sockets.errors.count != before.saturating_add(more) || more > 0 && !is_right {
            fail(self.world, what, 0);
        }
    }

    /// Checks the lines since there were `before`, of a bot whose connect has ended without a server: that of the end of its
    /// session, and before it that the server is away, if the bot is the first one. None is about the server if an operator
    /// ended the connect.
    fn check_failed(&mut self, before: u64) {
        let is_stopped = ends_sessions(self.world);
        let is_first = self.away == 0 && !is_stopped;
        let lines = &self.sockets.errors;
        let cause = if is_stopped {
            "stopped by the operator"
        } else {
            "no server"
        };
        let tells_away = !is_first || lines.had("daide-gate: server 127.0.0.1:");
        let is_right = lines.has_end_by(cause) && tells_away;
        let more = if is_first { 2 } else { 1 };
        self.check_lines(before, more, is_right, "no line tells of a bot without a server");
        if !is_stopped {
            self.away = self.away.saturating_add(1);
        }
    }

    /// Checks that the server is logged as reached again exactly if the bot before did not reach it.
    fn check_reached(&mut self, before: u64) {
        let away = self.away;
        let text = format!(in self.alloc; "daide-gate: server reached again after {away} bots and ");
        let is_right = match text {
            Ok(text) => self.sockets.errors.has(text.as_str()),
            Err(_) => true,
        };
        let more = if away > 0 { 1 } else { 0 };
        self.check_lines(before, more, is_right, "another line tells of a server that is reached");
        self.away = 0;
    }

    /// Checks that exactly a bot that the system refused to follow has a line, of those that were not accepted.
    fn check_dropped(&self, before: u64, refused: u64) {
        let more = refused_bots(self.world).saturating_sub(refused);
        let is_right = self.sockets.errors.has("daide-gate: bot at 127.0.0.1:0 is dropped: ");
        self.check_lines(before, more, is_right, "no line tells of a bot that is dropped");
    }

    /// Returns observed ports of a session.
    fn observe(
        &mut self,
        ports: SocketPorts<'w, MemoryConnection<'n>>,
    ) -> Option<ObservedPorts<'w, 'n>> {
        let sockets = ports.sockets();
        let bot = sockets.at(Side::Bot).connection().wire;
        let server = sockets.at(Side::Server).connection().wire;
        let machine = Session::new(self.alloc, self.config).ok()?;
        let mut state = self.world.state.try_borrow_mut().ok()?;
        let began_at = join(&mut state, ports.identity().number, bot, server);
        let rules = state.rules;
        let silent_at = if rules.idle == 0 {
            u64::MAX
        } else {
            state.reading.saturating_add(rules.idle)
        };
        drop(state);
        let ports = ObservedPorts {
            ports,
            world: self.world,
            bot,
            server,
            machine,
            im_at: began_at.saturating_add(rules.im),
            has_expired: false,
            is_stopped: false,
            turns: 0,
            silent_at: (silent_at, silent_at),
            rules,
        };
        ports.note_timers();
        Some(ports)
    }

    /// Checks the end of a session.
    fn check_end(&self, ports: &ObservedPorts<'w, 'n>, end: SessionEnd) {
        // The machine of a session whose turns were spent was stopped.
        let ending = match end.cause {
            Cause::TurnsSpent => Ending::Stopped,
            Cause::Session(ending) => ending,
        };
        let is_right = (end.cause == Cause::TurnsSpent) == self.is_spent
            && ports.machine.ending() == Some(ending)
            && ports.machine.account() == end.account;
        if let Ok(mut state) = self.world.state.try_borrow_mut() {
            if !is_right {
                state.fail("a session ended for another cause", ports.bot);
            }
            part(&mut state, ports.bot);
            part(&mut state, ports.server);
        }
    }

    /// Waits until the last sockets are closed.
    pub fn finish(&mut self) {
        if let Ok(mut state) = self.world.state.try_borrow_mut() {
            state.accepts = false;
            state.is_ending = true;
        }
        self.sockets.finish();
    }
}

impl<'w, 'n> System<ObservedPorts<'w, 'n>> for ObservedSockets<'w, 'n> {
    ghost transition = { λ _ _ _. Unit {0} };

    fn poll<A: Allocator>(&mut self, may_block: bool, ready: &mut ReadyQueue<A>) -> Orders {
        let (max_sessions, sessions) = self.limits;
        let accepts = self.came < sessions && self.held < max_sessions && !self.has_stopped;
        if may_block {
            self.check_stops();
            if let Ok(mut state) = self.world.state.try_borrow_mut() {
                state.accepts = accepts;
            }
        }
        // The run looks once more for a client of a stop, and carries it out by the next poll.
        let is_late = has_requested(self.world);
        let orders = self.sockets.poll(may_block, ready);
        self.has_stopped = orders.stops_accepting;
        if let Ok(mut state) = self.world.state.try_borrow_mut() {
            if self.has_stopped && !state.operator.has_requested {
                state.fail("a stop was not requested", 0);
            }
            if self.has_stopped {
                state.operator.heed();
            } else if is_late {
                state.fail("a stop is not heeded", 0);
            }
        }
        orders
    }

    fn show(&mut self, ports: &ObservedPorts<'w, 'n>, status: SessionStatus) {
        self.sockets.show(&ports.ports, status);
    }

    fn begin_turn(&mut self, place: usize, account: &Account, ports: &mut ObservedPorts<'w, 'n>) {
        self.sockets.begin_turn(place, account, &mut ports.ports);
        if ports.machine.ending().is_none() {
            ports.turns = ports.turns.saturating_add(1);
        }
        if let Ok(mut state) = self.world.state.try_borrow_mut() {
            for side in [ports.bot, ports.server] {
                if let Some(wire) = state.wire(side) {
                    wire.is_awaited = false;
                }
            }
        }
    }

    fn rest(&mut self, place: usize, ports: &ObservedPorts<'w, 'n>) -> bool {
        self.sockets.rest(place, &ports.ports)
    }

    fn accept(&mut self, place: usize) -> bool {
        let (before, refused) = (self.sockets.errors.count, refused_bots(self.world));
        let came = self.sockets.accept(place);
        if came && self.has_stopped {
            fail(self.world, "a bot is accepted after a stop", 0);
        }
        if came {
            self.came = self.came.saturating_add(1);
            self.held = self.held.saturating_add(1);
            self.check_line(before, self.came, "began: bot at ", 0);
            if let Ok(mut state) = self.world.state.try_borrow_mut() {
                note_bot(&mut state, self.came);
            }
        } else {
            self.check_dropped(before, refused);
        }
        came
    }

    fn connected(&mut self, place: usize) -> Connect<ObservedPorts<'w, 'n>> {
        let before = self.sockets.errors.count;
        let connect = match self.sockets.connected(place) {
            Connect::Ready(ports) => {
                self.check_reached(before);
                match self.observe(ports) {
                    Some(ports) => Connect::Ready(ports),
                    None => Connect::Failed,
                }
            }
            Connect::Failed => {
                self.check_failed(before);
                Connect::Failed
            }
            Connect::Pending => Connect::Pending,
        };
        if matches!(connect, Connect::Failed) {
            self.held = self.held.saturating_sub(1);
        }
        connect
    }

    fn retire(&mut self, place: usize, ports: ObservedPorts<'w, 'n>, end: SessionEnd) {
        self.check_end(&ports, end);
        self.is_spent = false;
        self.held = self.held.saturating_sub(1);
        let (number, bot) = (ports.ports.identity().number, ports.bot);
        let ObservedPorts {
            ports,
            world: _,
            bot: _,
            server: _,
            machine: _,
            im_at: _,
            has_expired: _,
            is_stopped,
            turns: _,
            silent_at: _,
            rules: _,
        } = ports;
        if is_stopped {
            self.stopped_and_retired = self.stopped_and_retired.saturating_add(1);
        }
        let before = self.sockets.errors.count;
        self.sockets.retire(place, ports, end);
        self.check_line(before, number, "ended", bot);
    }

    fn log(&mut self, notice: Notice) {
        self.is_spent = self.is_spent || notice == Notice::TurnsSpent;
        self.sockets.log(notice);
    }
}
