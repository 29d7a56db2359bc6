//! What has to be so at each poll.

use crate::state::{RunTimes, State, millis_of};
use crate::wire::{Place, Wire};
use daide_io::network::ConnectStatus;
use std::time::Duration;

/// The most polls after which something that is overdue has to be done, also since the clock jumped.
const PATIENCE: u64 = 300;

/// The time after which it has to be done, in milliseconds: a second for the end of a peer, and one more.
const GRACE: u64 = 2_000;

/// The number of polls after which each wire is looked at again.
const SWEEP: u64 = 64;

impl State {
    /// Checks that nothing is overdue, and at a wait that nothing is left to do and that no timer is over before its
    /// end.
    pub fn check(&mut self, timeout: Option<Duration>) {
        if self.is_over {
            return;
        }
        if self.polls % SWEEP == 0 {
            self.check_all();
        }
        if timeout != Some(Duration::ZERO) {
            self.check_listener(timeout);
            self.check_operator();
            self.check_touched();
            self.check_timers(timeout);
        }
    }

    /// Checks that an operator's client is accepted and answered. Nobody does so while the run waits for its last sockets.
    fn check_operator(&mut self) {
        if self.is_ending {
            return;
        }
        if let Some(what) = self.operator.left_to_do() {
            self.fail(what, 0);
        }
    }

    /// Checks that each bot that waits is accepted, or that the wait ends with the pause after a failed accept.
    fn check_listener(&mut self, timeout: Option<Duration>) {
        let waits = self.backlog > 0 && !self.is_listener_due && self.listener.is_some();
        if !waits || !self.accepts {
            return;
        }
        if self.resumes_at <= self.reading {
            self.fail("a bot waits that nobody accepts", 0);
        } else if self.end_of(timeout) > self.resumes_at {
            self.fail("a wait lasts past the pause after a failed accept", 0);
        }
    }

    /// Returns the reading at which a wait with this timeout ends at the latest; the greatest number for never.
    fn end_of(&self, timeout: Option<Duration>) -> u64 {
        match timeout {
            None => u64::MAX,
            Some(time) => self.reading.saturating_add(millis_of(time)),
        }
    }

    /// Checks at a wait each wire to which something was done since the last one.
    fn check_touched(&mut self) {
        let (reading, rules) = (self.reading, self.rules);
        for _ in 0..self.touched.len() {
            let Some(index) = self.touched.pop() else {
                return;
            };
            let Some(Some(wire)) = self.wires.get_mut(index) else {
                continue;
            };
            wire.is_touched = false;
            // A run that is given up leaves its connects as they are.
            if self.is_ending && wire.place == Place::Arriving {
                continue;
            }
            if let Some(what) = left_to_do(wire, reading, rules) {
                self.fail(what, index);
            }
        }
    }

    /// Checks that nothing of any wire is overdue.
    fn check_all(&mut self) {
        for index in 0..self.wires.len() {
            let moment = Moment {
                reading: self.reading,
                polls: self.polls,
                has_jumped: self.jumped_at.saturating_add(PATIENCE) >= self.polls,
            };
            let rules = self.rules;
            let Some(Some(wire)) = self.wires.get_mut(index) else {
                continue;
            };
            if self.is_ending && wire.place == Place::Arriving {
                continue;
            }
            if let Some(what) = overdue_of(wire, moment, rules) {
                self.fail(what, index);
            }
        }
    }

    /// Has the timers of a session's wire looked at.
    pub fn note_timer(&mut self, index: usize, im_at: u64, silent_at: u64) {
        let reading = self.reading;
        let Some(wire) = self.wire(index) else {
            return;
        };
        wire.im_at = im_at;
        wire.silent_at = silent_at;
        let next = next_timer(wire, reading);
        if next != u64::MAX && !wire.has_timer {
            wire.has_timer = true;
            self.timers.add(next, index);
        }
    }

    /// Checks that a wait does not last past a timer of a session. A timer that is over, or was postponed since, is
    /// looked at again when its session is given something.
    fn check_timers(&mut self, timeout: Option<Duration>) {
        let most = self.end_of(timeout);
        for _ in 0..u64::MAX {
            let Some((time, index)) = self.timers.first() else {
                return;
            };
            if time >= most {
                return;
            }
            self.timers.skip();
            if self.next_of(index) == time {
                self.fail("a wait lasts past a timer", index);
                return;
            }
            self.postpone(index);
        }
    }

    /// Returns the next timer of a wire.
    fn next_of(&self, index: usize) -> u64 {
        match self.wires.get(index) {
            Some(Some(wire)) => next_timer(wire, self.reading),
            _ => u64::MAX,
        }
    }

    /// Has the next timer of a wire looked at, if it has one.
    fn postpone(&mut self, index: usize) {
        let next = self.next_of(index);
        if let Some(Some(wire)) = self.wires.get_mut(index) {
            wire.has_timer = next != u64::MAX;
        }
        self.timers.add(next, index);
    }
}

/// Returns the next time, after a reading, at which a timer of a session's wire is over; the greatest number for never.
fn next_timer(wire: &Wire, reading: u64) -> u64 {
    if wire.place != Place::Session {
        return u64::MAX;
    }
    let im_at = if wire.im_at > reading {
        wire.im_at
    } else {
        u64::MAX
    };
    if wire.silent_at > reading {
        im_at.min(wire.silent_at)
    } else {
        im_at
    }
}

/// Returns what could be done with a wire and is left.
fn left_to_do(wire: &Wire, reading: u64, rules: RunTimes) -> Option<&'static str> {
    let is_excused = wire.told_failure || wire.is_stalled(reading, rules.stall);
    let may_write = wire.room() > 0 && !wire.due.write && !wire.due.end;
    let is_broken = wire.is_reset && !wire.due.end && !wire.due.write;
    if wire.has_queued() && !is_excused && (may_write || is_broken) {
        return Some("bytes are held that may be written");
    }
    let may_read = wire.is_readable() && !wire.due.read && !wire.due.end && !wire.told_end;
    if wire.place == Place::Session && wire.is_awaited && may_read {
        return Some("bytes came that nobody reads");
    }
    let is_written = !wire.has_queued() || wire.told_failure;
    if wire.place == Place::Closing && is_written && may_read {
        return Some("a closing wire has bytes that nobody reads");
    }
    if wire.place == Place::Arriving && is_connect_left(wire) {
        return Some("a connect has a result that nobody takes");
    }
    None
}

/// Returns whether the connect of a wire has a result that was reported and is left.
fn is_connect_left(wire: &Wire) -> bool {
    let has_result = wire.status != ConnectStatus::Pending;
    !wire.is_bot() && has_result && wire.key.is_some() && !wire.is_due()
}

/// A reading of the clock, the number of polls, and whether the clock jumped not long ago.
#[derive(Clone, Copy)]
struct Moment {
    reading: u64,
    polls: u64,
    has_jumped: bool,
}

/// Returns the time at which something of a wire had to be done; the greatest number for never.
fn limit_of(wire: &Wire, rules: RunTimes) -> u64 {
    let stall_end = if rules.stall > 0 {
        wire.moved_at.saturating_add(rules.stall)
    } else {
        u64::MAX
    };
    match wire.place {
        Place::Arriving if wire.is_bot() => wire.began_at.saturating_add(5_000),
        Place::Arriving => u64::MAX,
        Place::Session if ends_by_stall(wire) => stall_end.max(wire.heard_at),
        Place::Session => u64::MAX,
        Place::Closing => {
            let stage_end = match wire.shut_at {
                Some(shut_at) => shut_at.saturating_add(1_000),
                None => stall_end,
            };
            stage_end.min(wire.bound(rules.stall))
        }
    }
}

/// Returns whether a stall of a session's wire has to end something: a put that waits, or the session, if that looks for
/// bytes of this side and finds none. Without room for these it does not look.
fn ends_by_stall(wire: &Wire) -> bool {
    let ends_session = wire.is_awaited && !wire.has_ended;
    let ends_put = wire.accepted < wire.answered;
    wire.has_queued() && !wire.told_failure && (ends_session || ends_put)
}

/// Returns what of a wire is overdue, or was reported for long and led to no call.
fn overdue_of(wire: &mut Wire, moment: Moment, rules: RunTimes) -> Option<&'static str> {
    let Moment {
        reading,
        polls,
        has_jumped,
    } = moment;
    let is_quiet = wire.reported_at > 0 && wire.reported_at.saturating_add(PATIENCE) < polls;
    let is_written = !wire.has_queued() || wire.told_failure;
    if wire.place == Place::Closing && is_quiet && is_written && wire.is_readable() {
        return Some("a closing wire is passed over");
    }
    let limit = limit_of(wire, rules);
    if limit > reading {
        wire.overdue = (u64::MAX, polls, reading);
        return None;
    }
    let (known, first, since) = wire.overdue;
    if known != limit {
        wire.overdue = (limit, polls, reading);
        return None;
    }
    let is_late = since.saturating_add(GRACE) <= reading;
    if has_jumped || !is_late || first.saturating_add(PATIENCE) >= polls {
        return None;
    }
    Some(match wire.place {
        Place::Arriving => "a connect is overdue",
        Place::Session => "a stall is overdue",
        Place::Closing => "the end of a closing wire is overdue",
    })
}
