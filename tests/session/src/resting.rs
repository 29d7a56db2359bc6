//! Sessions at rest: a round makes no call for them.

use crate::harness::settings;
use crate::relays::{NEVER, QUIET};
use daide_gate::serving::Service;
use daide_gate::system::{Connect, Notice, Orders, SessionEnd, SessionStatus, System};
use daide_io::ready_queue::ReadyQueue;
use daide_protocol::account::Account;
use daide_test_support::memory_ports::MemoryPorts;
use daide_test_support::rows::same;
use std::alloc::{Allocator, Global};
use std::test::Fail;

/// A system whose polls wake no place.
#[derive(Drop)]
struct Silence {
    alloc: Global,
    /// Whether the last poll might block, and the calls since then.
    may_block: bool,
    calls: usize,
}

impl Silence {
    /// Counts a call.
    fn note(&mut self) {
        self.calls = self.calls.saturating_add(1);
    }
}

impl System<MemoryPorts<'static>> for Silence {
    ghost transition = { λ _ _ _. Unit {0} };

    fn poll<A: Allocator>(&mut self, may_block: bool, _ready: &mut ReadyQueue<A>) -> Orders {
        self.may_block = may_block;
        self.calls = 0;
        Orders::NONE
    }

    fn show(&mut self, _ports: &MemoryPorts<'static>, _status: SessionStatus) {
        self.note();
    }

    fn accept(&mut self, _place: usize) -> bool {
        self.note();
        true
    }

    fn connected(&mut self, _place: usize) -> Connect<MemoryPorts<'static>> {
        self.note();
        Connect::Ready(MemoryPorts::new(self.alloc, QUIET, QUIET, NEVER))
    }

    fn begin_turn(&mut self, _place: usize, _account: &Account, ports: &mut MemoryPorts<'static>) {
        self.note();
        ports.begin_turn();
    }

    fn rest(&mut self, _place: usize, _ports: &MemoryPorts<'static>) -> bool {
        self.note();
        true
    }

    fn retire(&mut self, _place: usize, _ports: MemoryPorts<'static>, _end: SessionEnd) {
        self.note();
    }

    fn log(&mut self, _notice: Notice) {
        self.note();
    }
}

/// Returns whether a poll may block while so many sessions are at rest, and how many calls follow it in the round.
fn round_at_rest(alloc: Global, sessions: usize) -> Result<(bool, usize), Fail> {
    let settings = settings(alloc, (sessions, sessions as u32, 1_000))?;
    let mut service = Service::new(alloc, &settings)?;
    let mut silence = Silence {
        alloc,
        may_block: false,
        calls: 0,
    };
    // A round accepts one bot, whose first turn is in the next one.
    for _round in 0..sessions.saturating_add(2) {
        service.round(&mut silence)?;
    }
    Ok((silence.may_block, silence.calls))
}

#[test]
fn sessions_at_rest_take_no_call(rt: HostRuntime) -> Result<(), Fail> {
    for sessions in [1, 16, 256] {
        same(&round_at_rest(rt.alloc(), sessions)?, &(true, 0), &sessions)?;
    }
    Ok(())
}
