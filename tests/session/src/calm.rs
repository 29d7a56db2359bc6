//! Calm sessions beside busy ones. A session is busy as long as each of its turns makes progress.

use crate::harness::settings;
use crate::relays::{NEVER, QUIET};
use daide_gate::serving::Service;
use daide_gate::system::{Connect, Notice, Orders, SessionEnd, SessionStatus, System};
use daide_io::ready_queue::ReadyQueue;
use daide_protocol::account::Account;
use daide_test_support::memory_ports::{Acceptance, MemoryPorts, Script, ScriptedRead};
use daide_test_support::rows::same;
use std::alloc::{Allocator, Global};
use std::test::Fail;

/// `HUH ( GOF .. )` with `GOF` 29 times: 68 bytes.
#[rattlefmt::skip]
const MESSAGE: &[u8] = &[
    0x02, 0x00, 0x00, 0x40, 0x48, 0x06, 0x40, 0x00,
    0x48, 0x03, 0x48, 0x03, 0x48, 0x03, 0x48, 0x03, 0x48, 0x03, 0x48, 0x03, 0x48, 0x03, 0x48, 0x03,
    0x48, 0x03, 0x48, 0x03, 0x48, 0x03, 0x48, 0x03, 0x48, 0x03, 0x48, 0x03, 0x48, 0x03, 0x48, 0x03,
    0x48, 0x03, 0x48, 0x03, 0x48, 0x03, 0x48, 0x03, 0x48, 0x03, 0x48, 0x03, 0x48, 0x03, 0x48, 0x03,
    0x48, 0x03, 0x48, 0x03, 0x48, 0x03, 0x48, 0x03, 0x48, 0x03,
    0x40, 0x01,
];

/// A bot that sends its IM, and then a message four times.
const SPEAKS: Script<'static> = Script {
    pulls: &[
        ScriptedRead::Bytes(&[0, 0, 0, 4, 0, 1, 0xDA, 0x10]),
        ScriptedRead::Bytes(MESSAGE),
        ScriptedRead::Bytes(MESSAGE),
        ScriptedRead::Bytes(MESSAGE),
        ScriptedRead::Bytes(MESSAGE),
    ],
    puts: &[],
};

/// A server that sends its RM once its session has the IM, and takes one byte in each turn: the IM and the messages in 280
/// turns.
const TAKES_SLOWLY: Script<'static> = Script {
    pulls: &[
        ScriptedRead::Idle,
        ScriptedRead::Idle,
        ScriptedRead::Idle,
        ScriptedRead::Bytes(&[1, 0, 0, 0]),
    ],
    puts: &[Acceptance::Takes(1); 280],
};

/// A system whose first bots and their servers are quiet, and so calm from their second turn on; all further ones are busy.
/// Each poll wakes the calm ones.
#[derive(Drop)]
struct Crowd {
    alloc: Global,
    /// The number of calm sessions, and how many of them began.
    calm: usize,
    begun: usize,
    /// The turns of calm sessions and of busy ones since the last poll.
    turns: (usize, usize),
}

impl System<MemoryPorts<'static>> for Crowd {
    ghost transition = { λ _ _ _. Unit {0} };

    fn poll<A: Allocator>(&mut self, _may_block: bool, ready: &mut ReadyQueue<A>) -> Orders {
        self.turns = (0, 0);
        for place in 0..self.begun {
            ready.wake(place);
        }
        Orders::NONE
    }

    fn show(&mut self, _ports: &MemoryPorts<'static>, _status: SessionStatus) {}

    fn accept(&mut self, _place: usize) -> bool {
        true
    }

    fn connected(&mut self, place: usize) -> Connect<MemoryPorts<'static>> {
        let (bot, server) = if place < self.calm {
            self.begun = self.begun.saturating_add(1);
            (QUIET, QUIET)
        } else {
            (SPEAKS, TAKES_SLOWLY)
        };
        Connect::Ready(MemoryPorts::new(self.alloc, bot, server, NEVER))
    }

    fn begin_turn(&mut self, place: usize, _account: &Account, ports: &mut MemoryPorts<'static>) {
        let turns = if place < self.calm {
            &mut self.turns.0
        } else {
            &mut self.turns.1
        };
        *turns = turns.saturating_add(1);
        ports.begin_turn();
    }

    fn rest(&mut self, _place: usize, _ports: &MemoryPorts<'static>) -> bool {
        true
    }

    fn retire(&mut self, _place: usize, _ports: MemoryPorts<'static>, _end: SessionEnd) {}

    fn log(&mut self, _notice: Notice) {}
}

/// Returns the turns of calm sessions and of busy ones in a round with this number of each.
fn turns_beside(alloc: Global, calm: usize, busy: usize) -> Result<(usize, usize), Fail> {
    let sessions = calm.saturating_add(busy);
    let settings = settings(alloc, (sessions, sessions as u32, 1_000))?;
    let mut service = Service::new(alloc, &settings)?;
    let mut crowd = Crowd {
        alloc,
        calm,
        begun: 0,
        turns: (0, 0),
    };
    // A round accepts one bot. After a few more each had its first visit.
    for _round in 0..sessions.saturating_add(6) {
        service.round(&mut crowd)?;
    }
    Ok(crowd.turns)
}

/// The numbers of calm and of busy sessions | their turns in a round. Visits begin up to the 24th turn. Calm sessions come
/// first, with one turn each, but for the last 8 turns; a busy one has 8 turns in a visit.
#[rattlefmt::skip]
const TURNS: &[((usize, usize), (usize, usize))] = &[
    ((1, 1), (1, 24)),
    ((1, 16), (1, 24)),
    ((40, 0), (25, 0)),
    ((40, 1), (17, 8)),
    ((40, 16), (17, 8)),
];

#[test]
fn calm_sessions_come_first_and_leave_a_share(rt: HostRuntime) -> Result<(), Fail> {
    for (sessions, turns) in TURNS {
        let (calm, busy) = *sessions;
        same(&turns_beside(rt.alloc(), calm, busy)?, turns, sessions)?;
    }
    Ok(())
}
