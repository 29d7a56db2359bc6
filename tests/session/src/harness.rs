//! A system that plays a scene: polls, accepts, connects and orders by a script. It records the calls of its run.

use crate::relays::{NEVER, QUIET};
use daide_gate::serving::serve;
use daide_gate::settings::{Settings, read_settings};
use daide_gate::system::{Cause, Connect, Notice, Orders, SessionEnd, SessionStatus, System};
use daide_gate::{ByteCounts, FaultField, Level, Phase, SideCounts, Summary};
use daide_io::ready_queue::ReadyQueue;
use daide_protocol::account::Account;
use daide_test_support::memory_ports::{Call, MemoryPorts, Script, ScriptedRead};
use daide_test_support::rows::holds;
use std::alloc::{Allocator, Global};
use std::test::Fail;

/// The result of a connect, in a script.
#[derive(Clone, Copy)]
pub(crate) enum Fate {
    Ready,
    Failed,
    Pending,
}

/// A call of the system, with its place and its result.
#[derive(Clone, Copy, PartialEq, Eq)]
pub(crate) enum Event {
    /// A poll that may block.
    Waits,
    /// A poll that may not.
    Looks,
    Shown,
    Came(usize),
    NoneCame(usize),
    Ready(usize),
    Failed(usize),
    Pending(usize),
    Turn(usize),
    Rests(usize),
    Stays(usize),
    Retired(usize),
    Told(Notice),
}

/// The script of a run. After the last accept each further one returns a bot; after the last fate each connect
/// succeeds; after the last poll each wakes all places that rest, in the order in which they began to; after the last
/// result of `rest` each session rests; after the last orders there are none.
#[derive(Clone, Copy)]
pub(crate) struct Scene {
    pub(crate) accepts: &'static [bool],
    pub(crate) fates: &'static [Fate],
    /// The places that each poll wakes.
    pub(crate) woken: &'static [&'static [usize]],
    pub(crate) rests: &'static [bool],
    pub(crate) orders: &'static [Orders],
    pub(crate) bot: Script<'static>,
    pub(crate) server: Script<'static>,
}

/// A status that was shown, without the name of its bot, and how many turns were begun with its ports.
#[derive(Clone, Copy, PartialEq, Eq)]
pub(crate) struct Shown {
    pub(crate) turns: usize,
    pub(crate) phase: Phase,
    pub(crate) level: Level,
    pub(crate) bot: SideCounts,
    pub(crate) server: SideCounts,
    pub(crate) faults: u64,
    pub(crate) queued_to_bot: usize,
    pub(crate) queued_to_server: usize,
    pub(crate) bytes: ByteCounts,
}

/// A system that plays a scene.
#[derive(Drop)]
pub(crate) struct Harness {
    alloc: Global,
    scene: Scene,
    accepts: usize,
    fates: usize,
    rests: usize,
    polls: usize,
    /// The places that rest: those of sessions, and those whose connect is pending.
    resting: Vec<usize>,
    /// The number of bots that are connected, and the greatest number of them so far.
    pub(crate) held: usize,
    pub(crate) most: usize,
    pub(crate) events: Vec<Event>,
    pub(crate) retired: Vec<MemoryPorts<'static>>,
    /// The ends of the sessions, in the order of their retirement: cause, counts and the field of a fault.
    pub(crate) ends: Vec<(Cause, Summary, Option<FaultField>)>,
    /// Each status that was shown.
    pub(crate) shown: Vec<Shown>,
}

impl Harness {
    /// Creates a system before the first bot.
    pub(crate) fn new(alloc: Global, scene: Scene) -> Harness {
        Harness {
            alloc,
            scene,
            accepts: 0,
            fates: 0,
            rests: 0,
            polls: 0,
            resting: Vec::new(alloc),
            held: 0,
            most: 0,
            events: Vec::new(alloc),
            retired: Vec::new(alloc),
            ends: Vec::new(alloc),
            shown: Vec::new(alloc),
        }
    }

    /// Records a call of the system, if there is memory.
    fn note(&mut self, event: Event) {
        let _ = self.events.push(event);
    }
}

/// Returns how many turns were begun with these ports.
fn turns_begun(ports: &MemoryPorts<'static>) -> usize {
    let mut turns = 0_usize;
    for call in ports.calls().unwrap_or(&[]) {
        if matches!(call, Call::TurnBegins) {
            turns = turns.saturating_add(1);
        }
    }
    turns
}

/// Returns a status as it is kept.
fn shown_of(turns: usize, status: SessionStatus) -> Shown {
    let SessionStatus {
        phase,
        level,
        account,
        queued_to_bot,
        queued_to_server,
        bytes,
    } = status;
    Shown {
        turns,
        phase,
        level,
        bot: account.bot,
        server: account.server,
        faults: account.faults,
        queued_to_bot,
        queued_to_server,
        bytes,
    }
}

impl System<MemoryPorts<'static>> for Harness {
    ghost transition = { λ _ _ _. Unit {0} };

    fn poll<A: Allocator>(&mut self, may_block: bool, ready: &mut ReadyQueue<A>) -> Orders {
        self.note(if may_block {
            Event::Waits
        } else {
            Event::Looks
        });
        match self.scene.woken.get(self.polls) {
            Some(places) => {
                for place in *places {
                    self.resting.retain(|resting| *resting != *place);
                    ready.wake(*place);
                }
            }
            None => {
                for place in &self.resting {
                    ready.wake(*place);
                }
                self.resting.clear();
            }
        }
        let orders = self.scene.orders.get(self.polls);
        self.polls = self.polls.saturating_add(1);
        orders.copied().unwrap_or(Orders::NONE)
    }

    fn show(&mut self, ports: &MemoryPorts<'static>, status: SessionStatus) {
        self.note(Event::Shown);
        let shown = shown_of(turns_begun(ports), status);
        let _ = self.shown.push(shown);
    }

    fn accept(&mut self, place: usize) -> bool {
        let came = self
            .scene
            .accepts
            .get(self.accepts)
            .is_none_or(|came| *came);
        self.accepts = self.accepts.saturating_add(1);
        if came {
            self.held = self.held.saturating_add(1);
            self.most = self.most.max(self.held);
            self.note(Event::Came(place));
        } else {
            self.note(Event::NoneCame(place));
        }
        came
    }

    fn connected(&mut self, place: usize) -> Connect<MemoryPorts<'static>> {
        let fate = self.scene.fates.get(self.fates);
        self.fates = self.fates.saturating_add(1);
        match fate {
            None | Some(Fate::Ready) => {
                self.note(Event::Ready(place));
                let Scene { bot, server, .. } = self.scene;
                Connect::Ready(MemoryPorts::new(self.alloc, bot, server, NEVER))
            }
            Some(Fate::Failed) => {
                self.held = self.held.saturating_sub(1);
                self.note(Event::Failed(place));
                Connect::Failed
            }
            Some(Fate::Pending) => {
                self.note(Event::Pending(place));
                let _ = self.resting.push(place);
                Connect::Pending
            }
        }
    }

    fn begin_turn(&mut self, place: usize, _account: &Account, ports: &mut MemoryPorts<'static>) {
        self.note(Event::Turn(place));
        ports.begin_turn();
    }

    fn rest(&mut self, place: usize, _ports: &MemoryPorts<'static>) -> bool {
        let rests = self.scene.rests.get(self.rests).is_none_or(|rests| *rests);
        self.rests = self.rests.saturating_add(1);
        if rests {
            self.note(Event::Rests(place));
            let _ = self.resting.push(place);
        } else {
            self.note(Event::Stays(place));
        }
        rests
    }

    fn retire(&mut self, place: usize, ports: MemoryPorts<'static>, end: SessionEnd) {
        self.held = self.held.saturating_sub(1);
        self.note(Event::Retired(place));
        let _ = self.retired.push(ports);
        let _ = self
            .ends
            .push((end.cause, end.account.summary(), end.fault_field));
    }

    fn log(&mut self, notice: Notice) {
        self.note(Event::Told(notice));
    }
}

/// A bot that ends at once.
pub(crate) const ENDS: Script<'static> = Script {
    pulls: &[ScriptedRead::End],
    puts: &[],
};

/// A bot that sends nothing in its first turn, and ends in its second.
pub(crate) const ENDS_LATER: Script<'static> = Script {
    pulls: &[ScriptedRead::Idle, ScriptedRead::End],
    puts: &[],
};

/// A bot that sends its IM, and nothing more.
pub(crate) const OPENS_ALONE: Script<'static> = Script {
    pulls: &[ScriptedRead::Bytes(&[0, 0, 0, 4, 0, 1, 0xDA, 0x10])],
    puts: &[],
};

/// One bot that ends, and whose server accepts the connect.
pub(crate) const ENDING: Scene = Scene {
    accepts: &[],
    fates: &[],
    woken: &[],
    rests: &[],
    orders: &[],
    bot: ENDS,
    server: QUIET,
};

/// The settings `max_sessions`, `sessions` and `turns`.
pub(crate) type Limits = (usize, u32, u64);

/// Returns settings with these limits.
pub(crate) fn settings(alloc: Global, limits: Limits) -> Result<Settings, Fail> {
    let (max_sessions, sessions, turns) = limits;
    let text = format!(in alloc;
        "listen = \"a:1\"\nserver = \"b:2\"\nmax_body = 512
        max_sessions = {max_sessions}\nsessions = {sessions}\nturns = {turns}\n"
    )?;
    Ok(read_settings(alloc, text.as_str())?)
}

/// Returns the system after a whole run of a scene with these limits.
pub(crate) fn stage_after(alloc: Global, scene: Scene, limits: Limits) -> Result<Harness, Fail> {
    let settings = settings(alloc, limits)?;
    let mut stage = Harness::new(alloc, scene);
    serve(alloc, &settings, &mut stage)?;
    Ok(stage)
}

/// Checks the calls of a run of a scene with these limits.
pub(crate) fn assert_run(
    alloc: Global,
    scene: Scene,
    limits: Limits,
    want: &[Event],
) -> Result<(), Fail> {
    let stage = stage_after(alloc, scene, limits)?;
    holds(stage.events.as_slice() == want, "the events")
}
