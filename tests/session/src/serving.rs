//! Whole runs in memory: the calls of the system, in order, and the service that each bot gets.

use crate::harness::{
    ENDING, ENDS, ENDS_LATER, Event, Fate, Harness, Limits, OPENS_ALONE, Scene, assert_run,
    settings, stage_after,
};
use crate::hubs::{Growths, NO_GROWTHS};
use crate::relays::{QUIET, assert_sent};
use crate::script::counts_of;
use daide_frame::code::Code;
use daide_frame::side::Side::{Bot, Server};
use daide_gate::FaultField;
use daide_gate::serving::{ServeFault, Service, serve};
use daide_gate::settings::{Settings, read_settings};
use daide_gate::system::{Cause, Notice};
use daide_protocol::ending::Ending;
use daide_test_support::memory_ports::{Acceptance, MemoryPorts, Script, ScriptedRead};
use daide_test_support::rows::{holds, same};
use linked_list_allocator::LocalHeap;
use std::alloc::Global;
use std::fmt::Display;
use std::test::Fail;

/// A scene | its limits | the calls of the system. A session whose bot ended has one turn more, which finds nothing to do.
const RUNS: &[(Scene, Limits, &[Event])] = &[
    // an accept without a bot, a pending connect, and a report of a place without a bot
    (
        Scene {
            accepts: &[false],
            fates: &[Fate::Pending, Fate::Pending],
            woken: &[&[7]],
            ..ENDING
        },
        (16, 1, 9),
        &[
            Event::Waits,
            Event::NoneCame(0),
            Event::Waits,
            Event::Came(0),
            Event::Looks,
            Event::Pending(0),
            Event::Waits,
            Event::Pending(0),
            Event::Waits,
            Event::Ready(0),
            Event::Turn(0),
            Event::Turn(0),
            Event::Retired(0),
        ],
    ),
    // the server is unreachable: the bot counts as served
    (
        Scene {
            fates: &[Fate::Failed],
            ..ENDING
        },
        (1, 1, 9),
        &[Event::Waits, Event::Came(0), Event::Looks, Event::Failed(0)],
    ),
    // one session at once: the next bot is accepted in the round in which the first is retired
    (
        Scene {
            bot: ENDS_LATER,
            ..ENDING
        },
        (1, 2, 9),
        &[
            Event::Waits,
            Event::Came(0),
            Event::Looks,
            Event::Ready(0),
            Event::Turn(0),
            Event::Rests(0),
            Event::Waits,
            Event::Turn(0),
            Event::Turn(0),
            Event::Retired(0),
            Event::Came(0),
            Event::Looks,
            Event::Ready(0),
            Event::Turn(0),
            Event::Rests(0),
            Event::Waits,
            Event::Turn(0),
            Event::Turn(0),
            Event::Retired(0),
        ],
    ),
    // a pending connect occupies the only place
    (
        Scene {
            fates: &[Fate::Pending, Fate::Pending, Fate::Failed],
            ..ENDING
        },
        (1, 2, 9),
        &[
            Event::Waits,
            Event::Came(0),
            Event::Looks,
            Event::Pending(0),
            Event::Waits,
            Event::Pending(0),
            Event::Waits,
            Event::Failed(0),
            Event::Came(0),
            Event::Looks,
            Event::Ready(0),
            Event::Turn(0),
            Event::Turn(0),
            Event::Retired(0),
        ],
    ),
    // two sessions at once: a connect that is pending holds up no other
    (
        Scene {
            fates: &[Fate::Pending],
            bot: ENDS_LATER,
            ..ENDING
        },
        (2, 2, 9),
        &[
            Event::Waits,
            Event::Came(0),
            Event::Looks,
            Event::Pending(0),
            Event::Came(1),
            Event::Looks,
            Event::Ready(1),
            Event::Turn(1),
            Event::Rests(1),
            Event::Ready(0),
            Event::Turn(0),
            Event::Rests(0),
            Event::Waits,
            Event::Turn(1),
            Event::Turn(1),
            Event::Retired(1),
            Event::Turn(0),
            Event::Turn(0),
            Event::Retired(0),
        ],
    ),
    // a silent bot: its fourth turn exceeds the quota, and stops it; one turn more finds nothing to do
    (
        Scene {
            bot: QUIET,
            ..ENDING
        },
        (1, 1, 3),
        &[
            Event::Waits,
            Event::Came(0),
            Event::Looks,
            Event::Ready(0),
            Event::Turn(0),
            Event::Rests(0),
            Event::Waits,
            Event::Turn(0),
            Event::Rests(0),
            Event::Waits,
            Event::Turn(0),
            Event::Rests(0),
            Event::Waits,
            Event::Turn(0),
            Event::Turn(0),
            Event::Told(Notice::TurnsSpent),
            Event::Retired(0),
        ],
    ),
    // a session that no poll wakes has no turn, and uses none of its quota
    (
        Scene {
            woken: &[&[], &[], &[], &[]],
            bot: QUIET,
            ..ENDING
        },
        (1, 1, 2),
        &[
            Event::Waits,
            Event::Came(0),
            Event::Looks,
            Event::Ready(0),
            Event::Turn(0),
            Event::Rests(0),
            Event::Waits,
            Event::Waits,
            Event::Waits,
            Event::Turn(0),
            Event::Rests(0),
            Event::Waits,
            Event::Turn(0),
            Event::Turn(0),
            Event::Told(Notice::TurnsSpent),
            Event::Retired(0),
        ],
    ),
    // a session that has something to do at once is visited again in the same round
    (
        Scene {
            rests: &[false],
            bot: QUIET,
            ..ENDING
        },
        (1, 1, 2),
        &[
            Event::Waits,
            Event::Came(0),
            Event::Looks,
            Event::Ready(0),
            Event::Turn(0),
            Event::Stays(0),
            Event::Turn(0),
            Event::Rests(0),
            Event::Waits,
            Event::Turn(0),
            Event::Turn(0),
            Event::Told(Notice::TurnsSpent),
            Event::Retired(0),
        ],
    ),
    // of two sessions the second is woken first
    (
        Scene {
            woken: &[&[], &[], &[], &[1]],
            bot: ENDS_LATER,
            ..ENDING
        },
        (2, 2, 9),
        &[
            Event::Waits,
            Event::Came(0),
            Event::Looks,
            Event::Ready(0),
            Event::Turn(0),
            Event::Rests(0),
            Event::Came(1),
            Event::Looks,
            Event::Ready(1),
            Event::Turn(1),
            Event::Rests(1),
            Event::Waits,
            Event::Turn(1),
            Event::Turn(1),
            Event::Retired(1),
            Event::Waits,
            Event::Turn(0),
            Event::Turn(0),
            Event::Retired(0),
        ],
    ),
];

#[test]
fn system_is_asked_round_by_round(rt: HostRuntime) -> Result<(), Fail> {
    for (scene, limits, want) in RUNS {
        assert_run(rt.alloc(), *scene, *limits, want)?;
    }
    Ok(())
}

/// The calls of the system if a bot's turns are spent while its session is open.
const SPENT: &[Event] = &[
    Event::Waits,
    Event::Came(0),
    Event::Looks,
    Event::Ready(0),
    Event::Turn(0),
    Event::Turn(0),
    Event::Turn(0),
    Event::Turn(0),
    Event::Turn(0),
    Event::Rests(0),
    Event::Waits,
    Event::Turn(0),
    Event::Turn(0),
    Event::Told(Notice::TurnsSpent),
    Event::Retired(0),
];

/// A bot that sends its IM, and nothing more.
const OPENING: Scene = Scene {
    bot: OPENS_ALONE,
    ..ENDING
};

/// Checks the calls, and that the server was sent the IM and then an FM, and the bot an FM.
fn assert_spent(alloc: Global, stage: &Harness) -> Result<(), Fail> {
    holds(stage.events.as_slice() == SPENT, "the events")?;
    match stage.retired.first() {
        Some(ports) => {
            assert_sent(alloc, ports.calls(), Bot, "03 00 00 00")?;
            assert_sent(
                alloc,
                ports.calls(),
                Server,
                "00 00 00 04 00 01 DA 10 03 00 00 00",
            )
        }
        None => Err(Fail::new("nobody was retired")),
    }
}

/// A bot's IM is read in two turns and written in two, and the fifth finds nothing to do. Then its turns are spent. The next
/// turn stops the session as an operator does, so an FM is queued for each side, and both are sent in the same turn.
#[test]
fn spent_turns_end_a_session_by_the_protocol(rt: HostRuntime) -> Result<(), Fail> {
    let stage = stage_after(rt.alloc(), OPENING, (1, 1, 5))?;
    assert_spent(rt.alloc(), &stage)
}

/// A bot that does not begin with an IM and accepts no byte, so its EM stays queued.
const WRONG_AND_FULL: Script<'static> = Script {
    pulls: &[ScriptedRead::Bytes(&[2, 0, 0, 0])],
    puts: &[Acceptance::Takes(0); 9],
};

/// A run of one bot | its limits | why its session ended | its counts | the field of its fault. In the last one an EM stays queued for
/// longer than the turns last: a session that is over spends none.
const ENDS_OF_RUNS: &[(Scene, Limits, Cause, [u64; 4], Option<FaultField>)] = &[
    (
        ENDING,
        (1, 1, 9),
        Cause::Session(Ending::Ended(Bot)),
        [0; 4],
        None,
    ),
    (OPENING, (1, 1, 5), Cause::TurnsSpent, [1, 0, 0, 0], None),
    (
        Scene {
            bot: QUIET,
            ..ENDING
        },
        (1, 1, 3),
        Cause::TurnsSpent,
        [0; 4],
        None,
    ),
    (
        Scene {
            bot: WRONG_AND_FULL,
            ..ENDING
        },
        (1, 1, 4),
        Cause::Session(Ending::Fault(Bot, Code::ImNotFirst)),
        [0, 0, 0, 1],
        Some(FaultField::Kind(2)),
    ),
];

/// Checks the end of the only session.
fn assert_end(
    alloc: Global,
    row: &(Scene, Limits, Cause, [u64; 4], Option<FaultField>),
) -> Result<(), Fail> {
    let (scene, limits, cause, counts, field) = row;
    let stage = stage_after(alloc, *scene, *limits)?;
    match stage.ends.as_slice() {
        [(told, summary, about)] => holds(
            *told == *cause && counts_of(*summary) == *counts && *about == *field,
            "the end",
        ),
        _ => Err(Fail::new("there is one end")),
    }
}

#[test]
fn system_is_told_how_a_session_ended(rt: HostRuntime) -> Result<(), Fail> {
    for row in ENDS_OF_RUNS {
        assert_end(rt.alloc(), row)?;
    }
    Ok(())
}

/// Bots that send nothing. Some are not accepted at once, and some do not reach a server.
const HUNDRED: Scene = Scene {
    accepts: &[true, false, true, false],
    fates: &[Fate::Failed, Fate::Pending, Fate::Failed],
    bot: QUIET,
    ..ENDING
};

#[test]
fn hundred_bots_sixteen_at_once(rt: HostRuntime) -> Result<(), Fail> {
    let stage = stage_after(rt.alloc(), HUNDRED, (16, 100, 30))?;
    let counts = (stage.held, stage.most, stage.retired.len());
    same(&counts, &(0, 16, 98), &"held, at most, retired")
}

#[test]
fn each_of_many_bots_is_served(rt: HostRuntime) -> Result<(), Fail> {
    let stage = stage_after(rt.alloc(), ENDING, (16, 1_200, 30))?;
    same(&stage.retired.len(), &1_200, &"retired")?;
    holds(
        !stage
            .events
            .iter()
            .any(|event| matches!(event, Event::Told(_))),
        "nothing is told",
    )
}

/// Settings for one bot, with and without an end.
const ONE_BOT: &str =
    "listen = \"a:1\"\nserver = \"b:2\"\nmax_body = 512\nmax_sessions = 1\nsessions = 1\n";

const ENDLESS: &str =
    "listen = \"a:1\"\nserver = \"b:2\"\nmax_body = 512\nmax_sessions = 1\nsessions = 1\nendless = true\n";

/// Checks how many bots are served in these rounds, of which each but the first serves one and accepts the next, and whether
/// the run is done then.
fn assert_served(alloc: Global, text: &str, rounds: usize, done: bool) -> Result<(), Fail> {
    let settings = read_settings(alloc, text)?;
    let mut stage = Harness::new(alloc, ENDING);
    let mut service = Service::<MemoryPorts<'static>, Global>::new(alloc, &settings)?;
    for _round in 0..rounds {
        service.round(&mut stage)?;
    }
    same(
        &(stage.retired.len(), service.is_done()),
        &(rounds.saturating_sub(1), done),
        &"served, done",
    )
}

#[test]
fn endless_run_goes_on_after_its_sessions(rt: HostRuntime) -> Result<(), Fail> {
    assert_served(rt.alloc(), ONE_BOT, 2, true)?;
    assert_served(rt.alloc(), ENDLESS, 30, false)
}

/// Runs with its memory on a heap of this size.
fn try_within(
    alloc: Global,
    bytes: usize,
    settings: &Settings,
    seen: &mut Growths,
) -> Result<(), Fail> {
    let heap = LocalHeap::new(alloc, bytes)?;
    let mut stage = Harness::new(alloc, ENDING);
    let Err(fault) = serve(&heap, settings, &mut stage) else {
        seen.whole = true;
        return Ok(());
    };
    if stage.events.is_empty() {
        seen.no_hub = true;
    } else {
        seen.no_session = true;
    }
    same(&fault, &ServeFault::Memory, &bytes)
}

/// Over heaps of growing size: a refused allocation is the only fault of a run.
#[test]
fn want_of_memory_ends_a_run(rt: HostRuntime) -> Result<(), Fail> {
    let settings = settings(rt.alloc(), (1, 1, 9))?;
    let mut seen = NO_GROWTHS;
    for step in 0..300 {
        try_within(rt.alloc(), 32 * step, &settings, &mut seen)?;
    }
    seen.assert_all()
}

/// Checks the text of a fault or a notice.
fn assert_text(alloc: Global, told: &impl Display, want: &str) -> Result<(), Fail> {
    let text = told.to_string(alloc)?;
    same(&text.as_str(), &want, &want)
}

#[test]
fn texts_of_faults_and_notices(rt: HostRuntime) -> Result<(), Fail> {
    assert_text(rt.alloc(), &ServeFault::Memory, "out of memory")?;
    assert_text(rt.alloc(), &Notice::TurnsSpent, "turns spent")
}
