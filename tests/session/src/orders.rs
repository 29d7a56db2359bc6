//! The operator's orders in whole runs in memory: bots are accepted no more, and each session is shown.

use crate::harness::{
    ENDING, ENDS_LATER, Event, Fate, Harness, Limits, Scene, Shown, assert_run, settings,
};
use daide_gate::serving::Service;
use daide_gate::system::Orders;
use daide_gate::{ByteCounts, Level, Phase, SideCounts};
use daide_test_support::memory_ports::{Acceptance, MemoryPorts, Script, ScriptedRead};
use daide_test_support::rows::{holds, same};
use std::alloc::Global;
use std::test::Fail;

/// A bot that sends nothing in its first three turns, and ends in its fourth.
const ENDS_IN_ITS_FOURTH_TURN: Script<'static> = Script {
    pulls: &[
        ScriptedRead::Idle,
        ScriptedRead::Idle,
        ScriptedRead::Idle,
        ScriptedRead::End,
    ],
    puts: &[],
};

const STOP: Orders = Orders {
    stops_accepting: true,
    shows_sessions: false,
};

const SHOW: Orders = Orders {
    stops_accepting: false,
    shows_sessions: true,
};

/// A scene with orders | its limits | the calls of the system.
const ORDERED_RUNS: &[(Scene, Limits, &[Event])] = &[
    // an order to stop before the first bot: the run is over
    (
        Scene {
            orders: &[STOP],
            ..ENDING
        },
        (16, 9, 9),
        &[Event::Waits],
    ),
    // with one session open and one connect pending: both go on to their ends, and no bot is accepted
    (
        Scene {
            fates: &[Fate::Ready, Fate::Pending, Fate::Ready],
            orders: &[Orders::NONE, Orders::NONE, STOP],
            bot: ENDS_IN_ITS_FOURTH_TURN,
            ..ENDING
        },
        (16, 9, 9),
        &[
            Event::Waits,
            Event::Came(0),
            Event::Looks,
            Event::Ready(0),
            Event::Turn(0),
            Event::Rests(0),
            Event::Came(1),
            Event::Looks,
            Event::Pending(1),
            Event::Turn(0),
            Event::Rests(0),
            Event::Waits,
            Event::Ready(1),
            Event::Turn(1),
            Event::Rests(1),
            Event::Turn(0),
            Event::Rests(0),
            Event::Waits,
            Event::Turn(1),
            Event::Rests(1),
            Event::Turn(0),
            Event::Turn(0),
            Event::Retired(0),
            Event::Waits,
            Event::Turn(1),
            Event::Rests(1),
            Event::Waits,
            Event::Turn(1),
            Event::Turn(1),
            Event::Retired(1),
        ],
    ),
    // with one connect pending, which fails: until then the run waits
    (
        Scene {
            fates: &[Fate::Pending, Fate::Pending, Fate::Failed],
            orders: &[Orders::NONE, STOP],
            ..ENDING
        },
        (16, 9, 9),
        &[
            Event::Waits,
            Event::Came(0),
            Event::Looks,
            Event::Pending(0),
            Event::Waits,
            Event::Pending(0),
            Event::Waits,
            Event::Failed(0),
        ],
    ),
    // an order to show without a bot, with one whose connect is pending, and with a session
    (
        Scene {
            orders: &[SHOW, SHOW, SHOW],
            bot: ENDS_LATER,
            ..ENDING
        },
        (1, 1, 9),
        &[
            Event::Waits,
            Event::Came(0),
            Event::Looks,
            Event::Ready(0),
            Event::Turn(0),
            Event::Rests(0),
            Event::Waits,
            Event::Shown,
            Event::Turn(0),
            Event::Turn(0),
            Event::Retired(0),
        ],
    ),
];

#[test]
fn orders_are_heeded_round_by_round(rt: HostRuntime) -> Result<(), Fail> {
    for (scene, limits, want) in ORDERED_RUNS {
        assert_run(rt.alloc(), *scene, *limits, want)?;
    }
    Ok(())
}

/// A bot that sends its IM byte by byte, one in each turn and none in the fifth, and nothing more.
const OPENS_SLOWLY: Script<'static> = Script {
    pulls: &[
        ScriptedRead::Bytes(&[0]),
        ScriptedRead::Bytes(&[0]),
        ScriptedRead::Bytes(&[0]),
        ScriptedRead::Bytes(&[4]),
        ScriptedRead::Idle,
        ScriptedRead::Bytes(&[0]),
        ScriptedRead::Bytes(&[1]),
        ScriptedRead::Bytes(&[0xDA]),
        ScriptedRead::Bytes(&[0x10]),
    ],
    puts: &[],
};

/// A server that takes nothing at first, and sends nothing.
const TAKES_LATER: Script<'static> = Script {
    pulls: &[],
    puts: &[Acceptance::Takes(0)],
};

/// Three bots that send their IM byte by byte. A round accepts one of them, and the last three of five rounds show all.
const SHOWN: Scene = Scene {
    orders: &[Orders::NONE, Orders::NONE, SHOW, SHOW, SHOW],
    bot: OPENS_SLOWLY,
    server: TAKES_LATER,
    ..ENDING
};

/// Turns begun | the phase | relayed frames from the bot | bytes queued for the server | bytes received from the bot | bytes
/// sent to the server. A session has its turns while they make progress: five in its first round, in the last of which
/// nothing arrives. In the second four more bytes are read, and the server takes none. In the third it takes both parts of
/// the IM, and the last of three turns finds nothing more.
const STATUSES: &[(usize, Phase, u64, usize, u64, u64)] = &[
    (5, Phase::WaitIm, 0, 0, 4, 0),
    (10, Phase::WaitRm, 1, 8, 8, 0),
    (5, Phase::WaitIm, 0, 0, 4, 0),
    (13, Phase::WaitRm, 1, 0, 8, 8),
    (10, Phase::WaitRm, 1, 8, 8, 0),
    (5, Phase::WaitIm, 0, 0, 4, 0),
];

/// Checks a status that was shown, of a session without a level, a refusal and bytes for its bot.
fn assert_status(shown: &Shown, want: &(usize, Phase, u64, usize, u64, u64)) -> Result<(), Fail> {
    let (turns, phase, relayed, queued_to_server, from_bot, to_server) = *want;
    let status = Shown {
        turns,
        phase,
        level: Level::L0,
        bot: SideCounts {
            relayed,
            prn: 0,
            huh: 0,
        },
        server: SideCounts::new(),
        faults: 0,
        queued_to_bot: 0,
        queued_to_server,
        bytes: ByteCounts {
            from_bot,
            from_server: 0,
            to_bot: 0,
            to_server,
        },
    };
    holds(*shown == status, "the status")
}

#[test]
fn each_session_is_shown_in_order(rt: HostRuntime) -> Result<(), Fail> {
    let settings = settings(rt.alloc(), (3, 3, 99))?;
    let mut stage = Harness::new(rt.alloc(), SHOWN);
    let mut service = Service::<MemoryPorts<'static>, Global>::new(rt.alloc(), &settings)?;
    for _round in 0..5 {
        service.round(&mut stage)?;
    }
    same(&stage.shown.len(), &STATUSES.len(), &"shown")?;
    for (shown, want) in stage.shown.iter().zip(STATUSES) {
        assert_status(shown, want)?;
    }
    Ok(())
}
