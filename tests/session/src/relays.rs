//! Turns over ports in memory: the bytes that each side was sent, and the calls of the ports.

use crate::script::{WIDEST, assert_bytes};
use daide_frame::side::Side::{self, Bot, Server};
use daide_gate::{Phase, Ports, Pull, Put, RelayEnd, Session, relay};
use daide_io::ports::ClockEvent::{self, ImTimeIsOver, NoEvent, StopIsRequested};
use daide_test_support::memory_ports::{Acceptance, Call, MemoryPorts, Script, ScriptedRead};
use daide_test_support::rows::{holds, same};
use linked_list_allocator::LocalHeap;
use std::alloc::{Allocator, Global};
use std::test::Fail;

/// More timer queries than any test makes.
pub const NEVER: u64 = 1_000_000;

/// A side that sends nothing and accepts everything.
pub const QUIET: Script<'static> = Script {
    pulls: &[],
    puts: &[],
};

/// Returns the bytes that a side accepted, from the recorded calls.
pub fn sent<A: Allocator>(alloc: Global, calls: &[Call<A>], side: Side) -> Result<Vec<u8>, Fail> {
    let mut bytes = Vec::new(alloc);
    for call in calls {
        if let Call::Offered(to, offered, Put::Took(count)) = call {
            if *to == side {
                bytes.extend_from_slice(&offered[..offered.len().min(*count)])?;
            }
        }
    }
    Ok(bytes)
}

/// Checks the bytes that a side accepted, from the recorded calls.
pub fn assert_sent(
    alloc: Global,
    calls: Option<&[Call]>,
    side: Side,
    want: &str,
) -> Result<(), Fail> {
    let Some(calls) = calls else {
        return Err(Fail::new("memory for the record"));
    };
    let bytes = sent(alloc, calls, side)?;
    assert_bytes(alloc, bytes.as_slice(), want)
}

/// An expected call of the ports: a query of the clock and its result; a pull with the side, the length of the buffer, and the
/// result; a put with the side, the whole front, and the result.
#[derive(Clone, Copy)]
enum Asks {
    Clock(ClockEvent),
    Pull(Side, usize, Pull),
    Put(Side, &'static [u8], Put),
}

/// Returns whether a call is the expected one.
fn is_wanted(call: &Call, want: Asks) -> bool {
    match call {
        Call::TurnBegins => false,
        Call::Clock(event) => matches!(want, Asks::Clock(reported) if reported == *event),
        Call::Pulled(from, buffer, came, _) => {
            matches!(want, Asks::Pull(side, len, pull) if side == *from && len == *buffer && pull == *came)
        }
        Call::Offered(to, bytes, became) => {
            matches!(want, Asks::Put(side, front, put)
                if side == *to && front == bytes.as_slice() && put == *became)
        }
    }
}

/// A relay: the scripts of the bot and the server, the number of timer queries before the timer expires, the most
/// turns, the end, and all calls.
#[derive(Clone, Copy)]
struct Relay {
    bot: Script<'static>,
    server: Script<'static>,
    quiet: u64,
    turns: u64,
    end: RelayEnd,
    asks: &'static [Asks],
}

/// Returns whether the calls are the expected ones.
fn are_wanted(calls: &[Call], asks: &[Asks]) -> bool {
    let mut rest = calls.iter();
    for want in asks {
        match rest.next() {
            Some(call) if is_wanted(call, *want) => {}
            _ => return false,
        }
    }
    rest.next().is_none()
}

/// Relays a new session over these ports, and returns the end of the relay.
fn end_of(alloc: Global, ports: &mut MemoryPorts<'_>, turns: u64) -> Result<RelayEnd, Fail> {
    let mut session = Session::new(alloc, WIDEST)?;
    Ok(relay(&mut session, ports, turns))
}

/// Checks the end and the calls of a relay of a new session.
fn assert_relay(alloc: Global, row: &Relay) -> Result<(), Fail> {
    let mut ports = MemoryPorts::new(alloc, row.bot, row.server, row.quiet);
    assert_calls(alloc, &mut ports, row)
}

/// The same with a stop at the query of the clock after this many more.
fn assert_stopped(alloc: Global, row: &Relay, queries: u64) -> Result<(), Fail> {
    let mut ports = MemoryPorts::new(alloc, row.bot, row.server, row.quiet);
    ports.stop_after(queries);
    assert_calls(alloc, &mut ports, row)
}

/// Checks the end and the calls of a relay of a new session over these ports.
fn assert_calls(alloc: Global, ports: &mut MemoryPorts<'_>, row: &Relay) -> Result<(), Fail> {
    let end = end_of(alloc, ports, row.turns)?;
    same(&end, &row.end, &"the end")?;
    holds(
        are_wanted(ports.calls().unwrap_or(&[]), row.asks),
        "the calls",
    )
}

const NO_TURNS: Relay = Relay {
    bot: QUIET,
    server: QUIET,
    quiet: NEVER,
    turns: 0,
    end: RelayEnd::TurnsSpent,
    asks: &[],
};

#[test]
fn no_turns_ask_nothing(rt: HostRuntime) -> Result<(), Fail> {
    assert_relay(rt.alloc(), &NO_TURNS)
}

/// A side that ends at once.
const ENDS: Script<'static> = Script {
    pulls: &[ScriptedRead::End],
    puts: &[],
};

const ENDS_AT_ONCE: Relay = Relay {
    bot: ENDS,
    server: QUIET,
    quiet: NEVER,
    turns: 1,
    end: RelayEnd::Closed,
    asks: &[Asks::Clock(NoEvent), Asks::Pull(Bot, 4, Pull::Ended)],
};

#[test]
fn bot_that_ends_at_once_is_closed_after_one_turn(rt: HostRuntime) -> Result<(), Fail> {
    assert_relay(rt.alloc(), &ENDS_AT_ONCE)
}

/// The timer expires in the third turn, which sends the whole EM.
const LATE: Relay = Relay {
    bot: QUIET,
    server: QUIET,
    quiet: 2,
    turns: 9,
    end: RelayEnd::Closed,
    asks: &[
        Asks::Clock(NoEvent),
        Asks::Pull(Bot, 4, Pull::Idle),
        Asks::Pull(Server, 4, Pull::Idle),
        Asks::Clock(NoEvent),
        Asks::Pull(Bot, 4, Pull::Idle),
        Asks::Pull(Server, 4, Pull::Idle),
        Asks::Clock(ImTimeIsOver),
        Asks::Put(Bot, &[4, 0, 0, 2, 0, 1], Put::Took(6)),
    ],
};

#[test]
fn late_initial_message_is_told_to_the_bot_alone(rt: HostRuntime) -> Result<(), Fail> {
    assert_relay(rt.alloc(), &LATE)
}

/// The operator stops the session before its second turn, which sends the bot alone a whole FM.
const STOPPED: Relay = Relay {
    bot: QUIET,
    server: QUIET,
    quiet: NEVER,
    turns: 9,
    end: RelayEnd::Closed,
    asks: &[
        Asks::Clock(NoEvent),
        Asks::Pull(Bot, 4, Pull::Idle),
        Asks::Pull(Server, 4, Pull::Idle),
        Asks::Clock(StopIsRequested),
        Asks::Put(Bot, &[3, 0, 0, 0], Put::Took(4)),
    ],
};

#[test]
fn stop_sends_the_bot_alone_a_final_message(rt: HostRuntime) -> Result<(), Fail> {
    assert_stopped(rt.alloc(), &STOPPED, 1)
}

/// A bot whose first put fails.
const FAILS: Script<'static> = Script {
    pulls: &[ScriptedRead::Bytes(&[0, 0, 0, 4, 0, 1, 0xDA, 0x10])],
    puts: &[Acceptance::Fails],
};

/// A server that sends its RM.
pub const OPENS: Script<'static> = Script {
    pulls: &[
        ScriptedRead::Idle,
        ScriptedRead::Idle,
        ScriptedRead::Idle,
        ScriptedRead::Idle,
        ScriptedRead::Bytes(&[1, 0, 0, 0]),
    ],
    puts: &[],
};

/// A relayed frame is put in its parts. The bot is not read while its IM is queued. The FM after a failed put is sent
/// whole, in the turn that queued it.
const WHOLE_FRONTS: Relay = Relay {
    bot: FAILS,
    server: OPENS,
    quiet: NEVER,
    turns: 9,
    end: RelayEnd::Closed,
    asks: &[
        Asks::Clock(NoEvent),
        Asks::Pull(Bot, 4, Pull::Got(4)),
        Asks::Pull(Server, 4, Pull::Idle),
        Asks::Clock(NoEvent),
        Asks::Pull(Bot, 4, Pull::Got(4)),
        Asks::Pull(Server, 4, Pull::Idle),
        Asks::Clock(NoEvent),
        Asks::Put(Server, &[0, 0, 0, 4], Put::Took(4)),
        Asks::Pull(Server, 4, Pull::Idle),
        Asks::Clock(NoEvent),
        Asks::Put(Server, &[0, 1, 0xDA, 0x10], Put::Took(4)),
        Asks::Pull(Bot, 4, Pull::Idle),
        Asks::Pull(Server, 4, Pull::Idle),
        Asks::Clock(NoEvent),
        Asks::Pull(Bot, 4, Pull::Idle),
        Asks::Pull(Server, 4, Pull::Got(4)),
        Asks::Clock(NoEvent),
        Asks::Put(Bot, &[1, 0, 0, 0], Put::Failed),
        Asks::Put(Server, &[3, 0, 0, 0], Put::Took(4)),
    ],
};

#[test]
fn each_put_is_of_the_whole_front(rt: HostRuntime) -> Result<(), Fail> {
    assert_relay(rt.alloc(), &WHOLE_FRONTS)
}

/// A bot that sends a body of 600 bytes at once.
const SENDS_600: Script<'static> = Script {
    pulls: &[
        ScriptedRead::Bytes(&[0, 0, 0, 4, 0, 1, 0xDA, 0x10]),
        ScriptedRead::Idle,
        ScriptedRead::Idle,
        ScriptedRead::Bytes(&[2, 0, 0x02, 0x58]),
        ScriptedRead::Bytes(&[0x4B; 600]),
    ],
    puts: &[],
};

/// The body is pulled into the 512 bytes of the turn's buffer, and its rest into as many bytes as it has.
const LONG_PULLS: Relay = Relay {
    bot: SENDS_600,
    server: OPENS,
    quiet: NEVER,
    turns: 8,
    end: RelayEnd::TurnsSpent,
    asks: &[
        Asks::Clock(NoEvent),
        Asks::Pull(Bot, 4, Pull::Got(4)),
        Asks::Pull(Server, 4, Pull::Idle),
        Asks::Clock(NoEvent),
        Asks::Pull(Bot, 4, Pull::Got(4)),
        Asks::Pull(Server, 4, Pull::Idle),
        Asks::Clock(NoEvent),
        Asks::Put(Server, &[0, 0, 0, 4], Put::Took(4)),
        Asks::Pull(Server, 4, Pull::Idle),
        Asks::Clock(NoEvent),
        Asks::Put(Server, &[0, 1, 0xDA, 0x10], Put::Took(4)),
        Asks::Pull(Bot, 4, Pull::Idle),
        Asks::Pull(Server, 4, Pull::Idle),
        Asks::Clock(NoEvent),
        Asks::Pull(Bot, 4, Pull::Idle),
        Asks::Pull(Server, 4, Pull::Got(4)),
        Asks::Clock(NoEvent),
        Asks::Put(Bot, &[1, 0, 0, 0], Put::Took(4)),
        Asks::Pull(Bot, 4, Pull::Got(4)),
        Asks::Pull(Server, 4, Pull::Idle),
        Asks::Clock(NoEvent),
        Asks::Pull(Bot, 512, Pull::Got(512)),
        Asks::Pull(Server, 4, Pull::Idle),
        Asks::Clock(NoEvent),
        Asks::Pull(Bot, 88, Pull::Got(88)),
        Asks::Pull(Server, 4, Pull::Idle),
    ],
};

#[test]
fn long_body_is_pulled_512_bytes_at_once(rt: HostRuntime) -> Result<(), Fail> {
    assert_relay(rt.alloc(), &LONG_PULLS)
}

/// A bot that accepts nothing of the first put of a HUH, and then three bytes a put.
const SLOW_BOT: Script<'static> = Script {
    pulls: &[
        ScriptedRead::Bytes(&[0, 0, 0, 4, 0, 1, 0xDA, 0x10]),
        ScriptedRead::Idle,
        ScriptedRead::Idle,
        ScriptedRead::Idle,
        ScriptedRead::Idle,
        ScriptedRead::Idle,
        ScriptedRead::Idle,
        ScriptedRead::Idle,
        ScriptedRead::Idle,
        ScriptedRead::Bytes(&[2, 0, 0, 0]),
    ],
    puts: &[
        Acceptance::Takes(4),
        Acceptance::Takes(0),
        Acceptance::Takes(3),
        Acceptance::Takes(3),
        Acceptance::Takes(3),
        Acceptance::Takes(3),
        Acceptance::Takes(3),
        Acceptance::Takes(3),
        Acceptance::Takes(3),
        Acceptance::Takes(3),
        Acceptance::Takes(3),
        Acceptance::Takes(3),
        Acceptance::Takes(3),
        Acceptance::Takes(3),
    ],
};

/// Its server, whose message is received in two pieces, the second after that first put.
const SERVER_OF_A_SLOW_BOT: Script<'static> = Script {
    pulls: &[
        ScriptedRead::Idle,
        ScriptedRead::Idle,
        ScriptedRead::Idle,
        ScriptedRead::Idle,
        ScriptedRead::Idle,
        ScriptedRead::Idle,
        ScriptedRead::Bytes(&[1, 0, 0, 0]),
        ScriptedRead::Idle,
        ScriptedRead::Idle,
        ScriptedRead::Idle,
        ScriptedRead::Idle,
        ScriptedRead::Bytes(&[
            2, 0, 0, 0x0A, 0x48, 0x0E, 0x40, 0, 0x47, 0, 0x07, 0x6D, 0x40, 0x01,
        ]),
    ],
    puts: &[],
};

/// Returns whether the bot was read again only after the sixteen bytes of the RM and its HUH were accepted. The server
/// must be read again only after the thirty bytes of these and its message were. All eighteen bytes of the server must
/// be received.
fn is_read_in_time(calls: &[Call]) -> bool {
    let mut to_bot = 0_usize;
    let mut of_bot = 0_usize;
    let mut of_server = 0_usize;
    let mut in_time = true;
    for call in calls {
        match call {
            Call::Offered(Bot, _, Put::Took(count)) => to_bot = to_bot.saturating_add(*count),
            Call::Pulled(Bot, _, _, bytes) => {
                in_time = in_time && (of_bot < 12 || to_bot >= 16);
                of_bot = of_bot.saturating_add(bytes.len());
            }
            Call::Pulled(Server, _, _, bytes) => {
                in_time = in_time && (of_server < 18 || to_bot >= 30);
                of_server = of_server.saturating_add(bytes.len());
            }
            _ => {}
        }
    }
    in_time && of_server == 18
}

/// Checks that the bot was sent the RM, the HUH and NOW, and the server the IM. No side may be read while its answer is
/// queued.
fn assert_slow_calls(alloc: Global, calls: Option<&[Call]>) -> Result<(), Fail> {
    holds(is_read_in_time(calls.unwrap_or(&[])), "read in time")?;
    assert_sent(alloc, calls, Server, "00 00 00 04 00 01 DA 10")?;
    let want =
        "01 00 00 00  02 00 00 08 48 06 40 00 49 02 40 01  02 00 00 0A 48 0E 40 00 47 00 07 6D 40 01";
    assert_sent(alloc, calls, Bot, want)
}

/// The bot accepts nothing of the first put of a HUH, and then three bytes a put. Meanwhile a message of the server is
/// received in two pieces, the second after that first put. Frames are sent whole, one after the other, and no side is
/// read while its answer is queued.
#[test]
fn slow_wire_keeps_frames_whole_in_turns(rt: HostRuntime) -> Result<(), Fail> {
    let mut ports = MemoryPorts::new(rt.alloc(), SLOW_BOT, SERVER_OF_A_SLOW_BOT, NEVER);
    let end = end_of(rt.alloc(), &mut ports, 60)?;
    same(&end, &RelayEnd::TurnsSpent, &"the end")?;
    assert_slow_calls(rt.alloc(), ports.calls())
}

/// Ports that collect the bytes accepted by the bot, over ports in memory whose record may be refused.
#[derive(Drop)]
struct Watching<'a, A: Allocator + Copy> {
    ports: MemoryPorts<'a, A>,
    to_bot: Vec<u8>,
    refused: bool,
}

impl<'a, A: Allocator + Copy> Ports for Watching<'a, A> {
    ghost transition = { λ _ _ _. Unit {0} };

    fn pull(&mut self, side: Side, buffer: &mut [u8]) -> Pull {
        self.ports.pull(side, buffer)
    }

    fn put(&mut self, side: Side, bytes: &[u8]) -> Put {
        let put = self.ports.put(side, bytes);
        if let Put::Took(count) = put {
            if side == Bot && self.to_bot.extend_from_slice(&bytes[..count]).is_err() {
                self.refused = true;
            }
        }
        put
    }

    fn clock(&mut self, is_spent: bool) -> ClockEvent {
        self.ports.clock(is_spent)
    }
}

/// A bot that sends its IM, leaves a bracket open, and ends.
const OPEN_BRACKET: Script<'static> = Script {
    pulls: &[
        ScriptedRead::Bytes(&[0, 0, 0, 4, 0, 1, 0xDA, 0x10]),
        ScriptedRead::Idle,
        ScriptedRead::Idle,
        ScriptedRead::Idle,
        ScriptedRead::Idle,
        ScriptedRead::Idle,
        ScriptedRead::Idle,
        ScriptedRead::Bytes(&[2, 0]),
        ScriptedRead::Bytes(&[0]),
        ScriptedRead::Bytes(&[4, 0x48, 0x03, 0x40]),
        ScriptedRead::Bytes(&[0]),
        ScriptedRead::End,
    ],
    puts: &[],
};

/// The bytes sent to the bot, with or without a record: the RM and PRN ( GOF ( ).
const SENT_TO_THE_BOT: &[u8] = &[
    1, 0, 0, 0, 2, 0, 0, 0x0A, 0x48, 0x13, 0x40, 0, 0x48, 0x03, 0x40, 0, 0x40, 1,
];

/// Relays a new session over these ports to its end, and checks that the bot is sent all bytes.
fn relay_whole<A: Allocator + Copy>(
    alloc: Global,
    ports: &mut Watching<'_, A>,
) -> Result<(), Fail> {
    let mut session = Session::new(alloc, WIDEST)?;
    let end = relay(&mut session, ports, 60);
    holds(
        end == RelayEnd::Closed && session.phase() == Phase::Over,
        "the end",
    )?;
    holds(
        !ports.refused && ports.to_bot.as_slice() == SENT_TO_THE_BOT,
        "what is sent",
    )
}

/// Relays the conversation over ports whose record is on this heap, and returns whether the record was refused.
fn is_record_refused(alloc: Global, heap: &LocalHeap) -> Result<bool, Fail> {
    let mut ports = Watching {
        ports: MemoryPorts::new(heap, OPEN_BRACKET, OPENS, NEVER),
        to_bot: Vec::new(alloc),
        refused: false,
    };
    relay_whole(alloc, &mut ports)?;
    Ok(ports.ports.calls().is_none())
}

/// The same on a heap of this size.
fn is_record_refused_within(alloc: Global, bytes: usize) -> Result<bool, Fail> {
    let heap = LocalHeap::new(alloc, bytes)?;
    is_record_refused(alloc, &heap)
}

/// Over heaps of growing size, with or without a record, the same bytes are sent.
#[test]
fn refused_record_changes_nothing(rt: HostRuntime) -> Result<(), Fail> {
    let mut refusals = 0u32;
    for step in 0..60 {
        if is_record_refused_within(rt.alloc(), 1_024 * step)? {
            refusals = refusals.saturating_add(1);
        }
    }
    holds(refusals > 0 && refusals < 60, "how many were refused")
}
