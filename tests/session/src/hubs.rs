//! Many sessions in one hub: their indices, refusals, and their independence.

use crate::relays::{NEVER, OPENS, QUIET, assert_sent};
use crate::script::{WIDEST, bytes_of};
use daide_driver::hub::{AddFault, Hub, HubError};
use daide_frame::side::Side::{self, Bot, Server};
use daide_io::ports::{ClockEvent, Ports, Pull, Put};
use daide_protocol::config::{Config, ConfigError};
use daide_test_support::memory_ports::{Acceptance, MemoryPorts, Script, ScriptedRead};
use daide_test_support::rows::{holds, same};
use daide_test_support::words::two_words;
use linked_list_allocator::LocalHeap;
use std::alloc::Global;
use std::test::Fail;

/// The level limit | the size of a hub | the fault, if there is one.
const SIZES: &[(u16, usize, Option<HubError>)] = &[
    (65, 0, Some(HubError::Config(ConfigError::Level))),
    (60, 0, Some(HubError::Sessions)),
    (60, 257, Some(HubError::Sessions)),
    (60, 1, None),
    (60, 256, None),
];

#[test]
fn hub_refusals_in_order(rt: HostRuntime) -> Result<(), Fail> {
    for (top_level, max, want) in SIZES {
        let config = Config {
            top_level: *top_level,
            ..WIDEST
        };
        let fault = Hub::<MemoryPorts<'_>>::new(rt.alloc(), config, *max).err();
        same(&fault, want, max)?;
    }
    Ok(())
}

/// A server that ends the session.
const FINISHES: Script<'static> = Script {
    pulls: &[ScriptedRead::Bytes(&[3, 0, 0, 0])],
    puts: &[],
};

/// A bot that sends its IM.
const BEGINS: Script<'static> = Script {
    pulls: &[
        ScriptedRead::Idle,
        ScriptedRead::Bytes(&[0, 0, 0, 4, 0, 1, 0xDA, 0x10]),
    ],
    puts: &[],
};

/// A bot that accepts three bytes of an FM, and the last one later.
const KEEPS_A_BYTE: Script<'static> = Script {
    pulls: &[],
    puts: &[Acceptance::Takes(3), Acceptance::Takes(0)],
};

/// A bot that sends GOF and an open bracket in single bytes, and then ends.
const BY_BYTES: Script<'static> = Script {
    pulls: &[
        ScriptedRead::Bytes(&[0, 0, 0, 4, 0, 1, 0xDA, 0x10]),
        ScriptedRead::Idle,
        ScriptedRead::Idle,
        ScriptedRead::Idle,
        ScriptedRead::Idle,
        ScriptedRead::Idle,
        ScriptedRead::Idle,
        ScriptedRead::Bytes(&[2]),
        ScriptedRead::Bytes(&[0]),
        ScriptedRead::Bytes(&[0]),
        ScriptedRead::Bytes(&[4]),
        ScriptedRead::Bytes(&[0x48]),
        ScriptedRead::Bytes(&[0x03]),
        ScriptedRead::Bytes(&[0x40]),
        ScriptedRead::Bytes(&[0]),
        ScriptedRead::End,
    ],
    puts: &[],
};

/// A bot that sends the header of the longest body.
const BEGINS_THE_LONGEST: Script<'static> = Script {
    pulls: &[
        ScriptedRead::Bytes(&[0, 0, 0, 4, 0, 1, 0xDA, 0x10]),
        ScriptedRead::Idle,
        ScriptedRead::Idle,
        ScriptedRead::Idle,
        ScriptedRead::Idle,
        ScriptedRead::Idle,
        ScriptedRead::Idle,
        ScriptedRead::Bytes(&[2, 0, 0xFF, 0xF6]),
    ],
    puts: &[],
};

/// Ports in memory whose bot sends GOF repeatedly after some of its pulls, and then ends.
#[derive(Drop)]
struct Feeding {
    ports: MemoryPorts<'static>,
    gofs: Vec<u8>,
    /// The number of the bot's pulls before the GOFs, and the number of bytes of the GOFs.
    before: usize,
    left: usize,
}

impl Ports for Feeding {
    ghost transition = { λ _ _ _. Unit {0} };

    fn pull(&mut self, side: Side, buffer: &mut [u8]) -> Pull {
        if side == Server || self.before > 0 {
            if side == Bot {
                self.before = self.before.saturating_sub(1);
            }
            return self.ports.pull(side, buffer);
        }
        if self.left == 0 {
            return Pull::Ended;
        }
        let count = buffer.len().min(self.left).min(self.gofs.len());
        buffer[..count].copy_from_slice(&self.gofs[..count]);
        self.left = self.left.saturating_sub(count);
        Pull::Got(count)
    }

    fn put(&mut self, side: Side, bytes: &[u8]) -> Put {
        self.ports.put(side, bytes)
    }

    fn clock(&mut self, is_spent: bool) -> ClockEvent {
        self.ports.clock(is_spent)
    }
}

/// A session of a hub: the scripts of its bot and its server, and the number of timer queries before the timer expires.
/// `before` pulls of the bot follow its script; `gofs` bytes of GOF follow them.
#[derive(Clone, Copy)]
struct Seat {
    bot: Script<'static>,
    server: Script<'static>,
    quiet: u64,
    before: usize,
    gofs: usize,
}

/// A session without any input, the base of the others. A bot that is put in follows its script only.
const SEAT: Seat = Seat {
    bot: QUIET,
    server: QUIET,
    quiet: NEVER,
    before: 1_000,
    gofs: 0,
};

/// A session whose server ends it.
const FINISHING: Seat = Seat {
    server: FINISHES,
    ..SEAT
};

/// A session whose bot sends its IM.
const BEGINNING: Seat = Seat {
    bot: BEGINS,
    ..SEAT
};

/// A session whose timer expires at once.
const LATE: Seat = Seat { quiet: 0, ..SEAT };

/// A session whose server ends it while a byte is queued for the bot.
const KEEPING: Seat = Seat {
    bot: KEEPS_A_BYTE,
    server: FINISHES,
    ..SEAT
};

/// A session whose bot sends `GOF (` in single bytes, and ends.
const SPELLING: Seat = Seat {
    bot: BY_BYTES,
    server: OPENS,
    ..SEAT
};

/// A session whose bot sends the longest body, and ends.
const POURING: Seat = Seat {
    bot: BEGINS_THE_LONGEST,
    server: OPENS,
    before: 9,
    gofs: 65_526,
    ..SEAT
};

/// Creates the ports of a session.
fn ports_of(alloc: Global, seat: Seat) -> Result<Feeding, Fail> {
    Ok(Feeding {
        gofs: bytes_of(alloc, "256*4803")?,
        ports: MemoryPorts::new(alloc, seat.bot, seat.server, seat.quiet),
        before: seat.before,
        left: seat.gofs,
    })
}

/// A call of a hub, with its expected result.
#[derive(Clone, Copy)]
enum Act {
    /// A session is added, and gets this index.
    Adds(Seat, usize),
    /// A session is refused because the hub is full. Its ports, whose timer expires at once, are returned.
    IsFull(Seat),
    /// The session at this index makes this number of turns.
    Turns(usize, usize),
    /// The session at this index is taken out, and its bot and server were sent these bytes.
    Removes(usize, &'static str, &'static str),
    /// The session at this index is over or not, and stays, because it is not closed.
    Keeps(usize, bool),
    /// The bot and the server of the session at this index were sent these bytes.
    Sent(usize, &'static str, &'static str),
    /// This number of rounds is made, after which the weight of all sessions is at most the second number.
    Rounds(usize, usize),
    /// The hub has this number of sessions.
    Counts(usize),
}

/// Adds a session, and checks its index.
fn add(alloc: Global, hub: &mut Hub<Feeding>, seat: Seat, want: usize) -> Result<(), Fail> {
    match hub.add(ports_of(alloc, seat)?) {
        Ok(place) => same(&place, &want, &"its place"),
        Err(_) => Err(Fail::new("refused")),
    }
}

/// Checks that a full hub returns the same ports, whose timer expires at once.
fn add_to_full(alloc: Global, hub: &mut Hub<Feeding>, seat: Seat) -> Result<(), Fail> {
    match hub.add(ports_of(alloc, seat)?) {
        Ok(_) => Err(Fail::new("a full hub")),
        Err((fault, mut ports)) => {
            let is_same = ports.clock(false) == ClockEvent::ImTimeIsOver;
            holds(fault == AddFault::Full && is_same, "the very ports")
        }
    }
}

/// Makes a turn of the session at an index, if there is one, and returns whether there is.
fn make_turn(hub: &mut Hub<Feeding>, place: usize) -> bool {
    let is_there = place < hub.count();
    if is_there {
        hub.turn(place);
    }
    is_there
}

/// Makes turns of the session at a place.
fn make_turns(hub: &mut Hub<Feeding>, place: usize, turns: usize) -> Result<(), Fail> {
    for _turn in 0..turns {
        holds(make_turn(hub, place), "no such place")?;
    }
    Ok(())
}

/// Turns all sessions of a hub, round by round.
fn turn_all(hub: &mut Hub<Feeding>, rounds: usize) {
    for _round in 0..rounds {
        for place in 0..hub.count() {
            make_turn(hub, place);
        }
    }
}

/// Checks the bytes that were sent to the two sides.
fn assert_both_sent(
    alloc: Global,
    ports: &Feeding,
    to_bot: &str,
    to_server: &str,
) -> Result<(), Fail> {
    assert_sent(alloc, ports.ports.calls(), Bot, to_bot)?;
    assert_sent(alloc, ports.ports.calls(), Server, to_server)
}

/// Takes out the session at an index if it is closed, and returns its ports.
fn remove(hub: &mut Hub<Feeding>, place: usize) -> Option<Feeding> {
    if place < hub.count() {
        hub.remove_over(place).map(|removed| removed.ports)
    } else {
        None
    }
}

/// Takes out the session at an index. Fails if it is not closed.
fn take_out(hub: &mut Hub<Feeding>, place: usize) -> Result<Feeding, Fail> {
    match remove(hub, place) {
        Some(ports) => Ok(ports),
        None => Err(Fail::new("it isn't closed")),
    }
}

/// Takes out the session at an index, and checks the bytes that were sent to its two sides.
fn take_out_after(
    alloc: Global,
    hub: &mut Hub<Feeding>,
    place: usize,
    to_bot: &str,
    to_server: &str,
) -> Result<(), Fail> {
    let ports = take_out(hub, place)?;
    assert_both_sent(alloc, &ports, to_bot, to_server)
}

/// Returns whether there is a session at an index that is over, or not over, as given.
fn is_there(hub: &Hub<Feeding>, place: usize, is_over: bool) -> bool {
    place < hub.count() && hub.session(place).is_over() == is_over
}

/// Checks whether the session at an index is over, and that it is not taken out.
fn assert_kept(hub: &mut Hub<Feeding>, place: usize, is_over: bool) -> Result<(), Fail> {
    holds(is_there(hub, place, is_over), "it is over or not")?;
    holds(remove(hub, place).is_none(), "it stays")
}

/// Checks the bytes that the two sides of the session at an index were sent.
fn assert_sent_at(
    alloc: Global,
    hub: &Hub<Feeding>,
    place: usize,
    to_bot: &str,
    to_server: &str,
) -> Result<(), Fail> {
    if place < hub.count() {
        assert_both_sent(alloc, hub.ports(place), to_bot, to_server)
    } else {
        Err(Fail::new("no such place"))
    }
}

/// Makes rounds of turns, and checks the weight of all sessions.
fn make_rounds(hub: &mut Hub<Feeding>, rounds: usize, most: usize) -> Result<(), Fail> {
    turn_all(hub, rounds);
    holds(hub.weight() <= most, "weight")
}

/// Makes one call of a hub, and checks its result.
fn play(alloc: Global, hub: &mut Hub<Feeding>, act: Act) -> Result<(), Fail> {
    match act {
        Act::Adds(seat, place) => add(alloc, hub, seat, place),
        Act::IsFull(seat) => add_to_full(alloc, hub, seat),
        Act::Turns(place, turns) => make_turns(hub, place, turns),
        Act::Removes(place, to_bot, to_server) => {
            take_out_after(alloc, hub, place, to_bot, to_server)
        }
        Act::Keeps(place, is_over) => assert_kept(hub, place, is_over),
        Act::Sent(place, to_bot, to_server) => {
            assert_sent_at(alloc, hub, place, to_bot, to_server)
        }
        Act::Rounds(rounds, most) => make_rounds(hub, rounds, most),
        Act::Counts(count) => same(&hub.count(), &count, &"how many"),
    }
}

/// Makes calls in order.
fn play_all(alloc: Global, hub: &mut Hub<Feeding>, acts: &[Act]) -> Result<(), Fail> {
    for act in acts {
        play(alloc, hub, *act)?;
    }
    Ok(())
}

/// Returns a hub of at most `max` sessions after these calls, each with its expected result.
fn hub_after(alloc: Global, max: usize, acts: &[Act]) -> Result<Hub<Feeding>, Fail> {
    let mut hub = Hub::new(alloc, WIDEST, max)?;
    play_all(alloc, &mut hub, acts)?;
    Ok(hub)
}

/// A full hub returns the same ports. A session that is over returns its ports. The session after it moves down and
/// goes on: it forwards its bot's IM.
const MOVES_DOWN: &[Act] = &[
    Act::Adds(FINISHING, 0),
    Act::Adds(BEGINNING, 1),
    Act::IsFull(LATE),
    Act::Counts(2),
    Act::Turns(1, 1),
    Act::Turns(0, 3),
    Act::Removes(0, "03 00 00 00", ""),
    Act::Counts(1),
    Act::Sent(0, "", ""),
    Act::Turns(0, 5),
    Act::Keeps(0, false),
    Act::Sent(0, "", "00 00 00 04 00 01 DA 10"),
    Act::Counts(1),
];

#[test]
fn hub_places_move_down(rt: HostRuntime) -> Result<(), Fail> {
    drop(hub_after(rt.alloc(), 2, MOVES_DOWN)?);
    Ok(())
}

/// A session that is over is kept while a byte is queued.
const KEEPS_WHAT_WAITS: &[Act] = &[
    Act::Adds(KEEPING, 0),
    Act::Turns(0, 1),
    Act::Keeps(0, true),
    Act::Turns(0, 1),
    Act::Keeps(0, true),
    Act::Turns(0, 1),
    Act::Keeps(0, true),
    Act::Counts(1),
    Act::Turns(0, 1),
    Act::Removes(0, "03 00 00 00", ""),
    Act::Counts(0),
];

#[test]
fn session_with_a_byte_waiting_is_kept(rt: HostRuntime) -> Result<(), Fail> {
    drop(hub_after(rt.alloc(), 1, KEEPS_WHAT_WAITS)?);
    Ok(())
}

/// One session gets `GOF (` in single bytes, the other the longest body; then both bots end. The first bot gets the RM
/// and PRN ( GOF ( ).
const SIDE_BY_SIDE: &[Act] = &[
    Act::Adds(SPELLING, 0),
    Act::Adds(POURING, 1),
    Act::Rounds(400, 2 * (2 * 65_526 + 16 * 62 + 96)),
    Act::Removes(
        0,
        "01 00 00 00  02 00 00 0A 48 13 40 00 48 03 40 00 40 01",
        "00 00 00 04 00 01 DA 10  03 00 00 00",
    ),
    // the RM, and HUH ( GOF ERR GOF .. GOF )
    Act::Removes(
        0,
        "01 00 00 00  02 00 FF FE  48 06 40 00 48 03 49 02  32762*4803  40 01",
        "00 00 00 04 00 01 DA 10  03 00 00 00",
    ),
];

/// While one session reads the longest body, another gets a message in single bytes, and then both bots end. Each
/// session's ports were sent exactly the session's own answers.
#[test]
fn sessions_hear_nothing_of_each_other(rt: HostRuntime) -> Result<(), Fail> {
    drop(hub_after(rt.alloc(), 2, SIDE_BY_SIDE)?);
    Ok(())
}

/// Creates a hub of two sessions on a heap, with an operator's words or without.
fn hub_in<'a>(
    heap: &'a LocalHeap,
    has_words: bool,
) -> Result<Hub<MemoryPorts<'static>, &'a LocalHeap>, HubError> {
    let config = Config {
        max_body: 512,
        ..WIDEST
    };
    if has_words {
        let limits = config.limits().map_err(HubError::Config)?;
        return Hub::with_limits(heap, limits, 2, two_words()).map_err(|_| HubError::Memory);
    }
    Hub::new(heap, config, 2)
}

/// Which of these occurred: no hub, a hub without memory for a session, and a hub with a session.
#[derive(Clone, Copy)]
pub struct Growths {
    pub no_hub: bool,
    pub no_session: bool,
    pub whole: bool,
}

/// None of them.
pub const NO_GROWTHS: Growths = Growths {
    no_hub: false,
    no_session: false,
    whole: false,
};

impl Growths {
    /// Checks that each occurred.
    pub fn assert_all(self) -> Result<(), Fail> {
        holds(
            self.no_hub && self.no_session && self.whole,
            "each was seen",
        )
    }

    /// Adds a session to a hub. If memory is refused, checks that the hub is unchanged and the same ports are returned.
    fn add(
        &mut self,
        alloc: Global,
        hub: &mut Hub<MemoryPorts<'static>, &LocalHeap>,
    ) -> Result<(), Fail> {
        match hub.add(MemoryPorts::new(alloc, QUIET, QUIET, 0)) {
            Ok(place) => {
                self.whole = true;
                holds(place == 0 && hub.count() == 1, "added")
            }
            Err((fault, mut ports)) => {
                self.no_session = true;
                let is_same = ports.clock(false) == ClockEvent::ImTimeIsOver;
                holds(
                    fault == AddFault::Memory && hub.count() == 0 && is_same,
                    "refused",
                )
            }
        }
    }

    /// Creates a hub on a heap of this size, and adds a session to it.
    fn try_within(&mut self, alloc: Global, bytes: usize, has_words: bool) -> Result<(), Fail> {
        let heap = LocalHeap::new(alloc, bytes)?;
        match hub_in(&heap, has_words) {
            Ok(mut hub) => self.add(alloc, &mut hub),
            Err(fault) => {
                self.no_hub = true;
                same(&fault, &HubError::Memory, &bytes)
            }
        }
    }
}

/// Over heaps of growing size up to 32 KB: a refused allocation is the only fault, and the hub is then unchanged.
fn assert_growths(alloc: Global, has_words: bool) -> Result<(), Fail> {
    let mut seen = NO_GROWTHS;
    for step in 0..1000 {
        seen.try_within(alloc, 32 * step, has_words)?;
    }
    seen.assert_all()
}

#[test]
fn growths_of_a_hub_refused_in_turn(rt: HostRuntime) -> Result<(), Fail> {
    assert_growths(rt.alloc(), false)?;
    assert_growths(rt.alloc(), true)
}
