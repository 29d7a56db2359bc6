//! A session whose connections break. At every point of a conversation a side's stream ends, or a write to it fails.
//!
//! One conversation has a relayed message, an HLO, a PRN and a HUH; the other has a name, an HLO and a press message.
//! Both are received in single bytes, with one byte a put. The bytes that each side may get are worked out from the
//! protocol: the frames of the whole conversation up to some point, and then a final message.

use crate::relays::{NEVER, sent};
use crate::script::WIDEST;
use daide_driver::relaying::{RelayEnd, relay};
use daide_frame::side::Side::{self, Bot, Server};
use daide_io::ports::{ClockEvent, Ports, Pull, Put};
use daide_session::session::Session;
use daide_test_support::memory_ports::{MemoryPorts, Script, ScriptedRead};
use daide_test_support::rows::holds;
use std::alloc::Global;
use std::test::Fail;

/// HLO ( ENG ) ( 1234 ) ( ( LVL 10 ) )
const HLO: &[u8] = &[
    2, 0, 0, 0x1A, 0x48, 0x04, 0x40, 0, 0x41, 0x01, 0x40, 0x01, 0x40, 0, 0x04, 0xD2, 0x40, 0x01,
    0x40, 0, 0x40, 0, 0x49, 0x03, 0, 0x0A, 0x40, 0x01, 0x40, 0x01,
];

/// The reads of both sides; the frames that each side gets if nothing breaks, and their length in bytes.
#[derive(Clone, Copy)]
pub struct Conversation {
    bot: Script<'static>,
    server: Script<'static>,
    to_bot: (&'static [&'static [u8]], usize),
    to_server: (&'static [&'static [u8]], usize),
}

/// The RM and an HLO, both received before the bot's next message.
const FROM_THE_SERVER: Script<'static> = Script {
    pulls: &[ScriptedRead::Bytes(&[1, 0, 0, 0]), ScriptedRead::Bytes(HLO)],
    puts: &[],
};

/// The IM; then OBS, which is relayed; `GOF (`, which gets PRN; and an empty message, which gets HUH. The bot gets the
/// RM, the HLO, PRN and HUH; the server gets the IM and OBS.
pub const ANSWERS: Conversation = Conversation {
    bot: Script {
        pulls: &[
            ScriptedRead::Bytes(&[0, 0, 0, 4, 0, 1, 0xDA, 0x10]),
            ScriptedRead::Bytes(&[2, 0, 0, 2, 0x48, 0x0F]),
            ScriptedRead::Bytes(&[2, 0, 0, 4, 0x48, 0x03, 0x40, 0x00]),
            ScriptedRead::Bytes(&[2, 0, 0, 0]),
        ],
        puts: &[],
    },
    server: FROM_THE_SERVER,
    to_bot: (
        &[
            &[1, 0, 0, 0],
            HLO,
            &[
                2, 0, 0, 0x0A, 0x48, 0x13, 0x40, 0, 0x48, 0x03, 0x40, 0, 0x40, 0x01,
            ],
            &[2, 0, 0, 8, 0x48, 0x06, 0x40, 0, 0x49, 0x02, 0x40, 0x01],
        ],
        60,
    ),
    to_server: (
        &[&[0, 0, 0, 4, 0, 1, 0xDA, 0x10], &[2, 0, 0, 2, 0x48, 0x0F]],
        14,
    ),
};

/// NME ( 'a' ) ( 'b' )
const NAME: &[u8] = &[
    2, 0, 0, 0x0E, 0x48, 0x0C, 0x40, 0, 0x4B, 0x61, 0x40, 0x01, 0x40, 0, 0x4B, 0x62, 0x40, 0x01,
];

/// SND ( FRA ) ( PRP ( PCE ( ENG FRA ) ) ), a message from level 10 on.
const PRESS: &[u8] = &[
    2, 0, 0, 0x1C, 0x48, 0x17, 0x40, 0, 0x41, 0x02, 0x40, 0x01, 0x40, 0, 0x4A, 0x13, 0x40, 0, 0x4A,
    0x10, 0x40, 0, 0x41, 0x01, 0x41, 0x02, 0x40, 0x01, 0x40, 0x01, 0x40, 0x01,
];

/// The IM; then a name and a press message, both relayed, since the HLO is received before the header of the press
/// message.
const PRESS_GOES_ON: Conversation = Conversation {
    bot: Script {
        pulls: &[
            ScriptedRead::Bytes(&[0, 0, 0, 4, 0, 1, 0xDA, 0x10]),
            ScriptedRead::Bytes(NAME),
            ScriptedRead::Bytes(PRESS),
        ],
        puts: &[],
    },
    server: FROM_THE_SERVER,
    to_bot: (&[&[1, 0, 0, 0], HLO], 34),
    to_server: (&[&[0, 0, 0, 4, 0, 1, 0xDA, 0x10], NAME, PRESS], 58),
};

/// A final message.
const FM: &[u8] = &[3, 0, 0, 0];

/// The call at which a conversation breaks: the put to a side, or the pull from it, with this number, counted from 1.
#[derive(Clone, Copy)]
pub struct Break {
    pub is_put: bool,
    pub side: Side,
    pub number: usize,
}

impl Break {
    /// Returns whether the conversation breaks at this call.
    fn is_at(self, is_put: bool, side: Side, number: usize) -> bool {
        self.is_put == is_put && self.side == side && self.number == number
    }
}

/// Ports that return and accept one byte a call, and break once. The bot is idle after its IM until the RM was
/// received, and the server until the IM was.
#[derive(Drop)]
pub struct Breaking {
    pub ports: MemoryPorts<'static>,
    conversation: Conversation,
    at: Break,
    bot_pulls: usize,
    server_pulls: usize,
    bot_puts: usize,
    server_puts: usize,
}

/// Creates the ports of a conversation that breaks at a call.
pub fn breaking_at(alloc: Global, conversation: Conversation, at: Break) -> Breaking {
    Breaking {
        ports: MemoryPorts::new(alloc, conversation.bot, conversation.server, NEVER),
        conversation,
        at,
        bot_pulls: 0,
        server_pulls: 0,
        bot_puts: 0,
        server_puts: 0,
    }
}

/// Increments a count, and returns it.
fn count(number: &mut usize) -> usize {
    *number = number.saturating_add(1);
    *number
}

impl Breaking {
    /// Returns the numbers of calls: pulls from the bot and the server, puts to the bot and the server.
    pub fn counts(&self) -> [usize; 4] {
        [
            self.bot_pulls,
            self.server_pulls,
            self.bot_puts,
            self.server_puts,
        ]
    }

    /// Returns the number of the next pull, and whether the side has nothing to send yet.
    fn next_pull(&mut self, side: Side) -> (usize, bool) {
        match side {
            Bot => {
                let number = count(&mut self.bot_pulls);
                (number, number > 8 && number <= 40)
            }
            Server => {
                let number = count(&mut self.server_pulls);
                (number, number <= 20)
            }
        }
    }

    /// Returns the number of the next put.
    fn next_put(&mut self, side: Side) -> usize {
        match side {
            Bot => count(&mut self.bot_puts),
            Server => count(&mut self.server_puts),
        }
    }
}

impl Ports for Breaking {
    ghost transition = { λ _ _ _. Unit {0} };

    fn pull(&mut self, side: Side, buffer: &mut [u8]) -> Pull {
        let (number, waits) = self.next_pull(side);
        if self.at.is_at(false, side, number) {
            return Pull::Ended;
        }
        if waits || buffer.is_empty() {
            return Pull::Idle;
        }
        self.ports.pull(side, &mut buffer[..1])
    }

    fn put(&mut self, side: Side, bytes: &[u8]) -> Put {
        let number = self.next_put(side);
        if self.at.is_at(true, side, number) {
            return Put::Failed;
        }
        if bytes.is_empty() {
            return Put::Took(0);
        }
        self.ports.put(side, &bytes[..1])
    }

    fn clock(&mut self, is_spent: bool) -> ClockEvent {
        if is_spent {
            ClockEvent::StopIsRequested
        } else {
            ClockEvent::NoEvent
        }
    }
}

/// Returns whether the bytes are a prefix of the frames, optionally followed by a final message. If a put failed, the
/// last frame may be incomplete.
fn are_sent(bytes: &[u8], frames: &[&[u8]], failed: bool) -> bool {
    let mut rest = bytes;
    for frame in frames {
        match rest.strip_prefix(*frame) {
            Some(after) => rest = after,
            None => {
                return rest.is_empty()
                    || rest == FM
                    || (failed && (frame.starts_with(rest) || FM.starts_with(rest)));
            }
        }
    }
    rest.is_empty() || rest == FM || (failed && FM.starts_with(rest))
}

/// Checks that a side got whole frames of its own, and all of them if nothing broke.
fn assert_sent_well(alloc: Global, ports: &Breaking, side: Side, is_all: bool) -> Result<(), Fail> {
    let bytes = sent(alloc, ports.ports.calls().unwrap_or(&[]), side)?;
    let failed = ports.at.is_put && ports.at.side == side;
    let (frames, count) = match side {
        Bot => ports.conversation.to_bot,
        Server => ports.conversation.to_server,
    };
    holds(are_sent(bytes.as_slice(), frames, failed), "whole frames")?;
    holds(!is_all || bytes.len() == count, "all was sent")
}

/// The most turns of a relay.
pub const TURNS: u64 = 400;

/// Relays a new session over ports that break, and returns the end of the relay.
pub fn end_of(alloc: Global, ports: &mut Breaking) -> Result<RelayEnd, Fail> {
    let mut session = Session::new(alloc, WIDEST)?;
    Ok(relay(&mut session, ports, TURNS))
}

/// Relays a conversation that breaks at a call, checks the bytes of each side, and returns whether the session was
/// closed.
fn is_closed_well(alloc: Global, conversation: Conversation, at: Break) -> Result<bool, Fail> {
    let mut ports = breaking_at(alloc, conversation, at);
    let is_closed = end_of(alloc, &mut ports)? == RelayEnd::Closed;
    assert_sent_well(alloc, &ports, Bot, !is_closed)?;
    assert_sent_well(alloc, &ports, Server, !is_closed)?;
    Ok(is_closed)
}

/// The kinds of breaks: whether a put or a pull, and the side.
pub const KINDS: &[(bool, Side)] = &[(false, Bot), (false, Server), (true, Bot), (true, Server)];

/// Returns how many conversations that break at calls of this number are closed.
fn closed_at(alloc: Global, conversation: Conversation, number: usize) -> Result<usize, Fail> {
    let mut closed = 0_usize;
    for (is_put, side) in KINDS {
        let at = Break {
            is_put: *is_put,
            side: *side,
            number,
        };
        if is_closed_well(alloc, conversation, at)? {
            closed = closed.saturating_add(1);
        }
    }
    Ok(closed)
}

/// Checks that at least `least` conversations are closed, of those that break at each of the first calls.
fn assert_closed(
    alloc: Global,
    conversation: Conversation,
    calls: usize,
    least: usize,
) -> Result<(), Fail> {
    let mut closed = 0_usize;
    for number in 1..=calls {
        closed = closed.saturating_add(closed_at(alloc, conversation, number)?);
    }
    holds(closed >= least, "how many were closed")
}

#[test]
fn ends_and_failures_at_every_place(rt: HostRuntime) -> Result<(), Fail> {
    // 60 puts to the bot and 14 to the server; their pulls up to the last one that returns a byte, 32 of the bot's and
    // 20 of the server's being idle
    let least = 60 + 14 + (26 + 32) + (34 + 20);
    assert_closed(rt.alloc(), ANSWERS, 109, least)
}

#[test]
fn ends_and_failures_at_every_place_of_press(rt: HostRuntime) -> Result<(), Fail> {
    let least = 34 + 58 + (58 + 32) + (34 + 20);
    assert_closed(rt.alloc(), PRESS_GOES_ON, 109, least)
}
