//! Two sessions in a chain, like two gateways between a bot and a server, and the deepest messages through one session.

use crate::script::Act::{Says, Sees};
use crate::script::{
    IM, Look, RM, Scene, Script, WIDEST, assert_scenes, assert_scenes_within, bytes_of, script_of,
};
use daide_frame::side::Side::{self, Bot, Server};
use daide_protocol::config::Config;
use daide_session::session::Session;
use std::alloc::Global;
use std::test::Fail;

/// Moves the bytes queued for a side of one session to a side of the other, as many as it has room for.
fn hand_on(from: &mut Session, to_side: Side, to: &mut Session, from_side: Side) {
    for _piece in 0..64 {
        let front = from.front(to_side);
        let count = front.len().min(to.room(from_side));
        to.feed(from_side, &front[..count]);
        from.wrote(to_side, count);
    }
}

/// A bot, the gateway near it, the gateway far from it, and a server.
#[derive(Drop)]
struct Chain {
    near: Script,
    far: Script,
}

/// An end, the bytes that it sends, and the bytes that the bot and the server then get.
type Line = (Side, &'static str, &'static str, &'static str);

/// Returns the widest limits with this depth limit.
fn config_of(max_depth: u16) -> Config {
    Config {
        max_depth,
        ..WIDEST
    }
}

/// Creates two sessions with these depth limits.
fn chain_of(alloc: Global, near_depth: u16, far_depth: u16) -> Result<Chain, Fail> {
    let near = script_of(alloc, config_of(near_depth))?;
    let far = script_of(alloc, config_of(far_depth))?;
    Ok(Chain { near, far })
}

/// Feeds a side's byte, if there is room for it.
fn hear_byte(session: &mut Session, side: Side, byte: u8) {
    if session.room(side) > 0 {
        session.feed(side, &[byte]);
    }
}

impl Chain {
    /// Moves the bytes between the two sessions until neither has any, and takes the bytes queued at both ends.
    fn settle(&mut self) -> Result<(), Fail> {
        for _round in 0..4 {
            hand_on(&mut self.near.session, Server, &mut self.far.session, Bot);
            hand_on(&mut self.far.session, Bot, &mut self.near.session, Server);
            self.near.take_all(Bot)?;
            self.far.take_all(Server)?;
        }
        Ok(())
    }

    /// Feeds the bytes of one end, one by one.
    fn say(&mut self, side: Side, bytes: &[u8]) -> Result<(), Fail> {
        for byte in bytes {
            match side {
                Bot => hear_byte(&mut self.near.session, Bot, *byte),
                Server => hear_byte(&mut self.far.session, Server, *byte),
            }
            self.settle()?;
        }
        Ok(())
    }

    /// Checks that exactly these bytes reach the two ends after one end sent its bytes.
    fn assert_line(&mut self, alloc: Global, line: &Line) -> Result<(), Fail> {
        let (side, text, to_bot, to_server) = line;
        let bytes = bytes_of(alloc, text)?;
        self.say(*side, bytes.as_slice())?;
        self.near.assert_sent(alloc, Bot, to_bot)?;
        self.far.assert_sent(alloc, Server, to_server)
    }

    /// Checks lines, in order.
    fn assert_lines(&mut self, alloc: Global, lines: &[Line]) -> Result<(), Fail> {
        for line in lines {
            self.assert_line(alloc, line)?;
        }
        Ok(())
    }

    /// Checks the IM and the RM, and then these lines.
    fn assert_opened(&mut self, alloc: Global, lines: &[Line]) -> Result<(), Fail> {
        self.assert_lines(alloc, OPENING_LINES)?;
        self.assert_lines(alloc, lines)
    }
}

/// The IM and the RM, each forwarded to the other end.
const OPENING_LINES: &[Line] = &[(Bot, IM, "", IM), (Server, RM, RM, "")];

/// Checks these lines, after the IM and the RM, in a new chain with these depth limits.
fn assert_chain(
    alloc: Global,
    near_depth: u16,
    far_depth: u16,
    lines: &[Line],
) -> Result<(), Fail> {
    let mut chain = chain_of(alloc, near_depth, far_depth)?;
    chain.assert_opened(alloc, lines)
}

const OBS: &str = "02 00 00 02  48 0F";

const OFF: &str = "02 00 00 02  48 10";

const PASSED_ON: &[Line] = &[(Bot, OBS, "", OBS), (Server, OFF, OFF, "")];

#[test]
fn messages_pass_both_gateways(rt: HostRuntime) -> Result<(), Fail> {
    assert_chain(rt.alloc(), 62, 62, PASSED_ON)
}

/// `GOF (` of the bot, and OBS of the server.
const ANSWERED_AT_ONCE: &[Line] = &[
    (
        Bot,
        "02 00 00 04  48 03 40 00",
        "02 00 00 0A  48 13 40 00 48 03 40 00 40 01",
        "",
    ),
    (
        Server,
        OBS,
        "",
        "02 00 00 0A  48 06 40 00 49 02 48 0F 40 01",
    ),
];

#[test]
fn gateway_next_to_the_sender_answers_alone(rt: HostRuntime) -> Result<(), Fail> {
    assert_chain(rt.alloc(), 62, 62, ANSWERED_AT_ONCE)
}

// HUH with five brackets, and the answer of a gateway with a depth limit of four
const FIVE: &str = "02 00 00 16  48 06 40 00 40 00 40 00 40 00 40 00 40 01 40 01 40 01 40 01 40 01";

const ANSWER_TO_FIVE: &str = "02 00 00 1E  48 06 40 00 48 06 40 00 40 00 40 00 40 00 49 02 40 00 \
    40 01 40 01 40 01 40 01 40 01 40 01";

const OF_THE_BOT: &[Line] = &[(Bot, FIVE, ANSWER_TO_FIVE, ""), (Bot, OBS, "", OBS)];

const OF_THE_SERVER: &[Line] = &[(Server, FIVE, "", ANSWER_TO_FIVE), (Server, OFF, OFF, "")];

#[test]
fn huh_of_the_far_gateway_is_relayed_and_not_answered(rt: HostRuntime) -> Result<(), Fail> {
    assert_chain(rt.alloc(), 62, 4, OF_THE_BOT)?;
    assert_chain(rt.alloc(), 4, 62, OF_THE_SERVER)
}

/// The answers of a gateway to its bot's `GOF (` and `PRN (`, and to its server's `OFF (`.
const PRN_OF_GOF: &str = "02 00 00 0A 48 13 40 00 48 03 40 00 40 01";

const PRN_OF_PRN: &str = "02 00 00 0C 48 13 40 00 48 13 40 00 40 00 40 01";

const PRN_OF_OFF: &str = "02 00 00 0A 48 13 40 00 48 10 40 00 40 01";

/// Each answer is then fed to a second gateway, as its server's message.
const PRNS_OF_A_GATEWAY: &[Scene] = &[
    (&[Says(Bot, "02 00 00 04  48 03 40 00")], PRN_OF_GOF, ""),
    (&[Says(Server, PRN_OF_GOF)], PRN_OF_GOF, ""),
    (
        &[Says(Bot, "02 00 00 06  48 13 40 00 40 00")],
        PRN_OF_PRN,
        "",
    ),
    (&[Says(Server, PRN_OF_PRN)], PRN_OF_PRN, ""),
];

#[test]
fn prn_of_one_gateway_is_relayed_by_the_next_and_not_answered(rt: HostRuntime) -> Result<(), Fail> {
    assert_scenes(rt.alloc(), true, PRNS_OF_A_GATEWAY)
}

/// The same for the server: the answer of one gateway to its server is fed to a second one as its bot's message.
const PRNS_TO_A_SERVER: &[Scene] = &[
    (&[Says(Server, "02 00 00 04  48 10 40 00")], "", PRN_OF_OFF),
    (&[Says(Bot, PRN_OF_OFF)], "", PRN_OF_OFF),
];

#[test]
fn prn_to_a_server_is_relayed_by_the_next_and_not_answered(rt: HostRuntime) -> Result<(), Fail> {
    assert_scenes(rt.alloc(), true, PRNS_TO_A_SERVER)
}

/// A message with as many brackets as allowed is relayed from either side, and one more bracket gets HUH, with ERR
/// before it. 62 brackets are 125 tokens. One more bracket adds two tokens, and its answer four more.
const AT_62: &[Scene] = &[(
    &[
        Says(Bot, "02 00 00 FA  48 06  62*4000  62*4001"),
        Sees(Look::Sent(Bot, "")),
        Sees(Look::Sent(Server, "02 00 00 FA  48 06  62*4000  62*4001")),
        Says(Bot, "02 00 00 FE  48 06  63*4000  63*4001"),
        Sees(Look::Sent(
            Bot,
            "02 00 01 06  48 06 40 00  48 06  62*4000  49 02 40 00  64*4001",
        )),
        Sees(Look::Sent(Server, "")),
        Says(Server, "02 00 00 FA  48 06  62*4000  62*4001"),
        Sees(Look::Sent(Server, "")),
        Sees(Look::Sent(Bot, "02 00 00 FA  48 06  62*4000  62*4001")),
        Says(Server, "02 00 00 FE  48 06  63*4000  63*4001"),
    ],
    "",
    "02 00 01 06  48 06 40 00  48 06  62*4000  49 02 40 00  64*4001",
)];

/// The same with 254 brackets, which are 509 tokens.
const AT_254: &[Scene] = &[(
    &[
        Says(Bot, "02 00 03 FA  48 06  254*4000  254*4001"),
        Sees(Look::Sent(Bot, "")),
        Sees(Look::Sent(Server, "02 00 03 FA  48 06  254*4000  254*4001")),
        Says(Bot, "02 00 03 FE  48 06  255*4000  255*4001"),
        Sees(Look::Sent(
            Bot,
            "02 00 04 06  48 06 40 00  48 06  254*4000  49 02 40 00  256*4001",
        )),
        Sees(Look::Sent(Server, "")),
        Says(Server, "02 00 03 FA  48 06  254*4000  254*4001"),
        Sees(Look::Sent(Server, "")),
        Sees(Look::Sent(Bot, "02 00 03 FA  48 06  254*4000  254*4001")),
        Says(Server, "02 00 03 FE  48 06  255*4000  255*4001"),
    ],
    "",
    "02 00 04 06  48 06 40 00  48 06  254*4000  49 02 40 00  256*4001",
)];

#[test]
fn brackets_go_on_to_the_depth_and_one_more_gets_huh(rt: HostRuntime) -> Result<(), Fail> {
    assert_scenes_within(rt.alloc(), config_of(62), true, AT_62)?;
    assert_scenes_within(rt.alloc(), config_of(254), true, AT_254)
}
