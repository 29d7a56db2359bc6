//! The worked examples of sessions, by their names in docs/EXAMPLES.md.

use crate::script::Act::{
    Ends, ImTimerExpired, Loses, OperatorStops, Says, Sees, Sends, Stops, Takes, Tells,
};
use crate::script::{
    Act, IM, Look, RM, Scene, WIDEST, assert_acts, assert_scenes, assert_scenes_within, bytes_of,
    script_of,
};
use daide_frame::code::Code;
use daide_frame::head::{Head, Kind};
use daide_frame::side::Side::{Bot, Server};
use daide_grammar::level::Level;
use daide_protocol::config::{Config, ConfigError};
use daide_session::session::{Deed, Note, Phase, Session, SessionError};
use daide_test_support::rows::{holds, same};
use std::alloc::Global;
use std::test::Fail;

/// An FM. An EM that is forwarded follows.
const FM: &str = "03 00 00 00";

const EM: &str = "04 00 00 02 00 FF";

/// The IM, and the FM after it.
const IM_AND_FM: &str = "00 00 00 04 00 01 DA 10  03 00 00 00";

const OPENS: &[Scene] = &[(
    &[
        Says(Bot, IM),
        Sees(Look::Phase(Phase::WaitRm)),
        Says(Server, RM),
        Sees(Look::Phase(Phase::Open)),
        Sees(Look::Level(Level::L0)),
    ],
    RM,
    IM,
)];

#[test]
fn opens_with_im_and_rm(rt: HostRuntime) -> Result<(), Fail> {
    assert_scenes(rt.alloc(), false, OPENS)
}

/// The level limit, body cap and depth limit | the fault.
const WRONG_LIMITS: &[(u16, u16, u16, ConfigError)] = &[
    (65, 511, 3, ConfigError::Level),
    (60, 511, 3, ConfigError::Body),
    (60, 510, 3, ConfigError::Body),
    (60, 65_528, 3, ConfigError::Body),
    (60, 512, 3, ConfigError::Depth),
    (60, 512, 255, ConfigError::Depth),
];

#[test]
fn config_faults_in_order(rt: HostRuntime) -> Result<(), Fail> {
    for (top_level, max_body, max_depth, want) in WRONG_LIMITS {
        let config = Config {
            top_level: *top_level,
            max_body: *max_body,
            max_depth: *max_depth,
        };
        let fault = Session::new(rt.alloc(), config).err();
        same(&fault, &Some(SessionError::Config(*want)), max_depth)?;
    }
    Ok(())
}

const OUT_OF_TURN: &[Scene] = &[
    (&[Says(Bot, IM)], "04 00 00 02 00 06", FM),
    (&[Says(Bot, RM)], "04 00 00 02 00 0D", FM),
    (&[Says(Server, IM)], FM, "04 00 00 02 00 07"),
    (&[Says(Server, RM)], FM, "04 00 00 02 00 0C"),
];

#[test]
fn frames_out_of_turn_end_the_session(rt: HostRuntime) -> Result<(), Fail> {
    assert_scenes(rt.alloc(), true, OUT_OF_TURN)
}

const FIRST_FRAMES: &[Scene] = &[
    (&[Says(Bot, "00 00 04 00")], "04 00 00 02 00 03", ""),
    (
        &[Says(Bot, "00 00 00 04  00 01 10 DA")],
        "04 00 00 02 00 03",
        "",
    ),
    (
        &[Says(Bot, "00 00 00 04  00 01 DA 11")],
        "04 00 00 02 00 04",
        "",
    ),
    (
        &[Says(Bot, "00 00 00 04  00 02 DA 10")],
        "04 00 00 02 00 05",
        "",
    ),
    (&[Says(Bot, "00 00 00 06")], "04 00 00 02 00 09", ""),
    (&[Says(Bot, "05 00 00 00")], "04 00 00 02 00 08", ""),
    (&[Says(Bot, "02 00 00 02")], "04 00 00 02 00 02", ""),
    (&[Says(Bot, RM)], "04 00 00 02 00 02", ""),
    (&[Says(Server, IM)], FM, "04 00 00 02 00 07"),
    (&[Says(Server, RM)], FM, "04 00 00 02 00 08"),
    (&[Says(Server, "02 00 00 02")], FM, "04 00 00 02 00 0B"),
];

#[test]
fn faults_of_the_first_frame(rt: HostRuntime) -> Result<(), Fail> {
    assert_scenes(rt.alloc(), false, FIRST_FRAMES)
}

const BEFORE_THE_MAP: &[Scene] = &[
    (
        &[Says(Bot, IM), Says(Bot, "02 00 00 02")],
        "04 00 00 02 00 0A",
        IM_AND_FM,
    ),
    (
        &[Says(Bot, IM), Says(Server, "02 00 00 02")],
        "03 00 00 00",
        "00 00 00 04 00 01 DA 10  04 00 00 02 00 0B",
    ),
    (
        &[Says(Bot, IM), Says(Bot, IM)],
        "04 00 00 02 00 06",
        IM_AND_FM,
    ),
    (
        &[Says(Bot, IM), Says(Bot, RM)],
        "04 00 00 02 00 0D",
        IM_AND_FM,
    ),
];

#[test]
fn messages_before_the_map_are_faults(rt: HostRuntime) -> Result<(), Fail> {
    assert_scenes(rt.alloc(), false, BEFORE_THE_MAP)
}

const FINALS: &[Scene] = &[
    (
        &[Says(Bot, "03 00 00 00"), Says(Server, "03 00 00 00")],
        "",
        FM,
    ),
    (&[Says(Server, "03 00 00 00"), Ends(Bot)], FM, ""),
    (&[Says(Bot, "03 FF 00 00")], "", FM),
    (&[Says(Bot, "04 00 00 02 00 FF"), ImTimerExpired], "", EM),
    (&[Says(Server, "04 7F 00 02 00 FF")], EM, ""),
    (&[Says(Server, "04 00 00 04")], FM, "04 00 00 02 00 09"),
    (&[Says(Bot, "03 00 00 02")], "04 00 00 02 00 09", FM),
    (&[Ends(Bot), Ends(Bot), Ends(Server)], "", FM),
    (&[Loses(Bot), Ends(Server)], "", FM),
    (&[Loses(Server), Loses(Bot)], FM, ""),
    (
        &[ImTimerExpired, Says(Bot, "02 00 00 02  48 0F")],
        "",
        "02 00 00 02  48 0F",
    ),
    (
        &[Says(Server, "02 00 00 02  48 0F")],
        "",
        "02 00 00 0A  48 06 40 00 49 02 48 0F 40 01",
    ),
    (
        &[Says(Server, "02 00 00 04  48 03 40 00")],
        "",
        "02 00 00 0A  48 13 40 00 48 03 40 00 40 01",
    ),
];

#[test]
fn finals_and_errors_go_on_once(rt: HostRuntime) -> Result<(), Fail> {
    assert_scenes(rt.alloc(), true, FINALS)
}

const BEFORE_THE_IM: &[Scene] = &[
    (&[Says(Server, "05 00 00 00")], FM, "04 00 00 02 00 08"),
    (&[Says(Server, "02 00 00 03")], FM, "04 00 00 02 00 09"),
    (&[Says(Server, "04 00 00 02 00 FF")], EM, ""),
    (&[Loses(Bot)], "", ""),
    (&[Loses(Server)], FM, ""),
    (&[Ends(Bot), ImTimerExpired, Ends(Server)], "", ""),
    (
        &[Says(Bot, "00 00 00 04  00 02 10 DA")],
        "04 00 00 02 00 03",
        "",
    ),
    (
        &[Says(Bot, "00 00 00 04  00 02 DA 11")],
        "04 00 00 02 00 04",
        "",
    ),
    (&[Says(Bot, "00 00 00 04  00 01"), Ends(Bot)], "", ""),
    (
        &[Says(Bot, "00 00 00 04  00 01"), ImTimerExpired],
        "04 00 00 02 00 01",
        "",
    ),
    (&[Says(Bot, "00 FF 00 04  00 01 DA 10")], "", IM),
];

#[test]
fn each_event_before_the_im(rt: HostRuntime) -> Result<(), Fail> {
    assert_scenes(rt.alloc(), false, BEFORE_THE_IM)
}

const BEFORE_THE_RM: &[Scene] = &[
    (&[Says(Bot, IM), ImTimerExpired, Says(Server, RM)], RM, IM),
    (
        &[
            Says(Bot, IM),
            Says(Server, "01 FF 00 06  41 00 41 55 53 00"),
        ],
        "01 00 00 06  41 00 41 55 53 00",
        IM,
    ),
    (
        &[Says(Bot, IM), Says(Server, "01 00 00 04")],
        FM,
        "00 00 00 04 00 01 DA 10  04 00 00 02 00 09",
    ),
    (
        &[Says(Bot, IM), Says(Server, IM)],
        FM,
        "00 00 00 04 00 01 DA 10  04 00 00 02 00 07",
    ),
    (
        &[Says(Bot, IM), Says(Bot, "05 00 00 00")],
        "04 00 00 02 00 08",
        IM_AND_FM,
    ),
    (&[Says(Bot, IM), Says(Bot, "03 00 00 00")], "", IM_AND_FM),
    (&[Says(Bot, IM), Says(Server, "03 00 00 00")], FM, IM),
    (
        &[Says(Bot, IM), Says(Bot, "04 00 00 02 00 FF")],
        "",
        "00 00 00 04 00 01 DA 10  04 00 00 02 00 FF",
    ),
    (&[Says(Bot, IM), Says(Server, "04 00 00 02 00 FF")], EM, IM),
    (&[Says(Bot, IM), Ends(Bot)], "", IM_AND_FM),
    (&[Says(Bot, IM), Ends(Server)], FM, IM),
    (&[Says(Bot, IM), Loses(Bot)], "", IM_AND_FM),
    (&[Says(Bot, IM), Loses(Server)], FM, IM),
];

#[test]
fn each_event_before_the_rm(rt: HostRuntime) -> Result<(), Fail> {
    assert_scenes(rt.alloc(), false, BEFORE_THE_RM)
}

/// A top level of 30. Messages of the server under it follow, in order, with the level after each.
const AT_30: Config = Config {
    top_level: 30,
    ..WIDEST
};

const HLOS: &[Act] = &[
    Says(Bot, IM),
    Says(Server, RM),
    // HLO ( ENG ) ( 1234 ) ( ( LVL 60 ) ), above the operator's level 30
    Says(
        Server,
        "02 00 00 1A  48 04 40 00 41 01 40 01 40 00 04 D2 40 01 40 00 40 00 49 03 00 3C 40 01 40 01",
    ),
    Sees(Look::Level(Level::L30)),
    // HLO ( ENG ) ( 1234 ) ( ( MTL 30 ) ( LVL 25 ) )
    Says(
        Server,
        "02 00 00 22  48 04 40 00 41 01 40 01 40 00 04 D2 40 01 40 00 40 00 49 05 00 1E 40 01 40 00 \
         49 03 00 19 40 01 40 01",
    ),
    Sees(Look::Level(Level::L20)),
    // NOW ( SPR 1901 )
    Says(Server, "02 00 00 0A  48 0E 40 00 47 00 07 6D 40 01"),
    Sees(Look::Level(Level::L20)),
    // YES ( HLO )
    Says(Server, "02 00 00 08  48 1C 40 00 48 04 40 01"),
    Sees(Look::Level(Level::L20)),
    // HLO ( LVL 10 ), which gets HUH
    Says(Server, "02 00 00 0A  48 04 40 00 49 03 00 0A 40 01"),
    Sees(Look::Level(Level::L20)),
    // HLO ( ENG ) ( 1234 ) ( ( LVL 10 ), which gets PRN
    Says(
        Server,
        "02 00 00 18  48 04 40 00 41 01 40 01 40 00 04 D2 40 01 40 00 40 00 49 03 00 0A 40 01",
    ),
    Sees(Look::Level(Level::L20)),
    // HLO ( ENG ) ( 1234 ) ( ( LVL -1 ) )
    Says(
        Server,
        "02 00 00 1A  48 04 40 00 41 01 40 01 40 00 04 D2 40 01 40 00 40 00 49 03 3F FF 40 01 40 01",
    ),
    Sees(Look::Level(Level::L0)),
    // HLO ( ENG ) ( 1234 ) ( ( LVL ) ( LVL 10 ) )
    Says(
        Server,
        "02 00 00 20  48 04 40 00 41 01 40 01 40 00 04 D2 40 01 40 00 40 00 49 03 40 01 40 00 49 03 00 0A 40 01 40 01",
    ),
    Sees(Look::Level(Level::L10)),
    // HLO ( ENG ) ( 1234 ) ( )
    Says(
        Server,
        "02 00 00 12  48 04 40 00 41 01 40 01 40 00 04 D2 40 01 40 00 40 01",
    ),
    Sees(Look::Level(Level::L0)),
    // HLO ( UNO ) ( 0 ) ( ( LVL 10 ) ( LVL 30 ) )
    Says(
        Server,
        "02 00 00 22  48 04 40 00 49 0B 40 01 40 00 00 00 40 01 40 00 40 00 49 03 00 0A 40 01 40 00 \
         49 03 00 1E 40 01 40 01",
    ),
    Sees(Look::Level(Level::L10)),
    // the end
    Says(Server, "03 00 00 00"),
    Sees(Look::Level(Level::L0)),
];

#[test]
fn only_a_relayed_hlo_of_the_server_sets_the_level(rt: HostRuntime) -> Result<(), Fail> {
    assert_acts(rt.alloc(), AT_30, HLOS)
}

/// A message of the server | the level after it, with a top level of 30 and from level 0 | the number of its tokens
/// that are examined for the level.
const CUT_HLOS: &[(&str, Level, u64)] = &[
    // HLO ( ENG ) ( 1234 ) ( ( MTL 30 ) ( LVL 25 ) )
    (
        "02 00 00 22  48 04 40 00 41 01 40 01 40 00 04 D2 40 01 40 00 40 00 49 05 00 1E 40 01 40 00 \
         49 03 00 19 40 01 40 01",
        Level::L20,
        16,
    ),
    // HLO ( UNO ) ( 0 ) ( ( LVL 10 ) ( LVL 30 ) )
    (
        "02 00 00 22  48 04 40 00 49 0B 40 01 40 00 00 00 40 01 40 00 40 00 49 03 00 0A 40 01 40 00 \
         49 03 00 1E 40 01 40 01",
        Level::L10,
        12,
    ),
    // HLO ( ENG ) ( 1234 ) ( ( LVL ) ( LVL 10 ) )
    (
        "02 00 00 20  48 04 40 00 41 01 40 01 40 00 04 D2 40 01 40 00 40 00 49 03 40 01 40 00 49 03 00 0A 40 01 40 01",
        Level::L10,
        15,
    ),
    // YES ( HLO )
    ("02 00 00 08  48 1C 40 00 48 04 40 01", Level::L0, 1),
];

/// Feeds a message of the server in two pieces. Checks that it sets this level with its last byte and not before, and
/// that this number of its tokens is examined.
fn assert_level_of_pieces(
    alloc: Global,
    first: &[u8],
    second: &[u8],
    want: Level,
    looked_at: u64,
) -> Result<(), Fail> {
    let mut script = script_of(alloc, AT_30)?;
    script.open(alloc, 65_530)?;
    script.say(Server, first, 65_530)?;
    holds(script.session.level() == Level::L0, "level before the end")?;
    script.say(Server, second, 65_530)?;
    holds(script.session.level() == want, "level")?;
    holds(script.session.looked_at(Server) == looked_at, "looked at")
}

#[test]
fn hlo_cut_at_each_byte_sets_its_level(rt: HostRuntime) -> Result<(), Fail> {
    for (text, want, looked_at) in CUT_HLOS {
        let bytes = bytes_of(rt.alloc(), text)?;
        for cut in 0..bytes.len() {
            let (first, second) = bytes.split_at(cut);
            assert_level_of_pieces(rt.alloc(), first, second, *want, *looked_at)?;
        }
    }
    Ok(())
}

/// The narrowest limits.
const NARROWEST: Config = Config {
    top_level: 0,
    max_body: 512,
    max_depth: 4,
};

const BEYOND_LIMITS: &[Scene] = &[(
    &[
        Says(Bot, IM),
        Says(Server, RM),
        // five open brackets, while four are allowed
        Says(
            Bot,
            "02 00 00 16  48 06 40 00 40 00 40 00 40 00 40 00 40 01 40 01 40 01 40 01 40 01",
        ),
        Says(Bot, "02 00 02 02"),
    ],
    "01 00 00 00  02 00 00 1E  48 06 40 00 48 06 40 00 40 00 40 00 40 00 49 02 40 00 40 01 40 01 40 01 40 01 40 01 \
     40 01  04 00 00 02 00 08",
    IM_AND_FM,
)];

#[test]
fn operators_limits_hold(rt: HostRuntime) -> Result<(), Fail> {
    assert_scenes_within(rt.alloc(), NARROWEST, false, BEYOND_LIMITS)
}

const NOTES: &[Act] = &[
    Tells(
        Bot,
        IM,
        Note::Frame(
            Head {
                kind: Kind::Im,
                len: 4,
            },
            Deed::Relayed,
        ),
    ),
    Tells(
        Server,
        RM,
        Note::Frame(
            Head {
                kind: Kind::Rm,
                len: 0,
            },
            Deed::Relayed,
        ),
    ),
    Tells(
        Bot,
        "02 00 00 02  48 0F",
        Note::Frame(
            Head {
                kind: Kind::Dm,
                len: 2,
            },
            Deed::Relayed,
        ),
    ),
    Tells(
        Server,
        "02 00 00 04  48 03 40 00",
        Note::Frame(
            Head {
                kind: Kind::Dm,
                len: 4,
            },
            Deed::Prn,
        ),
    ),
    Tells(
        Bot,
        "02 00 00 0A  48 0C 40 00 4B 61 40 01 48 03",
        Note::Frame(
            Head {
                kind: Kind::Dm,
                len: 10,
            },
            Deed::Huh(4),
        ),
    ),
    Tells(
        Server,
        "02 00 00 00",
        Note::Frame(
            Head {
                kind: Kind::Dm,
                len: 0,
            },
            Deed::Huh(0),
        ),
    ),
    Tells(Bot, "02 00 00 01", Note::Fault(Code::WrongLength)),
    Tells(Bot, "03 00 00 00", Note::Nothing),
];

const DROPPED_FM: &[Act] = &[Tells(
    Bot,
    "03 00 00 00",
    Note::Frame(
        Head {
            kind: Kind::Fm,
            len: 0,
        },
        Deed::Dropped,
    ),
)];

const DROPPED_EM: &[Act] = &[Tells(
    Bot,
    "04 00 00 02 00 01",
    Note::Frame(
        Head {
            kind: Kind::Em,
            len: 2,
        },
        Deed::Dropped,
    ),
)];

const EARLY_RM: &[Act] = &[Tells(Server, RM, Note::Fault(Code::UnknownMessage))];

const NOTED: &[&[Act]] = &[NOTES, DROPPED_FM, DROPPED_EM, EARLY_RM];

#[test]
fn notes_name_what_became_of_a_frame(rt: HostRuntime) -> Result<(), Fail> {
    for acts in NOTED {
        assert_acts(rt.alloc(), WIDEST, acts)?;
    }
    Ok(())
}

/// SND ( FRA ) ( PRP ( PCE ( ENG FRA ) ) ). Its HUH at level 0 and an HLO of level 10 follow.
const PRESS: &str =
    "02 00 00 1C  48 17 40 00 41 02 40 01 40 00 4A 13 40 00 4A 10 40 00 41 01 41 02 40 01 40 01 40 01";

const HUH_OF_PRESS: &str =
    "02 00 00 24  48 06 40 00 49 02 48 17 40 00 41 02 40 01 40 00 4A 13 40 00 4A 10 40 00 41 01 41 02 40 01 40 01 \
     40 01 40 01";

const HLO: &str =
    "02 00 00 1A  48 04 40 00 41 01 40 01 40 00 04 D2 40 01 40 00 40 00 49 03 00 0A 40 01 40 01";

const PRESS_AND_HLO: &[Scene] = &[
    (&[Says(Bot, PRESS)], HUH_OF_PRESS, ""),
    (&[Says(Server, HLO), Says(Bot, PRESS)], HLO, PRESS),
    // an HLO between the header of a message and its body
    (
        &[
            Says(Bot, "02 00 00 1C"),
            Says(Server, HLO),
            Sees(Look::Sent(Bot, HLO)),
            Says(
                Bot,
                "48 17 40 00 41 02 40 01 40 00 4A 13 40 00 4A 10 40 00 41 01 41 02 40 01 40 01 40 01",
            ),
        ],
        HUH_OF_PRESS,
        "",
    ),
    // an HLO of the bot
    (
        &[
            Says(Server, HLO),
            Sees(Look::Level(Level::L10)),
            Says(Bot, "02 00 00 02 48 04"),
            Sees(Look::Level(Level::L10)),
        ],
        HLO,
        "02 00 00 02 48 04",
    ),
];

#[test]
fn hlo_opens_press_at_its_level(rt: HostRuntime) -> Result<(), Fail> {
    assert_scenes(rt.alloc(), true, PRESS_AND_HLO)
}

const ENDS_IN_THE_OPEN: &[Scene] = &[
    (&[Says(Bot, "02 00 00 04  48 03 40"), Ends(Bot)], "", FM),
    (&[Ends(Server), Says(Bot, "02 00 00 02  48 0F")], FM, ""),
    (
        &[
            Says(Server, "04 00 00 02 00 01"),
            Says(Server, "03 00 00 00"),
            ImTimerExpired,
        ],
        "04 00 00 02 00 01",
        "",
    ),
    (&[OperatorStops, OperatorStops], FM, FM),
    (&[Says(Bot, "02 00 00 04  48 03 40"), OperatorStops], FM, FM),
    (&[Says(Server, "03 00 00 00"), OperatorStops], FM, ""),
];

const ENDS_AT_FIRST: &[Scene] = &[
    (&[ImTimerExpired, ImTimerExpired], "04 00 00 02 00 01", ""),
    (&[OperatorStops, ImTimerExpired, Says(Bot, IM)], FM, ""),
    (
        &[Says(Bot, IM), OperatorStops],
        FM,
        "00 00 00 04  00 01 DA 10  03 00 00 00",
    ),
    (&[Ends(Bot)], "", ""),
    (&[Ends(Server)], FM, ""),
    (&[Says(Bot, "03 00 00 00"), Says(Server, RM)], "", ""),
    (&[Says(Bot, "04 00 00 02 00 01")], "", ""),
    (&[Says(Server, "03 00 00 00")], FM, ""),
];

#[test]
fn ends_and_timeouts(rt: HostRuntime) -> Result<(), Fail> {
    assert_scenes(rt.alloc(), true, ENDS_IN_THE_OPEN)?;
    assert_scenes(rt.alloc(), false, ENDS_AT_FIRST)
}

/// Checks that the timer of a new session causes one fault, after which the session is over.
fn assert_timer(session: &mut Session) -> Result<(), Fail> {
    holds(session.im_timeout() == Note::Fault(Code::ImTimeout), "once")?;
    holds(session.im_timeout() == Note::Nothing, "not twice")?;
    holds(session.is_over() && !session.ended(Bot), "over")?;
    holds(session.room(Bot) == 0 && session.room(Server) == 0, "room")
}

/// Checks that a stop ends a new session once, and sends the bot alone a final message.
fn assert_stop(session: &mut Session) -> Result<(), Fail> {
    holds(session.stop() == Note::Stopped, "once")?;
    holds(session.stop() == Note::Nothing, "not twice")?;
    holds(
        session.is_over() && session.im_timeout() == Note::Nothing,
        "over",
    )?;
    holds(
        session.front(Bot).len() == 4 && session.front(Server).is_empty(),
        "the bot alone",
    )
}

#[test]
fn stop_ends_a_session_once(rt: HostRuntime) -> Result<(), Fail> {
    let mut session = Session::new(rt.alloc(), WIDEST)?;
    assert_stop(&mut session)
}

#[test]
fn timer_faults_once(rt: HostRuntime) -> Result<(), Fail> {
    let mut session = Session::new(rt.alloc(), WIDEST)?;
    assert_timer(&mut session)
}

/// A message of the server while a HUH is queued for the bot.
const NOW: &str = "02 00 00 0A  48 0E 40 00 47 00 07 6D 40 01";

const HUH_AND_NOW: &str =
    "02 00 00 08 48 06 40 00 49 02 40 01  02 00 00 0A 48 0E 40 00 47 00 07 6D 40 01";

/// Neither side is read until its answer's last byte is taken: the twelfth byte, and the fourteenth after it.
const SLOW_WIRE: &[Scene] = &[(
    &[
        Sends(Bot, "02 00 00 00"),
        Sends(Server, NOW),
        Sees(Look::Room(Bot, 0)),
        Sees(Look::Room(Server, 0)),
        Takes(Bot, 3),
        Sees(Look::Room(Bot, 0)),
        Takes(Bot, 8),
        Sees(Look::Room(Bot, 0)),
        Takes(Bot, 1),
        Sees(Look::Room(Bot, 4)),
        Sees(Look::Room(Server, 0)),
        Takes(Bot, 1),
        Sees(Look::Room(Server, 0)),
        Takes(Bot, 12),
        Sees(Look::Room(Server, 0)),
        Takes(Bot, 1),
        Sees(Look::Room(Bot, 4)),
        Sees(Look::Room(Server, 4)),
        Sees(Look::Front(Bot, 0)),
        Sees(Look::Front(Server, 0)),
    ],
    HUH_AND_NOW,
    "",
)];

#[test]
fn slow_wire_keeps_frames_whole(rt: HostRuntime) -> Result<(), Fail> {
    assert_scenes(rt.alloc(), true, SLOW_WIRE)
}

const WAITING_AT_THE_END: &[Scene] = &[(
    &[
        Sends(Bot, "02 00 00 00"),
        Sends(Server, NOW),
        Stops(Server),
        Sees(Look::Phase(Phase::Over)),
        // three frames; and at most 10 + 16 and 16, and 64
        Sees(Look::Weight(3, 106)),
        Takes(Bot, 30),
        Sees(Look::Room(Bot, 0)),
        Sees(Look::Room(Server, 0)),
    ],
    "02 00 00 08 48 06 40 00 49 02 40 01  02 00 00 0A 48 0E 40 00 47 00 07 6D 40 01  03 00 00 00",
    "",
)];

#[test]
fn frames_that_wait_go_out_after_the_end(rt: HostRuntime) -> Result<(), Fail> {
    assert_scenes(rt.alloc(), true, WAITING_AT_THE_END)
}

const WAITING_FOR_A_LOST_WIRE: &[Scene] = &[
    (
        &[Sends(Bot, "02 00 00 00"), Sends(Server, NOW), Loses(Bot)],
        "",
        FM,
    ),
    (
        &[
            Sends(Bot, "02 00 00 00"),
            Sends(Server, NOW),
            Stops(Server),
            Loses(Bot),
        ],
        "",
        "",
    ),
];

#[test]
fn lost_wire_gets_nothing_more(rt: HostRuntime) -> Result<(), Fail> {
    assert_scenes(rt.alloc(), true, WAITING_FOR_A_LOST_WIRE)
}

/// OBS, of one token, takes at most eight steps, and `GOF (`, of two tokens, at most twelve.
const STEPS: &[Act] = &[
    Says(Bot, IM),
    Says(Server, RM),
    Sees(Look::NoSteps(Bot)),
    Sends(Bot, "02 00 00 02  48 0F"),
    Sees(Look::Steps(Bot, 8)),
    Takes(Server, 6),
    Sends(Bot, "02 00 00 04  48 03 40 00"),
    Sees(Look::Steps(Bot, 12)),
    Sees(Look::NoSteps(Server)),
];

#[test]
fn steps_are_counted_by_message(rt: HostRuntime) -> Result<(), Fail> {
    assert_acts(rt.alloc(), WIDEST, STEPS)
}

/// Six bytes of a message of 250, with two open brackets.
const HEAVY: &[Act] = &[
    Says(Bot, IM),
    Says(Server, RM),
    Says(Bot, "02 00 00 FA  48 06 40 00 40 00"),
    Sees(Look::Weight(6, 362)),
];

#[test]
fn weight_is_bounded(rt: HostRuntime) -> Result<(), Fail> {
    assert_acts(rt.alloc(), WIDEST, HEAVY)
}
