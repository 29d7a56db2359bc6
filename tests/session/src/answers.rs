//! The worked examples of answers to frames of the bot, by their names in docs/EXAMPLES.md: the bytes on both
//! connections of an open session, fed whole and byte by byte. The verdicts on these messages are in
//! `daide_codec_tests`.

use crate::script::Act::Says;
use crate::script::{Scene, assert_scenes};
use daide_frame::side::Side::{Bot, Server};
use std::test::Fail;

const NAME: &str = "02 00 00 0E  48 0C 40 00 4B 61 40 01 40 00 4B 62 40 01";

const NAMES: &[Scene] = &[
    (&[Says(Bot, NAME)], "", NAME),
    (&[Says(Bot, "02 FF 00 02  48 0F")], "", "02 00 00 02  48 0F"),
];

#[test]
fn relays_a_name_in_any_pieces(rt: HostRuntime) -> Result<(), Fail> {
    assert_scenes(rt.alloc(), true, NAMES)
}

const UNCLOSED: &[Scene] = &[(
    &[Says(Bot, "02 00 00 04  48 03 40 00")],
    "02 00 00 0A  48 13 40 00 48 03 40 00 40 01",
    "",
)];

#[test]
fn unclosed_bracket_gets_prn(rt: HostRuntime) -> Result<(), Fail> {
    assert_scenes(rt.alloc(), true, UNCLOSED)
}

const ERR_BEFORE_IT: &[Scene] = &[(
    &[Says(Bot, "02 00 00 0A  48 0C 40 00 4B 61 40 01 48 03")],
    "02 00 00 12  48 06 40 00 48 0C 40 00 4B 61 40 01 49 02 48 03 40 01",
    "",
)];

#[test]
fn word_after_a_whole_message_gets_err_before_it(rt: HostRuntime) -> Result<(), Fail> {
    assert_scenes(rt.alloc(), true, ERR_BEFORE_IT)
}

const ERR_LAST: &[Scene] = &[(
    &[Says(Bot, "02 00 00 08  48 0C 40 00 4B 61 40 01")],
    "02 00 00 10  48 06 40 00 48 0C 40 00 4B 61 40 01 49 02 40 01",
    "",
)];

#[test]
fn message_that_ends_early_gets_err_last(rt: HostRuntime) -> Result<(), Fail> {
    assert_scenes(rt.alloc(), true, ERR_LAST)
}

const EMPTY: &[Scene] = &[(
    &[Says(Bot, "02 00 00 00")],
    "02 00 00 08  48 06 40 00 49 02 40 01",
    "",
)];

#[test]
fn empty_message_gets_huh_err(rt: HostRuntime) -> Result<(), Fail> {
    assert_scenes(rt.alloc(), true, EMPTY)
}

const REPORT: &str = "02 00 00 08  48 13 40 00 40 00 40 01";

const WRAPPED: &str = "02 00 00 0C  48 13 40 00 48 13 40 00 40 00 40 01";

const REPORTS_GO_ON: &[Scene] = &[
    (&[Says(Bot, REPORT)], "", REPORT),
    (&[Says(Bot, "02 00 00 06  48 13 40 00 40 00")], WRAPPED, ""),
    // the next gateway relays the answer to its bot
    (&[Says(Server, WRAPPED)], WRAPPED, ""),
];

#[test]
fn prn_is_relayed_or_wrapped_once(rt: HostRuntime) -> Result<(), Fail> {
    assert_scenes(rt.alloc(), true, REPORTS_GO_ON)
}

const KET_FIRST: &[Scene] = &[(
    &[Says(Bot, "02 00 00 06  48 03 40 01 40 00")],
    "02 00 00 0C  48 13 40 00 48 03 40 01 40 00 40 01",
    "",
)];

#[test]
fn ket_before_bra_gets_prn(rt: HostRuntime) -> Result<(), Fail> {
    assert_scenes(rt.alloc(), true, KET_FIRST)
}

const LONGEST: &[Scene] = &[(
    &[Says(Bot, "02 00 FF F6  32763*4803")],
    "02 00 FF FE  48 06 40 00 48 03 49 02  32762*4803  40 01",
    "",
)];

#[test]
fn longest_body_gets_huh(rt: HostRuntime) -> Result<(), Fail> {
    assert_scenes(rt.alloc(), true, LONGEST)
}

const FM: &str = "03 00 00 00";

const WRONG_LENGTHS: &[Scene] = &[
    (&[Says(Bot, "02 00 00 03")], "04 00 00 02 00 09", FM),
    (&[Says(Bot, "02 00 FF FE")], "04 00 00 02 00 08", FM),
    (&[Says(Server, "02 00 00 03")], FM, "04 00 00 02 00 09"),
];

#[test]
fn wrong_length_and_over_the_cap_end_the_session(rt: HostRuntime) -> Result<(), Fail> {
    assert_scenes(rt.alloc(), true, WRONG_LENGTHS)
}

const ALIEN_TOKENS: &[Scene] = &[
    (
        &[Says(Bot, "02 00 00 06  48 03 58 00")],
        "04 00 00 02 00 0E",
        FM,
    ),
    (
        &[Says(Bot, "02 00 00 06  48 03 58 00 48 03")],
        "04 00 00 02 00 0E",
        FM,
    ),
    (
        &[Says(Server, "02 00 00 02  4C 00")],
        FM,
        "04 00 00 02 00 0E",
    ),
];

#[test]
fn alien_token_faults_at_its_second_byte(rt: HostRuntime) -> Result<(), Fail> {
    assert_scenes(rt.alloc(), true, ALIEN_TOKENS)
}

const UNLISTED: &[Scene] = &[(
    &[Says(Bot, "02 00 00 02  4A 12")],
    "02 00 00 0A  48 06 40 00 49 02 4A 12 40 01",
    "",
)];

#[test]
fn unlisted_word_gets_huh(rt: HostRuntime) -> Result<(), Fail> {
    assert_scenes(rt.alloc(), true, UNLISTED)
}
