//! Sessions with an operator's words: they relay messages that a session without them answers with HUH.
//!
//! XYZ is a press of a power from level 20 on.

use crate::script::Act::Says;
use crate::script::{PIECES, Script, WIDEST, script_over};
use daide_frame::side::Side::{self, Bot, Server};
use daide_session::session::Session;
use daide_test_support::words::two_words;
use daide_words::Words;
use std::alloc::Global;
use std::test::Fail;

/// `HLO ( ENG ) ( 1234 ) ( ( LVL 10 ) )`. The same with level 20 follows.
const HLO_10: &str =
    "02 00 00 1A  48 04 40 00 41 01 40 01 40 00 04 D2 40 01 40 00 40 00 49 03 00 0A 40 01 40 01";

const HLO_20: &str =
    "02 00 00 1A  48 04 40 00 41 01 40 01 40 00 04 D2 40 01 40 00 40 00 49 03 00 14 40 01 40 01";

/// `SND ( FRA ) ( XYZ ( ENG ) )`. Its HUH if XYZ is not a word, with ERR before XYZ, follows.
const SENT: &str = "02 00 00 14  48 17 40 00 41 02 40 01 40 00 4A 40 40 00 41 01 40 01 40 01";

const HUH_OF_SENT: &str =
    "02 00 00 1C  48 06 40 00 48 17 40 00 41 02 40 01 40 00 49 02 4A 40 40 00 41 01 40 01 40 01 40 01";

/// `SND ( FRA ) ( TRY ( XYZ ) )`, which lists any token but a bracket.
const TRIED: &str = "02 00 00 14  48 17 40 00 41 02 40 01 40 00 4A 1A 40 00 4A 40 40 01 40 01";

/// `FRM ( ENG ) ( FRA ) ( XYZ ( ENG ) )`. Its HUH if XYZ is not a word follows.
const HANDED_ON: &str =
    "02 00 00 1A  48 02 40 00 41 01 40 01 40 00 41 02 40 01 40 00 4A 40 40 00 41 01 40 01 40 01";

const HUH_OF_HANDED_ON: &str =
    "02 00 00 22  48 06 40 00 48 02 40 00 41 01 40 01 40 00 41 02 40 01 40 00 49 02 4A 40 40 00 41 01 40 01 40 01 40 01";

/// Whether the session has the words | the HLO of the server, which the bot gets | a side | a frame that it sends | the
/// bytes that the bot then gets | the bytes that the server then gets.
type Row = (
    bool,
    &'static str,
    Side,
    &'static str,
    &'static str,
    &'static str,
);

#[rattlefmt::skip]
const ROWS: &[Row] = &[
    (true, HLO_20, Bot, SENT, "", SENT),
    (true, HLO_10, Bot, SENT, HUH_OF_SENT, ""),
    (true, HLO_10, Bot, TRIED, "", TRIED),
    (true, HLO_20, Server, HANDED_ON, HANDED_ON, ""),
    (true, HLO_10, Server, HANDED_ON, "", HUH_OF_HANDED_ON),
    (false, HLO_20, Bot, SENT, HUH_OF_SENT, ""),
    (false, HLO_10, Bot, TRIED, "", TRIED),
    (false, HLO_20, Server, HANDED_ON, "", HUH_OF_HANDED_ON),
];

/// Creates a session with an operator's words, or without.
fn script_with(alloc: Global, has_words: bool) -> Result<Script, Fail> {
    let words = if has_words { two_words() } else { Words::new() };
    Ok(script_over(alloc, Session::with_words(alloc, WIDEST, words)?))
}

/// Plays a row in a new session, in pieces of `piece` bytes.
fn play_row(script: &mut Script, alloc: Global, row: &Row, piece: usize) -> Result<(), Fail> {
    let (_, hlo, side, frame, to_bot, to_server) = row;
    script.open(alloc, piece)?;
    script.play(alloc, Says(Server, hlo), piece)?;
    script.assert_sent(alloc, Bot, hlo)?;
    script.play(alloc, Says(*side, frame), piece)?;
    script.assert_sent(alloc, Bot, to_bot)?;
    script.assert_sent(alloc, Server, to_server)
}

/// The same in a session with the row's words.
fn assert_row(alloc: Global, row: &Row, piece: usize) -> Result<(), Fail> {
    let mut script = script_with(alloc, row.0)?;
    play_row(&mut script, alloc, row, piece)
}

/// The same with each size of pieces.
fn assert_pieces(alloc: Global, row: &Row) -> Result<(), Fail> {
    for piece in PIECES {
        assert_row(alloc, row, *piece)?;
    }
    Ok(())
}

#[test]
fn session_with_words_relays_what_one_without_answers(rt: HostRuntime) -> Result<(), Fail> {
    for row in ROWS {
        assert_pieces(rt.alloc(), row)?;
    }
    Ok(())
}
