//! Frames that are cut after each byte: the side's stream ends there, and nothing of the frame is forwarded.
//!
//! The expected bytes are worked out from the protocol: an incomplete frame is dropped, and the other side gets an FM
//! if it may be sent one.

use crate::script::Act::Ends;
use crate::script::{IM, PIECES, RM, WIDEST, bytes_of, script_of};
use daide_frame::side::Side::{self, Bot, Server};
use std::alloc::Global;
use std::test::Fail;

/// A final message.
const FM: &str = "03 00 00 00";

/// Whether the IM and the RM precede the frame | the side that sends it | the frame.
type Row = (bool, Side, &'static str);

/// The frames of the first worked examples, each with a valid header.
#[rattlefmt::skip]
const FRAMES: &[Row] = &[
    // before the IM, nothing is sent to the server
    (false, Bot, IM),
    (false, Server, RM),
    // OBS, and a name
    (true, Bot, "02 FF 00 02  48 0F"),
    (true, Bot, "02 00 00 0E  48 0C 40 00 4B 61 40 01 40 00 4B 62 40 01"),
    // GOF (
    (true, Bot, "02 00 00 04  48 03 40 00"),
    // NME ( 'a' ) GOF
    (true, Bot, "02 00 00 0A  48 0C 40 00 4B 61 40 01 48 03"),
    // NME ( 'a' )
    (true, Bot, "02 00 00 08  48 0C 40 00 4B 61 40 01"),
    // an empty message
    (true, Bot, "02 00 00 00"),
    // PRN ( ( )  and  PRN ( (
    (true, Bot, "02 00 00 08  48 13 40 00 40 00 40 01"),
    (true, Bot, "02 00 00 06  48 13 40 00 40 00"),
    // GOF ) (
    (true, Bot, "02 00 00 06  48 03 40 01 40 00"),
    // frames of the server: NOW, an FM and an EM
    (true, Server, "02 00 00 0A  48 0E 40 00 47 00 07 6D 40 01"),
    (true, Server, "03 00 00 00"),
    (true, Server, "04 00 00 02 00 FF"),
    // a wrong length, and a length above the cap, which are faults at the fourth byte
    (true, Bot, "02 00 00 03"),
    (true, Bot, "02 00 FF FE"),
];

/// Returns the bytes sent to the bot and to the server if a side ended: an FM for the other side, and nothing for its
/// own. Before the IM nothing is sent to the server.
fn sent_at_an_end(is_open: bool, side: Side) -> (&'static str, &'static str) {
    match side {
        Bot if is_open => ("", FM),
        Bot => ("", ""),
        Server => (FM, ""),
    }
}

/// Checks the bytes sent if the side ends after these bytes, which are an incomplete frame.
fn assert_cut(
    alloc: Global,
    is_open: bool,
    side: Side,
    front: &[u8],
    piece: usize,
) -> Result<(), Fail> {
    let mut script = script_of(alloc, WIDEST)?;
    if is_open {
        script.open(alloc, piece)?;
    }
    script.say(side, front, piece)?;
    script.play(alloc, Ends(side), piece)?;
    let (to_bot, to_server) = sent_at_an_end(is_open, side);
    script.assert_sent(alloc, Bot, to_bot)?;
    script.assert_sent(alloc, Server, to_server)
}

/// Checks a frame that is cut before each of its bytes.
fn assert_cuts(alloc: Global, row: &Row, piece: usize) -> Result<(), Fail> {
    let (is_open, side, frame) = row;
    let bytes = bytes_of(alloc, frame)?;
    for cut in 0..bytes.len() {
        assert_cut(alloc, *is_open, *side, &bytes[..cut], piece)?;
    }
    Ok(())
}

#[test]
fn frame_cut_at_each_byte_goes_nowhere(rt: HostRuntime) -> Result<(), Fail> {
    for row in FRAMES {
        for piece in PIECES {
            assert_cuts(rt.alloc(), row, *piece)?;
        }
    }
    Ok(())
}

/// The longest message: 32,763 times GOF.
const LONGEST: &str = "02 00 FF F6  32763*4803";

#[test]
fn longest_frame_cut_at_many_bytes_goes_nowhere(rt: HostRuntime) -> Result<(), Fail> {
    let bytes = bytes_of(rt.alloc(), LONGEST)?;
    for cut in 0..bytes.len() {
        if cut < 16 || cut % 2039 == 0 || cut > 65_520 {
            assert_cut(rt.alloc(), true, Bot, &bytes[..cut], 65_530)?;
        }
    }
    Ok(())
}
