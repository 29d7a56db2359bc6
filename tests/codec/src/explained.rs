//! Explanations of messages that are not relayed, and notes on inputs. The expected text is worked out from
//! docs/PROTOCOL.md and docs/FORMATS.md.

use daide_frame::side::Side;
use daide_gate::frame_view::{Request, show_input};
use daide_gate::groups::odd_group;
use daide_gate::notes::input_note;
use daide_grammar::level::Level;
use daide_test_support::rows::same;
use daide_words::Words;
use std::alloc::Global;
use std::test::Fail;

/// A side and a level | its frame in hexadecimal digits | the output with explanations, with `/` for a line feed.
const EXPLAINED: &str = "\
bot 0 | 02000004 4803 4000 | DM 4/GOF (/PRN/PRN ( GOF ( )/unpaired: ( at 1/
bot 0 | 02000006 4803 4001 4000 | DM 6/GOF ) (/PRN/PRN ( GOF ) ( )/unpaired: ) at 1/
bot 0 | 02000006 4813 4000 4000 | DM 6/PRN ( (/PRN/PRN ( PRN ( ( )/unpaired: PRN/
bot 0 | 02000004 480F 4803 | DM 4/OBS GOF/HUH at 1/HUH ( OBS ERR GOF )/expected: <end>/
bot 0 | 0200000A 480C 4000 4B61 4001 4803 | DM 10/NME ( 'a' ) GOF/HUH at 4/HUH ( NME ( 'a' ) ERR GOF )/expected: (/
bot 0 | 02000008 480C 4000 4B61 4001 | DM 8/NME ( 'a' )/HUH at 4/HUH ( NME ( 'a' ) ERR )/expected: (/
bot 0 | 02000000 | DM 0//HUH at 0/HUH ( ERR )/expected: DRW GOF HLO HST HUH IAM MAP MDF MIS NME NOT NOW OBS ORD PRN REJ SCO SUB TME YES ADM/
bot 0 | 02000014 4818 4000 4000 4101 4201 521C 4001 4320 553E 4001 | DM 20/SUB ( ( ENG FLT NTH ) CTO NWY )/HUH at 9/HUH ( SUB ( ( ENG FLT NTH ) CTO NWY ERR ) )/expected: VIA/
bot 0 | 02000008 481C 4000 4803 4001 | DM 8/YES ( GOF )/HUH at 2/HUH ( YES ( ERR GOF ) )/expected: LOD MAP SVE/relayed with --side server/
bot 10 | 02000024 4817 4000 4102 4001 4000 4A13 4000 4A1F 4000 4000 4102 4200 510A 4001 4322 4001 4001 4001 | DM 36/SND ( FRA ) ( PRP ( XDO ( ( FRA AMY PAR ) HLD ) ) )/HUH at 7/HUH ( SND ( FRA ) ( PRP ( ERR XDO ( ( FRA AMY PAR ) HLD ) ) ) )/expected: DRW NOT SLO ALY PCE/relayed from level 20/
bot 30 | 0200001A 4817 4000 4102 4001 4000 4A13 4000 4A01 4000 4801 4001 4001 4001 | DM 26/SND ( FRA ) ( PRP ( AND ( DRW ) ) )/HUH at 11/HUH ( SND ( FRA ) ( PRP ( AND ( DRW ) ERR ) ) )/expected: (/
bot 30 | 0200002C 4817 4000 4102 4001 4000 4A13 4000 4A01 4000 4A01 4000 4801 4001 4000 4801 4001 4001 4000 4801 4001 4001 4001 | DM 44/SND ( FRA ) ( PRP ( AND ( AND ( DRW ) ( DRW ) ) ( DRW ) ) )/HUH at 9/HUH ( SND ( FRA ) ( PRP ( AND ( ERR AND ( DRW ) ( DRW ) ) ( DRW ) ) ) )/expected: DRW NOT SLO ALY DMZ PCE XDO/relayed from level 50/
server 0 | 0200000C 4815 4000 4102 510A 4001 4102 | DM 12/SCO ( FRA PAR ) FRA/HUH at 5/HUH ( SCO ( FRA PAR ) ERR FRA )/expected: ( <end>/
bot 0 | 02000002 480F | DM 2/OBS/relay/
bot 0 | 00000004 0001 DA11 | fault 04/wrong magic number DA11 at byte 6/expected: DA10/
bot 0 | 02000004 5800 4803 | fault 0E/invalid token 5800 at byte 4/expected: 0000 to 4BFF, or 5000 to 57FF/
bot 0 | 02000006 4803 6000 6100 | fault 0E/invalid token 6000 at byte 6/expected: 0000 to 4BFF, or 5000 to 57FF/
server 0 | 01000000 | RM 0/relay/
bot 0 | 020000044803400 | input is not hexadecimal
bot 0 | 020000044803 | input is not one frame
";

/// An input, with `\t` for a tab | its note, if it has one | its odd group, if it has one.
const NOTED: &str = "\
02 00 O0 00 | byte 7 is 'O' |
\t0x02 | a header has 4 bytes, the input has 1 |
02,00 | a header has 4 bytes, the input has 2 |
0x2 0x0 | byte 2 is 'x' |
02;00 | byte 3 is ';' |
b'02 | the quote is not closed |
02 00é | byte 6 is 0xC3 |
0 | the number of digits is odd: 1 | group 1 has an odd number of digits, 1
020000044803400 | the number of digits is odd: 15 | group 1 has an odd number of digits, 15
 | a header has 4 bytes, the input has 0 |
02 00 00 | a header has 4 bytes, the input has 3 |
02000004 4803 | the header announces 4 bytes, 2 follow |
0200FFF6 4803 | the header announces 65526 bytes, 2 follow |
01000006 | the header announces 6 bytes, 0 follow |
02000002 480F 03000000 | another frame begins after byte 6 |
0300000000 | another frame begins after byte 4 |
02000002 480F | |
0200FFFE | |
02000006 5800 | |
  000\t02000004 480F4 | | group 1 has an odd number of digits, 3
0200 0002 480 F03 | another frame begins after byte 6 | group 3 has an odd number of digits, 3
";

/// Returns the first field of a row, and the fields after it.
fn first_field(row: &str) -> (&str, &str) {
    match row.split_once('|') {
        Some(parts) => parts,
        None => (row, ""),
    }
}

/// Returns the side and the level of a row.
fn judged_as(field: &str) -> Option<(Side, Level)> {
    let (side, level) = field.trim().split_once(' ')?;
    let side = if side == "server" {
        Side::Server
    } else {
        Side::Bot
    };
    match level.parse() {
        Ok(number) => Some((side, Level::of(number)?)),
        Err(_) => None,
    }
}

/// Returns the output for an input with explanations, or the text of its fault.
fn explained(alloc: Global, (side, level): (Side, Level), input: &[u8]) -> Result<String, Fail> {
    let request = Request {
        side,
        level,
        words: &Words::new(),
        is_explained: true,
    };
    let mut output = Vec::new(alloc);
    match show_input(alloc, &request, input, &mut output) {
        Ok(_) => Ok(String::from_utf8(output)?.replace(alloc, "\n", "/")?),
        Err(fault) => Ok(fault.to_string(alloc)?),
    }
}

/// Checks the output for a row.
fn assert_explained(alloc: Global, row: &str) -> Result<(), Fail> {
    let (sender, rest) = first_field(row);
    let (input, want) = first_field(rest);
    let Some(sender) = judged_as(sender) else {
        return Err(Fail::new(row));
    };
    let shown = explained(alloc, sender, input.as_bytes())?;
    same(&shown.as_str(), &want.trim(), &row)
}

#[test]
fn refused_messages_are_explained(rt: HostRuntime) -> Result<(), Fail> {
    for row in EXPLAINED.lines() {
        assert_explained(rt.alloc(), row)?;
    }
    Ok(())
}

/// Returns the text of an input's note, or an empty text if it has none.
fn noted(alloc: Global, input: &[u8]) -> Result<String, Fail> {
    match input_note(alloc, input)? {
        Some(note) => Ok(note.to_string(alloc)?),
        None => Ok(String::new(alloc)),
    }
}

/// The advice at the end of an odd group's text.
const ADVICE: &str = ": if the input is a dump with offsets, leave the offsets out";

/// Returns the text of an input's odd group without the advice, or an empty text if it has none.
fn odd(alloc: Global, input: &[u8]) -> Result<String, Fail> {
    match odd_group(input) {
        Some(group) => {
            let text = group.to_string(alloc)?;
            Ok(
                text.as_str()
                    .strip_suffix(ADVICE)
                    .unwrap_or("")
                    .to_string(alloc)?,
            )
        }
        None => Ok(String::new(alloc)),
    }
}

/// Checks the note and the odd group of a row.
fn assert_noted(alloc: Global, row: &str) -> Result<(), Fail> {
    let (input, rest) = first_field(row);
    let (note, group) = first_field(rest);
    let input = input.strip_suffix(" ").unwrap_or("").as_bytes();
    same(&noted(alloc, input)?.as_str(), &note.trim(), &row)?;
    same(&odd(alloc, input)?.as_str(), &group.trim(), &row)
}

#[test]
fn inputs_are_noted(rt: HostRuntime) -> Result<(), Fail> {
    for row in NOTED.lines() {
        assert_noted(rt.alloc(), row)?;
    }
    Ok(())
}
