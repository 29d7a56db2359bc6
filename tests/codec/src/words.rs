//! An operator's words: messages with and without them, as verdicts and as `show` prints them.
//!
//! XYZ is a press of a power from level 20 on, QQQ an arrangement of an arrangement from level 30 on.

use crate::judging::{LONGEST, body_of, judged};
use crate::messages::tokens_of_text;
use daide_frame::side::Side;
use daide_gate::frame_view::{Request, ShowFault, show, show_with};
use daide_grammar::level::Level;
use daide_grammar::level::Level::{L10, L20, L30, L50, L60};
use daide_grammar::side::Side2;
use daide_reader::reader::Reader;
use daide_reader::verdict::Verdict;
use daide_reader::verdict::Verdict::{Huh, Relay};
use daide_test_support::rows::{holds, same};
use daide_test_support::words::two_words;
use daide_token::token::Token;
use daide_words::{Extended, Words};
use linked_list_allocator::LocalHeap;
use std::alloc::{Allocator, Global};
use std::test::Fail;

/// Returns the verdict on a bot's message with a depth limit of 62, on the smallest sufficient stack.
fn verdict_on_512(words: Words, level: Level, body: &[u8]) -> Verdict {
    let mut reader: Reader<Extended, 512> = Reader::new(Extended::new(words), 62);
    judged(&mut reader, (Side2::Client, level), body, 512).0
}

/// Returns the verdict with a depth limit, on the stack of a session, which is sufficient for the greatest limit.
fn verdict_on_2048(words: Words, depth: u16, level: Level, body: &[u8]) -> Verdict {
    let mut reader: Reader<Extended, 2048> = Reader::new(Extended::new(words), depth);
    judged(&mut reader, (Side2::Client, level), body, 512).0
}

/// A bot's message, with #4a40 for XYZ and #4a41 for QQQ | its level | its verdict with the words | its verdict without
/// them.
type Message = (&'static str, Level, Verdict, Verdict);

#[rattlefmt::skip]
const MESSAGES: &[Message] = &[
    ("SND ( FRA ) ( #4a40 ( ENG ) )", L20, Relay, Huh(5)),
    ("SND ( FRA ) ( #4a40 ( ENG ) )", L60, Relay, Huh(5)),
    ("SND ( FRA ) ( #4a40 ( ENG ) )", L10, Huh(5), Huh(5)),
    ("SND ( FRA ) ( #4a40 ( ENG FRA ) )", L20, Huh(8), Huh(5)),
    ("SND ( FRA ) ( TRY ( #4a40 ) )", L10, Relay, Relay),
    ("SND ( FRA ) ( PRP ( #4a40 ( ENG ) ) )", L20, Huh(7), Huh(7)),
    ("SND ( FRA ) ( PRP ( #4a41 ( DRW ) ) )", L20, Huh(7), Huh(7)),
    ("SND ( FRA ) ( PRP ( AND ( #4a41 ( DRW ) ) ( DRW ) ) )", L30, Relay, Huh(9)),
    ("SND ( FRA ) ( PRP ( AND ( #4a41 ( AND ( DRW ) ( DRW ) ) ) ( DRW ) ) )", L30, Huh(11), Huh(9)),
    ("SND ( FRA ) ( PRP ( AND ( #4a41 ( AND ( DRW ) ( DRW ) ) ) ( DRW ) ) )", L50, Relay, Huh(9)),
    ("SND ( FRA ) ( FCT ( #4a41 ( QRY ( DRW ) ) ) )", L60, Huh(9), Huh(7)),
];

/// Returns the verdicts with the words and without them, of readers with both stack sizes.
fn verdicts(level: Level, body: &[u8]) -> ((Verdict, Verdict), (Verdict, Verdict)) {
    let with = verdict_on_512(two_words(), level, body);
    let without = verdict_on_512(Words::new(), level, body);
    let roomy_with = verdict_on_2048(two_words(), 254, level, body);
    let roomy_without = verdict_on_2048(Words::new(), 254, level, body);
    ((with, without), (roomy_with, roomy_without))
}

/// Returns the body of a message that is given as text.
fn body_of_text(alloc: Global, text: &str) -> Result<Vec<u8>, Fail> {
    let tokens = tokens_of_text(alloc, text)?;
    body_of(alloc, tokens.as_slice())
}

/// Checks that readers with both stack sizes have the verdicts of a row.
fn assert_message(alloc: Global, row: &Message) -> Result<(), Fail> {
    let (text, level, with, without) = row;
    let body = body_of_text(alloc, text)?;
    let want = (*with, *without);
    same(&verdicts(*level, body.as_slice()), &(want, want), row)
}

#[test]
fn words_stand_from_their_level(rt: HostRuntime) -> Result<(), Fail> {
    for row in MESSAGES {
        assert_message(rt.alloc(), row)?;
    }
    Ok(())
}

/// HUH with brackets | the verdict with a depth limit of 62 | the verdict with a depth limit of 254.
type Depth = (&'static str, Verdict, Verdict);

const DEPTHS: &[Depth] = &[
    ("HUH 62*( 62*)", Relay, Relay),
    ("HUH 63*( 63*)", Huh(63), Relay),
    ("HUH 254*( 254*)", Huh(63), Relay),
    ("HUH 255*( 255*)", Huh(63), Huh(255)),
];

/// Returns the verdicts with a depth limit of 62, of readers with both stack sizes, and with a limit of 254.
fn verdicts_by_depth(body: &[u8]) -> (Verdict, Verdict, Verdict) {
    let shallow = verdict_on_512(Words::new(), L10, body);
    let roomy = verdict_on_2048(Words::new(), 62, L10, body);
    let deep = verdict_on_2048(Words::new(), 254, L10, body);
    (shallow, roomy, deep)
}

/// Checks that readers with both stack sizes have the verdicts of a row.
fn assert_depth(alloc: Global, row: &Depth) -> Result<(), Fail> {
    let (text, shallow, deep) = row;
    let body = body_of_text(alloc, text)?;
    let told = verdicts_by_depth(body.as_slice());
    same(&told, &(*shallow, *shallow, *deep), row)
}

#[test]
fn as_deep_as_is_said_whatever_the_room(rt: HostRuntime) -> Result<(), Fail> {
    for row in DEPTHS {
        assert_depth(rt.alloc(), row)?;
    }
    Ok(())
}

/// The frame of a bot's message `SND ( FRA ) ( XYZ ( ENG ) )`.
const SENT: &[u8] = b"02000014 48174000 41024001 4000 4A40 4000 4101 4001 4001";

/// The level of the message | whether there are words | the output.
const SHOWN: &[(Level, bool, &str)] = &[
    (L20, true, "DM 20\nSND ( FRA ) ( XYZ ( ENG ) )\nrelay\n"),
    (
        L10,
        true,
        "DM 20\nSND ( FRA ) ( XYZ ( ENG ) )\nHUH at 5\nHUH ( SND ( FRA ) ( ERR XYZ ( ENG ) ) )\n",
    ),
    (
        L20,
        false,
        "DM 20\nSND ( FRA ) ( #4a40 ( ENG ) )\nHUH at 5\nHUH ( SND ( FRA ) ( ERR #4a40 ( ENG ) ) )\n",
    ),
];

/// Shows the frame at a level with the words, and returns whether it is relayed.
fn show_words<A: Allocator + Copy>(
    alloc: A,
    level: Level,
    output: &mut Vec<u8>,
) -> Result<bool, ShowFault> {
    let mut input = SENT;
    let request = Request {
        side: Side::Bot,
        level,
        words: &two_words(),
        is_explained: false,
    };
    show_with(alloc, &request, &mut input, output)
}

/// Shows the frame at a level with the words or without, and returns whether it is relayed.
fn show_frame<A: Allocator + Copy>(
    alloc: A,
    level: Level,
    has_words: bool,
    output: &mut Vec<u8>,
) -> Result<bool, ShowFault> {
    if has_words {
        return show_words(alloc, level, output);
    }
    let mut input = SENT;
    show(alloc, Side::Bot, level, &mut input, output)
}

/// Checks the output for the frame at a level, with the words or without.
fn assert_shown(alloc: Global, level: Level, has_words: bool, want: &str) -> Result<(), Fail> {
    let mut output = Vec::new(alloc);
    let shown = show_frame(alloc, level, has_words, &mut output);
    let is_shown = output.as_slice() == want.as_bytes();
    same(
        &(shown, is_shown),
        &(Ok(want.ends_with("relay\n")), true),
        &want,
    )
}

#[test]
fn words_are_shown_by_their_names(rt: HostRuntime) -> Result<(), Fail> {
    for (level, has_words, want) in SHOWN {
        assert_shown(rt.alloc(), *level, *has_words, want)?;
    }
    Ok(())
}

/// Shows the frame on a heap, and returns whether memory was sufficient. Returns `None` after any other fault.
fn is_shown_on(alloc: Global, heap: &LocalHeap, has_words: bool) -> Option<bool> {
    let mut output = Vec::new(alloc);
    match show_frame(heap, L20, has_words, &mut output) {
        Ok(is_relay) if is_relay == has_words => Some(true),
        Err(ShowFault::Memory) if output.is_empty() => Some(false),
        _ => None,
    }
}

/// The same on a heap of this size, which must be empty at the end.
fn shows_on_heap(alloc: Global, size: usize, has_words: bool) -> Result<bool, Fail> {
    let heap = LocalHeap::new(alloc, size)?;
    match is_shown_on(alloc, &heap, has_words) {
        Some(is_shown) if heap.used() == 0 => Ok(is_shown),
        _ => Err(Fail::new("the frame, or refused, and the heap")),
    }
}

/// Over heaps of growing size: a refused allocation is the only fault, and nothing is written.
fn assert_growths(alloc: Global, has_words: bool) -> Result<(), Fail> {
    let mut refused = 0u32;
    for unit in 0..96usize {
        // sizes grow by 16 bytes; the cutter allocates its 65,526 bytes at once
        let size = if unit < 32 {
            16 * unit
        } else {
            64_896 + 16 * unit
        };
        if !shows_on_heap(alloc, size, has_words)? {
            refused = refused.wrapping_add(1);
        }
    }
    holds(refused > 32 && refused < 96, "how many were refused")
}

#[test]
fn growths_of_show_refused_in_turn(rt: HostRuntime) -> Result<(), Fail> {
    assert_growths(rt.alloc(), true)?;
    assert_growths(rt.alloc(), false)
}
