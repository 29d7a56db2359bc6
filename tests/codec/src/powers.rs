//! Frames and explanations of messages whose size is a power of two, one less, or one more.

use daide_frame::side::Side::Bot;
use daide_gate::frame_view::{Request, show_input};
use daide_grammar::level::Level;
use daide_test_support::rows::same;
use daide_text::write_frames;
use daide_words::Words;
use std::alloc::Global;
use std::io::Write;
use std::test::Fail;

/// The greatest power of two at which the message is not too long.
const MOST: usize = 16_384;

/// Appends a text as often as this.
fn repeat(text: &mut Vec<u8>, part: &str, count: usize) -> Result<(), Fail> {
    for _part in 0..count {
        text.extend_from_slice(part.as_bytes())?;
    }
    Ok(())
}

/// Checks the frame of a line of GOF, as often as this.
fn assert_framed(alloc: Global, count: usize) -> Result<(), Fail> {
    let mut line = Vec::new(alloc);
    repeat(&mut line, "GOF ", count)?;
    let mut frame = Vec::new(alloc);
    let (high, low) = (2 * count / 256, 2 * count % 256);
    write!(frame, "02 00 {high:02X} {low:02X}")?;
    repeat(&mut frame, " 48 03", count)?;
    frame.push(b'\n')?;
    let mut output = Vec::new(alloc);
    let found = write_frames(alloc, &Words::new(), &mut line.as_slice(), &mut output);
    let is_so = output.as_slice() == frame.as_slice();
    same(&(found, is_so), &(Ok(()), true), &count)
}

/// Returns the digits of `NME ( '..' ) GOF` with a text of this many characters.
fn input_of(alloc: Global, count: usize) -> Result<Vec<u8>, Fail> {
    let mut input = Vec::new(alloc);
    let bytes = 2 * count + 8;
    write!(input, "0200{bytes:04X}480C4000")?;
    repeat(&mut input, "4B61", count)?;
    repeat(&mut input, "40014803", 1)?;
    Ok(input)
}

/// Returns what is shown for it: ERR is before GOF, where a second group is expected.
fn text_of(alloc: Global, count: usize) -> Result<Vec<u8>, Fail> {
    let mut text = Vec::new(alloc);
    let (bytes, place) = (2 * count + 8, count + 3);
    write!(text, "DM {bytes}\nNME ( '")?;
    repeat(&mut text, "a", count)?;
    write!(text, "' ) GOF\nHUH at {place}\nHUH ( NME ( '")?;
    repeat(&mut text, "a", count)?;
    repeat(&mut text, "' ) ERR GOF )\nexpected: (\n", 1)?;
    Ok(text)
}

/// Checks what is shown for it, with the explanation.
fn assert_explained(alloc: Global, count: usize) -> Result<(), Fail> {
    let request = Request {
        side: Bot,
        level: Level::L60,
        words: &Words::new(),
        is_explained: true,
    };
    let input = input_of(alloc, count)?;
    let mut output = Vec::new(alloc);
    let found = show_input(alloc, &request, input.as_slice(), &mut output);
    let text = text_of(alloc, count)?;
    let is_so = output.as_slice() == text.as_slice();
    same(&(found, is_so), &(Ok(false), true), &count)
}

/// Checks the frame and the explanation of messages of this size.
fn assert_size(alloc: Global, count: usize) -> Result<(), Fail> {
    assert_framed(alloc, count)?;
    assert_explained(alloc, count)
}

#[test]
fn messages_of_each_power_of_two(rt: HostRuntime) -> Result<(), Fail> {
    let mut power = 2;
    while power <= MOST {
        for count in power - 1..=power + 1 {
            assert_size(rt.alloc(), count)?;
        }
        power *= 2;
    }
    assert_framed(rt.alloc(), 32_763)?;
    assert_explained(rt.alloc(), 32_759)
}
