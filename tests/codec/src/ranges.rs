//! Whole ranges of sizes: the result is right and memory is sufficient at each size.

use daide_frame::side::Side::Bot;
use daide_gate::frame_view::show;
use daide_gate::settings::{SettingsError, read_settings};
use daide_grammar::level::Level;
use daide_log::check::check_log;
use daide_test_support::rows::{holds, same};
use daide_token::text::write_text;
use std::alloc::Global;
use std::test::Fail;

/// Returns a log of `sessions` sessions, in which the timer of the last one expires.
fn log_of(alloc: Global, sessions: usize) -> Result<String, Fail> {
    Ok(format!(in alloc; "daide-log 2\nconfig 60 512 16 {sessions} 0\n{sessions} timer\n")?)
}

/// Checks that such a log has one fault.
fn assert_log(alloc: Global, sessions: usize) -> Result<(), Fail> {
    let log = log_of(alloc, sessions)?;
    let mut report = Vec::new(alloc);
    let summary = check_log(alloc, &mut log.as_bytes(), &mut report);
    holds(
        matches!(summary, Ok(seen) if seen.faults == 1),
        log.as_str(),
    )
}

#[test]
fn log_of_each_number_of_sessions(rt: HostRuntime) -> Result<(), Fail> {
    for sessions in 1..=256usize {
        assert_log(rt.alloc(), sessions)?;
    }
    Ok(())
}

/// Checks that a log with these limits has an empty report.
fn assert_log_limits(alloc: Global, body: u16, depth: u16) -> Result<(), Fail> {
    let log = format!(in alloc; "daide-log 1\nconfig 60 {body} {depth}\n")?;
    let summary = check_log(alloc, &mut log.as_bytes(), &mut Vec::new(alloc));
    holds(
        matches!(summary, Ok(seen) if seen.faults == 0),
        log.as_str(),
    )
}

/// Checks that settings with these limits are accepted.
fn assert_limits(alloc: Global, body: u16, depth: u16, sessions: u16) -> Result<(), Fail> {
    let text = format!(in alloc;
        "listen = \"a:1\"\nserver = \"b:2\"\nmax_body = {body}\nmax_depth = {depth}\n\
        max_sessions = {sessions}\n"
    )?;
    let settings = read_settings(alloc, text.as_str())?;
    let read = (settings.config.max_body, settings.config.max_depth);
    same(&read, &(body, depth), &"limits")?;
    same(
        &settings.max_sessions,
        &usize::from(sessions),
        &"max_sessions",
    )
}

/// Checks logs with each depth limit and each even body cap.
#[test]
fn log_of_each_limit(rt: HostRuntime) -> Result<(), Fail> {
    for depth in 4..=254u16 {
        assert_log_limits(rt.alloc(), 512, depth)?;
    }
    for half in 256..=32_763u16 {
        assert_log_limits(rt.alloc(), half.saturating_mul(2), 62)?;
    }
    Ok(())
}

/// Checks settings with each depth limit, each number of sessions at once, and body caps throughout their range.
#[test]
fn settings_of_each_limit(rt: HostRuntime) -> Result<(), Fail> {
    for depth in 4..=254u16 {
        assert_limits(rt.alloc(), depth.saturating_mul(256), depth, 16)?;
    }
    for sessions in 1..=256u16 {
        assert_limits(
            rt.alloc(),
            sessions.saturating_mul(2).saturating_add(60_000),
            62,
            sessions,
        )?;
    }
    Ok(())
}

/// Appends a hexadecimal digit.
fn push_digit(text: &mut String, digit: u8) -> Result<(), Fail> {
    let digit = char::from_digit(u32::from(digit), 16);
    Ok(text.push(digit.unwrap_or('0'))?)
}

/// Returns the frame of a message of `tokens` GOF in hexadecimal digits, after `blanks` blanks.
fn shown_input(alloc: Global, tokens: u16, blanks: u16) -> Result<String, Fail> {
    let bytes = tokens.saturating_mul(2);
    let mut input = String::new(alloc);
    for _blank in 0..blanks {
        input.push(' ')?;
    }
    input.push_str("0200")?;
    for byte in &bytes.to_be_bytes() {
        push_digit(&mut input, byte / 16)?;
        push_digit(&mut input, byte % 16)?;
    }
    for _token in 0..tokens {
        input.push_str("4803")?;
    }
    Ok(input)
}

/// Checks that a message of one GOF is relayed, and one of any other number is not.
fn assert_shown(alloc: Global, tokens: u16, blanks: u16) -> Result<(), Fail> {
    let input = shown_input(alloc, tokens, blanks)?;
    let mut output = Vec::new(alloc);
    let shown = show(alloc, Bot, Level::L0, &mut input.as_bytes(), &mut output);
    same(&shown, &Ok(tokens == 1), &tokens)
}

/// Checks inputs of each length from 8 bytes to 811.
#[test]
fn frame_of_each_length_is_shown(rt: HostRuntime) -> Result<(), Fail> {
    for tokens in 0..=200u16 {
        for blanks in 0..4u16 {
            assert_shown(rt.alloc(), tokens, blanks)?;
        }
    }
    Ok(())
}

/// A text before a comment | its fault, or empty if it has none. Each has 31 bytes.
#[rattlefmt::skip]
const FRONTS: &[(&str, &str)] = &[
    ("listen = \"a:1\"\nserver = \"b:2\"\n#", ""),
    ("listen = \"a:1\"\nserver = \"b\"  \n#", "server out of range"),
    ("listen = \"a:1\"\nserver ; \"b:2\"\n#", "settings are not TOML"),
];

/// Checks texts of `size` bytes, most of which are a comment.
fn assert_settings_of(alloc: Global, size: usize) -> Result<(), Fail> {
    for (front, fault) in FRONTS {
        let mut text = String::from_str(alloc, front)?;
        for _letter in front.len()..size {
            text.push('a')?;
        }
        let found = match read_settings(alloc, text.as_str()) {
            Ok(_) => String::new(alloc),
            Err(fault) => fault.to_string(alloc)?,
        };
        same(&found.as_str(), fault, &size)?;
    }
    Ok(())
}

/// Checks settings of each power of two of bytes, of one less and of one more.
#[test]
fn settings_of_any_length(rt: HostRuntime) -> Result<(), Fail> {
    for power in 5..=16u32 {
        let size = 1usize << power;
        for size in [size - 1, size, size + 1] {
            assert_settings_of(rt.alloc(), size)?;
        }
    }
    Ok(())
}

/// Checks documents of each power of two of unknown keys, of one less and of one more.
#[test]
fn settings_of_any_number_of_keys(rt: HostRuntime) -> Result<(), Fail> {
    let mut text = String::new(rt.alloc());
    let mut keys = 0usize;
    for power in 1..=12u32 {
        let count = 1usize << power;
        for count in [count - 1, count, count + 1] {
            for key in keys..count {
                text.push_str(format!(in rt.alloc(); "k{key} = {key}\n")?.as_str())?;
            }
            keys = keys.max(count);
            let found = read_settings(rt.alloc(), text.as_str()).err();
            same(&found, &Some(SettingsError::Unknown), &count)?;
        }
    }
    Ok(())
}

/// Returns the bytes of a token, repeated.
fn repeated(alloc: Global, token: [u8; 2], times: usize) -> Result<Vec<u8>, Fail> {
    let mut bytes = Vec::new(alloc);
    for _time in 0..times {
        bytes.extend_from_slice(&token)?;
    }
    Ok(bytes)
}

/// Returns the text of a token, repeated.
fn text_of(alloc: Global, token: [u8; 2], times: usize) -> Result<Vec<u8>, Fail> {
    let tokens = repeated(alloc, token, times)?;
    let mut written = Vec::new(alloc);
    if tokens.len() % 2 == 0 {
        write_text(tokens.as_slice(), &mut written)?;
    }
    Ok(written)
}

/// Checks the text of `times` tokens `#4a12`, separated by spaces, and of `times` letters in quotes.
fn assert_texts(alloc: Global, times: usize) -> Result<(), Fail> {
    let words = text_of(alloc, [0x4A, 0x12], times)?;
    let are_words = words
        .as_slice()
        .chunks(6)
        .all(|word| word.starts_with(b"#4a12"));
    let length = times.saturating_mul(6).saturating_sub(1);
    holds(are_words && words.len() == length, "words")?;
    let run = text_of(alloc, [0x4B, 0x61], times)?;
    let letters = run.iter().filter(|letter| **letter == b'a').count();
    holds(
        letters == times && run.len() == times.saturating_add(2),
        "a run",
    )
}

#[test]
fn text_of_the_longest_body(rt: HostRuntime) -> Result<(), Fail> {
    for times in &[1, 2, 256, 4_096, 32_500, 32_501, 32_762, 32_763] {
        assert_texts(rt.alloc(), *times)?;
    }
    Ok(())
}
