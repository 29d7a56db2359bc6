//! Lines of a match's log.

use daide_frame::Side;
use daide_log::config_line::{MatchConfig, read_match_config};
use daide_log_lines::event_line::{MOST, ParsedEvent};
use daide_log_lines::match_line::{ParsedMatchEvent, is_match_name, read_match_event};
use daide_protocol::config::Config;
use daide_test_support::rows::same;
use std::test::Fail;

const CONFIG: Config = Config {
    top_level: 60,
    max_body: 1024,
    max_depth: 16,
};

/// A first line | whether it begins the log of a match.
const NAMES: &[(&[u8], bool)] = &[
    (b"daide-log 2", true),
    (b"daide-log 1", false),
    (b"daide-log 3", false),
];

#[test]
fn first_line_of_a_match(_rt: HostRuntime) -> Result<(), Fail> {
    for (line, is_name) in NAMES {
        same(&is_match_name(line), is_name, line)?;
    }
    Ok(())
}

/// A second line | its number of sessions | its number of words.
const SIZES: &[(&[u8], u16, u16)] = &[
    (b"config 60 1024 16 2 1", 2, 1),
    (b"config 60 1024 16 1 0", 1, 0),
    (b"config 60 1024 16 256 16", 256, 16),
];

/// Second lines that are refused.
const NO_SIZES: &[&[u8]] = &[
    b"config 60 1024 16",
    b"config 60 1024 16 2",
    b"config 60 1024 16 0 1",
    b"config 60 1024 16 257 1",
    b"config 60 1024 16 2 17",
    b"config 60 1024 16 02 1",
    b"config 60 1024 16 2 01",
    b"config 60 1024 16 2 1 ",
    b"config 61 1024 16 2 1",
];

#[test]
fn sessions_and_words_of_a_match(_rt: HostRuntime) -> Result<(), Fail> {
    for (line, sessions, words) in SIZES {
        let config = MatchConfig {
            config: CONFIG,
            sessions: *sessions,
            words: *words,
        };
        same(&read_match_config(line), &Some(config), line)?;
    }
    for line in NO_SIZES {
        same(&read_match_config(line), &None, line)?;
    }
    Ok(())
}

/// A line in a match of two sessions | its event.
const EVENTS: &[(&[u8], ParsedMatchEvent)] = &[
    (
        b"2 timer",
        ParsedMatchEvent::Of(2, ParsedEvent::ImTimerLine),
    ),
    (b"1 stop", ParsedMatchEvent::Of(1, ParsedEvent::StopLine)),
    (
        b"1 end bot",
        ParsedMatchEvent::Of(1, ParsedEvent::EndOf(Side::Bot)),
    ),
    (
        b"1 server 01000000",
        ParsedMatchEvent::Of(1, ParsedEvent::Received(Side::Server, 4)),
    ),
    (b"", ParsedMatchEvent::Quiet),
    (b"# 3 timer", ParsedMatchEvent::Quiet),
];

/// Lines that are refused in a match of two sessions.
const NO_EVENTS: &[&[u8]] = &[
    b"3 timer",
    b"0 timer",
    b"01 timer",
    b"1 ",
    b"1 #",
    b"1",
    b"1  timer",
    b"timer",
    b" 1 timer",
];

#[test]
fn events_of_the_sessions_of_a_match(_rt: HostRuntime) -> Result<(), Fail> {
    let mut bytes = [0; MOST];
    for (line, told) in EVENTS {
        same(&read_match_event(line, 2, &mut bytes), &Some(*told), line)?;
    }
    for line in NO_EVENTS {
        same(&read_match_event(line, 2, &mut bytes), &None, line)?;
    }
    Ok(())
}
