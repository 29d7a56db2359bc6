//! Whole ranges of sizes: hubs of each size, sessions with each depth limit and each body cap, and the longest bodies.

use crate::relays::{NEVER, QUIET};
use crate::script::{WIDEST, bytes_of, script_of};
use daide_driver::hub::{AddFault, Hub};
use daide_frame::side::Side::{self, Bot, Server};
use daide_io::ports::{ClockEvent, Ports};
use daide_protocol::config::Config;
use daide_session::session::Session;
use daide_test_support::memory_ports::MemoryPorts;
use daide_test_support::rows::{holds, same};
use daide_test_support::words::two_words;
use std::alloc::Global;
use std::test::Fail;

/// The limits with the smallest body cap.
const SMALL: Config = Config {
    max_body: 512,
    ..WIDEST
};

/// Checks that a hub of this size can be created, without words and with them.
fn assert_hub(alloc: Global, max: usize) -> Result<(), Fail> {
    let plain = Hub::<MemoryPorts<'_>>::new(alloc, SMALL, max);
    same(&plain.err(), &None, &max)?;
    let worded = Hub::<MemoryPorts<'_>>::with_limits(alloc, SMALL.limits()?, max, two_words());
    same(&worded.err(), &None, &max)
}

#[test]
fn hub_of_each_size(rt: HostRuntime) -> Result<(), Fail> {
    for max in 1..=256usize {
        assert_hub(rt.alloc(), max)?;
    }
    Ok(())
}

/// Adds a session, and checks its index.
fn add(alloc: Global, hub: &mut Hub<MemoryPorts<'static>>, want: usize) -> Result<(), Fail> {
    match hub.add(MemoryPorts::new(alloc, QUIET, QUIET, NEVER)) {
        Ok(place) => same(&place, &want, &"its place"),
        Err(_) => Err(Fail::new("refused")),
    }
}

/// Checks that a full hub returns the same ports, whose timer expires at once.
fn assert_full(alloc: Global, hub: &mut Hub<MemoryPorts<'static>>) -> Result<(), Fail> {
    match hub.add(MemoryPorts::new(alloc, QUIET, QUIET, 0)) {
        Ok(_) => Err(Fail::new("a full hub")),
        Err((fault, mut ports)) => {
            let is_same = ports.clock(false) == ClockEvent::ImTimeIsOver;
            holds(fault == AddFault::Full && is_same, "the very ports")
        }
    }
}

/// Fills a hub of this size, and checks that one more session is refused.
fn assert_filled(alloc: Global, max: usize) -> Result<(), Fail> {
    let mut hub = Hub::new(alloc, SMALL, max)?;
    for place in 0..max {
        add(alloc, &mut hub, place)?;
    }
    assert_full(alloc, &mut hub)?;
    same(&hub.count(), &max, &"how many")
}

#[test]
fn hub_is_full_at_its_size(rt: HostRuntime) -> Result<(), Fail> {
    for max in 1..=256usize {
        assert_filled(rt.alloc(), max)?;
    }
    Ok(())
}

/// Checks that a session with these limits can be created, without words and with them.
fn assert_session(alloc: Global, config: Config) -> Result<(), Fail> {
    let plain = Session::new(alloc, config);
    same(&plain.err(), &None, &(config.max_body, config.max_depth))?;
    let worded = Session::with_words(alloc, config, two_words());
    same(&worded.err(), &None, &(config.max_body, config.max_depth))
}

#[test]
fn session_of_each_depth(rt: HostRuntime) -> Result<(), Fail> {
    for max_depth in 4..=254u16 {
        assert_session(
            rt.alloc(),
            Config {
                max_depth,
                ..WIDEST
            },
        )?;
    }
    Ok(())
}

#[test]
fn session_of_each_body(rt: HostRuntime) -> Result<(), Fail> {
    for half in 256..=32_763u16 {
        let max_body = half.saturating_mul(2);
        assert_session(rt.alloc(), Config { max_body, ..WIDEST })?;
    }
    Ok(())
}

/// A longest frame of the bot | the bytes that the bot then gets | the bytes that the server then gets.
#[rattlefmt::skip]
const LONGEST: &[(&str, &str, &str)] = &[
    // HUH ( GOF .. GOF ) is relayed
    ("02 00 FF F6 4806 4000 32760*4803 4001", "", "02 00 FF F6 4806 4000 32760*4803 4001"),
    // GOF .. GOF ( gets PRN
    ("02 00 FF F6 32762*4803 4000", "02 00 FF FC 4813 4000 32762*4803 4000 4001", ""),
    // HUH .. HUH gets HUH, and so does HUH ( GOF .. GOF ) GOF
    ("02 00 FF F6 32763*4806", "02 00 FF FE 4806 4000 4806 4902 32762*4806 4001", ""),
    (
        "02 00 FF F6 4806 4000 32759*4803 4001 4803",
        "02 00 FF FE 4806 4000 4806 4000 32759*4803 4001 4902 4803 4001",
        "",
    ),
    // one token more is above the cap
    ("02 00 FF F8", "04 00 00 02 00 08", "03 00 00 00"),
];

/// Feeds a side's frame in pieces, and checks the bytes that both sides get.
fn assert_longest(
    alloc: Global,
    side: Side,
    row: &(&str, &str, &str),
    piece: usize,
) -> Result<(), Fail> {
    let (frame, back, on) = row;
    let mut script = script_of(alloc, WIDEST)?;
    script.open(alloc, piece)?;
    let bytes = bytes_of(alloc, frame)?;
    script.say(side, bytes.as_slice(), piece)?;
    let other = if side == Bot { Server } else { Bot };
    script.assert_sent(alloc, side, back)?;
    script.assert_sent(alloc, other, on)
}

/// Checks each longest frame, sent by a side.
fn assert_all_longest(alloc: Global, side: Side, piece: usize) -> Result<(), Fail> {
    for row in LONGEST {
        assert_longest(alloc, side, row, piece)?;
    }
    Ok(())
}

#[test]
fn longest_bodies_of_each_verdict(rt: HostRuntime) -> Result<(), Fail> {
    assert_all_longest(rt.alloc(), Bot, 512)
}

#[test]
fn longest_bodies_of_the_server(rt: HostRuntime) -> Result<(), Fail> {
    assert_all_longest(rt.alloc(), Server, 65_530)
}
