//! Two sessions in a hub, one of which breaks. At every point of its conversation a side's stream ends, or a write to
//! it fails. It ends as it does alone, and the calls and bytes of the other are those that it has alone.

use crate::breaks::{ANSWERS, Break, Breaking, KINDS, TURNS, breaking_at, end_of};
use crate::relays::sent;
use crate::script::WIDEST;
use daide_driver::hub::Hub;
use daide_frame::side::Side::{Bot, Server};
use daide_test_support::rows::holds;
use std::alloc::Global;
use std::test::Fail;

/// A break at no call: calls are counted from 1.
const NOWHERE: Break = Break {
    is_put: false,
    side: Bot,
    number: 0,
};

/// Returns the ports of a session that breaks at a call, relayed alone.
fn alone_at(alloc: Global, at: Break) -> Result<Breaking, Fail> {
    let mut ports = breaking_at(alloc, ANSWERS, at);
    end_of(alloc, &mut ports)?;
    Ok(ports)
}

/// Checks that these ports had as many calls of each kind as those of a session alone, and accepted the same bytes.
fn assert_as_alone(alloc: Global, ports: &Breaking, alone: &Breaking) -> Result<(), Fail> {
    let calls = ports.ports.calls().unwrap_or(&[]);
    let alone_calls = alone.ports.calls().unwrap_or(&[]);
    let to_bot = sent(alloc, calls, Bot)? == sent(alloc, alone_calls, Bot)?;
    let to_server = sent(alloc, calls, Server)? == sent(alloc, alone_calls, Server)?;
    holds(ports.counts() == alone.counts(), "the calls")?;
    holds(to_bot && to_server, "the bytes")
}

/// Makes a turn of each session of a hub, from the first to the last.
fn turn_each(hub: &mut Hub<Breaking>) {
    for place in 0..hub.count() {
        if place < hub.count() {
            hub.turn(place);
        }
    }
}

/// Takes out the session at an index if it is closed, and returns its ports.
fn take_out(hub: &mut Hub<Breaking>, place: usize) -> Option<Breaking> {
    if place < hub.count() {
        hub.remove_over(place).map(|removed| removed.ports)
    } else {
        None
    }
}

/// Turns the sessions of a hub round by round, as many turns each as a relay makes. Takes out the session at an index
/// once it is closed, and returns its ports; the other one goes on.
fn play(hub: &mut Hub<Breaking>, place: usize) -> Option<Breaking> {
    let mut out = None;
    for _round in 0..TURNS {
        turn_each(hub);
        if out.is_none() {
            out = take_out(hub, place);
        }
    }
    out
}

/// Creates a hub of two sessions, which break at these calls.
fn hub_of(alloc: Global, first: Break, second: Break) -> Result<Hub<Breaking>, Fail> {
    let mut hub = Hub::new(alloc, WIDEST, 2)?;
    for at in [first, second] {
        holds(
            hub.add(breaking_at(alloc, ANSWERS, at)).is_ok(),
            "it is added",
        )?;
    }
    Ok(hub)
}

/// Checks that the last session of a hub had the same calls and bytes as alone.
fn assert_last(alloc: Global, hub: &Hub<Breaking>, alone: &Breaking) -> Result<(), Fail> {
    match hub.count() {
        0 => Err(Fail::new("no session is left")),
        count => assert_as_alone(alloc, hub.ports(count - 1), alone),
    }
}

/// Runs a session that breaks at a call beside one that breaks nowhere, and checks both. Returns whether the first was
/// closed.
fn goes_as_alone(alloc: Global, at: Break, is_first: bool, whole: &Breaking) -> Result<bool, Fail> {
    let (mut hub, place) = if is_first {
        (hub_of(alloc, at, NOWHERE)?, 0)
    } else {
        (hub_of(alloc, NOWHERE, at)?, 1)
    };
    match play(&mut hub, place) {
        Some(ports) => {
            assert_as_alone(alloc, &ports, &alone_at(alloc, at)?)?;
            assert_last(alloc, &hub, whole)?;
            Ok(true)
        }
        None => {
            assert_last(alloc, &hub, whole)?;
            Ok(false)
        }
    }
}

/// Returns how many sessions that break at calls of this number were closed, each beside one that goes on.
fn closed_at(alloc: Global, number: usize, whole: &Breaking) -> Result<usize, Fail> {
    let mut closed = 0_usize;
    for (is_put, side) in KINDS {
        let at = Break {
            is_put: *is_put,
            side: *side,
            number,
        };
        if goes_as_alone(alloc, at, number % 2 == 0, whole)? {
            closed = closed.saturating_add(1);
        }
    }
    Ok(closed)
}

#[test]
fn session_that_breaks_harms_no_neighbour(rt: HostRuntime) -> Result<(), Fail> {
    let whole = alone_at(rt.alloc(), NOWHERE)?;
    let mut closed = 0_usize;
    for number in 1..110 {
        closed = closed.saturating_add(closed_at(rt.alloc(), number, &whole)?);
    }
    holds(
        closed >= 60 + 14 + (26 + 32) + (34 + 20),
        "how many were closed",
    )
}
