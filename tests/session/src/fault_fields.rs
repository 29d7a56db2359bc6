//! The field of the frame that each fault is about, as an operator sees it.

use crate::script::{Act, IM, RM, WIDEST, script_of};
use daide_driver::fault_field;
use daide_frame::side::Side::{Bot, Server};
use daide_gate::{Config, FaultField};
use daide_test_support::rows::same;
use std::alloc::Global;
use std::test::Fail;

/// Limits with a short cap, so that a header can be above it.
const SHORT: Config = Config {
    max_body: 512,
    ..WIDEST
};

/// The size of a piece that has any frame whole.
const WHOLE: usize = 65_530;

/// A session before any frame, after the IM, and after the RM.
const NEW: &[Act] = &[];

const HALF_OPEN: &[Act] = &[Act::Says(Bot, IM)];

const OPEN: &[Act] = &[Act::Says(Bot, IM), Act::Says(Server, RM)];

/// What precedes the event that ends a session | that event | the field of the fault. The codes are 02 to 09, 0A to 0D, and
/// 0E; then 0E in a later frame, 01 in the middle of an IM, and no fault in the middle of a DM.
#[rattlefmt::skip]
const FIELDS: &[(&[Act], Act, Option<FaultField>)] = &[
    (NEW, Act::Says(Bot, "02 00 00 06"), Some(FaultField::Kind(2))),
    (NEW, Act::Says(Bot, "00 00 04 00"), Some(FaultField::Length(0x0400))),
    (NEW, Act::Says(Bot, "00 00 00 04 00 02 10 DA"), Some(FaultField::MagicNumber(0x10DA))),
    (NEW, Act::Says(Bot, "00 00 00 04 00 02 12 34"), Some(FaultField::MagicNumber(0x1234))),
    (NEW, Act::Says(Bot, "00 00 00 04 00 02 DA 10"), Some(FaultField::Version(2))),
    (OPEN, Act::Says(Bot, "00 00 00 04"), Some(FaultField::Kind(0))),
    (OPEN, Act::Says(Server, "00 00 00 04"), Some(FaultField::Kind(0))),
    (OPEN, Act::Says(Bot, "07 00 00 02"), Some(FaultField::Kind(7))),
    (OPEN, Act::Says(Server, "02 00 02 02"), Some(FaultField::Length(0x0202))),
    (NEW, Act::Says(Server, "01 00 00 06"), Some(FaultField::Kind(1))),
    (OPEN, Act::Says(Bot, "02 00 00 03"), Some(FaultField::Length(3))),
    (HALF_OPEN, Act::Says(Bot, "02 00 00 06"), Some(FaultField::Kind(2))),
    (HALF_OPEN, Act::Says(Server, "02 00 00 06"), Some(FaultField::Kind(2))),
    (OPEN, Act::Says(Server, "01 00 00 06"), Some(FaultField::Kind(1))),
    (OPEN, Act::Says(Bot, "01 00 00 06"), Some(FaultField::Kind(1))),
    (OPEN, Act::Says(Bot, "02 00 00 06 48 03 60 00"), Some(FaultField::Token(0x6000, 6))),
    (
        &[Act::Says(Bot, IM), Act::Says(Server, RM), Act::Says(Server, "02 00 00 04 48 0F 48 03")],
        Act::Says(Server, "02 00 00 02 58 01"),
        Some(FaultField::Token(0x5801, 4)),
    ),
    (&[Act::Says(Bot, "00 00 00 04 00 02")], Act::ImTimerExpired, None),
    (&[Act::Says(Bot, IM), Act::Says(Server, RM), Act::Says(Bot, "02 00 00 06 48 03")], Act::Ends(Bot), None),
];

/// Checks the field of a session's fault, once nothing waits for its wires.
fn assert_field(alloc: Global, row: &(&[Act], Act, Option<FaultField>)) -> Result<(), Fail> {
    let (before, ends, want) = *row;
    let mut script = script_of(alloc, SHORT)?;
    script.play_all(alloc, before, WHOLE)?;
    script.play(alloc, ends, WHOLE)?;
    script.session.drop_waiting(Bot);
    script.session.drop_waiting(Server);
    if !script.session.is_closed() {
        return Err(Fail::new("the session is closed"));
    }
    same(&fault_field(&script.session), &want, &"the field")
}

#[test]
fn each_fault_has_its_field(rt: HostRuntime) -> Result<(), Fail> {
    for row in FIELDS {
        assert_field(rt.alloc(), row)?;
    }
    Ok(())
}

/// A field | its place in the frame.
const PLACES: &[(FaultField, usize)] = &[
    (FaultField::Kind(2), 0),
    (FaultField::Length(3), 2),
    (FaultField::Version(2), 4),
    (FaultField::MagicNumber(0x1234), 6),
    (FaultField::Token(0x6000, 8), 8),
];

#[test]
fn fields_have_their_places(_rt: HostRuntime) -> Result<(), Fail> {
    for (field, place) in PLACES {
        same(&field.place(), place, field)?;
    }
    Ok(())
}
