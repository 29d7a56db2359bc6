//! The worked examples of verdicts, by their names in docs/EXAMPLES.md.

use crate::judging::{assert_courses, assert_verdicts};
use std::test::Fail;

const ORDERS: &str = "\
client 0 | SUB ( SPR 1901 ) ( ( ENG FLT NTH ) MTO ( STP NCS ) ) | relay
client 0 | SUB ( ENG WVE ) | relay
client 0 | TME ( -1 ) | relay
client 0 | SUB ( ( ENG FLT NTH ) CTO NWY ) | huh 9
";

#[test]
fn orders_are_relayed(rt: HostRuntime) -> Result<(), Fail> {
    assert_verdicts(rt.alloc(), ORDERS)
}

const REPLIES: &str = "\
client 0 | YES ( MAP ( 'a' ) ) | relay
client 0 | YES ( GOF ) | huh 2
";

#[test]
fn replies_are_no_requests(rt: HostRuntime) -> Result<(), Fail> {
    assert_verdicts(rt.alloc(), REPLIES)
}

const BRACKETS_AND_BUILDS: &str = "\
client 0 | NME ( 'a' ( ) 'b' ) | huh 3
server 0 | MIS ( FRA AMY BUR MRT ( PAR ( SPA SCS ) ) ) | relay
server 0 | MIS ( -1 ) | relay
server 0 | MIS | relay
server 60 | MIS | relay
";

#[test]
fn brackets_inside_text_and_lists_of_builds(rt: HostRuntime) -> Result<(), Fail> {
    assert_verdicts(rt.alloc(), BRACKETS_AND_BUILDS)
}

const SERVER: &str = "\
server 0 | HLO ( ENG ) ( 1234 ) ( ( LVL 10 ) ) | relay
server 0 | MDF ( FRA ) ( ( ( FRA PAR ) ( UNO ) ) ( GAS ) ) ( ( PAR ( AMY GAS ) ) \
    ( GAS ( AMY PAR ) ( ( FLT NCS ) SPA ) ) ) | relay
server 0 | SCO ( FRA PAR ) ( UNO BEL ) | relay
server 0 | YES ( NOT ( GOF ) ) | relay
server 0 | SCO ( FRA PAR ) FRA | huh 5
";

#[test]
fn server_messages_are_relayed(rt: HostRuntime) -> Result<(), Fail> {
    assert_verdicts(rt.alloc(), SERVER)
}

const UNDELIVERED: &str = "\
server 0 | CCD ( FRA ) ( SND ( FRA ) ( PRP ( PCE ( ENG FRA ) ) ) ) | huh 4
server 10 | CCD ( FRA ) ( SND ( FRA ) ( PRP ( PCE ( ENG FRA ) ) ) ) | relay
server 10 | OUT ( FRA ) ( OBS ) | huh 5
server 0 | CCD ( FRA ) | relay
server 10 | CCD ( FRA ) | relay
";

#[test]
fn undelivered_press_comes_back_from_level_10(rt: HostRuntime) -> Result<(), Fail> {
    assert_verdicts(rt.alloc(), UNDELIVERED)
}

const PRESS: &str = "\
client 0 | SND ( FRA ) ( TRY ( DRW ) ) | huh 0
client 10 | SND ( FRA ) ( PRP ( XDO ( ( FRA AMY PAR ) HLD ) ) ) | huh 7
client 20 | SND ( FRA ) ( PRP ( XDO ( ( FRA AMY PAR ) HLD ) ) ) | relay
client 30 | SND ( FRA ) ( PRP ( AND ( DRW ) ) ) | huh 11
";

#[test]
fn press_by_level(rt: HostRuntime) -> Result<(), Fail> {
    assert_verdicts(rt.alloc(), PRESS)
}

const NESTED: &str = "\
client 30 | SND ( FRA ) ( PRP ( AND ( AND ( DRW ) ( DRW ) ) ( DRW ) ) ) | huh 9
client 50 | SND ( FRA ) ( PRP ( AND ( AND ( DRW ) ( DRW ) ) ( DRW ) ) ) | relay
";

#[test]
fn nested_and_needs_level_50(rt: HostRuntime) -> Result<(), Fail> {
    assert_verdicts(rt.alloc(), NESTED)
}

const FACTS: &str = "\
client 50 | SND ( FRA ) ( FCT ( NOT ( QRY ( DRW ) ) ) ) | huh 9
client 60 | SND ( FRA ) ( FCT ( NOT ( QRY ( DRW ) ) ) ) | relay
client 60 | SND ( FRA ) ( FCT ( NOT ( NOT ( QRY ( DRW ) ) ) ) ) | relay
client 60 | SND ( FRA ) ( PRP ( NOT ( QRY ( DRW ) ) ) ) | huh 9
";

#[test]
fn facts_by_level(rt: HostRuntime) -> Result<(), Fail> {
    assert_verdicts(rt.alloc(), FACTS)
}

const DEPTHS: &str = "\
client 0 | HUH 62*( 62*) | relay
client 0 | HUH 63*( 63*) | huh 63
";

#[test]
fn one_bracket_too_deep_gets_huh(rt: HostRuntime) -> Result<(), Fail> {
    assert_verdicts(rt.alloc(), DEPTHS)
}

const LONGEST: &str = "client 0 | 32763*GOF | huh 1";

#[test]
fn longest_body_gets_huh(rt: HostRuntime) -> Result<(), Fail> {
    assert_verdicts(rt.alloc(), LONGEST)
}

#[test]
fn each_table_has_the_same_course(rt: HostRuntime) -> Result<(), Fail> {
    for rows in [
        ORDERS,
        BRACKETS_AND_BUILDS,
        SERVER,
        PRESS,
        NESTED,
        FACTS,
        DEPTHS,
        LONGEST,
    ] {
        assert_courses(rt.alloc(), rows)?;
    }
    Ok(())
}

/// The worked examples whose bytes on both connections are in `daide_session_tests`.
const ANSWERED: &str = "\
client 0 | NME ( 'a' ) ( 'b' ) | relay
client 0 | GOF ( | prn
client 0 | NME ( 'a' ) GOF | huh 4
client 0 | NME ( 'a' ) GOF ( | prn
client 0 | NME ( 'a' ) | huh 4
client 0 |  | huh 0
client 0 | PRN ( ( ) | relay
client 0 | PRN ( ( | prn
client 0 | GOF ) ( | prn
client 0 | #4a12 | huh 0
";

#[test]
fn frames_of_the_worked_answers(rt: HostRuntime) -> Result<(), Fail> {
    assert_verdicts(rt.alloc(), ANSWERED)
}
