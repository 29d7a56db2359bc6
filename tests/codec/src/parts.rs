//! Each part of each rule: left out, empty, repeated, or of a kind similar to its own.
//!
//! If a rule were wider or narrower than the protocol's in one part, one of these messages would have another verdict.
//! The expected verdicts are worked out from docs/PROTOCOL.md.

use crate::judging::assert_verdicts;
use std::test::Fail;

const REQUESTS: &str = "\
client 0 | NME ( 'Al' ) ( 'v12' ) | relay
client 0 | NME ( 'a' ) ( 'b' ) ( 'c' ) | huh 7
client 0 | NME ( FRA ) ( 'b' ) | huh 2
client 0 | NME ( 'a' ) ( FRA ) | huh 5
client 0 | IAM ( 1 ) | huh 2
client 0 | IAM ( ) ( 1 ) | huh 2
client 0 | IAM ( FRA ENG ) ( 1 ) | huh 3
client 0 | IAM ( FRA ) ( FRA ) ( 1 ) | huh 5
client 0 | IAM ( FRA ) ( ) | huh 5
client 0 | IAM ( FRA ) ( 'a' ) | huh 5
client 0 | IAM ( FRA ) ( 1 ) ( 1 ) | huh 7
client 0 | HST ( ) | huh 2
client 0 | HST ( 1901 ) | huh 2
client 0 | HST ( SPR 1901 1902 ) | huh 4
client 0 | HST ( SPR 'a' ) | huh 3
client 0 | HST ( SPR 1901 ) ( SPR 1901 ) | huh 5
client 0 | SUB SUB | huh 1
client 0 | TME ( 'a' ) | huh 2
client 0 | TME ( -1 ) ( -1 ) | huh 4
client 0 | DRW DRW | huh 1
client 0 | DRW ( FRA ) ( ENG ) | huh 4
client 0 | NOT | huh 1
client 0 | NOT ( GOF ) ( GOF ) | huh 4
client 0 | NOT ( SUB SUB ) | huh 3
client 0 | ADM ( 'a' ) ( 'b' ) ( 'c' ) | huh 7
client 0 | ADM ( FRA ) ( 'b' ) | huh 2
client 0 | ADM ( 'a' ) ( FRA ) | huh 5
client 0 | ( GOF ) | huh 0
client 10 | SND ( FRA ) | huh 4
client 10 | SND ( FRA ) ( ) | huh 5
client 10 | SND ( UNO ) ( TRY ( ) ) | huh 2
client 10 | SND ( FRA ) ( ENG ) ( TRY ( ) ) | huh 5
client 10 | SND ( FRA ) ( TRY ( ) ) ( TRY ( ) ) | huh 9
client 10 | SND ( FRA ) ( TRY ( ) TRY ( ) ) | huh 8
client 10 | SND ( SPR 1901 ) ( SPR 1901 ) ( FRA ) ( TRY ( ) ) | huh 6
";

#[test]
fn parts_of_requests(rt: HostRuntime) -> Result<(), Fail> {
    assert_verdicts(rt.alloc(), REQUESTS)
}

const ORDERS: &str = "\
client 0 | SUB ( HLD ) | huh 2
client 0 | SUB ( ( ) HLD ) | huh 3
client 0 | SUB ( ( UNO FLT NTH ) HLD ) | huh 3
client 0 | SUB ( ( ENG FRA FLT NTH ) HLD ) | huh 4
client 0 | SUB ( ( ENG AMY FLT NTH ) HLD ) | huh 5
client 0 | SUB ( ( ENG FLT NTH NWY ) HLD ) | huh 6
client 0 | SUB ( ( ENG FLT NTH MRT ( NWY ) ) HLD ) | huh 6
client 0 | SUB ( ( ENG FLT ( ) ) HLD ) | huh 6
client 0 | SUB ( ( ENG FLT ( NCS ) ) HLD ) | huh 6
client 0 | SUB ( ( ENG FLT ( STP NWY ) ) HLD ) | huh 7
client 0 | SUB ( ( ENG FLT ( ( STP NCS ) NCS ) ) HLD ) | huh 6
client 0 | SUB ( ( ENG FLT ( STP NCS SCS ) ) HLD ) | huh 8
client 0 | SUB ( ( ENG FLT NTH ) ( ENG FLT NTH ) HLD ) | huh 7
client 0 | SUB ( ( ENG FLT NTH ) NWY ) | huh 7
client 0 | SUB ( ( ENG FLT NTH ) MTO ( STP NCS ) ( STP SCS ) ) | huh 12
client 0 | SUB ( ( ENG FLT NTH ) SUP ( ) ) | huh 9
client 0 | SUB ( ( ENG FLT NTH ) SUP ( FRA AMY PAR MRT ( BUR ) ) ) | huh 12
client 0 | SUB ( ( ENG FLT NTH ) SUP ( FRA AMY PAR ) ( FRA AMY BUR ) ) | huh 13
client 0 | SUB ( ( ENG FLT NTH ) SUP ( FRA AMY PAR ) BUR ) | huh 13
client 0 | SUB ( ( ENG FLT NTH ) SUP ( FRA AMY PAR ) MTO ) | huh 14
client 0 | SUB ( ( ENG FLT NTH ) SUP ( FRA AMY PAR ) MTO BUR MAR ) | huh 15
client 0 | SUB ( ( ENG FLT NTH ) SUP ( FRA AMY PAR ) MTO BUR MTO MAR ) | huh 15
client 0 | SUB ( ( ENG FLT NTH ) CVY CTO NWY ) | huh 8
client 0 | SUB ( ( ENG FLT NTH ) CVY ( ) CTO NWY ) | huh 9
client 0 | SUB ( ( ENG FLT NTH ) CVY ( ENG AMY YOR MRT ( ) ) CTO NWY ) | huh 12
client 0 | SUB ( ( ENG FLT NTH ) CVY ( ENG AMY YOR ) NWY ) | huh 13
client 0 | SUB ( ( ENG FLT NTH ) CVY ( ENG AMY YOR ) CTO ) | huh 14
client 0 | SUB ( ( ENG FLT NTH ) CVY ( ENG AMY YOR ) CTO NWY SKA ) | huh 15
client 0 | SUB ( ( ENG AMY YOR ) CTO VIA ( NTH ) ) | huh 8
client 0 | SUB ( ( ENG AMY YOR ) CTO ( STP NCS ) VIA ( NTH ) ) | huh 8
client 0 | SUB ( ( ENG AMY YOR ) CTO NWY BEL VIA ( NTH ) ) | huh 9
client 0 | SUB ( ( ENG AMY YOR ) CTO NWY ( NTH ) ) | huh 9
client 0 | SUB ( ( ENG AMY YOR ) CTO NWY VIA ) | huh 10
client 0 | SUB ( ( ENG AMY YOR ) CTO NWY VIA ( ( STP NCS ) ) ) | huh 11
client 0 | SUB ( ( ENG AMY YOR ) CTO NWY VIA ( NTH ) ( SKA ) ) | huh 13
client 0 | SUB ( ( ENG FLT NTH ) RTO NWY SKA ) | huh 9
client 0 | SUB ( ENG ) | huh 3
client 0 | SUB ( WVE ) | huh 2
client 0 | SUB ( ENG FRA WVE ) | huh 3
client 0 | SUB ( ENG WVE WVE ) | huh 4
";

#[test]
fn parts_of_orders(rt: HostRuntime) -> Result<(), Fail> {
    assert_verdicts(rt.alloc(), ORDERS)
}

const REPLIES: &str = "\
client 0 | YES | huh 1
client 0 | YES ( ) | huh 2
client 0 | YES ( MAP ( FRA ) ) | huh 4
client 0 | YES ( MAP ( 'a' ) ( 'b' ) ) | huh 6
client 0 | YES ( MAP ( 'a' ) MAP ( 'b' ) ) | huh 6
client 0 | YES ( MAP ( 'a' ) ) ( MAP ( 'b' ) ) | huh 7
client 0 | YES ( SVE ) | huh 3
client 0 | YES ( SVE ( FRA ) ) | huh 4
client 0 | YES ( SVE ( 'a' ) ( 'b' ) ) | huh 6
client 0 | YES ( LOD ) | huh 3
client 0 | YES ( LOD ( FRA ) ) | huh 4
client 0 | YES ( LOD ( 'a' ) ( 'b' ) ) | huh 6
client 0 | REJ ( ) | huh 2
client 0 | REJ ( MAP ( 'a' ) SVE ( 'b' ) ) | huh 6
client 0 | REJ ( MAP ( 'a' ) ) ( SVE ( 'b' ) ) | huh 7
client 0 | HUH ( GOF ( ( ) OBS ) ( ) ) | relay
client 0 | HUH ( ) ( ) | huh 3
client 0 | HUH HUH ( ) | huh 1
";

#[test]
fn parts_of_replies_and_reports(rt: HostRuntime) -> Result<(), Fail> {
    assert_verdicts(rt.alloc(), REPLIES)
}

const MAPS: &str = "\
server 0 | MAP ( FRA ) | huh 2
server 0 | MAP ( 'a' ) ( 'b' ) | huh 4
server 0 | SVE | huh 1
server 0 | SVE ( FRA ) | huh 2
server 0 | SVE ( 'a' ) ( 'b' ) | huh 4
server 0 | LOD | huh 1
server 0 | LOD ( 'a' ) ( 'b' ) | huh 4
server 0 | MDF ( FRA ENG ) ( ( ( FRA PAR MAR ) ( UNO ) ( ( ENG GER ) BEL HOL ) ) ( GAS BUR ) ) ( ) | relay
server 0 | MDF ( FRA ) ( ( ) ( ) ) ( ( PAR ( AMY GAS BUR ) ( FLT ) ) \
    ( STP ( ( FLT NCS ) NWY ( BUL ECS ) BAR ) ( ( FLT SCS ) ) ) ) | relay
server 0 | MDF ( UNO ) ( ( ) ( ) ) ( ) | huh 2
server 0 | MDF ( ( ) ( ) ) ( ) | huh 2
server 0 | MDF ( FRA ) ( FRA ) ( ( ) ( ) ) ( ) | huh 5
server 0 | MDF ( FRA ) ( ) | huh 5
server 0 | MDF ( FRA ) ( ) ( ) | huh 5
server 0 | MDF ( FRA ) ( ( ) ) ( ) | huh 7
server 0 | MDF ( FRA ) ( ( ) ( ) ( ) ) ( ) | huh 9
server 0 | MDF ( FRA ) ( ( ) ( ) ) ( ) ( ) | huh 12
server 0 | MDF ( FRA ) ( ( ( ) ) ( ) ) ( ) | huh 7
server 0 | MDF ( FRA ) ( ( ( FRA ( STP NCS ) ) ) ( ) ) ( ) | huh 8
server 0 | MDF ( FRA ) ( ( ( ( UNO ) PAR ) ) ( ) ) ( ) | huh 8
server 0 | MDF ( FRA ) ( ( ) ( ( STP NCS ) ) ) ( ) | huh 8
server 0 | MDF ( FRA ) ( ( ) ( ) ) ( ( ( STP NCS ) ) ) | huh 12
server 0 | MDF ( FRA ) ( ( ) ( ) ) ( ( PAR GAS ) ) | huh 13
server 0 | MDF ( FRA ) ( ( ) ( ) ) ( ( PAR ( AMY FLT ) ) ) | huh 15
server 0 | MDF ( FRA ) ( ( ) ( ) ) ( ( STP ( ( NCS ) NWY ) ) ) | huh 15
server 0 | MDF ( FRA ) ( ( ) ( ) ) ( ( STP ( ( ) NWY ) ) ) | huh 15
server 0 | MDF ( FRA ) ( ( ) ( ) ) ( ( STP ( ( FLT ) NWY ) ) ) | huh 16
server 0 | MDF ( FRA ) ( ( ) ( ) ) ( ( STP ( ( FLT STP ) NWY ) ) ) | huh 16
server 0 | MDF ( FRA ) ( ( ) ( ) ) ( ( STP ( ( FLT NCS SCS ) NWY ) ) ) | huh 17
server 0 | MDF ( FRA ) ( ( ) ( ) ) ( ( STP ( ( FLT NCS ) ( FLT SCS ) NWY ) ) ) | huh 19
";

#[test]
fn parts_of_maps_and_saved_games(rt: HostRuntime) -> Result<(), Fail> {
    assert_verdicts(rt.alloc(), MAPS)
}

const STATES: &str = "\
server 0 | HLO ( ) ( 1 ) ( ) | huh 2
server 0 | HLO ( ( ENG ) ) ( 1 ) ( ) | huh 2
server 0 | HLO ( ENG ) ( ) ( ) | huh 5
server 0 | HLO ( ENG ) ( ENG ) ( 1 ) ( ) | huh 5
server 0 | HLO ( ENG ) ( 1 ) ( 1 ) ( ) | huh 8
server 0 | HLO ( ENG ) ( 1 ) ( ) ( ) | huh 9
server 0 | HLO ( ENG ) ( 1 ) ( ( LVL MRT ) ) | huh 10
server 0 | HLO ( ENG ) ( 1 ) ( ( ENG 1 ) ) | huh 9
server 0 | SCO ( ) | huh 2
server 0 | SCO ( ( FRA ) ( ENG ) PAR ) | huh 5
server 0 | NOW ( ) | huh 2
server 0 | NOW ( SPR 1901 ) ( ) | huh 6
server 0 | NOW ( SPR 1901 ) ( SPR 1901 ) | huh 6
server 0 | NOW ( SPR 1901 ) ( FRA AMY PAR ( ) ) | huh 9
server 0 | NOW ( SPR 1901 ) ( FRA AMY PAR MRT ( ) ( ) ) | huh 12
server 0 | NOW ( SPR 1901 ) ( FRA AMY PAR MRT MRT ( ) ) | huh 10
server 0 | THX ( ) ( MBV ) | huh 2
server 0 | THX ( MBV ) | huh 2
server 0 | THX ( ENG WVE ) ( ) | huh 6
server 0 | THX ( ENG WVE ) ( ENG WVE ) ( MBV ) | huh 6
server 0 | THX ( ENG WVE ) ( MBV ) ( MBV ) | huh 8
server 0 | ORD ( SPR 1901 ) ( ENG WVE ) | huh 9
server 0 | ORD ( ENG WVE ) ( SUC ) | huh 2
server 0 | ORD ( SPR 1901 ) ( SUC ) | huh 6
server 0 | ORD ( SPR 1901 ) ( ) ( SUC ) | huh 6
server 0 | ORD ( SPR 1901 ) ( ENG WVE ) ( ENG WVE ) ( SUC ) | huh 10
server 0 | ORD ( SPR 1901 ) ( ENG WVE ) ( SUC ) ( RET ) | huh 12
server 0 | TME ( ) | huh 2
server 0 | TME ( 'a' ) | huh 2
server 0 | TME ( 30 ) ( 30 ) | huh 4
";

#[test]
fn parts_of_what_a_server_tells_of_the_game(rt: HostRuntime) -> Result<(), Fail> {
    assert_verdicts(rt.alloc(), STATES)
}

const ANSWERS: &str = "\
server 0 | YES | huh 1
server 0 | YES ( ) | huh 2
server 0 | YES ( OBS OBS ) | huh 3
server 0 | YES ( OBS ) ( OBS ) | huh 4
server 0 | REJ | huh 1
server 0 | REJ ( OBS OBS ) | huh 3
server 0 | REJ ( OBS ) ( OBS ) | huh 4
server 0 | REJ ( HUH ( ) ) | huh 2
server 0 | CCD | huh 1
server 0 | CCD ( ) | huh 2
server 0 | CCD ( FRA ENG ) | huh 3
server 0 | CCD ( FRA ) ( ENG ) | huh 4
server 0 | NOT | huh 1
server 0 | NOT ( ) | huh 2
server 0 | NOT ( CCD ( ) ) | huh 4
server 0 | NOT ( CCD ( UNO ) ) | huh 4
server 0 | NOT ( CCD ( FRA ENG ) ) | huh 5
server 0 | NOT ( CCD ( FRA ) ( ENG ) ) | huh 6
server 0 | NOT ( CCD ( FRA ) ) ( CCD ( ENG ) ) | huh 7
server 0 | OUT | huh 1
server 0 | OUT ( ) | huh 2
server 0 | OUT ( UNO ) | huh 2
server 0 | OUT ( FRA ) ( ENG ) | huh 4
server 0 | SLO ( UNO ) | huh 2
server 0 | SLO ( FRA ENG ) | huh 3
server 0 | SLO ( FRA ) ( ENG ) | huh 4
server 0 | SMR | huh 1
server 0 | SMR ( ) | huh 2
server 0 | SMR ( FAL 1910 ) | relay
server 0 | SMR ( FAL 1910 ) ( FAL 1910 ) | huh 6
server 0 | SMR ( FAL 1910 ) ( ) | huh 6
server 0 | SMR ( FAL 1910 ) ( UNO ( ) ( ) 8 ) | huh 6
server 0 | SMR ( FAL 1910 ) ( FRA ENG ( ) ( ) 8 ) | huh 7
server 0 | SMR ( FAL 1910 ) ( FRA ( FRA ) ( ) 8 ) | huh 8
server 0 | SMR ( FAL 1910 ) ( FRA ( ) 8 ) | huh 9
server 0 | SMR ( FAL 1910 ) ( FRA ( ) ( FRA ) 8 ) | huh 10
server 0 | SMR ( FAL 1910 ) ( FRA ( ) ( ) ( ) 8 ) | huh 11
server 0 | SMR ( FAL 1910 ) ( FRA ( ) ( ) 'a' ) | huh 11
server 0 | ADM ( FRA ) ( 'b' ) | huh 2
server 0 | ADM ( 'a' ) ( FRA ) | huh 5
server 0 | ADM ( 'a' ) ( 'b' ) ( 'c' ) | huh 7
";

#[test]
fn parts_of_a_servers_answers_and_notices(rt: HostRuntime) -> Result<(), Fail> {
    assert_verdicts(rt.alloc(), ANSWERS)
}

const SENDS: &str = "\
server 10 | FRM ( ) ( ENG ) ( TRY ( ) ) | huh 2
server 10 | FRM ( UNO ) ( ENG ) ( TRY ( ) ) | huh 2
server 10 | FRM ( FRA ) ( ) ( TRY ( ) ) | huh 5
server 10 | FRM ( FRA ) ( UNO ) ( TRY ( ) ) | huh 5
server 10 | FRM ( FRA ) ( TRY ( ) ) | huh 5
server 10 | FRM ( FRA ) ( ENG ) | huh 7
server 10 | FRM ( FRA ) ( ENG ) ( ) | huh 8
server 10 | FRM ( FRA ) ( ENG ) ( GER ) ( TRY ( ) ) | huh 8
server 10 | FRM ( FRA ) ( ENG ) ( TRY ( ) ) ( TRY ( ) ) | huh 12
server 10 | CCD ( UNO ) ( SND ( FRA ) ( TRY ( ) ) ) | huh 2
server 10 | CCD ( FRA ENG ) ( SND ( FRA ) ( TRY ( ) ) ) | huh 3
server 10 | CCD ( SND ( FRA ) ( TRY ( ) ) ) | huh 2
server 10 | CCD ( FRA ) ( ) | huh 5
server 10 | CCD ( FRA ) ( OBS ) | huh 5
server 10 | CCD ( FRA ) ( SND ( FRA ) ( TRY ( ) ) ) ( SND ( FRA ) ( TRY ( ) ) ) | huh 15
server 10 | OUT ( UNO ) ( SND ( FRA ) ( TRY ( ) ) ) | huh 2
server 10 | OUT ( FRA ENG ) ( SND ( FRA ) ( TRY ( ) ) ) | huh 3
server 10 | OUT ( FRA ) ( ) | huh 5
server 10 | OUT ( FRA ) ( SND ( FRA ) ( TRY ( ) ) ) ( SND ( FRA ) ( TRY ( ) ) ) | huh 15
";

#[test]
fn parts_of_press_from_a_server(rt: HostRuntime) -> Result<(), Fail> {
    assert_verdicts(rt.alloc(), SENDS)
}

const PRESS: &str = "\
client 10 | SND ( FRA ) ( ( TRY ( ) ) ) | huh 5
client 10 | SND ( FRA ) ( PRP ) | huh 6
client 10 | SND ( FRA ) ( PRP ( ) ) | huh 7
client 10 | SND ( FRA ) ( PRP ( ( DRW ) ) ) | huh 7
client 10 | SND ( FRA ) ( PRP ( DRW DRW ) ) | huh 8
client 10 | SND ( FRA ) ( PRP ( DRW ) ( DRW ) ) | huh 9
client 10 | SND ( FRA ) ( FCT ) | huh 6
client 10 | SND ( FRA ) ( FCT ( ) ) | huh 7
client 10 | SND ( FRA ) ( FCT ( DRW DRW ) ) | huh 8
client 10 | SND ( FRA ) ( FCT ( DRW ) ( DRW ) ) | huh 9
client 10 | SND ( FRA ) ( TRY ) | huh 6
client 10 | SND ( FRA ) ( TRY ( ) ( ) ) | huh 8
client 10 | SND ( FRA ) ( YES ) | huh 6
client 10 | SND ( FRA ) ( YES ( ) ) | huh 7
client 10 | SND ( FRA ) ( YES ( TRY ( ) ) ( TRY ( ) ) ) | huh 11
client 10 | SND ( FRA ) ( REJ ) | huh 6
client 10 | SND ( FRA ) ( REJ ( ) ) | huh 7
client 10 | SND ( FRA ) ( REJ ( TRY ( ) ) ( TRY ( ) ) ) | huh 11
client 10 | SND ( FRA ) ( BWX ) | huh 6
client 10 | SND ( FRA ) ( BWX ( TRY ( ) ) ( TRY ( ) ) ) | huh 11
client 10 | SND ( FRA ) ( HUH ( ) ( ) ) | huh 8
client 60 | SND ( FRA ) ( INS ) | huh 6
client 60 | SND ( FRA ) ( INS ( ) ) | huh 7
client 60 | SND ( FRA ) ( INS ( DRW ) ( DRW ) ) | huh 9
client 60 | SND ( FRA ) ( INS ( AND ( DRW ) ( ORR ( DRW ) ( DRW ) ) ) ) | relay
client 60 | SND ( FRA ) ( QRY ) | huh 6
client 60 | SND ( FRA ) ( QRY ( ) ) | huh 7
client 60 | SND ( FRA ) ( QRY ( QRY ( DRW ) ) ) | huh 7
client 60 | SND ( FRA ) ( QRY ( DRW ) ( DRW ) ) | huh 9
client 60 | SND ( FRA ) ( QRY ( ORR ( DRW ) ( NOT ( DRW ) ) ) ) | relay
client 60 | SND ( FRA ) ( SUG ) | huh 6
client 60 | SND ( FRA ) ( SUG ( DRW ) ( DRW ) ) | huh 9
client 60 | SND ( FRA ) ( SUG ( AND ( DRW ) ( DRW ) ) ) | relay
client 60 | SND ( FRA ) ( THK ) | huh 6
client 60 | SND ( FRA ) ( THK ( ) ) | huh 7
client 60 | SND ( FRA ) ( THK ( DRW ) ( DRW ) ) | huh 9
client 60 | SND ( FRA ) ( IDK ) | huh 6
client 60 | SND ( FRA ) ( IDK ( ) ) | huh 7
client 60 | SND ( FRA ) ( IDK ( TRY ( ) ) ( TRY ( ) ) ) | huh 11
client 60 | SND ( FRA ) ( SRY ) | huh 6
client 60 | SND ( FRA ) ( SRY ( TRY ( ) ) ( TRY ( ) ) ) | huh 11
client 30 | SND ( FRA ) ( FCT ( AND ( DRW ) ( DRW ) ) ) | relay
client 60 | SND ( FRA ) ( FCT ( QRY ) ) | huh 8
client 60 | SND ( FRA ) ( FCT ( QRY ( ) ) ) | huh 9
client 60 | SND ( FRA ) ( FCT ( QRY ( DRW ) ( DRW ) ) ) | huh 11
client 60 | SND ( FRA ) ( FCT ( QRY ( AND ( DRW ) ( DRW ) ) ) ) | relay
client 60 | SND ( FRA ) ( FCT ( NOT ) ) | huh 8
client 60 | SND ( FRA ) ( FCT ( NOT ( ) ) ) | huh 9
client 60 | SND ( FRA ) ( FCT ( NOT ( QRY ( DRW ) ) ( DRW ) ) ) | huh 14
";

#[test]
fn parts_of_press(rt: HostRuntime) -> Result<(), Fail> {
    assert_verdicts(rt.alloc(), PRESS)
}

const ARRANGEMENTS: &str = "\
client 10 | SND ( FRA ) ( PRP ( PCE ) ) | huh 8
client 10 | SND ( FRA ) ( PRP ( PCE ( UNO ) ) ) | huh 9
client 10 | SND ( FRA ) ( PRP ( PCE ( FRA ) ( ENG ) ) ) | huh 11
client 10 | SND ( FRA ) ( PRP ( ALY VSS ( GER ) ) ) | huh 8
client 10 | SND ( FRA ) ( PRP ( ALY ( ) VSS ( GER ) ) ) | huh 9
client 10 | SND ( FRA ) ( PRP ( ALY ( UNO ) VSS ( GER ) ) ) | huh 9
client 10 | SND ( FRA ) ( PRP ( ALY ( FRA ) ( ENG ) VSS ( GER ) ) ) | huh 11
client 10 | SND ( FRA ) ( PRP ( ALY ( FRA ) VSS ) ) | huh 12
client 10 | SND ( FRA ) ( PRP ( ALY ( FRA ) VSS ( ) ) ) | huh 13
client 10 | SND ( FRA ) ( PRP ( ALY ( FRA ) VSS ( UNO ) ) ) | huh 13
client 10 | SND ( FRA ) ( PRP ( ALY ( FRA ) VSS ( GER ITA AUS ) ) ) | relay
client 10 | SND ( FRA ) ( PRP ( ALY ( FRA ) VSS ( GER ) ( ITA ) ) ) | huh 15
client 10 | SND ( FRA ) ( PRP ( SLO ( ) ) ) | huh 9
client 10 | SND ( FRA ) ( PRP ( SLO ( UNO ) ) ) | huh 9
client 10 | SND ( FRA ) ( PRP ( SLO ( FRA ) ( ENG ) ) ) | huh 11
client 10 | SND ( FRA ) ( PRP ( NOT ( DRW ) ( DRW ) ) ) | huh 11
client 20 | SND ( FRA ) ( PRP ( XDO ) ) | huh 8
client 20 | SND ( FRA ) ( PRP ( XDO ( ENG WVE ENG WVE ) ) ) | huh 11
client 20 | SND ( FRA ) ( PRP ( XDO ( ENG WVE ) ( FRA WVE ) ) ) | huh 12
client 20 | SND ( FRA ) ( PRP ( DMZ ( ) ( PIC ) ) ) | huh 9
client 20 | SND ( FRA ) ( PRP ( DMZ ( UNO ) ( PIC ) ) ) | huh 9
client 20 | SND ( FRA ) ( PRP ( DMZ ( FRA ) ) ) | huh 11
client 20 | SND ( FRA ) ( PRP ( DMZ ( FRA ) ( ( STP NCS ) ) ) ) | huh 12
client 20 | SND ( FRA ) ( PRP ( DMZ ( FRA ) ( ENG ) ( PIC ) ) ) | huh 12
client 20 | SND ( FRA ) ( PRP ( DMZ ( FRA ) ( PIC ) ( ECH ) ) ) | huh 14
client 30 | SND ( FRA ) ( PRP ( AND ( DRW ) ( DRW ) ( DRW ) ) ) | relay
client 30 | SND ( FRA ) ( PRP ( AND ( ) ( DRW ) ) ) | huh 9
client 30 | SND ( FRA ) ( PRP ( AND ( DRW DRW ) ( DRW ) ) ) | huh 10
client 30 | SND ( FRA ) ( PRP ( AND ( DRW ) ( ) ) ) | huh 12
client 30 | SND ( FRA ) ( PRP ( AND ( NOT ( ) ) ( DRW ) ) ) | huh 11
client 30 | SND ( FRA ) ( PRP ( AND ( DRW ) ( AND ( DRW ) ( DRW ) ) ) ) | huh 12
client 30 | SND ( FRA ) ( PRP ( ORR ( DRW ) ) ) | huh 11
client 30 | SND ( FRA ) ( PRP ( ORR ( ) ( DRW ) ) ) | huh 9
client 30 | SND ( FRA ) ( PRP ( ORR ( DRW ) ( ) ) ) | huh 12
client 30 | SND ( FRA ) ( PRP ( ORR ( DRW ) ( AND ( DRW ) ( DRW ) ) ) ) | huh 12
client 50 | SND ( FRA ) ( PRP ( ORR ( DRW ) ( AND ( DRW ) ( DRW ) ) ) ) | relay
client 40 | SND ( FRA ) ( PRP ( SCD ( ) ) ) | huh 9
client 40 | SND ( FRA ) ( PRP ( SCD ( UNO PAR ) ) ) | huh 9
client 40 | SND ( FRA ) ( PRP ( SCD ( FRA ( STP NCS ) ) ) ) | huh 10
client 40 | SND ( FRA ) ( PRP ( OCC ) ) | huh 8
client 40 | SND ( FRA ) ( PRP ( OCC ( ) ) ) | huh 9
client 40 | SND ( FRA ) ( PRP ( OCC ( FRA AMY PAR MRT ( ) ) ) ) | huh 12
client 40 | SND ( FRA ) ( PRP ( OCC ( FRA AMY PAR FRA AMY BUR ) ) ) | huh 12
";

#[test]
fn parts_of_arrangements(rt: HostRuntime) -> Result<(), Fail> {
    assert_verdicts(rt.alloc(), ARRANGEMENTS)
}
