//! Each rule of the grammar: a message that follows it, and one that differs by a token.
//!
//! The expected verdicts are worked out from docs/PROTOCOL.md.

use crate::judging::assert_verdicts;
use std::test::Fail;

const REQUESTS: &str = "\
client 0 | NME ( 'a' ) ( 'b' ) | relay
client 0 | NME ( ) ( ) | relay
client 0 | NME ( 'a' ) | huh 4
client 0 | OBS | relay
client 0 | OBS OBS | huh 1
client 0 | IAM ( FRA ) ( 1234 ) | relay
client 0 | IAM ( FRA ) ( FRA ) | huh 5
client 0 | IAM ( UNO ) ( 1 ) | huh 2
client 0 | HLO | relay
client 0 | HLO ( ENG ) | huh 1
client 0 | MAP | relay
client 0 | MAP ( 'a' ) | huh 1
client 0 | MDF | relay
client 0 | MDF ( ) | huh 1
client 0 | SCO | relay
client 0 | SCO ( FRA PAR ) | huh 1
client 0 | NOW | relay
client 0 | NOW NOW | huh 1
client 0 | ORD | relay
client 0 | ORD ( SPR 1901 ) | huh 1
client 0 | HST ( SPR 1901 ) | relay
client 0 | HST | huh 1
client 0 | HST ( SPR ) | huh 3
client 0 | HST ( 1901 SPR ) | huh 2
client 0 | SUB | relay
client 0 | SUB ( SPR 1901 ) | relay
client 0 | SUB ( SPR 1901 ) ( SPR 1901 ) | huh 6
client 0 | SUB ( ) | huh 2
client 0 | SUB ( ENG WVE ) ( FRA WVE ) | relay
client 0 | SUB ( ENG WVE ) FRA | huh 5
client 0 | MIS | relay
client 0 | MIS ( -1 ) | huh 1
client 0 | GOF | relay
client 0 | GOF GOF | huh 1
client 0 | TME | relay
client 0 | TME ( -1 ) | relay
client 0 | TME ( ) | huh 2
client 0 | TME ( 1 2 ) | huh 3
client 0 | DRW | relay
client 0 | DRW ( FRA ) | relay
client 0 | DRW ( ) | huh 2
client 0 | DRW ( FRA UNO ) | huh 3
client 0 | NOT ( SUB ) | relay
client 0 | NOT ( SUB ( SPR 1901 ) ( ENG WVE ) ) | relay
client 0 | NOT ( GOF ) | relay
client 0 | NOT ( TME ) | relay
client 0 | NOT ( TME ( 30 ) ) | relay
client 0 | NOT ( DRW ) | relay
client 0 | NOT ( DRW ( FRA ) ) | relay
client 0 | NOT ( OBS ) | huh 2
client 0 | NOT ( ) | huh 2
client 0 | NOT GOF | huh 1
client 0 | NOT ( GOF GOF ) | huh 3
client 0 | ADM ( 'a' ) ( 'b' ) | relay
client 0 | ADM ( 'a' ) | huh 4
client 0 | OFF | huh 0
client 0 | CCD ( FRA ) | huh 0
client 0 | SND ( FRA ) ( TRY ( ) ) | huh 0
client 0 | #4a12 | huh 0
";

#[test]
fn requests_of_the_client(rt: HostRuntime) -> Result<(), Fail> {
    assert_verdicts(rt.alloc(), REQUESTS)
}

const ORDERS: &str = "\
client 0 | SUB ( ( ENG FLT NTH ) HLD ) | relay
client 0 | SUB ( ( ENG FLT NTH ) ) | huh 7
client 0 | SUB ( ( ENG FLT NTH ) MTO NWY ) | relay
client 0 | SUB ( ( ENG FLT NTH ) MTO ) | huh 8
client 0 | SUB ( ( ENG FLT NTH ) MTO ( STP NCS ) ) | relay
client 0 | SUB ( ( ENG FLT NTH ) MTO ( STP ) ) | huh 10
client 0 | SUB ( ( ENG FLT NTH ) SUP ( FRA AMY PAR ) ) | relay
client 0 | SUB ( ( ENG FLT NTH ) SUP ) | huh 8
client 0 | SUB ( ( ENG FLT NTH ) SUP ( FRA AMY PAR ) MTO BUR ) | relay
client 0 | SUB ( ( ENG FLT NTH ) SUP ( FRA AMY PAR ) MTO ( STP NCS ) ) | huh 14
client 0 | SUB ( ( ENG FLT NTH ) CVY ( ENG AMY YOR ) CTO NWY ) | relay
client 0 | SUB ( ( ENG FLT NTH ) CVY ( ENG AMY YOR ) ) | huh 13
client 0 | SUB ( ( ENG FLT NTH ) CVY ( ENG AMY YOR ) CTO ( STP NCS ) ) | huh 14
client 0 | SUB ( ( ENG AMY YOR ) CTO NWY VIA ( NTH ) ) | relay
client 0 | SUB ( ( ENG AMY YOR ) CTO NWY VIA ( NTH SKA ) ) | relay
client 0 | SUB ( ( ENG AMY YOR ) CTO NWY VIA ( ) ) | huh 11
client 0 | SUB ( ( ENG AMY YOR ) CTO NWY ) | huh 9
client 0 | SUB ( ( ENG FLT NTH ) RTO NWY ) | relay
client 0 | SUB ( ( ENG FLT NTH ) RTO ) | huh 8
client 0 | SUB ( ( ENG FLT NTH ) DSB ) | relay
client 0 | SUB ( ( ENG FLT NTH ) DSB NWY ) | huh 8
client 0 | SUB ( ( ENG FLT LON ) BLD ) | relay
client 0 | SUB ( ( ENG FLT LON ) BLD BLD ) | huh 8
client 0 | SUB ( ( ENG FLT LON ) REM ) | relay
client 0 | SUB ( ( ENG FLT LON ) REM LON ) | huh 8
client 0 | SUB ( ENG WVE ) | relay
client 0 | SUB ( ENG HLD ) | huh 3
client 0 | SUB ( UNO WVE ) | huh 2
client 0 | SUB ( ( ENG NTH ) HLD ) | huh 4
client 0 | SUB ( ( FLT NTH ) HLD ) | huh 3
client 0 | SUB ( ( RUS FLT ( STP SCS ) ) HLD ) | relay
client 0 | SUB ( ( RUS FLT ( STP ) ) HLD ) | huh 7
client 0 | SUB ( ( ENG FLT NTH ) CTO NWY ) | huh 9
";

#[test]
fn orders(rt: HostRuntime) -> Result<(), Fail> {
    assert_verdicts(rt.alloc(), ORDERS)
}

const REPLIES: &str = "\
client 0 | YES ( MAP ( 'a' ) ) | relay
client 0 | REJ ( SVE ( 'a' ) ) | relay
client 0 | YES ( LOD ( ) ) | relay
client 0 | YES ( MAP ) | huh 3
client 0 | YES ( GOF ) | huh 2
client 0 | REJ | huh 1
client 0 | REJ ( MAP ( 'a' ) ) ) | prn
client 0 | HUH ( ) | relay
client 0 | HUH ( GOF ( ) ) | relay
client 0 | HUH | huh 1
client 0 | HUH GOF | huh 1
client 0 | HUH ( ) GOF | huh 3
client 0 | PRN ( ) | relay
client 0 | PRN ( ( ) | relay
client 0 | PRN ( ) ) ) | relay
client 0 | PRN | prn
client 0 | PRN ( | prn
client 0 | PRN ( ( | prn
client 0 | PRN GOF | prn
client 0 |  | huh 0
client 0 | GOF ) ( | prn
server 0 | HUH ( GOF ) | relay
server 0 | PRN ( ( ) | relay
server 0 | HUH ) | prn
server 0 |  | huh 0
";

#[test]
fn replies_and_reports(rt: HostRuntime) -> Result<(), Fail> {
    assert_verdicts(rt.alloc(), REPLIES)
}

const SERVER: &str = "\
server 0 | MAP ( 'a' ) | relay
server 0 | MAP | huh 1
server 0 | MDF ( FRA ) ( ( ) ( ) ) ( ) | relay
server 0 | MDF ( ) ( ( ) ( ) ) ( ) | huh 2
server 0 | MDF ( FRA ) ( ( ( FRA PAR ) ) ( GAS ) ) | huh 15
server 0 | MDF ( FRA ) ( ( ( FRA FRA ) ) ( ) ) ( ) | huh 8
server 0 | MDF ( FRA ) ( ( ( ( FRA ENG ) PAR ) ) ( ) ) ( ) | relay
server 0 | MDF ( FRA ) ( ( ( ( ) PAR ) ) ( ) ) ( ) | huh 8
server 0 | MDF ( FRA ) ( ( ) ( ) ) ( ( PAR ) ) | relay
server 0 | MDF ( FRA ) ( ( ) ( ) ) ( ( ) ) | huh 12
server 0 | MDF ( FRA ) ( ( ) ( ) ) ( ( PAR ( AMY ) ) ) | relay
server 0 | MDF ( FRA ) ( ( ) ( ) ) ( ( PAR ( AMY GAS ( STP NCS ) ) ) ) | relay
server 0 | MDF ( FRA ) ( ( ) ( ) ) ( ( PAR ( ) ) ) | huh 14
server 0 | MDF ( FRA ) ( ( ) ( ) ) ( ( STP ( ( FLT NCS ) NWY ) ) ) | relay
server 0 | MDF ( FRA ) ( ( ) ( ) ) ( ( STP ( ( AMY NCS ) NWY ) ) ) | huh 15
server 0 | MDF | huh 1
server 0 | HLO ( UNO ) ( 0 ) ( ) | relay
server 0 | HLO ( ENG ) ( 1234 ) ( ( AOA ) ( BTL 30 ) ) | relay
server 0 | HLO ( ENG ) ( 1234 ) ( ( MRT ) ( UNO ) ) | relay
server 0 | HLO ( ENG ) ( 1234 ) ( LVL 10 ) | huh 8
server 0 | HLO ( ENG ) ( 1234 ) ( ( LVL 10 10 ) ) | huh 11
server 0 | HLO ( ENG ) ( 1234 ) ( ( ) ) | huh 9
server 0 | HLO ( ENG ) ( 1234 ) | huh 7
server 0 | HLO | huh 1
server 0 | SCO | relay
server 0 | SCO ( FRA ) | relay
server 0 | SCO ( ( FRA ENG ) PAR ) | relay
server 0 | SCO ( PAR ) | huh 2
server 0 | NOW ( SPR 1901 ) | relay
server 0 | NOW ( SPR 1901 ) ( FRA AMY PAR ) | relay
server 0 | NOW ( SPR 1901 ) ( FRA AMY PAR MRT ( ) ) | relay
server 0 | NOW ( SPR 1901 ) ( FRA AMY PAR MRT ) | huh 10
server 0 | NOW ( FRA AMY PAR ) | huh 2
server 0 | NOW | huh 1
server 0 | THX ( ( ENG FLT NTH ) HLD ) ( MBV ) | relay
server 0 | THX ( ( ENG FLT NTH ) HLD ) ( SUC ) | huh 10
server 0 | THX ( ( ENG FLT NTH ) HLD ) ( MBV MBV ) | huh 11
server 0 | THX ( ( ENG FLT NTH ) HLD ) | huh 9
server 0 | MIS ( FRA AMY BUR ) ( FRA AMY PAR ) | relay
server 0 | MIS ( -1 ) ( -1 ) | huh 4
server 0 | MIS ( FRA AMY BUR ) ( -1 ) | huh 7
server 0 | MIS ( ) | huh 2
server 0 | ORD ( SPR 1901 ) ( ( ENG FLT NTH ) HLD ) ( SUC ) | relay
server 0 | ORD ( SPR 1901 ) ( ( ENG FLT NTH ) HLD ) ( MBV RET ) | relay
server 0 | ORD ( SPR 1901 ) ( ( ENG FLT NTH ) HLD ) ( ) | huh 14
server 0 | ORD | huh 1
server 0 | TME ( 30 ) | relay
server 0 | TME | huh 1
server 0 | YES ( NOT ( GOF ) ) | relay
server 0 | YES ( NME ( 'a' ) ( 'b' ) ) | relay
server 0 | YES ( MAP ) | relay
server 0 | YES ( MAP ( 'a' ) ) | huh 3
server 0 | YES ( HUH ( ) ) | huh 2
server 0 | REJ ( OBS ) | relay
server 0 | REJ ( ) | huh 2
server 0 | CCD ( FRA ) | relay
server 0 | CCD ( UNO ) | huh 2
server 0 | NOT ( CCD ( FRA ) ) | relay
server 0 | NOT ( CCD ) | huh 3
server 0 | NOT ( GOF ) | huh 2
server 0 | OUT ( FRA ) | relay
server 0 | OUT ( FRA ENG ) | huh 3
server 0 | SLO ( FRA ) | relay
server 0 | SLO ( ) | huh 2
server 0 | DRW ( FRA ENG ) | relay
server 0 | DRW ( ) | huh 2
server 0 | OFF | relay
server 0 | OFF OFF | huh 1
server 0 | SMR ( FAL 1910 ) ( FRA ( 'n' ) ( 'v' ) 8 ) ( ENG ( ) ( ) 0 1905 ) | relay
server 0 | SMR ( FAL 1910 ) ( FRA ( 'n' ) ( 'v' ) ) | huh 13
server 0 | SMR ( FAL 1910 ) ( FRA ( 'n' ) ( 'v' ) 8 1905 1 ) | huh 15
server 0 | SVE ( 'a' ) | relay
server 0 | LOD ( 1 ) | huh 2
server 0 | ADM ( 'a' ) 'b' | huh 4
server 0 | NME ( 'a' ) ( 'b' ) | huh 0
server 0 | FRM ( FRA ) ( ENG ) ( TRY ( ) ) | huh 0
";

#[test]
fn messages_of_the_server(rt: HostRuntime) -> Result<(), Fail> {
    assert_verdicts(rt.alloc(), SERVER)
}

const PRESS: &str = "\
client 10 | SND ( SPR 1901 ) ( FRA ) ( PRP ( PCE ( ENG FRA ) ) ) | relay
client 10 | SND ( SPR 1901 ) ( PRP ( DRW ) ) | huh 6
client 10 | SND ( ) ( TRY ( ) ) | huh 2
client 10 | SND ( FRA ENG ) ( TRY ( ) ) | relay
client 10 | SND ( FRA ) ( TRY ( PRP PCE 1 'a' FRA #4a12 ) ) | relay
client 10 | SND ( FRA ) ( TRY ( ( ) ) ) | huh 7
client 10 | SND ( FRA ) ( FCT ( DRW ) ) | relay
client 10 | SND ( FRA ) ( YES ( PRP ( DRW ) ) ) | relay
client 10 | SND ( FRA ) ( YES ( DRW ) ) | huh 7
client 10 | SND ( FRA ) ( REJ ( PRP ( DRW ) ) ) | relay
client 10 | SND ( FRA ) ( BWX ( PRP ( DRW ) ) ) | relay
client 10 | SND ( FRA ) ( BWX ( ) ) | huh 7
client 10 | SND ( FRA ) ( HUH ( PRP ( ) ) ) | relay
client 10 | SND ( FRA ) ( HUH ) | huh 6
client 10 | SND ( FRA ) ( PRN ( ) ) | huh 5
client 50 | SND ( FRA ) ( INS ( DRW ) ) | huh 5
client 60 | SND ( FRA ) ( INS ( DRW ) ) | relay
client 60 | SND ( FRA ) ( INS ( QRY ( DRW ) ) ) | huh 7
client 50 | SND ( FRA ) ( QRY ( DRW ) ) | huh 5
client 60 | SND ( FRA ) ( QRY ( DRW ) ) | relay
client 50 | SND ( FRA ) ( SUG ( DRW ) ) | huh 5
client 60 | SND ( FRA ) ( SUG ( DRW ) ) | relay
client 60 | SND ( FRA ) ( SUG ( ) ) | huh 7
client 50 | SND ( FRA ) ( THK ( DRW ) ) | huh 5
client 60 | SND ( FRA ) ( THK ( NOT ( QRY ( DRW ) ) ) ) | relay
client 50 | SND ( FRA ) ( IDK ( PRP ( DRW ) ) ) | huh 5
client 60 | SND ( FRA ) ( IDK ( QRY ( DRW ) ) ) | relay
client 60 | SND ( FRA ) ( IDK ( DRW ) ) | huh 7
client 50 | SND ( FRA ) ( SRY ( PRP ( DRW ) ) ) | huh 5
client 60 | SND ( FRA ) ( SRY ( PRP ( DRW ) ) ) | relay
client 60 | SND ( FRA ) ( FCT ( AND ( QRY ( DRW ) ) ( DRW ) ) ) | huh 9
client 60 | SND ( FRA ) ( FCT ( QRY ( DRW ) ) ) | relay
client 50 | SND ( FRA ) ( FCT ( QRY ( DRW ) ) ) | huh 7
server 10 | FRM ( FRA ) ( ENG GER ) ( PRP ( DRW ) ) | relay
server 10 | FRM ( FRA ENG ) ( GER ) ( TRY ( ) ) | huh 3
server 10 | YES ( SND ( FRA ) ( PRP ( DRW ) ) ) | relay
server 0 | YES ( SND ( FRA ) ( PRP ( DRW ) ) ) | huh 2
server 10 | CCD ( FRA ) ( SND ( FRA ) ( PRP ( PCE ( ENG FRA ) ) ) ) | relay
server 10 | OUT ( FRA ) ( SND ( FRA ) ( PRP ( DRW ) ) ) | relay
server 0 | OUT ( FRA ) ( SND ( FRA ) ( PRP ( DRW ) ) ) | huh 4
server 10 | NOT ( CCD ( FRA ) ( SND ( FRA ) ( PRP ( DRW ) ) ) ) | huh 6
server 10 | SLO ( FRA ) ( SND ( FRA ) ( PRP ( DRW ) ) ) | huh 4
";

#[test]
fn press(rt: HostRuntime) -> Result<(), Fail> {
    assert_verdicts(rt.alloc(), PRESS)
}

const ARRANGEMENTS: &str = "\
client 10 | SND ( FRA ) ( PRP ( PCE ( FRA ENG ) ) ) | relay
client 10 | SND ( FRA ) ( PRP ( PCE ( ) ) ) | huh 9
client 10 | SND ( FRA ) ( PRP ( ALY ( FRA ENG ) VSS ( GER ) ) ) | relay
client 10 | SND ( FRA ) ( PRP ( ALY ( FRA ) ) ) | huh 11
client 10 | SND ( FRA ) ( PRP ( SLO ( FRA ) ) ) | relay
client 10 | SND ( FRA ) ( PRP ( SLO ( FRA ENG ) ) ) | huh 10
client 10 | SND ( FRA ) ( PRP ( DRW ( FRA ENG ) ) ) | relay
client 10 | SND ( FRA ) ( PRP ( DRW ( ) ) ) | huh 9
client 10 | SND ( FRA ) ( PRP ( NOT ( DRW ) ) ) | relay
client 10 | SND ( FRA ) ( PRP ( NOT ( ) ) ) | huh 9
client 10 | SND ( FRA ) ( PRP ( XDO ( ENG WVE ) ) ) | huh 7
client 20 | SND ( FRA ) ( PRP ( XDO ( ENG WVE ) ) ) | relay
client 20 | SND ( FRA ) ( PRP ( XDO ( ) ) ) | huh 9
client 10 | SND ( FRA ) ( PRP ( DMZ ( FRA ENG ) ( PIC ECH ) ) ) | huh 7
client 20 | SND ( FRA ) ( PRP ( DMZ ( FRA ENG ) ( PIC ECH ) ) ) | relay
client 20 | SND ( FRA ) ( PRP ( DMZ ( FRA ) ( ) ) ) | huh 12
client 20 | SND ( FRA ) ( PRP ( AND ( DRW ) ( DRW ) ) ) | huh 7
client 30 | SND ( FRA ) ( PRP ( AND ( DRW ) ( DRW ) ) ) | relay
client 30 | SND ( FRA ) ( PRP ( AND ( DRW ) ) ) | huh 11
client 20 | SND ( FRA ) ( PRP ( ORR ( DRW ) ( DRW ) ) ) | huh 7
client 30 | SND ( FRA ) ( PRP ( ORR ( DRW ) ( SLO ( FRA ) ) ( PCE ( FRA ENG ) ) ) ) | relay
client 30 | SND ( FRA ) ( PRP ( ORR ) ) | huh 8
client 30 | SND ( FRA ) ( PRP ( NOT ( AND ( DRW ) ( DRW ) ) ) ) | relay
client 30 | SND ( FRA ) ( PRP ( AND ( NOT ( AND ( DRW ) ( DRW ) ) ) ( DRW ) ) ) | huh 11
client 40 | SND ( FRA ) ( PRP ( AND ( NOT ( AND ( DRW ) ( DRW ) ) ) ( DRW ) ) ) | huh 11
client 50 | SND ( FRA ) ( PRP ( AND ( NOT ( AND ( DRW ) ( DRW ) ) ) ( DRW ) ) ) | relay
client 40 | SND ( FRA ) ( PRP ( ORR ( ORR ( DRW ) ( DRW ) ) ( DRW ) ) ) | huh 9
client 50 | SND ( FRA ) ( PRP ( ORR ( ORR ( DRW ) ( DRW ) ) ( DRW ) ) ) | relay
client 30 | SND ( FRA ) ( PRP ( AND ( XDO ( ENG WVE ) ) ( NOT ( DRW ) ) ) ) | relay
client 30 | SND ( FRA ) ( PRP ( SCD ( FRA PAR MAR ) ( ENG ) ) ) | huh 7
client 40 | SND ( FRA ) ( PRP ( SCD ( FRA PAR MAR ) ( ENG ) ) ) | relay
client 40 | SND ( FRA ) ( PRP ( SCD ) ) | huh 8
client 30 | SND ( FRA ) ( PRP ( OCC ( FRA AMY PAR ) ) ) | huh 7
client 40 | SND ( FRA ) ( PRP ( OCC ( FRA AMY PAR ) ) ) | relay
client 40 | SND ( FRA ) ( PRP ( OCC ( FRA PAR ) ) ) | huh 10
client 40 | SND ( FRA ) ( PRP ( AND ( SCD ( FRA PAR ) ) ( OCC ( FRA AMY PAR ) ) ) ) | relay
client 60 | SND ( FRA ) ( PRP ( QRY ( DRW ) ) ) | huh 7
client 60 | SND ( FRA ) ( PRP ( NOT ( NOT ( DRW ) ) ) ) | relay
client 60 | SND ( FRA ) ( FCT ( NOT ( NOT ( QRY ( DRW ) ) ) ) ) | relay
client 60 | SND ( FRA ) ( PRP ( NOT ( QRY ( DRW ) ) ) ) | huh 9
client 0 | SND ( FRA ) ( PRP ( DRW ) ) | huh 0
";

#[test]
fn arrangements(rt: HostRuntime) -> Result<(), Fail> {
    assert_verdicts(rt.alloc(), ARRANGEMENTS)
}

const CLASSES: &str = "\
client 0 | SUB ( #4109 WVE ) | relay
client 0 | SUB ( ( ENG AMY #5300 ) HLD ) | relay
client 0 | SUB ( ( ENG #4202 LON ) HLD ) | huh 4
server 0 | THX ( ENG WVE ) ( #440f ) | relay
server 0 | ORD ( #4705 1901 ) ( ENG WVE ) ( #4507 ) | relay
server 0 | HLO ( ENG ) ( 1 ) ( ( #490c 5 ) ) | relay
server 0 | CCD ( #4a0d ) | huh 2
client 0 | HUH ( #4a12 #4002 ) | relay
";

#[test]
fn classes_beyond_the_standard_names(rt: HostRuntime) -> Result<(), Fail> {
    assert_verdicts(rt.alloc(), CLASSES)
}
