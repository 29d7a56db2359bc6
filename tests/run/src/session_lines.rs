//! The log lines of sessions, of a run's capacity, and of faults of records: the text of each.

use daide_frame::code::Code;
use daide_frame::per_side::PerSide;
use daide_frame::side::Side;
use daide_gate::{Account, Cause, FaultField, Level, SideCounts};
use daide_protocol::BotName;
use daide_protocol::ending::Ending;
use daide_run::RecordNotice;
use daide_sockets::capacity::{Capacity, CapacityNotice, full_notice, pause_notice};
use daide_sockets::session_notice::{Lasted, SessionNotice, Why, why_of};
use daide_sockets::timed::Timed;
use daide_test_support::rows::{holds, same};
use std::alloc::Global;
use std::io::ErrorKind;
use std::test::Fail;

/// Why a session is over | the text.
#[rattlefmt::skip]
const CAUSES: &[(Why, &str)] = &[
    (Why::Ended(Cause::Session(Ending::Ended(Side::Bot)), None), "bot ended"),
    (Why::Ended(Cause::Session(Ending::Ended(Side::Server)), None), "server ended"),
    (Why::Ended(Cause::Session(Ending::Lost(Side::Bot)), None), "bot lost"),
    (Why::Ended(Cause::Session(Ending::Lost(Side::Server)), None), "server lost"),
    (Why::Ended(Cause::Session(Ending::Final(Side::Bot)), None), "FM of bot"),
    (Why::Ended(Cause::Session(Ending::Final(Side::Server)), None), "FM of server"),
    (Why::Ended(Cause::Session(Ending::Error(Side::Bot)), None), "EM of bot"),
    (Why::Ended(Cause::Session(Ending::Error(Side::Server)), None), "EM of server"),
    (Why::Ended(Cause::Session(Ending::Fault(Side::Bot, Code::ImTimeout)), None), "no IM in time"),
    (Why::Ended(Cause::Session(Ending::Fault(Side::Bot, Code::SecondIm)), None), "fault 06 of bot: second IM"),
    (Why::Ended(Cause::Session(Ending::Fault(Side::Server, Code::InvalidToken)), None), "fault 0E of server: invalid token"),
    (Why::Ended(Cause::Session(Ending::Fault(Side::Bot, Code::ImNotFirst)), Some(FaultField::Kind(2))), "fault 02 of bot: first frame is no IM, type 02 at byte 0"),
    (Why::Ended(Cause::Session(Ending::Fault(Side::Bot, Code::WrongEndian)), Some(FaultField::Length(0x0400))), "fault 03 of bot: wrong byte order, length 0400 at byte 2"),
    (Why::Ended(Cause::Session(Ending::Fault(Side::Bot, Code::WrongEndian)), Some(FaultField::MagicNumber(0x10DA))), "fault 03 of bot: wrong byte order, magic number 10DA at byte 6"),
    (Why::Ended(Cause::Session(Ending::Fault(Side::Bot, Code::WrongMagic)), Some(FaultField::MagicNumber(0x1234))), "fault 04 of bot: wrong magic number 1234 at byte 6"),
    (Why::Ended(Cause::Session(Ending::Fault(Side::Bot, Code::WrongVersion)), Some(FaultField::Version(2))), "fault 05 of bot: wrong version 0002 at byte 4"),
    (Why::Ended(Cause::Session(Ending::Fault(Side::Bot, Code::UnknownMessage)), Some(FaultField::Kind(7))), "fault 08 of bot: unknown message, type 07 at byte 0"),
    (Why::Ended(Cause::Session(Ending::Fault(Side::Server, Code::UnknownMessage)), Some(FaultField::Length(0xFFFE))), "fault 08 of server: body above max_body, length FFFE at byte 2"),
    (Why::Ended(Cause::Session(Ending::Fault(Side::Bot, Code::WrongLength)), Some(FaultField::Length(3))), "fault 09 of bot: wrong length 0003 at byte 2"),
    (Why::Ended(Cause::Session(Ending::Fault(Side::Bot, Code::InvalidToken)), Some(FaultField::Token(0x6000, 6))), "fault 0E of bot: invalid token 6000 at byte 6"),
    (Why::Ended(Cause::Session(Ending::Stopped), None), "stopped by the operator"),
    (Why::Ended(Cause::TurnsSpent, None), "turns spent"),
    (Why::Silent(Side::Bot), "bot silent"),
    (Why::Silent(Side::Server), "server silent"),
    (Why::Stalled(Side::Bot, 60), "bot took nothing for 60 s"),
    (Why::Stalled(Side::Server, 1), "server took nothing for 1 s"),
    (Why::Refused(Side::Bot), "too many refusals of bot"),
    (Why::Refused(Side::Server), "too many refusals of server"),
    (Why::NoServer, "no server"),
];

/// Returns whether the reason has this text.
fn is_told_as(alloc: Global, why: Why, text: &str) -> Result<bool, Fail> {
    let told = why.to_string(alloc)?;
    Ok(told.as_str() == text)
}

#[test]
fn causes_have_their_texts(rt: HostRuntime) -> Result<(), Fail> {
    for (why, text) in CAUSES {
        holds(is_told_as(rt.alloc(), *why, text)?, text)?;
    }
    Ok(())
}

/// A side that sent nothing until its timeout.
const SILENT: Timed = Timed {
    is_silent: true,
    ..Timed::NONE
};

/// A side that accepted nothing until its timeout.
const STALLED: Timed = Timed {
    is_stalled: true,
    ..Timed::NONE
};

/// A side that accepted nothing until its timeout, and whose stream was treated as ended for that reason.
const STALLED_END: Timed = Timed {
    ends_stalled: true,
    ..STALLED
};

/// The ending of a session | the timeouts of its bot | those of its server | why it is over.
#[rattlefmt::skip]
const TIMES: &[(Ending, Timed, Timed, Why)] = &[
    (Ending::Ended(Side::Bot), SILENT, Timed::NONE, Why::Silent(Side::Bot)),
    (Ending::Ended(Side::Bot), Timed::NONE, SILENT, Why::Ended(Cause::Session(Ending::Ended(Side::Bot)), None)),
    (Ending::Ended(Side::Bot), Timed::NONE, Timed::NONE, Why::Ended(Cause::Session(Ending::Ended(Side::Bot)), None)),
    (Ending::Lost(Side::Bot), SILENT, Timed::NONE, Why::Ended(Cause::Session(Ending::Lost(Side::Bot)), None)),
    (Ending::Final(Side::Server), SILENT, SILENT, Why::Ended(Cause::Session(Ending::Final(Side::Server)), None)),
    (Ending::Lost(Side::Server), Timed::NONE, STALLED, Why::Stalled(Side::Server, 60)),
    (Ending::Lost(Side::Server), STALLED, Timed::NONE, Why::Ended(Cause::Session(Ending::Lost(Side::Server)), None)),
    (Ending::Ended(Side::Bot), STALLED, Timed::NONE, Why::Ended(Cause::Session(Ending::Ended(Side::Bot)), None)),
    (Ending::Ended(Side::Bot), STALLED_END, Timed::NONE, Why::Stalled(Side::Bot, 60)),
    (Ending::Stopped, SILENT, STALLED, Why::Ended(Cause::Session(Ending::Stopped), None)),
];

/// The log line names a side's silence instead of its end, and its stall instead of its loss.
#[test]
fn times_are_named_in_place_of_the_event(_rt: HostRuntime) -> Result<(), Fail> {
    for (ending, bot, server, want) in TIMES {
        let why = why_of(
            Cause::Session(*ending),
            None,
            &PerSide::new(*bot, *server),
            None,
            60,
        );
        same(&why, want, ending)?;
    }
    Ok(())
}

/// A session that lasted 12,499 milliseconds.
const TIMED: Lasted = Lasted {
    milliseconds: Some(12_499),
};

/// A session whose time is unknown.
const UNTIMED: Lasted = Lasted { milliseconds: None };

/// The counts of a session, each another number.
const COUNTS: Account = Account {
    bot: SideCounts {
        relayed: 5,
        prn: 1,
        huh: 2,
    },
    server: SideCounts {
        relayed: 7,
        prn: 3,
        huh: 4,
    },
    faults: 6,
    level: Level::L20,
    name: BotName::Unknown,
    power: None,
};

/// Complete lines of sessions and of bots that get none.
#[test]
fn lines_of_a_session(rt: HostRuntime) -> Result<(), Fail> {
    let bot = "127.0.0.1:50000".parse()?;
    let own = "[::1]:40000".parse()?;
    let timed = PerSide::new(Timed::NONE, Timed::NONE);
    let cause = Cause::Session(Ending::Final(Side::Bot));
    let ended = SessionNotice::Ended {
        number: 7,
        lasted: TIMED,
        why: why_of(cause, None, &timed, None, 60),
        account: COUNTS,
    };
    let alone = SessionNotice::Ended {
        number: 8,
        lasted: UNTIMED,
        why: Why::NoServer,
        account: Account::new(),
    };
    let lines = [
        (
            SessionNotice::Began { number: 7, bot },
            "session 7 began: bot at 127.0.0.1:50000",
        ),
        (
            SessionNotice::Declined { bot },
            "bot at 127.0.0.1:50000 may not come",
        ),
        (
            SessionNotice::Dropped { bot },
            "bot at 127.0.0.1:50000 is dropped: the system cannot follow its connection",
        ),
        (
            SessionNotice::Reached { number: 7, own },
            "session 7 reached the server from [::1]:40000",
        ),
        (
            ended,
            "session 7 ended after 12.4 s: FM of bot; bot 5 relayed 1 prn 2 huh; server 7 relayed 3 prn 4 huh; 6 faults; level 20",
        ),
        (
            alone,
            "session 8 ended: no server; bot 0 relayed 0 prn 0 huh; server 0 relayed 0 prn 0 huh; 0 faults; level 0",
        ),
    ];
    for (notice, want) in lines {
        let line = notice.to_string(rt.alloc())?;
        same(&line.as_str(), &want, &want)?;
    }
    Ok(())
}

/// A line of a run's capacity | its text.
#[rattlefmt::skip]
const CAPACITIES: &[(Option<CapacityNotice>, &str)] = &[
    (Some(CapacityNotice::Full(16)), "full: 16 of 16 sessions; further bots wait"),
    (Some(CapacityNotice::NoLongerFull), "no longer full"),
    (Some(CapacityNotice::Paused), "bots wait: the system has no descriptor or no memory for another one"),
    (Some(CapacityNotice::Resumed), "bots are accepted again"),
    (None, ""),
];

/// Returns whether the line has this text, which is empty if there is no line.
fn is_logged_as(alloc: Global, notice: Option<CapacityNotice>, text: &str) -> Result<bool, Fail> {
    let Some(notice) = notice else {
        return Ok(text.is_empty());
    };
    let told = notice.to_string(alloc)?;
    Ok(told.as_str() == text)
}

#[test]
fn capacities_have_their_texts(rt: HostRuntime) -> Result<(), Fail> {
    for (notice, text) in CAPACITIES {
        holds(is_logged_as(rt.alloc(), *notice, text)?, text)?;
    }
    Ok(())
}

/// The bots present, of two at once | whether accepts pause | the number of bots accepted | the line about a full run |
/// the line about a pause. Each row is a wait after that of the row before.
#[rattlefmt::skip]
const WAITS: &[(usize, bool, u32, Option<CapacityNotice>, Option<CapacityNotice>)] = &[
    (1, false, 1, None, None),
    (2, false, 2, Some(CapacityNotice::Full(2)), None),
    (2, false, 3, None, None),
    (1, true, 3, Some(CapacityNotice::NoLongerFull), Some(CapacityNotice::Paused)),
    (1, false, 3, None, None),
    (1, true, 3, None, None),
    (2, false, 4, Some(CapacityNotice::Full(2)), Some(CapacityNotice::Resumed)),
];

/// A run has one line when it becomes full, and one when a pause begins, whatever later waits see of the same.
#[test]
fn capacity_is_logged_once(_rt: HostRuntime) -> Result<(), Fail> {
    let mut before = Capacity::NEW;
    for (present, is_paused, came, full, pause) in WAITS {
        let after = before.after(*present, 2, *is_paused, *came);
        let told = full_notice(2, before.is_full, after.is_full);
        same(&told, full, came)?;
        same(
            &pause_notice(before.paused_at, after.paused_at),
            pause,
            came,
        )?;
        before = after;
    }
    Ok(())
}

/// A notice of a record | its reason.
#[rattlefmt::skip]
const RECORDS: &[(RecordNotice, &str)] = &[
    (RecordNotice::IsThere(1), "its file is there already"),
    (RecordNotice::Unmade(2, ErrorKind::PermissionDenied), "its file could not be made (permission denied)"),
    (RecordNotice::Unwritten(3, ErrorKind::StorageFull), "it could not be written (no storage space)"),
    (RecordNotice::Full(4), "it has 1000000 lines"),
];

/// Returns whether the fault has this text.
fn has_text(alloc: Global, notice: RecordNotice, text: &str) -> Result<bool, Fail> {
    let told = notice.to_string(alloc)?;
    Ok(told.as_str() == text)
}

#[test]
fn records_have_their_texts(rt: HostRuntime) -> Result<(), Fail> {
    for (notice, text) in RECORDS {
        holds(has_text(rt.alloc(), *notice, text)?, text)?;
    }
    Ok(())
}
