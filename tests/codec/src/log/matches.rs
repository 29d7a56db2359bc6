//! Logs of matches, and their reports.

use super::{check_rows, checked, checked_row};
use daide_test_support::rows::{holds, same};
use std::alloc::Global;
use std::test::Fail;

/// A log | its report, both with `/` for a line feed | the text of the fault, if there is one.
const ROWS: &str = "\
daide-log 2/config 60 1024 16 2 1/word XYZ 4A40 press 20 power/1 bot 000000040001DA10/2 timer/1 server 01000000/1 bot 0200000448034000/ | 4 1 bot IM 4 relay/5 2 bot fault 01/6 1 server RM 0 relay/7 1 bot DM 4 prn/relayed 2 prn 1 huh 0 faults 1/ |
daide-log 2/config 60 1024 16 2 1/word XYZ 4A40 press 20 power/1 bot 000000040001DA10/2 timer/1 server 01000000/1 bot 0200000448034000/3 timer/ | 4 1 bot IM 4 relay/5 2 bot fault 01/6 1 server RM 0 relay/7 1 bot DM 4 prn/ | line 8 is not a log line
daide-log 2/config 60 1024 16 2 1/word GOF 4A40 press 20 power/ | | line 3 is not a log line
daide-log 2/config 60 1024 16 2 1/ | | line 3 is not a log line
daide-log 2/config 60 1024 16 2 1 | | line 3 is not a log line
daide-log 2/config 60 1024 16 2 2/word XYZ 4A40 press 20 power/ | | line 4 is not a log line
daide-log 2/config 60 1024 16 2 2/word XYZ 4A40 press 20 power | | line 4 is not a log line
daide-log 2/config 60 1024 16 2 2/word XYZ 4A40 press 20 power/word XYZ 4A41 press 20 power/ | | line 4 is not a log line
daide-log 2/config 60 1024 16 2 2/word XYZ 4A40 press 20 power/1 timer/ | | line 4 is not a log line
daide-log 2/config 60 1024 16 2 1/# a word/ | | line 3 is not a log line
daide-log 2/config 60 1024 16 2 1/word XYZ 4A40 press 20 power | relayed 0 prn 0 huh 0 faults 0/ |
daide-log 2/config 60 1024 16 2 1/word XYZ 4a40 press 20 power\r/# none/ | relayed 0 prn 0 huh 0 faults 0/ |
daide-log 2/config 60 1024 16 2 1/word XYZ 4A40 press 20 power/word QQQ 4A41 press 20 power/ | | line 4 is not a log line
daide-log 2/config 60 1024 16 2 1/word XYZ 4A400 press 20 power/ | | line 3 is not a log line
daide-log 2/config 60 1024 16 2 1/word XYZ 4A4 press 20 power/ | | line 3 is not a log line
daide-log 2/config 60 1024 16 2 1/word XYZ 4A40 pres 20 power/ | | line 3 is not a log line
daide-log 2/config 60 1024 16 2 1/word XYZ 4A40 press 020 power/ | | line 3 is not a log line
daide-log 2/config 60 1024 16 2 1/word XYZ 4A40 press 25 power/ | | line 3 is not a log line
daide-log 2/config 60 1024 16 2 1/word XYZ 4A40 press 0 power/ | | line 3 is not a log line
daide-log 2/config 60 1024 16 2 1/word XYZ 4A40 arrangement 20 press/ | | line 3 is not a log line
daide-log 2/config 60 1024 16 2 1/word XY 4A40 press 20 power/ | | line 3 is not a log line
daide-log 2/config 60 1024 16 2 1/word XYZ 4A40 press 20 power / | | line 3 is not a log line
daide-log 2/config 60 1024 16 0 0/ | | line 2 is not a log line
daide-log 2/config 60 1024 16 257 0/ | | line 2 is not a log line
daide-log 2/config 60 1024 16 2 17/ | | line 2 is not a log line
daide-log 2/config 60 1024 16 02 0/ | | line 2 is not a log line
daide-log 2/config 60 1024 16 2 00/ | | line 2 is not a log line
daide-log 2/config 60 1024 16 2 0/ | relayed 0 prn 0 huh 0 faults 0/ |
daide-log 2/config 60 1024 16 2 0/1 / | | line 3 is not a log line
daide-log 2/config 60 1024 16 2 0/1 #/ | | line 3 is not a log line
daide-log 2/config 60 1024 16 2 0/01 timer/ | | line 3 is not a log line
daide-log 2/config 60 1024 16 2 0/0 timer/ | | line 3 is not a log line
daide-log 2/config 60 1024 16 2 0/timer/ | | line 3 is not a log line
daide-log 2/config 60 1024 16 2 0//# x/2 timer | 5 2 bot fault 01/relayed 0 prn 0 huh 0 faults 1/ |
daide-log 2/config 60 1024 16 2 0/1 end bot/2 end server/1 timer/2 bot 00/1 bot 0/ | 3 1 bot end/4 2 server end/ | line 7 is not a log line
daide-log 2/config 60 1024 16 256 0/256 bot 03000000/255 timer/256 timer/ | 3 256 bot FM 0 drop/4 255 bot fault 01/relayed 0 prn 0 huh 0 faults 1/ |
";

#[test]
fn matches_and_their_reports(rt: HostRuntime) -> Result<(), Fail> {
    check_rows(rt.alloc(), ROWS)
}

/// The bot's offer `SND ( FRA ) ( XYZ ( ENG ) )` at level 20, after the opening of a game, with XYZ as a word.
const WORDED: &str =
    "daide-log 2/config 60 1024 16 1 1/word XYZ 4A40 press 20 power/1 bot 000000040001DA10/1 server 01000000/1 server 0200001A4804400041014001400004D24001400040004903001440014001/1 bot 02000014481740004102400140004A404000410140014001/";

/// The same without the word.
const UNWORDED: &str =
    "daide-log 2/config 60 1024 16 1 0/1 bot 000000040001DA10/1 server 01000000/1 server 0200001A4804400041014001400004D24001400040004903001440014001/1 bot 02000014481740004102400140004A404000410140014001/";

/// Their reports.
const WORDED_REPORT: &str =
    "4 1 bot IM 4 relay/5 1 server RM 0 relay/6 1 server DM 26 relay/7 1 bot DM 20 relay/relayed 4 prn 0 huh 0 faults 0/";

const UNWORDED_REPORT: &str =
    "3 1 bot IM 4 relay/4 1 server RM 0 relay/5 1 server DM 26 relay/6 1 bot DM 20 huh 5/relayed 3 prn 0 huh 1 faults 0/";

/// Checks that a log has this report.
fn check_reported(alloc: Global, log: &str, report: &str) -> Result<(), Fail> {
    let (written, _) = checked_row(alloc, log)?;
    same(&written.as_str(), &report, &log)
}

#[test]
fn words_are_of_each_session(rt: HostRuntime) -> Result<(), Fail> {
    check_reported(rt.alloc(), WORDED, WORDED_REPORT)?;
    check_reported(rt.alloc(), UNWORDED, UNWORDED_REPORT)
}

/// The events of a match's sessions, in order. A session gets only as many of them as its number modulo 5.
const EVENTS: &[&str] = &[
    "bot 000000040001DA10\n",
    "server 01000000\n",
    "bot 020000024803\n",
    "bot 0200000448034000\n",
    "server 03000000\n",
    "timer\n",
];

/// Returns the event of a session in a round.
fn event_of(session: usize, round: usize) -> &'static str {
    let place = if session % 5 < round { 5 } else { round };
    EVENTS.get(place).unwrap_or(&"")
}

/// Returns a number followed by a space.
fn number_of(alloc: Global, session: usize) -> Result<String, Fail> {
    let mut number = session.to_string(alloc)?;
    number.push(' ')?;
    Ok(number)
}

/// Appends the events of all sessions in a round.
fn push_round(log: &mut String, alloc: Global, round: usize, sessions: usize) -> Result<(), Fail> {
    for session in 1..=sessions {
        log.push_str(number_of(alloc, session)?.as_str())?;
        log.push_str(event_of(session, round))?;
    }
    Ok(())
}

/// Returns the log of a hundred sessions, with one event for each session in each round.
fn interleaved(alloc: Global) -> Result<String, Fail> {
    let mut log = String::from_str(alloc, "daide-log 2\nconfig 60 512 16 100 0\n")?;
    for round in 0..EVENTS.len() {
        push_round(&mut log, alloc, round, 100)?;
    }
    Ok(log)
}

/// Appends an event without the session's number, or `#` if the line is another session's.
fn push_event(own: &mut String, line: &str, number: &str) -> Result<(), Fail> {
    match line.strip_prefix(number) {
        Some(event) => own.push_str(event)?,
        None => own.push_str("#")?,
    }
    Ok(own.push_str("\n")?)
}

/// Returns the log of one session alone: its own lines without its number, and `#` for every other line.
fn own_log(alloc: Global, log: &str, number: &str) -> Result<String, Fail> {
    let mut own = String::from_str(alloc, "daide-log 1\nconfig 60 512 16\n")?;
    for line in log.lines().skip(2) {
        push_event(&mut own, line, number)?;
    }
    Ok(own)
}

/// Appends a line of the report without the session's number, if it names that session.
fn push_own_line(own: &mut String, line: &str, number: &str) -> Result<(), Fail> {
    let Some((place, told)) = line.split_once(' ') else {
        return Ok(());
    };
    let Some(told) = told.strip_prefix(number) else {
        return Ok(());
    };
    own.push_str(place)?;
    own.push_str(" ")?;
    own.push_str(told)?;
    Ok(own.push_str("\n")?)
}

/// Returns the lines of a report that name a session, without its number, followed by the last line.
fn own_report(alloc: Global, report: &str, number: &str, last: &str) -> Result<String, Fail> {
    let mut own = String::new(alloc);
    for line in report.lines() {
        push_own_line(&mut own, line, number)?;
    }
    own.push_str(last)?;
    own.push_str("\n")?;
    Ok(own)
}

fn last_line(report: &str) -> &str {
    report.lines().last().unwrap_or("")
}

/// Returns the report of a log without a fault.
fn report_of(alloc: Global, log: &str) -> Result<String, Fail> {
    let (answer, report) = checked(alloc, log.as_bytes())?;
    holds(answer.is_ok(), "a fault")?;
    Ok(report)
}

/// Checks that the report of a match has the same lines for a session as the report of the session's own log.
fn session_is_alone(alloc: Global, log: &str, report: &str, session: usize) -> Result<(), Fail> {
    let number = number_of(alloc, session)?;
    let own = own_log(alloc, log, number.as_str())?;
    let alone = report_of(alloc, own.as_str())?;
    let last = last_line(alone.as_str());
    let told = own_report(alloc, report, number.as_str(), last)?;
    same(&told.as_str(), &alone.as_str(), &session)
}

#[test]
fn a_hundred_sessions_are_each_as_if_alone(rt: HostRuntime) -> Result<(), Fail> {
    let log = interleaved(rt.alloc())?;
    let report = report_of(rt.alloc(), log.as_str())?;
    for session in 1..=100usize {
        session_is_alone(rt.alloc(), log.as_str(), report.as_str(), session)?;
    }
    Ok(())
}
