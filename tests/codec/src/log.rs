//! Logs and their reports, worked out from docs/FORMATS.md.

use daide_log::LogFault;
use daide_log::check::check_log;
use daide_protocol::Summary;
use daide_test_support::rows::same;
use std::alloc::Global;
use std::test::Fail;

mod explained;
mod match_lines;
mod matches;
mod streams;

/// Returns the result of a check, and its report.
fn checked(alloc: Global, log: &[u8]) -> Result<(Result<Summary, LogFault>, String), Fail> {
    let mut bytes = log;
    let mut report = Vec::new(alloc);
    let answer = check_log(alloc, &mut bytes, &mut report);
    Ok((answer, String::from_utf8(report)?))
}

/// Returns the report and the text of the fault, if there is one, for a log with `/` for each line feed.
fn checked_row(alloc: Global, log: &str) -> Result<(String, String), Fail> {
    let log = log.replace(alloc, "/", "\n")?;
    let (answer, written) = checked(alloc, log.as_bytes())?;
    let told = match answer {
        Ok(_) => String::new(alloc),
        Err(fault) => fault.to_string(alloc)?,
    };
    Ok((written.replace(alloc, "\n", "/")?, told))
}

/// A log | its report, both with `/` for a line feed | the text of the fault, if there is one.
const ROWS: &str = "\
 | | line 1 is not a log line
daide-log 3/ | | line 1 is not a log line
daide-log 2/ | | line 2 is not a log line
daide-log 2/config 60 1024 16/ | | line 2 is not a log line
daide-log 1/config 60 1024 16 1 0/ | | line 2 is not a log line
daide-log 1 | | line 2 is not a log line
daide-log 1/ | | line 2 is not a log line
daide-log 1/config 060 1024 16/ | | line 2 is not a log line
daide-log 1/config 61 1024 16/ | | line 2 is not a log line
daide-log 1/config 60 1024 255/ | | line 2 is not a log line
daide-log 1/config 60 66048 16/ | | line 2 is not a log line
daide-log 1/config 60 1024 16 / | | line 2 is not a log line
daide-log 1/config 60 1024 16 | relayed 0 prn 0 huh 0 faults 0/ |
daide-log 1/config 0 512 4/ | relayed 0 prn 0 huh 0 faults 0/ |
daide-log 1\r/config 60 1024 16\r/timer\r/ | 3 bot fault 01/relayed 0 prn 0 huh 0 faults 1/ |
daide-log 1/config 60 1024 16/timer | 3 bot fault 01/relayed 0 prn 0 huh 0 faults 1/ |
daide-log 1/config 60 1024 16/timer\r | | line 3 is not a log line
daide-log 1/config 60 1024 16/end server/ | 3 server end/relayed 0 prn 0 huh 0 faults 0/ |
daide-log 1/config 60 1024 16/end bot/end server/ | 3 bot end/relayed 0 prn 0 huh 0 faults 0/ |
daide-log 1/config 60 1024 16/bot 03000000/timer/ | 3 bot FM 0 drop/relayed 0 prn 0 huh 0 faults 0/ |
daide-log 1/config 60 1024 16/stop/timer/stop/ | 3 operator stop/relayed 0 prn 0 huh 0 faults 0/ |
daide-log 1/config 60 1024 16/bot 000000040001DA10/server 01000000/bot 02000002/stop/bot 480F/ | 3 bot IM 4 relay/4 server RM 0 relay/6 operator stop/relayed 2 prn 0 huh 0 faults 0/ |
daide-log 1/config 60 1024 16/end bot/stop/ | 3 bot end/relayed 0 prn 0 huh 0 faults 0/ |
daide-log 1/config 60 1024 16/stop bot/ | | line 3 is not a log line
daide-log 1/config 60 1024 16//# x/bot 000000040001DA10/server 01000000/bot 020000024803/bot 0200000448034000/server 03000000/ | 5 bot IM 4 relay/6 server RM 0 relay/7 bot DM 2 relay/8 bot DM 4 prn/9 server FM 0 relay/relayed 4 prn 1 huh 0 faults 0/ |
daide-log 1/config 60 1024 16/bot 000000040001DA10/server 01000000/bot 020000024803/bot 0200000448034000/server 03000000/ | 3 bot IM 4 relay/4 server RM 0 relay/5 bot DM 2 relay/6 bot DM 4 prn/7 server FM 0 relay/relayed 4 prn 1 huh 0 faults 0/ |
daide-log 1/config 60 1024 16/bot 000000040001DA10/server 01000000/bot 020000024803/bot 0200000448034000/server 03000000/bot 02000/ | 3 bot IM 4 relay/4 server RM 0 relay/5 bot DM 2 relay/6 bot DM 4 prn/7 server FM 0 relay/ | line 8 is not a log line
daide-log 1/config 60 1024 16/bot 000000040001da100200/server 01000000/bot 00024803020000020000/ | 3 bot IM 4 relay/4 server RM 0 relay/5 bot DM 2 relay/5 bot DM 2 huh 0/relayed 3 prn 0 huh 1 faults 0/ |
daide-log 1/config 60 1024 16/server 00000004/ | 3 server fault 07/relayed 0 prn 0 huh 0 faults 1/ |
daide-log 1/config 60 1024 16/bot 00 / | | line 3 is not a log line
daide-log 1/config 60 1024 16/\r/timer/ | 4 bot fault 01/relayed 0 prn 0 huh 0 faults 1/ |
daide-log 1/config 60 1024 16/\r | | line 3 is not a log line
daide-log 1/config 60 1024 16/\r\r/ | | line 3 is not a log line
daide-log 1/config 60 1024 16/end server/timer/bot 0/ | 3 server end/ | line 5 is not a log line
daide-log 1/config 60 1024 16/bot  00/ | | line 3 is not a log line
daide-log 1/config 60 1024 16/bot / | | line 3 is not a log line
daide-log 1/config 60 1024 16/bot/ | | line 3 is not a log line
daide-log 1/config 60 1024 16/end  bot/ | | line 3 is not a log line
daide-log 1/config 60 1024 16/ #/ | | line 3 is not a log line
daide-log 1/config 60 +1024 16/ | | line 2 is not a log line
daide-log 1/config 60 66560 16/ | | line 2 is not a log line
daide-log 1/config 60 1024/ | | line 2 is not a log line
daide-log 1/config 60 1024 16 0/ | | line 2 is not a log line
daide-log 1/config 60 1024 16/Bot 00/ | | line 3 is not a log line
";

/// Returns the first field of a row, and the fields after it.
fn first_field(row: &str) -> (&str, &str) {
    match row.split_once('|') {
        Some(parts) => parts,
        None => (row, ""),
    }
}

/// Checks the log of a row.
fn check_row(alloc: Global, row: &str) -> Result<(), Fail> {
    let (log, rest) = first_field(row);
    let (report, fault) = first_field(rest);
    let (written, told) = checked_row(alloc, log.strip_suffix(" ").unwrap_or(""))?;
    same(&written.as_str(), &report.trim(), &row)?;
    same(&told.as_str(), &fault.trim(), &row)
}

/// Checks the logs of a table of rows.
fn check_rows(alloc: Global, rows: &str) -> Result<(), Fail> {
    for row in rows.lines() {
        check_row(alloc, row)?;
    }
    Ok(())
}

#[test]
fn logs_and_their_reports(rt: HostRuntime) -> Result<(), Fail> {
    check_rows(rt.alloc(), ROWS)
}

/// A fault of a log | its text.
const FAULTS: &[(LogFault, &str)] = &[
    (LogFault::BadLine(1), "line 1 is not a log line"),
    (LogFault::LineTooLong(1_000_000), "line 1000000 is too long"),
    (LogFault::TooManyLines, "too many lines"),
    (LogFault::Read, "input could not be read"),
    (LogFault::Write, "output could not be written"),
    (LogFault::Memory, "out of memory"),
];

/// Checks the text of a fault.
fn check_text(alloc: Global, fault: &LogFault, text: &str) -> Result<(), Fail> {
    let told = fault.to_string(alloc)?;
    same(&told.as_str(), &text, &text)
}

#[test]
fn faults_of_a_log_have_their_texts(rt: HostRuntime) -> Result<(), Fail> {
    for (fault, text) in FAULTS {
        check_text(rt.alloc(), fault, text)?;
    }
    Ok(())
}
