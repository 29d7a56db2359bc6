//! A plain program for what `daide-gate check < LOG` does, for the comparison of instructions in ../README.md.
//!
//! It writes the same report and returns the same status. It is written from docs/PROTOCOL.md and docs/FORMATS.md, in
//! safe Rust with the standard library alone, and nothing of it is proved. A recursive descent recognises a message in
//! the bytes of its line. Only a frame that several lines make up is copied.
//!
//! Not covered: a standard stream that is closed when the program begins, and refused memory, which aborts it. It takes
//! no arguments.

mod events;
mod fault;
mod frame;
mod head;
mod lines;
mod message;
mod parser;
mod press;
mod report;
mod session;
mod token;
mod words;

use events::{Event, Line, MOST, read_line};
use fault::LogFault;
use head::{Preamble, Version};
use lines::Lines;
use report::{Report, ReportKey};
use session::Session;
use std::io::{self, Read, Write};
use std::process::ExitCode;
use words::Limits;

/// Reports the moves that an event causes.
fn report_event<W: Write>(
    session: &mut Session,
    event: Event,
    bytes: &[u8; MOST],
    limits: &Limits,
    key: ReportKey,
    report: &mut Report<W>,
) -> Result<(), LogFault> {
    let note = match event {
        Event::End(side) => session.end(side),
        Event::Timer => session.time_out(),
        Event::Stop => session.stop(),
        Event::Received(side, count) => {
            let mut rest = &bytes[..count];
            while !rest.is_empty() && !session.is_over() {
                let (after, note) = session.feed(side, rest, limits);
                if let Some(note) = note {
                    report.add(key, note)?;
                }
                rest = after;
            }
            None
        }
    };
    note.map_or(Ok(()), |note| report.add(key, note))
}

/// Reports the lines of a log.
fn report_lines<R: Read, W: Write>(lines: &mut Lines<R>, report: &mut Report<W>) -> Result<(), LogFault> {
    let Preamble { version, limits, sessions: count } = Preamble::read(lines, report)?;
    let mut sessions: Vec<Session> = (0..count).map(|_| Session::new()).collect();
    let mut bytes = [0; MOST];
    while lines.read(report)? {
        let line = lines.count();
        match read_line(version, count, lines.line(), &mut bytes).ok_or(LogFault::BadLine(line))? {
            Line::Quiet => {}
            Line::Of(number, event) => {
                let session = (version == Version::Match).then_some(number);
                let place = usize::from(number) - 1;
                let key = ReportKey { line, session };
                report_event(&mut sessions[place], event, &bytes, &limits, key, report)?;
            }
        }
    }
    report.finish()
}

fn main() -> ExitCode {
    let mut lines = Lines::new(io::stdin().lock());
    let mut report = Report::new(io::stdout().lock());
    let mut reported = report_lines(&mut lines, &mut report);
    if reported != Err(LogFault::Write) {
        reported = report.flush().and(reported);
    }
    match reported {
        Ok(()) if report.summary.is_clean() => ExitCode::SUCCESS,
        Ok(()) => ExitCode::from(3),
        Err(fault) => {
            eprintln!("daide-gate: {fault}");
            ExitCode::from(1)
        }
    }
}
