//! Why a report is incomplete.

use std::fmt;

/// The reason why a report stops.
#[derive(Clone, Copy, PartialEq, Eq)]
pub enum LogFault {
    /// The line of this number, counted from 1, is missing or has none of the forms allowed there.
    BadLine(u32),
    LineTooLong(u32),
    TooManyLines,
    Read,
    Write,
}

impl fmt::Display for LogFault {
    fn fmt(&self, f: &mut fmt::Formatter<'_>) -> fmt::Result {
        match self {
            LogFault::BadLine(line) => write!(f, "line {line} is not a log line"),
            LogFault::LineTooLong(line) => write!(f, "line {line} is too long"),
            LogFault::TooManyLines => write!(f, "too many lines"),
            LogFault::Read => write!(f, "input could not be read"),
            LogFault::Write => write!(f, "output could not be written"),
        }
    }
}
