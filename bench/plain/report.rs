//! The report of a log: its lines, and the counts of its last line.

use crate::fault::LogFault;
use crate::frame::{Kind, Side};
use crate::session::{Deed, Note};
use std::io::Write;

/// The size of the page, in bytes.
const PAGE: usize = 8192;

/// More bytes than any line of a report has.
const LINE: usize = 128;

/// The counts of a log.
#[derive(Default)]
pub struct Summary {
    relayed: u64,
    prn: u64,
    huh: u64,
    faults: u64,
}

impl Summary {
    fn count(&mut self, note: Note) {
        match note {
            Note::Frame(_, _, Deed::Relayed) => self.relayed += 1,
            Note::Frame(_, _, Deed::Prn) => self.prn += 1,
            Note::Frame(_, _, Deed::Huh(_)) => self.huh += 1,
            Note::Fault(..) => self.faults += 1,
            Note::Frame(_, _, Deed::Dropped) | Note::End(_) | Note::Stopped => {}
        }
    }

    /// Returns whether there was no PRN, no HUH and no fault.
    pub fn is_clean(&self) -> bool {
        self.prn + self.huh + self.faults == 0
    }
}

/// The line of the log that causes a move, and the number of the session in the log of a match.
#[derive(Clone, Copy)]
pub struct ReportKey {
    pub line: u32,
    pub session: Option<u16>,
}

/// The report so far. Its lines are collected in a page, which is written in blocks.
pub struct Report<W> {
    page: Vec<u8>,
    writer: W,
    pub summary: Summary,
}

impl<W: Write> Report<W> {
    pub fn new(writer: W) -> Report<W> {
        Report { page: Vec::with_capacity(PAGE), writer, summary: Summary::default() }
    }

    /// Writes the page, and empties it.
    pub fn flush(&mut self) -> Result<(), LogFault> {
        let written = self.writer.write_all(&self.page).and_then(|()| self.writer.flush());
        self.page.clear();
        written.map_err(|_| LogFault::Write)
    }

    /// Counts a move, and adds its line.
    pub fn add(&mut self, key: ReportKey, note: Note) -> Result<(), LogFault> {
        self.summary.count(note);
        if self.page.len() > PAGE - LINE {
            self.flush()?;
        }
        self.put_number(key.line);
        if let Some(session) = key.session {
            self.put(b" ");
            self.put_number(u32::from(session));
        }
        self.put_note(note);
        Ok(())
    }

    /// Adds the line of the counts, and writes the rest of the report.
    pub fn finish(&mut self) -> Result<(), LogFault> {
        let Summary { relayed, prn, huh, faults } = self.summary;
        let line = format!("relayed {relayed} prn {prn} huh {huh} faults {faults}\n");
        self.put(line.as_bytes());
        self.flush()
    }

    #[inline]
    fn put(&mut self, text: &[u8]) {
        self.page.extend_from_slice(text);
    }

    /// Adds a move after its key, and the end of its line.
    fn put_note(&mut self, note: Note) {
        match note {
            Note::Frame(side, head, deed) => {
                self.put_side(side);
                self.put_kind(head.kind);
                self.put_number(u32::from(head.len));
                self.put_deed(deed);
            }
            Note::Fault(side, code) => {
                self.put_side(side);
                self.put(b" fault ");
                self.put(&code.digits());
                self.put(b"\n");
            }
            Note::End(side) => {
                self.put_side(side);
                self.put(b" end\n");
            }
            Note::Stopped => self.put(b" operator stop\n"),
        }
    }

    fn put_side(&mut self, side: Side) {
        match side {
            Side::Bot => self.put(b" bot"),
            Side::Server => self.put(b" server"),
        }
    }

    fn put_kind(&mut self, kind: Kind) {
        match kind {
            Kind::Im => self.put(b" IM "),
            Kind::Rm => self.put(b" RM "),
            Kind::Dm => self.put(b" DM "),
            Kind::Fm => self.put(b" FM "),
            Kind::Em => self.put(b" EM "),
        }
    }

    fn put_deed(&mut self, deed: Deed) {
        match deed {
            Deed::Relayed => self.put(b" relay\n"),
            Deed::Dropped => self.put(b" drop\n"),
            Deed::Prn => self.put(b" prn\n"),
            Deed::Huh(place) => {
                self.put(b" huh ");
                self.put_number(u32::from(place));
                self.put(b"\n");
            }
        }
    }

    /// Adds a number in decimal. Most have at most four digits, which are added together.
    fn put_number(&mut self, number: u32) {
        let [high, low] = [number / 100, number % 100].map(|pair| PAIRS[pair as usize % 100]);
        match number {
            0..10 => self.put(&[low[1]]),
            10..100 => self.put(&low),
            100..1000 => self.put(&[high[1], low[0], low[1]]),
            1000..10_000 => self.put(&[high[0], high[1], low[0], low[1]]),
            _ => {
                self.put_number(number / 100);
                self.put(&low);
            }
        }
    }
}

/// The two digits of each number below 100.
const PAIRS: [[u8; 2]; 100] = {
    let mut pairs = [[b'0'; 2]; 100];
    let mut number = 0;
    while number < 100 {
        pairs[number] = [b'0' + number as u8 / 10, b'0' + number as u8 % 10];
        number += 1;
    }
    pairs
};
