//! A session: the bytes of a bot and of a server, cut into frames and judged.

use crate::frame::{Code, HEADER, Head, Kind, Side, check_im};
use crate::message::{InvalidToken, Verdict, has_invalid, judge, level_set};
use crate::words::{Level, Limits};

/// The phase of a session.
#[derive(Clone, Copy, PartialEq, Eq)]
enum Phase {
    WaitIm,
    WaitRm,
    Open(Level),
    Over,
}

/// What a session does with a frame.
#[derive(Clone, Copy)]
pub enum Deed {
    Relayed,
    Dropped,
    Prn,
    Huh(u16),
}

/// A move of a session, as the report has it.
#[derive(Clone, Copy)]
pub enum Note {
    Frame(Side, Head, Deed),
    Fault(Side, Code),
    End(Side),
    Stopped,
}

/// The frame of a side that is not complete yet.
struct Receiver {
    header: [u8; HEADER],
    held: usize,
    head: Option<Head>,
    /// The level that was in force when the header was complete.
    level: Level,
    body: Vec<u8>,
}

impl Receiver {
    fn new() -> Receiver {
        Receiver { header: [0; HEADER], held: 0, head: None, level: Level::L0, body: Vec::new() }
    }

    /// Takes bytes of the header. Returns the header once it is complete, and the bytes after it.
    #[inline]
    fn take_header<'b>(&mut self, bytes: &'b [u8]) -> Option<([u8; HEADER], &'b [u8])> {
        if self.held == 0
            && let Some((header, rest)) = bytes.split_first_chunk()
        {
            return Some((*header, rest));
        }
        let (front, rest) = bytes.split_at(bytes.len().min(HEADER - self.held));
        self.header[self.held..self.held + front.len()].copy_from_slice(front);
        self.held += front.len();
        if self.held < HEADER {
            return None;
        }
        self.held = 0;
        Some((self.header, rest))
    }

    /// Appends bytes to the body of a message, and checks the tokens that they complete.
    fn append(&mut self, head: Head, bytes: &[u8]) -> Result<(), InvalidToken> {
        let checked = self.body.len() / 2 * 2;
        self.body.extend_from_slice(bytes);
        if head.kind == Kind::Dm && has_invalid(self.body[checked..].as_chunks().0) {
            return Err(InvalidToken);
        }
        Ok(())
    }
}

/// A session of a log.
pub struct Session {
    phase: Phase,
    bot: Receiver,
    server: Receiver,
}

impl Session {
    pub fn new() -> Session {
        Session { phase: Phase::WaitIm, bot: Receiver::new(), server: Receiver::new() }
    }

    pub fn is_over(&self) -> bool {
        self.phase == Phase::Over
    }

    /// Feeds a side's bytes up to the end of its next frame. Returns the bytes after it, and the move. A frame whose
    /// body is whole in the bytes is judged there, and any other one is collected.
    #[inline]
    pub fn feed<'b>(&mut self, side: Side, bytes: &'b [u8], limits: &Limits) -> (&'b [u8], Option<Note>) {
        let phase = self.phase;
        let receiver = self.receiver(side);
        if let Some(head) = receiver.head {
            return self.collect(side, head, bytes, limits);
        }
        let Some((header, bytes)) = receiver.take_header(bytes) else {
            return (&[], None);
        };
        let head = match Head::read(header, limits.max_body).and_then(|head| timely(phase, side, head)) {
            Ok(head) => head,
            Err(code) => return (bytes, Some(self.fail(side, code))),
        };
        let level = level_in(phase);
        if let Some((body, rest)) = bytes.split_at_checked(usize::from(head.len)) {
            return (rest, Some(self.complete(side, head, level, body, limits)));
        }
        receiver.head = Some(head);
        receiver.level = level;
        self.collect(side, head, bytes, limits)
    }

    /// Collects bytes of a body, and judges the frame when it is complete.
    #[cold]
    fn collect<'b>(&mut self, side: Side, head: Head, bytes: &'b [u8], limits: &Limits) -> (&'b [u8], Option<Note>) {
        let receiver = self.receiver(side);
        let missing = usize::from(head.len) - receiver.body.len();
        let (front, rest) = bytes.split_at(bytes.len().min(missing));
        receiver.body.reserve_exact(missing);
        if receiver.append(head, front).is_err() {
            return (rest, Some(self.fail(side, Code::InvalidToken)));
        }
        if front.len() < missing {
            return (rest, None);
        }
        receiver.head = None;
        let level = receiver.level;
        let mut body = std::mem::take(&mut receiver.body);
        let note = self.complete(side, head, level, &body, limits);
        body.clear();
        self.receiver(side).body = body;
        (rest, Some(note))
    }

    /// Handles a whole frame.
    fn complete(&mut self, side: Side, head: Head, level: Level, body: &[u8], limits: &Limits) -> Note {
        let deed = match head.kind {
            Kind::Im => check_im(body).map(|()| self.enter(Phase::WaitRm)),
            Kind::Rm => Ok(self.enter(Phase::Open(Level::L0))),
            Kind::Dm => self.judge_message(side, level, body, limits),
            Kind::Fm | Kind::Em => Ok(self.finish(side)),
        };
        match deed {
            Ok(deed) => Note::Frame(side, head, deed),
            Err(code) => self.fail(side, code),
        }
    }

    /// Judges a message. A relayed HLO of the server sets the level.
    fn judge_message(&mut self, side: Side, level: Level, body: &[u8], limits: &Limits) -> Result<Deed, Code> {
        let (tokens, _) = body.as_chunks();
        match judge(side, level, tokens, limits) {
            Err(InvalidToken) => Err(Code::InvalidToken),
            Ok(Verdict::Prn) => Ok(Deed::Prn),
            Ok(Verdict::Huh(place)) => Ok(Deed::Huh(place)),
            Ok(Verdict::Relay) => {
                if side == Side::Server
                    && let Some(level) = level_set(tokens, limits.top_level)
                {
                    self.phase = Phase::Open(level);
                }
                Ok(Deed::Relayed)
            }
        }
    }

    /// Relays a frame that leads to a phase.
    fn enter(&mut self, phase: Phase) -> Deed {
        self.phase = phase;
        Deed::Relayed
    }

    /// Handles an FM or EM. The server gets none before the IM was relayed.
    fn finish(&mut self, side: Side) -> Deed {
        let is_dropped = side == Side::Bot && self.phase == Phase::WaitIm;
        self.phase = Phase::Over;
        if is_dropped { Deed::Dropped } else { Deed::Relayed }
    }

    fn fail(&mut self, side: Side, code: Code) -> Note {
        self.phase = Phase::Over;
        Note::Fault(side, code)
    }

    /// Ends a side's stream. Has no effect, as `time_out` and `stop`, on a session that is over.
    pub fn end(&mut self, side: Side) -> Option<Note> {
        self.over(Note::End(side))
    }

    /// Handles the expiry of the IM timer.
    pub fn time_out(&mut self) -> Option<Note> {
        (self.phase == Phase::WaitIm).then(|| self.fail(Side::Bot, Code::ImTimeout))
    }

    /// Handles a stop by the operator.
    pub fn stop(&mut self) -> Option<Note> {
        self.over(Note::Stopped)
    }

    /// Ends the session, and returns the note unless it was over.
    fn over(&mut self, note: Note) -> Option<Note> {
        let was_over = self.is_over();
        self.phase = Phase::Over;
        (!was_over).then_some(note)
    }

    fn receiver(&mut self, side: Side) -> &mut Receiver {
        match side {
            Side::Bot => &mut self.bot,
            Side::Server => &mut self.server,
        }
    }
}

/// Returns the level of press in a phase.
fn level_in(phase: Phase) -> Level {
    match phase {
        Phase::Open(level) => level,
        Phase::WaitIm | Phase::WaitRm | Phase::Over => Level::L0,
    }
}

/// Returns the header of a frame if such a frame is permitted in the phase.
fn timely(phase: Phase, side: Side, head: Head) -> Result<Head, Code> {
    let code = match (side, head.kind, phase) {
        (_, Kind::Dm, Phase::Open(_)) => return Ok(head),
        (_, Kind::Fm | Kind::Em, _) => return Ok(head),
        (Side::Bot, Kind::Im, Phase::WaitIm) => return Ok(head),
        (Side::Server, Kind::Rm, Phase::WaitRm) => return Ok(head),
        (Side::Bot, Kind::Im, _) => Code::SecondIm,
        (Side::Bot, _, Phase::WaitIm) => Code::ImNotFirst,
        (Side::Bot, Kind::Rm, _) => Code::RmFromClient,
        (Side::Bot, Kind::Dm, _) => Code::DmBeforeRm,
        (Side::Server, Kind::Im, _) => Code::ImFromServer,
        (Side::Server, Kind::Rm, Phase::WaitIm) => Code::UnknownMessage,
        (Side::Server, Kind::Rm, _) => Code::SecondRm,
        (Side::Server, Kind::Dm, _) => Code::RmNotFirst,
    };
    Err(code)
}
