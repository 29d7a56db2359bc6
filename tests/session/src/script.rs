//! A bot, a session and a server: the bytes that each side sends, in pieces, the bytes that it gets, and the state of
//! the session.
//!
//! A conversation is a table of acts, which one short loop plays. So a test is its table.

use daide_frame::side::Side::{self, Bot, Server};
use daide_grammar::level::Level;
use daide_protocol::config::Config;
use daide_protocol::summary::Summary;
use daide_session::session::{Ending, Note, Phase, Session};
use daide_test_support::rows::holds;
use daide_test_support::words::counted;
use std::alloc::{Allocator, Global};
use std::test::Fail;

/// An event of a session, or a check of its state.
#[derive(Clone, Copy)]
pub enum Act {
    /// The side sends these bytes, written in hexadecimal digits with blanks. All queued bytes are taken after each
    /// piece.
    Says(Side, &'static str),
    /// The side sends these bytes, for which there must be room. No queued bytes are taken.
    Sends(Side, &'static str),
    /// The side sends these bytes one by one, and the session returns this note. All queued bytes are taken.
    Tells(Side, &'static str, Note),
    /// This many bytes queued for the side are taken, at most three at once.
    Takes(Side, usize),
    /// The side's stream ends. All queued bytes are taken.
    Ends(Side),
    /// The side's stream ends, which ends the session. No queued bytes are taken.
    Stops(Side),
    /// A write to the side fails. All queued bytes are taken.
    Loses(Side),
    /// The IM timer expires. All queued bytes are taken.
    ImTimerExpired,
    /// The operator stops the session. All queued bytes are taken.
    OperatorStops,
    /// The state of the session is this.
    Sees(Look),
}

/// A check of a session's state.
#[derive(Clone, Copy)]
pub enum Look {
    Phase(Phase),
    Level(Level),
    /// The side's room is this many bytes.
    Room(Side, usize),
    /// The front for the side has this many bytes.
    Front(Side, usize),
    /// The weight of the session is between these numbers.
    Weight(usize, usize),
    /// The side's message took between one step and this many, and its table had no other look-ups since the last
    /// check.
    Steps(Side, u64),
    /// No message of the side was judged.
    NoSteps(Side),
    /// The side was sent these bytes since the last check.
    Sent(Side, &'static str),
    /// The session ended in this way, or is not over; its numbers of relayed frames, PRN, HUH and faults.
    Ending(Option<Ending>, [u64; 4]),
}

/// Returns the numbers of relayed frames, answers PRN, answers HUH, and faults.
pub fn counts_of(summary: Summary) -> [u64; 4] {
    [summary.relayed, summary.prn, summary.huh, summary.faults]
}

/// The widest limits.
pub const WIDEST: Config = Config {
    top_level: 60,
    max_body: 65_526,
    max_depth: 62,
};

/// The first frame of a bot.
pub const IM: &str = "00 00 00 04  00 01 DA 10";

/// The server's first frame, for the standard map.
pub const RM: &str = "01 00 00 00";

/// Appends the bytes of a word of hexadecimal digits, repeated by its count.
fn add_word(alloc: Global, bytes: &mut Vec<u8>, word: &str) -> Result<(), Fail> {
    let (count, digits) = counted(word);
    let part = hex::decode(alloc, digits.as_bytes())?;
    for _time in 0..count {
        bytes.extend_from_slice(part.as_slice())?;
    }
    Ok(())
}

/// Returns the bytes of words of hexadecimal digits.
pub fn bytes_of(alloc: Global, text: &str) -> Result<Vec<u8>, Fail> {
    let mut bytes = Vec::new(alloc);
    for word in text.split_whitespace() {
        add_word(alloc, &mut bytes, word)?;
    }
    Ok(bytes)
}

/// Checks the bytes that were sent.
pub fn assert_bytes(alloc: Global, sent: &[u8], want: &str) -> Result<(), Fail> {
    let bytes = bytes_of(alloc, want)?;
    holds(sent == bytes.as_slice(), want)
}

/// Takes bytes queued for a side, at most `most`, and returns their number.
fn take_front<A: Allocator>(
    session: &mut Session<A>,
    side: Side,
    taken: &mut Vec<u8>,
    most: usize,
) -> Result<usize, Fail> {
    let front = session.front(side);
    let count = front.len().min(most);
    taken.extend_from_slice(&front[..count])?;
    session.wrote(side, count);
    Ok(count)
}

/// Takes all bytes queued for a side, at most `most` at once.
fn take_all<A: Allocator>(
    session: &mut Session<A>,
    side: Side,
    taken: &mut Vec<u8>,
    most: usize,
) -> Result<(), Fail> {
    for _front in 0..1_000_000 {
        if take_front(session, side, taken, most)? == 0 {
            return Ok(());
        }
    }
    Err(Fail::new("it still waits"))
}

/// Takes `most` bytes queued for a side, at most three at once.
fn take(session: &mut Session, side: Side, taken: &mut Vec<u8>, most: usize) -> Result<(), Fail> {
    let mut left = most;
    for _front in 0..most {
        let count = take_front(session, side, taken, left.min(3))?;
        left = left.saturating_sub(count);
    }
    Ok(())
}

/// Feeds as many of these bytes as there is room for, at most `most`, and returns their number.
fn feed<A: Allocator>(session: &mut Session<A>, side: Side, bytes: &[u8], most: usize) -> usize {
    let count = bytes.len().min(most).min(session.room(side));
    session.feed(side, &bytes[..count]);
    count
}

/// The bytes that a session sent since the last check.
#[derive(Drop)]
pub struct Sent {
    pub to_bot: Vec<u8>,
    pub to_server: Vec<u8>,
    /// The most bytes that are taken at once.
    pub most: usize,
}

impl Sent {
    /// No bytes yet, and no limit to the bytes taken at once.
    pub fn none(alloc: Global) -> Sent {
        Sent {
            to_bot: Vec::new(alloc),
            to_server: Vec::new(alloc),
            most: usize::MAX,
        }
    }

    /// Returns the bytes sent to a side.
    pub fn to(&self, side: Side) -> &[u8] {
        match side {
            Bot => self.to_bot.as_slice(),
            Server => self.to_server.as_slice(),
        }
    }

    /// Takes the bytes queued for both sides.
    pub fn deliver<A: Allocator>(&mut self, session: &mut Session<A>) -> Result<(), Fail> {
        take_all(session, Bot, &mut self.to_bot, self.most)?;
        take_all(session, Server, &mut self.to_server, self.most)
    }

    /// Feeds a side's bytes, in pieces of at most `piece` bytes, and takes all queued bytes after each. Bytes after the
    /// session's end are ignored.
    pub fn hear<A: Allocator>(
        &mut self,
        session: &mut Session<A>,
        side: Side,
        bytes: &[u8],
        piece: usize,
    ) -> Result<(), Fail> {
        let mut rest = bytes;
        for _piece in 0..=bytes.len() {
            let count = feed(session, side, rest, piece);
            rest = &rest[count..];
            self.deliver(session)?;
        }
        Ok(())
    }
}

/// A session, and the bytes that it sent since the last check.
#[derive(Drop)]
pub struct Script {
    pub session: Session,
    pub sent: Sent,
    /// The number of look-ups in the table of the bot's reader, for the messages that were checked.
    asked: u64,
}

/// Creates a new session with these limits.
pub fn script_of(alloc: Global, config: Config) -> Result<Script, Fail> {
    Ok(script_over(alloc, Session::new(alloc, config)?))
}

/// Wraps this session, of which no bytes were taken.
pub fn script_over(alloc: Global, session: Session) -> Script {
    Script {
        session,
        sent: Sent::none(alloc),
        asked: 0,
    }
}

impl Script {
    /// Takes the bytes queued for a side.
    pub fn take_all(&mut self, side: Side) -> Result<(), Fail> {
        let most = self.sent.most;
        match side {
            Bot => take_all(&mut self.session, Bot, &mut self.sent.to_bot, most),
            Server => take_all(&mut self.session, Server, &mut self.sent.to_server, most),
        }
    }

    /// Takes the bytes queued for both sides.
    fn deliver(&mut self) -> Result<(), Fail> {
        self.sent.deliver(&mut self.session)
    }

    /// Feeds a side's bytes, in pieces of at most `piece` bytes, and takes all queued bytes after each.
    pub fn say(&mut self, side: Side, bytes: &[u8], piece: usize) -> Result<(), Fail> {
        self.sent.hear(&mut self.session, side, bytes, piece)
    }

    /// The same for bytes in hexadecimal digits.
    fn say_text(
        &mut self,
        alloc: Global,
        side: Side,
        text: &str,
        piece: usize,
    ) -> Result<(), Fail> {
        let bytes = bytes_of(alloc, text)?;
        self.say(side, bytes.as_slice(), piece)
    }

    /// Feeds a side's bytes, for which there must be room, and takes no queued bytes.
    fn send(&mut self, alloc: Global, side: Side, text: &str) -> Result<(), Fail> {
        let bytes = bytes_of(alloc, text)?;
        let mut rest = bytes.as_slice();
        for _piece in 0..=bytes.len() {
            let count = feed(&mut self.session, side, rest, bytes.len());
            rest = &rest[count..];
        }
        holds(rest.is_empty(), "no room")
    }

    /// Feeds a side's byte, if there is room for it, and returns its note.
    fn note_of_byte(&mut self, side: Side, byte: u8) -> Note {
        if self.session.room(side) == 0 {
            return Note::Nothing;
        }
        self.session.feed(side, &[byte])
    }

    /// Feeds a side's bytes one by one, and returns the only note, if there is one.
    fn note_of(&mut self, side: Side, bytes: &[u8]) -> Result<Note, Fail> {
        let mut told = Note::Nothing;
        for byte in bytes {
            let note = self.note_of_byte(side, *byte);
            if note != Note::Nothing {
                holds(told == Note::Nothing, "told twice")?;
                told = note;
            }
            self.deliver()?;
        }
        Ok(told)
    }

    /// Checks the note for a side's bytes.
    fn tell(&mut self, alloc: Global, side: Side, text: &str, want: Note) -> Result<(), Fail> {
        let bytes = bytes_of(alloc, text)?;
        let told = self.note_of(side, bytes.as_slice())?;
        holds(told == want, text)
    }

    /// Checks the bytes that a side was sent since the last check.
    pub fn assert_sent(&mut self, alloc: Global, side: Side, want: &str) -> Result<(), Fail> {
        assert_bytes(alloc, self.sent.to(side), want)?;
        match side {
            Bot => self.sent.to_bot.clear(),
            Server => self.sent.to_server.clear(),
        }
        Ok(())
    }

    /// Discards the bytes sent since the last check.
    pub fn forget(&mut self) {
        self.sent.to_bot.clear();
        self.sent.to_server.clear();
    }

    /// Checks that the side's message took between one step and `most`, and that its table had no other look-ups.
    fn assert_steps(&mut self, side: Side, most: u64) -> Result<(), Fail> {
        let steps = self.session.steps(side);
        self.asked = self.asked.saturating_add(steps);
        let total = self.session.total(side);
        holds(0 < steps && steps <= most && total == self.asked, "steps")
    }

    /// Returns whether the session's state is this.
    fn shows(&self, look: Look) -> bool {
        let session = &self.session;
        match look {
            Look::Phase(want) => session.phase() == want,
            Look::Level(want) => {
                let last = session.account().level;
                session.level() == want && (session.is_over() || last == want)
            }
            Look::Room(side, want) => session.room(side) == want,
            Look::Front(side, want) => session.front(side).len() == want,
            Look::Weight(least, most) => (least..=most).contains(&session.weight()),
            Look::NoSteps(side) => session.steps(side) == 0 && session.total(side) == 0,
            Look::Ending(ending, counts) => {
                session.ending() == ending && counts_of(session.summary()) == counts
            }
            Look::Steps(_, _) | Look::Sent(_, _) => false,
        }
    }

    /// Checks the session's state.
    fn look(&mut self, alloc: Global, look: Look) -> Result<(), Fail> {
        match look {
            Look::Sent(side, want) => self.assert_sent(alloc, side, want),
            Look::Steps(side, most) => self.assert_steps(side, most),
            _ => holds(self.shows(look), "seen"),
        }
    }

    /// Takes this many bytes queued for a side, at most three at once.
    fn take(&mut self, side: Side, most: usize) -> Result<(), Fail> {
        match side {
            Bot => take(&mut self.session, Bot, &mut self.sent.to_bot, most),
            Server => take(&mut self.session, Server, &mut self.sent.to_server, most),
        }
    }

    /// Plays an event other than bytes, and takes all queued bytes.
    fn hear(&mut self, act: Act) -> Result<(), Fail> {
        match act {
            Act::Ends(side) => {
                self.session.ended(side);
            }
            Act::Loses(side) => self.session.lost(side),
            Act::ImTimerExpired => {
                self.session.im_timeout();
            }
            Act::OperatorStops => {
                self.session.stop();
            }
            _ => {}
        }
        self.deliver()
    }

    /// Plays one act.
    pub fn play(&mut self, alloc: Global, act: Act, piece: usize) -> Result<(), Fail> {
        match act {
            Act::Says(side, text) => self.say_text(alloc, side, text, piece),
            Act::Sends(side, text) => self.send(alloc, side, text),
            Act::Tells(side, text, note) => self.tell(alloc, side, text, note),
            Act::Takes(side, most) => self.take(side, most),
            Act::Ends(_) | Act::Loses(_) | Act::ImTimerExpired | Act::OperatorStops => {
                self.hear(act)
            }
            Act::Stops(side) => holds(self.session.ended(side), "an end is told once"),
            Act::Sees(look) => self.look(alloc, look),
        }
    }

    /// Plays acts in order.
    pub fn play_all(&mut self, alloc: Global, acts: &[Act], piece: usize) -> Result<(), Fail> {
        for act in acts {
            self.play(alloc, *act, piece)?;
        }
        Ok(())
    }

    /// Plays the IM and the RM, and discards the bytes sent.
    pub fn open(&mut self, alloc: Global, piece: usize) -> Result<(), Fail> {
        self.play_all(alloc, OPENING, piece)?;
        self.forget();
        Ok(())
    }

    /// Checks the bytes that the acts send; in an open scene the IM and the RM precede them.
    fn assert_scene(
        &mut self,
        alloc: Global,
        is_open: bool,
        scene: &Scene,
        piece: usize,
    ) -> Result<(), Fail> {
        let (acts, to_bot, to_server) = scene;
        if is_open {
            self.open(alloc, piece)?;
        }
        self.play_all(alloc, acts, piece)?;
        self.deliver()?;
        self.assert_sent(alloc, Bot, to_bot)?;
        self.assert_sent(alloc, Server, to_server)
    }
}

/// The IM and the RM.
pub const OPENING: &[Act] = &[Act::Says(Bot, IM), Act::Says(Server, RM)];

/// Acts, and the bytes that they send to the bot and to the server, except for those that were already checked.
pub type Scene = (&'static [Act], &'static str, &'static str);

/// The sizes of pieces: any whole frame, and one byte. At most as many sent bytes are taken at once.
pub const PIECES: &[usize] = &[65_530, 1];

/// Plays the acts of a conversation, with its checks, in a new session with these limits.
fn play_acts(alloc: Global, config: Config, acts: &[Act], piece: usize) -> Result<(), Fail> {
    let mut script = script_of(alloc, config)?;
    script.sent.most = piece;
    script.play_all(alloc, acts, piece)
}

/// The same with each size of pieces.
pub fn assert_acts(alloc: Global, config: Config, acts: &[Act]) -> Result<(), Fail> {
    for piece in PIECES {
        play_acts(alloc, config, acts, *piece)?;
    }
    Ok(())
}

/// Plays a scene in a new session with these limits, and checks the bytes that it sends.
fn play_scene(
    alloc: Global,
    config: Config,
    is_open: bool,
    scene: &Scene,
    piece: usize,
) -> Result<(), Fail> {
    let mut script = script_of(alloc, config)?;
    script.sent.most = piece;
    script.assert_scene(alloc, is_open, scene, piece)
}

/// Checks the bytes that each scene sends, with each size of pieces, in a session with these limits.
pub fn assert_scenes_within(
    alloc: Global,
    config: Config,
    is_open: bool,
    scenes: &[Scene],
) -> Result<(), Fail> {
    for scene in scenes {
        for piece in PIECES {
            play_scene(alloc, config, is_open, scene, *piece)?;
        }
    }
    Ok(())
}

/// The same with the widest limits.
pub fn assert_scenes(alloc: Global, is_open: bool, scenes: &[Scene]) -> Result<(), Fail> {
    assert_scenes_within(alloc, WIDEST, is_open, scenes)
}
