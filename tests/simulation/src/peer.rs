//! A peer of the gateway: what it sends, reads and waits for.

use crate::bytes::Bytes;
use crate::random::Random;
use crate::style::Style;
use std::alloc::Global;

/// Whether a peer is a bot or a server.
#[derive(Clone, Copy, PartialEq, Eq)]
pub enum Role {
    /// It connected to the gateway.
    Bot,
    /// The gateway connected to it.
    Server,
}

/// How a peer behaves.
#[derive(Clone, Copy, PartialEq, Eq)]
pub enum Habit {
    /// It reads and sends, now and then.
    Talks,
    /// It sends a lot at once, and reads all.
    Floods,
    /// It reads and sends, and at some time reads no more.
    StopsReading,
    /// It reads, and at some time sends no more.
    FallsSilent,
}

/// What a peer does besides at one time.
#[derive(Clone, Copy, PartialEq, Eq)]
pub enum Act {
    /// Nothing.
    GoesOn,
    /// It shuts down writing.
    Ends,
    /// It resets the connection.
    Resets,
}

/// The initial message.
const IM: &[u8] = b"\x00\x00\x00\x04\x00\x01\xda\x10";

/// Its answer.
const RM: &[u8] = b"\x01\x00\x00\x00";

/// The final message.
const FM: &[u8] = b"\x03\x00\x00\x00";

/// The number of letters after which a text repeats.
const PERIOD: usize = 64;

/// Returns the bytes of the first letters of a text, after which it repeats. Those of 64 peers in a row differ.
fn period_of(alloc: Global, id: u64) -> Bytes {
    let mut bytes = Bytes::new(alloc);
    for place in 0..PERIOD {
        let place = u64::try_from(place).unwrap_or(0);
        let letter = id.saturating_add(place.saturating_mul(7)) % 64;
        let letter = u8::try_from(letter).unwrap_or(0);
        bytes.push(&[0x4b, letter.saturating_add(0x21)]);
    }
    bytes
}

/// A peer.
#[derive(Drop)]
pub struct Peer {
    pub role: Role,
    pub habit: Habit,
    /// A number that its messages have, so that those of two peers differ.
    id: u64,
    /// The first letters of its texts.
    period: Bytes,
    /// The bytes that it is sending.
    pub outgoing: Bytes,
    /// Whether it sent its first message.
    has_begun: bool,
    /// The number of bytes that it read.
    heard: u64,
    /// The number of messages before it ends.
    left: u64,
    /// The next time at which it does something.
    pub wakes_at: u64,
    /// Whether it changed for the worse, by its habit.
    pub is_idle: bool,
    /// Whether it ended or reset the connection.
    pub is_done: bool,
}

/// Returns the habit of a further peer.
fn habit_of(style: Style, random: &mut Random) -> Habit {
    let one = random.below(24);
    let stops = style.floods.saturating_add(style.stops);
    let silences = stops.saturating_add(style.silences);
    if one < style.floods {
        Habit::Floods
    } else if one < stops {
        Habit::StopsReading
    } else if one < silences {
        Habit::FallsSilent
    } else {
        Habit::Talks
    }
}

impl Peer {
    /// Creates a peer.
    pub fn new(alloc: Global, role: Role, id: u64, style: Style, random: &mut Random) -> Peer {
        Peer {
            role,
            habit: habit_of(style, random),
            id,
            period: period_of(alloc, id),
            outgoing: Bytes::new(alloc),
            has_begun: false,
            heard: 0,
            left: random.between(1, style.messages),
            wakes_at: 0,
            is_idle: false,
            is_done: false,
        }
    }

    /// Reads as many of the bytes that wait for it as it likes, and returns their number.
    pub fn reads(&mut self, waiting: usize, random: &mut Random) -> usize {
        if self.has_stopped() {
            return 0;
        }
        let count = if random.one_in(3) {
            usize::try_from(random.below(600)).unwrap_or(0).min(waiting)
        } else {
            waiting
        };
        self.heard = self.heard.saturating_add(u64::try_from(count).unwrap_or(0));
        count
    }

    /// Returns whether it has to hear something before its next message.
    fn is_waiting(&self) -> bool {
        match self.role {
            Role::Bot => self.has_begun && self.heard < 4,
            Role::Server => self.heard < 8,
        }
    }

    /// Returns whether it waits for its peer before its next message. Now and then it does not.
    fn waits(&self, random: &mut Random) -> bool {
        match self.role {
            Role::Bot => self.is_waiting() && !random.one_in(40),
            Role::Server => self.is_waiting() && !random.one_in(200),
        }
    }

    /// Returns whether it reads no more.
    pub fn has_stopped(&self) -> bool {
        self.habit == Habit::StopsReading && self.is_idle
    }

    /// Returns whether it sends nothing before it hears something, or nothing at all.
    pub fn is_quiet(&self) -> bool {
        let is_silent = self.habit == Habit::FallsSilent && self.is_idle;
        self.outgoing.is_empty() && (self.is_done || is_silent || self.is_waiting())
    }

    /// Appends a message, or several, to what it sends, unless it waits.
    pub fn says(&mut self, random: &mut Random) {
        if self.habit == Habit::FallsSilent && self.is_idle || self.waits(random) {
            return;
        }
        if !self.has_begun {
            self.has_begun = true;
            let first = match self.role {
                Role::Bot => IM,
                Role::Server => RM,
            };
            if !random.one_in(60) {
                self.outgoing.push(first);
                return;
            }
        }
        let count = if self.habit == Habit::Floods {
            random.between(1, 30)
        } else {
            random.between(1, 3)
        };
        for _ in 0..count {
            self.says_one(random);
        }
    }

    /// Appends a message.
    fn says_one(&mut self, random: &mut Random) {
        match random.below(16) {
            0 => self.says_tokens(&[0x480f], 0),
            1 => self.says_tokens(&[0x480f, 0x4803], 0),
            2 => self.says_tokens(&[0x4803, 0x4000], 0),
            3 => self.says_text(random),
            4 => self.says_noise(random),
            5 => self.says_tokens(&[0x4807, 0x4000, 0x4100, 0x4001, 0x4000], 0x4001),
            _ => self.says_tokens(&[0x481b, 0x4000], 0x4001),
        }
    }

    /// Appends a message of these tokens, and its own number and a last token, unless that is 0.
    fn says_tokens(&mut self, tokens: &[u16], last: u16) {
        let number = u16::try_from(self.id & 0x3fff).unwrap_or(0);
        let own: [u16; 2] = [number, last];
        let own: &[u16] = if last == 0 { &[] } else { &own };
        let count = tokens.len().saturating_add(own.len()).saturating_mul(2);
        self.says_header(2, count);
        for token in tokens.iter().chain(own.iter()) {
            self.outgoing.push(&token.to_be_bytes());
        }
    }

    /// Appends the header of a message.
    fn says_header(&mut self, kind: u8, count: usize) {
        let count = u16::try_from(count).unwrap_or(u16::MAX);
        self.outgoing.push(&[kind, 0]);
        self.outgoing.push(&count.to_be_bytes());
    }

    /// Appends a message `NME` with a long name.
    fn says_text(&mut self, random: &mut Random) {
        let letters = usize::try_from(random.between(1, 4_000)).unwrap_or(1);
        let count = letters.saturating_add(6).saturating_mul(2);
        self.says_header(2, count);
        self.outgoing.push(b"\x48\x0c\x40\x00");
        self.says_letters(letters);
        self.outgoing.push(b"\x40\x01\x40\x00\x4b\x41\x40\x01");
    }

    /// Appends this many letters of a text, which differ from those of others.
    fn says_letters(&mut self, count: usize) {
        for _ in 0..count / PERIOD {
            self.outgoing.push(self.period.as_slice());
        }
        let rest = (count % PERIOD).saturating_mul(2);
        let period = self.period.as_slice();
        self.outgoing.push(period.get(..rest).unwrap_or(&[]));
    }

    /// Appends what is no message, or a last one.
    fn says_noise(&mut self, random: &mut Random) {
        match random.below(10) {
            0 => self.outgoing.push(FM),
            1 => self.outgoing.push(b"\x04\x00\x00\x02\x00\x06"),
            2 => self.outgoing.push(b"\x07\x00\x00\x00"),
            3 => self.outgoing.push(b"\x02\x00\x00\x03\x48\x0f\x48"),
            4 => self.outgoing.push(IM),
            _ => self.outgoing.push(b"\x02\x00\x00\x02\x58\x0f"),
        };
    }

    /// Returns what it does besides.
    pub fn acts(&mut self, random: &mut Random) -> Act {
        self.left = self.left.saturating_sub(1);
        if self.left > 0 {
            self.is_idle = self.is_idle || random.one_in(20);
            return Act::GoesOn;
        }
        match self.habit {
            Habit::StopsReading | Habit::FallsSilent if !random.one_in(3) => {
                self.is_idle = true;
                self.left = 1_000;
                return Act::GoesOn;
            }
            _ => {}
        }
        self.is_done = true;
        if random.one_in(4) {
            Act::Resets
        } else {
            Act::Ends
        }
    }

    /// Returns how long it does nothing then, in milliseconds.
    pub fn rests(&self, random: &mut Random) -> u64 {
        match random.below(24) {
            0 => random.between(1_000, 9_000),
            1..=4 => random.between(50, 500),
            5..=8 => 0,
            _ => random.between(1, 20),
        }
    }

    /// Returns how long it does nothing if there is nothing to do, in milliseconds.
    pub fn rests_long(&self, random: &mut Random) -> u64 {
        match random.below(4) {
            0 => random.between(1_000, 20_000),
            _ => random.between(20, 1_000),
        }
    }
}
